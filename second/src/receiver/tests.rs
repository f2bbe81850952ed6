//! Streams written out by hand, and the store's bytes after each call.

use super::*;
use crate::vectors::{banner, empty, empty_frame, frame, three_aborted, three_frame};
use crate::vectors::{single_frame, single_of_msgr21, three_source, three_whole, DIGITS};
use crate::wire::frame_bytes;

const REVISIONS: [Revision; 2] = [Revision::Msgr20, Revision::Msgr21];
const OWN: Features = Features::new(1, 0);
const STORE_LENGTH: usize = 45;
const FILL: u8 = 0xEE;

/// T of the frame with three segments.
const T: usize = 41;

fn started() -> Receiver {
    let (receiver, started) = Receiver::start(OWN);
    assert_eq!(started, Ok(()));
    receiver
}

/// A receiver that has taken its banner.
fn past_banner(revision: Revision) -> Receiver {
    let mut receiver = started();
    let (taken, report) = receiver.receive(&banner(revision), &mut []);
    assert!(taken == 26 && matches!(report, Report::Banner { .. }));
    receiver
}

fn refused(number: u8, detail: u64) -> Report {
    Report::Refused(Refusal {
        number,
        detail: [detail, 0, 0],
    })
}

/// The store with some bytes at its front.
fn filled(front: &[u8]) -> Vec<u8> {
    let mut store = vec![FILL; STORE_LENGTH];
    store[..front.len()].copy_from_slice(front);
    store
}

/// Receives a frame in one piece, past its early report where it has one;
/// answers the bytes taken, the report and the store.
fn received(revision: Revision, frame: &[u8]) -> (usize, Report, Vec<u8>) {
    let mut store = filled(&[]);
    let (taken, report) = finished(&mut past_banner(revision), frame, &mut store);
    (taken, report, store)
}

/// The receiver's next report that is no early one.
fn finished(receiver: &mut Receiver, piece: &[u8], store: &mut [u8]) -> (usize, Report) {
    let (taken, report) = receiver.receive(piece, store);
    if !matches!(report, Report::First(_)) {
        return (taken, report);
    }
    let (more, report) = receiver.receive(&piece[taken..], store);
    (taken + more, report)
}

#[test]
fn segment_1_is_reported_at_its_checksums_last_byte() {
    let frame = three_whole(Revision::Msgr21);
    let first = Report::First(three_frame());
    for offered in [45, 46, 90] {
        let mut receiver = past_banner(Revision::Msgr21);
        let mut store = filled(&[]);
        let got = receiver.receive(&frame[..offered], &mut store);
        assert_eq!((got, &store), ((45, first), &filled(DIGITS)));
        assert_eq!(receiver.receive(&[], &mut store), (0, Report::More));
        let got = receiver.receive(&frame[45..], &mut store);
        let whole = Report::Frame(three_frame());
        assert_eq!((got, store), ((45, whole), filled(&three_source())));
    }
    let mut receiver = past_banner(Revision::Msgr21);
    let mut store = filled(&[]);
    let got = receiver.receive(&frame[..44], &mut store);
    assert_eq!((got, &store), ((44, Report::More), &filled(DIGITS)));
    assert_eq!(receiver.receive(&frame[44..], &mut store), (1, first));
}

#[test]
fn no_early_report() {
    // msgr2.0, a single segment, an empty segment 1, a wrong checksum.
    let mut store = filled(&[]);
    let mut first = |revision, frame: &[u8]| {
        let (_, report) = past_banner(revision).receive(frame, &mut store);
        report
    };
    let whole = Report::Frame(three_frame());
    assert_eq!(
        first(Revision::Msgr20, &three_whole(Revision::Msgr20)),
        whole
    );
    let single = Report::Frame(single_frame());
    assert_eq!(first(Revision::Msgr21, &single_of_msgr21()), single);
    let fields = [(0, 0), (9, 0), (0, 0), (0, 0)];
    let empty_first = frame(20, 2, fields);
    let wire = frame_bytes(Revision::Msgr21, &empty_first, false, DIGITS);
    assert_eq!(first(Revision::Msgr21, &wire), Report::Frame(empty_first));
    let mut wrong = three_whole(Revision::Msgr21);
    wrong[44] ^= 1;
    assert_eq!(first(Revision::Msgr21, &wrong), refused(11, 1));
}

#[test]
fn drops_and_refusals_behind_an_early_report_zero_segment_1_too() {
    let mut late = three_whole(Revision::Msgr21);
    late[77] = 0x0F;
    let mut wrong = three_whole(Revision::Msgr21);
    wrong[60] ^= 1;
    let mut unused = three_whole(Revision::Msgr21);
    unused[89] = 1;
    let cases = [
        (
            three_aborted(Revision::Msgr21),
            Report::Dropped(three_frame()),
        ),
        (late, refused(12, 0x0F)),
        (wrong, refused(11, 3)),
        (unused, refused(24, 4)),
    ];
    for (frame, report) in cases {
        let mut receiver = past_banner(Revision::Msgr21);
        let mut store = filled(&[]);
        let early = receiver.receive(&frame, &mut store);
        assert_eq!(early, (45, Report::First(three_frame())));
        assert_eq!(store, filled(DIGITS));
        assert_eq!(receiver.receive(&frame[45..], &mut store), (45, report));
        assert_eq!(store, filled(&[0; T]));
    }
}

#[test]
fn a_banner_is_judged_at_its_eighth_tenth_and_last_byte() {
    let mut receiver = started();
    let (taken, report) = receiver.receive(b"xeph v2", &mut []);
    assert_eq!((taken, report), (7, Report::More));
    assert_eq!(receiver.receive(b"\n\x10", &mut []), (1, refused(1, 0)));
    let mut receiver = started();
    assert_eq!(
        receiver.receive(b"ceph v2\n\x0F", &mut []),
        (9, Report::More)
    );
    assert_eq!(receiver.receive(b"\0\0\0", &mut []), (1, refused(2, 15)));
    let mut receiver = started();
    let mut bytes = banner(Revision::Msgr21);
    bytes[18] = 0x14;
    assert_eq!(receiver.receive(&bytes[..25], &mut []), (25, Report::More));
    let missing = Report::Refused(Refusal::peer_requires(0x14));
    assert_eq!(receiver.receive(&bytes[25..], &mut []), (1, missing));
}

#[test]
fn what_follows_the_features_is_skipped() {
    let mut bytes = banner(Revision::Msgr21);
    bytes[8] = 20;
    bytes.extend([0xFF; 4]);
    let mut receiver = started();
    let peer = Features::new(1, 0);
    let revision = Revision::Msgr21;
    assert_eq!(receiver.receive(&bytes[..29], &mut []), (29, Report::More));
    let report = Report::Banner { peer, revision };
    assert_eq!(receiver.receive(&bytes[29..], &mut []), (1, report));
}

#[test]
fn whole_frames() {
    for revision in REVISIONS {
        let report = Report::Frame(three_frame());
        let store = filled(&three_source());
        assert_eq!(
            received(revision, &three_whole(revision)),
            (90, report, store)
        );
    }
    let report = Report::Frame(single_frame());
    let got = received(Revision::Msgr21, &single_of_msgr21());
    assert_eq!(got, (45, report, filled(DIGITS)));
}

#[test]
fn empty_frames_end_with_their_last_byte() {
    for (revision, length) in REVISIONS.into_iter().zip([49, 32]) {
        let report = Report::Frame(empty_frame());
        let frame = empty(revision);
        assert_eq!(received(revision, &frame), (length, report, filled(&[])));
        let cut = received(revision, &frame[..length - 1]);
        assert_eq!(cut, (length - 1, Report::More, filled(&[])));
    }
}

#[test]
fn drops_zero_the_frames_part_of_the_store() {
    for revision in REVISIONS {
        let report = Report::Dropped(three_frame());
        let zeroed = filled(&[0; T]);
        let frame = three_aborted(revision);
        assert_eq!(received(revision, &frame), (90, report, zeroed.clone()));
        // Segment 3 and its checksum are not compared.
        let mut wrong = frame;
        wrong[85] ^= 1;
        wrong[50] = 1;
        assert_eq!(received(revision, &wrong), (90, report, zeroed));
    }
}

#[test]
fn a_wrong_segment_is_refused_and_zeroed() {
    let with = |revision, place: usize| {
        let mut frame = three_whole(revision);
        frame[place] ^= 1;
        received(revision, &frame)
    };
    let zeroed = filled(&[0; T]);
    // msgr2.1 judges segment 1 behind it, all else at the end.
    let first = (45, refused(11, 1), zeroed.clone());
    assert_eq!(with(Revision::Msgr21, 32), first);
    assert_eq!(with(Revision::Msgr21, 44), first);
    for revision in REVISIONS {
        let number = |segment| (90, refused(11, segment), zeroed.clone());
        assert_eq!(with(revision, 78), number(2));
        assert_eq!(with(revision, 60), number(3));
        assert_eq!(with(revision, 83), number(3));
    }
    assert_eq!(with(Revision::Msgr20, 32), (90, refused(11, 1), zeroed));
}

#[test]
fn the_lowest_wrong_segment_is_named() {
    let mut frame = three_whole(Revision::Msgr20);
    (frame[78], frame[82]) = (0, 0);
    let zeroed = filled(&[0; T]);
    let got = received(Revision::Msgr20, &frame);
    assert_eq!(got, (90, refused(11, 2), zeroed));
}

#[test]
fn every_byte_of_an_unused_field_must_be_0() {
    for revision in REVISIONS {
        for frame in [three_whole(revision), three_aborted(revision)] {
            for place in 86..90 {
                let mut filled_field = frame.clone();
                filled_field[place] = 1;
                let got = received(revision, &filled_field);
                assert_eq!(got, (90, refused(24, 4), filled(&[0; T])));
            }
        }
    }
}

/// A frame of tag 17 with two digits in each of so many segments.
fn twos(revision: Revision, count: u8, abort: bool) -> Vec<u8> {
    let used = |place| if place < count { (2, 0) } else { (0, 0) };
    let fields = [used(0), used(1), used(2), used(3)];
    let source = &b"12345678"[..2 * usize::from(count)];
    frame_bytes(revision, &frame(17, count, fields), abort, source)
}

#[test]
fn the_lowest_filled_field_of_an_unused_segment_is_named() {
    for (revision, counts, last) in [(Revision::Msgr20, 1..5, 0), (Revision::Msgr21, 2..5, 1)] {
        for (count, abort) in counts.flat_map(|count| [(count, false), (count, true)]) {
            let made = twos(revision, count, abort);
            for filled in 0..16_u8 {
                let mut bytes = made.clone();
                let fields = bytes.len() - 4 * (4 - last);
                let places = (last..4).filter(|place| filled >> place & 1 == 1);
                let mut lowest = None;
                for place in places.filter(|place| *place >= usize::from(count)) {
                    lowest = lowest.or(Some(place as u64 + 1));
                    bytes[fields + 4 * (place - last) + 2] = 0x40;
                }
                let (taken, report, _) = received(revision, &bytes);
                assert_eq!(taken, made.len());
                match (lowest, abort) {
                    (Some(segment), _) => assert_eq!(report, refused(24, segment)),
                    (None, true) => assert!(matches!(report, Report::Dropped(_))),
                    (None, false) => assert!(matches!(report, Report::Frame(_))),
                }
            }
        }
    }
}

#[test]
fn the_spelling_is_judged_first() {
    // With a wrong late status and a wrong segment, in a drop, with late flags.
    let mut late = three_whole(Revision::Msgr21);
    (late[60], late[77], late[88]) = (0, 0x0F, 7);
    let mut aborted = three_aborted(Revision::Msgr21);
    (aborted[60], aborted[86]) = (9, 7);
    let mut flags = three_whole(Revision::Msgr20);
    (flags[40], flags[73], flags[89]) = (0, 0x02, 7);
    let cases = [
        (Revision::Msgr21, late),
        (Revision::Msgr21, aborted),
        (Revision::Msgr20, flags),
    ];
    for (revision, frame) in cases {
        let got = received(revision, &frame);
        assert_eq!(got, (90, refused(24, 4), filled(&[0; T])));
    }
    // But segment 1 of msgr2.1 was judged before.
    let mut first = three_whole(Revision::Msgr21);
    (first[32], first[89]) = (0, 7);
    let got = received(Revision::Msgr21, &first);
    assert_eq!(got, (45, refused(11, 1), filled(&[0; T])));
}

#[test]
fn late_bytes() {
    let with = |revision, place: usize, late: u8| {
        let mut frame = three_whole(revision);
        frame[place] = late;
        // Segment 3 is wrong too, which a wrong late byte or a drop hides.
        frame[60] ^= 1;
        received(revision, &frame).1
    };
    for late in 0..=255 {
        let flags = match late {
            0 => refused(11, 3),
            1 => Report::Dropped(three_frame()),
            _ => refused(24, 0),
        };
        assert_eq!(with(Revision::Msgr20, 73, late), flags);
        let status = match late & 0x0F {
            0x0E => refused(11, 3),
            0x01 => Report::Dropped(three_frame()),
            _ => refused(12, u64::from(late)),
        };
        assert_eq!(with(Revision::Msgr21, 77, late), status);
    }
    let mut frame = three_whole(Revision::Msgr20);
    frame[73] = 0x80;
    let got = received(Revision::Msgr20, &frame);
    assert_eq!(got, (90, refused(24, 0), filled(&[0; T])));
    let mut frame = three_whole(Revision::Msgr21);
    frame[77] = 0x1F;
    let got = received(Revision::Msgr21, &frame);
    assert_eq!(got, (90, refused(12, 0x1F), filled(&[0; T])));
    frame[77] = 0x1E;
    let got = received(Revision::Msgr21, &frame);
    let whole = Report::Frame(three_frame());
    assert_eq!(got, (90, whole, filled(&three_source())));
}

/// Where each segment byte of the frame with three segments lies on the wire.
fn wire_places(revision: Revision) -> Vec<usize> {
    match revision {
        Revision::Msgr20 => (32..73).collect(),
        Revision::Msgr21 => (32..41).chain(45..77).collect(),
    }
}

#[test]
fn segment_bytes_stand_at_their_places_while_more_is_wanted() {
    for revision in REVISIONS {
        let frame = three_whole(revision);
        for length in 0..90 {
            let came = wire_places(revision).partition_point(|place| *place < length);
            let store = filled(&three_source()[..came]);
            let mut kept = filled(&[]);
            let mut receiver = past_banner(revision);
            let (taken, report) = receiver.receive(&frame[..length], &mut kept);
            // The rest of a piece behind an early report.
            let (more, report) = match report {
                Report::First(_) => receiver.receive(&frame[taken..length], &mut kept),
                report => (0, report),
            };
            assert_eq!((taken + more, report, kept), (length, Report::More, store));
        }
    }
}

#[test]
fn a_call_stops_at_a_report_and_the_next_frame_starts_afresh() {
    for revision in REVISIONS {
        let frames = [
            three_whole(revision),
            three_aborted(revision),
            empty(revision),
            three_whole(revision),
        ];
        let stream = frames.concat();
        let mut receiver = past_banner(revision);
        let mut store = filled(&[]);
        let mut left = stream.as_slice();
        let mut expect = |report: Report, length: usize, front: &[u8]| {
            assert_eq!(receiver.receive(&[], &mut store), (0, Report::More));
            assert_eq!(finished(&mut receiver, left, &mut store), (length, report));
            assert_eq!(store, filled(front));
            left = &left[length..];
        };
        let whole = Report::Frame(three_frame());
        expect(whole, 90, &three_source());
        expect(Report::Dropped(three_frame()), 90, &[0; T]);
        let length = frames[2].len();
        expect(Report::Frame(empty_frame()), length, &[0; T]);
        expect(whole, 90, &three_source());
    }
}

#[test]
fn preambles_change_no_store_byte() {
    let revision = Revision::Msgr21;
    let mut flipped = three_whole(revision);
    flipped[31] ^= 0x80;
    assert_eq!(
        received(revision, &flipped),
        (32, refused(5, 28), filled(&[]))
    );
    assert_eq!(
        received(revision, &[0; 40]),
        (32, refused(6, 1), filled(&[]))
    );
}

#[test]
fn a_short_store_is_refused_with_what_is_needed() {
    for revision in REVISIONS {
        let frame = three_whole(revision);
        let mut store = [FILL; T - 1];
        let got = past_banner(revision).receive(&frame, &mut store);
        assert_eq!((got, store), ((32, refused(10, 41)), [FILL; T - 1]));
        let mut store = [FILL; T];
        let got = finished(&mut past_banner(revision), &frame, &mut store);
        assert_eq!(got, (90, Report::Frame(three_frame())));
    }
}

#[test]
fn a_short_store_inside_a_body_is_refused_before_a_byte_is_taken() {
    for revision in REVISIONS {
        for piece in [40, 32] {
            let frame = three_whole(revision);
            let mut receiver = past_banner(revision);
            let mut store = filled(&[]);
            receiver.receive(&frame[..piece], &mut store);
            let before = store.clone();
            let mut empty_piece = receiver.clone();
            for left in [&frame[piece..], &[]] {
                let got = empty_piece.receive(left, &mut store[..T - 1]);
                assert_eq!(got, (0, refused(10, 41)));
            }
            let got = receiver.receive(&[], &mut store[..0]);
            assert_eq!(got, (0, refused(10, 41)));
            let got = receiver.receive(&frame[piece..], &mut store);
            assert_eq!(got, (0, refused(10, 41)));
            assert_eq!(store, before);
        }
    }
}

#[test]
fn a_short_store_between_frames_does_no_harm() {
    let mut receiver = past_banner(Revision::Msgr21);
    let frame = three_whole(Revision::Msgr21);
    assert_eq!(receiver.receive(&frame[..31], &mut []), (31, Report::More));
    let mut store = filled(&[]);
    let got = finished(&mut receiver, &frame[31..], &mut store);
    assert_eq!(got, (59, Report::Frame(three_frame())));
}

#[test]
fn checksums_are_of_the_stores_own_bytes() {
    for revision in REVISIONS {
        let frame = three_whole(revision);
        let mut receiver = past_banner(revision);
        let mut store = filled(&[]);
        finished(&mut receiver, &frame[..89], &mut store);
        store[T - 1] ^= 1;
        let got = receiver.receive(&frame[89..], &mut store);
        assert_eq!((got, store), ((1, refused(11, 3)), filled(&[0; T])));
    }
    // Segment 1 of msgr2.1 was judged before the change.
    let frame = three_whole(Revision::Msgr21);
    let mut receiver = past_banner(Revision::Msgr21);
    let mut store = filled(&[]);
    receiver.receive(&frame[..45], &mut store);
    store[0] ^= 1;
    let (_, report) = receiver.receive(&frame[45..], &mut store);
    assert_eq!(report, Report::Frame(three_frame()));
}

#[test]
fn a_refusal_is_repeated() {
    let (mut receiver, started) = Receiver::start(Features::new(2, 0));
    let refusal = Refusal::own_features();
    assert_eq!(started, Err(refusal));
    let mut store = filled(&[]);
    for piece in [&[], banner(Revision::Msgr21).as_slice()] {
        let got = receiver.receive(piece, &mut store);
        assert_eq!(got, (0, Report::Refused(refusal)));
    }
    let mut receiver = past_banner(Revision::Msgr21);
    let refused = refused(6, 1);
    assert_eq!(receiver.receive(&[0; 32], &mut store), (32, refused));
    let frame = three_whole(Revision::Msgr21);
    assert_eq!(receiver.receive(&frame, &mut store), (0, refused));
    assert_eq!(receiver.receive(&[], &mut []), (0, refused));
    assert_eq!(store, filled(&[]));
}
