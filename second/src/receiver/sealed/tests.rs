//! Sealed streams, the store's bytes after each call, and the moments of a
//! switch.

use crate::banner::Features;
use crate::fixed::request::{frame, source};
use crate::fixed::switching::case::{counting_from, OTHERS, SECRETS};
use crate::fixed::switching::frames::SHAPES;
use crate::frame::{Frame, FRAME_LIMIT, SEGMENT_LIMIT};
use crate::random::Random;
use crate::receiver::Receiver;
use crate::refusal::Refusal;
use crate::report::Report;
use crate::secure::{store_needed, Direction, Nonce, Secrets, Sending};
use crate::spoil::sealed::{SealedFrame, Sealer};
use crate::vectors::{banner, empty, single_of_msgr21, three_aborted, three_whole};
use crate::wire::Revision;

const OWN: Features = Features::new(1, 0);
const FILL: u8 = 0xEE;
const STORE_LENGTH: usize = 700;

fn good(lengths: &[u32]) -> SealedFrame {
    let frame = frame(lengths);
    SealedFrame::new(frame, false, &source(frame.sum()))
}

fn good_of_zeros(lengths: &[u32]) -> SealedFrame {
    let frame = frame(lengths);
    SealedFrame::new(frame, false, &vec![0; frame.sum() as usize])
}

fn aborted(lengths: &[u32]) -> SealedFrame {
    let frame = frame(lengths);
    SealedFrame::new(frame, true, &source(frame.sum()))
}

/// The frames on the wire, sealed with the receiving direction's nonces.
fn wire_from(start: Nonce, sealed: u64, frames: &[&SealedFrame]) -> Vec<u8> {
    let key = SECRETS.key;
    let mut sealer = Sealer { key, start, sealed };
    let bytes = frames.iter().flat_map(|frame| frame.bytes(&mut sealer));
    bytes.collect()
}

fn wire(frames: &[&SealedFrame]) -> Vec<u8> {
    wire_from(SECRETS.receiving, 0, frames)
}

/// A receiver that has taken a banner and an empty frame.
fn past_a_frame(revision: Revision) -> Receiver {
    let mut receiver = Receiver::start(OWN).0;
    for bytes in [banner(revision), empty(revision)] {
        let (taken, report) = receiver.receive(&bytes, &mut []);
        assert!(taken == bytes.len() && report != Report::More);
    }
    receiver
}

/// And has switched, so many parts counted as opened.
fn switched_from(start: Nonce, opened: u64) -> Receiver {
    let mut receiver = past_a_frame(Revision::Msgr21);
    let secrets = Secrets {
        receiving: start,
        ..SECRETS
    };
    assert_eq!(receiver.switch_after(&secrets, opened).1, Ok(()));
    receiver
}

fn switched() -> Receiver {
    switched_from(SECRETS.receiving, 0)
}

/// The store with some bytes at its front.
fn filled(front: &[u8]) -> Vec<u8> {
    let mut store = vec![FILL; STORE_LENGTH];
    store[..front.len()].copy_from_slice(front);
    store
}

/// The bytes followed by zeros, so many in all.
fn zeros_behind(bytes: &[u8], length: usize) -> Vec<u8> {
    let mut front = bytes.to_vec();
    front.resize(length, 0);
    front
}

fn refused(number: u8, detail: u64) -> Report {
    Report::Refused(Refusal {
        number,
        detail: [detail, 0, 0],
    })
}

/// One frame received whole by a receiver with nonces enough; the bytes taken,
/// the report and the store.
fn received(frame: &SealedFrame) -> (usize, Report, Vec<u8>) {
    let mut store = filled(&[]);
    let (taken, report) = switched().receive(&wire(&[frame]), &mut store);
    (taken, report, store)
}

fn is_switched(receiver: &mut Receiver) -> bool {
    let before = receiver.clone();
    let (sending, answer) = receiver.switch(&SECRETS);
    match answer {
        Ok(()) => {
            let direction = Direction::new(SECRETS.key, SECRETS.sending, 0);
            assert_eq!(sending, Sending::Sealing(direction));
            true
        }
        Err(refusal) => {
            assert_eq!(refusal, Refusal::switch_refused());
            assert_eq!((sending, &before), (Sending::Refused, &*receiver));
            false
        }
    }
}

/// After a frame or a drop, before any byte of the next, and at no other moment.
#[test]
fn moments_of_a_switch() {
    let revision = Revision::Msgr21;
    let stream = [
        banner(revision),
        three_whole(revision),
        three_aborted(revision),
        single_of_msgr21(),
    ]
    .concat();
    // Bytes at which a frame or a drop is reported.
    let ends = [26 + 90, 26 + 180, 26 + 225];
    let mut receiver = Receiver::start(OWN).0;
    let mut store = filled(&[]);
    for place in 0..=stream.len() {
        let expected = ends.contains(&place);
        assert_eq!(is_switched(&mut receiver.clone()), expected, "{place}");
        // A call that takes nothing changes nothing.
        let (taken, _) = receiver.receive(&[], &mut store);
        assert_eq!(taken, 0);
        assert_eq!(is_switched(&mut receiver.clone()), expected, "{place}");
        receiver.receive(&stream[place..stream.len().min(place + 1)], &mut store);
    }
}

#[test]
fn no_switch_in_msgr20_or_a_second_time_or_once_refused() {
    assert!(!is_switched(&mut past_a_frame(Revision::Msgr20)));
    let mut receiver = switched();
    let mut store = filled(&[]);
    let bytes = wire(&[&good(&[50, 3]), &good(&[0])]);
    for byte in &bytes {
        assert!(!is_switched(&mut receiver));
        receiver.receive(&[*byte], &mut store);
    }
    assert!(!is_switched(&mut receiver));
    // Refused by its start, by its banner, by a preamble, by a sealed part.
    assert!(!is_switched(&mut Receiver::start(Features::new(0, 1)).0));
    let mut receiver = Receiver::start(OWN).0;
    receiver.receive(b"not ceph", &mut []);
    assert!(!is_switched(&mut receiver));
    let mut receiver = past_a_frame(Revision::Msgr21);
    receiver.receive(&[0; 32], &mut []);
    assert!(!is_switched(&mut receiver));
    let mut receiver = switched();
    receiver.receive(&[0; 96], &mut store);
    assert!(!is_switched(&mut receiver));
}

/// 27 leaves a live stream live and a refused one refused.
#[test]
fn a_refused_switch_leaves_the_stream_as_it_was() {
    let frame = three_whole(Revision::Msgr21);
    let mut receiver = past_a_frame(Revision::Msgr21);
    let mut store = filled(&[]);
    receiver.receive(&frame[..20], &mut store);
    assert!(!is_switched(&mut receiver));
    let (taken, report) = receiver.receive(&frame[20..], &mut store);
    assert!(taken == 25 && matches!(report, Report::First(_)));
    assert!(!is_switched(&mut receiver));
    let (taken, report) = receiver.receive(&frame[45..], &mut store);
    assert!(taken == 45 && matches!(report, Report::Frame(_)));
    let mut receiver = past_a_frame(Revision::Msgr21);
    receiver.receive(&[0; 32], &mut store);
    assert!(!is_switched(&mut receiver));
    assert_eq!(receiver.receive(&frame, &mut store), (0, refused(6, 1)));
}

/// At byte 96, at the end of the rest of segment 1, and at the frame's end.
#[test]
fn reports_stand_at_the_frames_last_byte() {
    for (lengths, abort) in SHAPES {
        let made = if abort {
            aborted(lengths)
        } else {
            good(lengths)
        };
        let bytes = wire(&[&made, &good(&[0])]);
        let length = made.bytes_length();
        for offered in [length - 1, length, length + 1, bytes.len()] {
            let mut store = filled(&[]);
            let (taken, report) = switched().receive(&bytes[..offered], &mut store);
            assert_eq!(taken, offered.min(length));
            match report {
                Report::More => assert!(offered < length),
                Report::Frame(frame) => assert!(frame == made.frame && !abort),
                Report::Dropped(frame) => assert!(frame == made.frame && abort),
                other => panic!("{other:?}"),
            }
        }
    }
}

/// The store of 02's longest example after each of its bytes. Its parts end at
/// bytes 96, 176 and 640; it needs 576 bytes of the store.
#[test]
fn the_store_at_every_byte() {
    let made = good(&[105, 70, 0, 350]);
    let bytes = wire(&[&made]);
    let segments = source(525);
    for length in 0..=640 {
        let mut store = filled(&[]);
        let (taken, _) = switched().receive(&bytes[..length], &mut store);
        assert_eq!(taken, length);
        let expected = match length {
            // The state holds the first part.
            0..96 => filled(&[]),
            // 48 bytes stand inline; sealed bytes go behind them.
            96..176 => filled(&[&segments[..48], &bytes[96..length]].concat()),
            // 105 are opened, then zeros to the end of that part, at 48 + 80; the
            // next sealed bytes go right behind the 105.
            176..640 => {
                let mut expected = filled(&zeros_behind(&segments[..105], 128));
                let sealed = &bytes[176..length];
                expected[105..105 + sealed.len()].copy_from_slice(sealed);
                expected
            }
            _ => filled(&zeros_behind(&segments, 576)),
        };
        assert!(store == expected, "{length} bytes");
    }
}

/// After a report all of the needed part behind the segments is zero, and what is
/// behind that is kept.
#[test]
fn the_store_after_a_report() {
    for (lengths, abort) in SHAPES {
        let made = if abort {
            aborted(lengths)
        } else {
            good(lengths)
        };
        let segments = source(made.frame.sum());
        let left = if abort { &[] } else { segments.as_slice() };
        let needed = store_needed(&made.frame);
        let (taken, _, store) = received(&made);
        assert_eq!(taken, made.bytes_length());
        assert!(store == filled(&zeros_behind(left, needed)), "{lengths:?}");
    }
}

/// A frame that ends at byte 96 leaves zeros behind its segment; one that goes on
/// leaves what stood there.
#[test]
fn at_byte_96_nothing_else_changes_unless_the_frame_ends() {
    let at_96 = |lengths: &[u32]| {
        let mut store = filled(&[]);
        switched().receive(&wire(&[&good(lengths)])[..96], &mut store);
        store
    };
    assert_eq!(at_96(&[0]), filled(&[0; 32]));
    assert_eq!(at_96(&[20]), filled(&zeros_behind(&source(20), 64)));
    assert_eq!(at_96(&[48]), filled(&zeros_behind(&source(48), 80)));
    assert_eq!(at_96(&[20, 1]), filled(&source(20)));
    assert_eq!(at_96(&[49]), filled(&source(48)));
    assert_eq!(at_96(&[0, 1]), filled(&[]));
}

/// 18, 17, 5 to 10 and 19 at byte 96: no store byte changes.
#[test]
fn refusals_of_the_first_part_change_nothing() {
    let changed = |change: &dyn Fn(&mut SealedFrame)| {
        let mut frame = good(&[20, 3]);
        change(&mut frame);
        received(&frame)
    };
    let byte = |place: usize, byte: u8| {
        changed(&|frame| frame.change_preamble(|preamble| preamble[place] = byte))
    };
    let left = |report| (96, report, filled(&[]));
    for place in [0, 31, 32, 79, 80, 95] {
        let damaged = changed(&|frame| frame.damage.push((0, place, 1)));
        assert_eq!(damaged, left(refused(17, 0)));
    }
    let checksum = changed(&|frame| frame.preamble_mut()[30] ^= 1);
    assert_eq!(checksum, left(refused(5, 28)));
    assert_eq!(byte(1, 0), left(refused(6, 1)));
    assert_eq!(byte(26, 1), left(refused(7, 26)));
    assert_eq!(byte(0, 21), left(refused(8, 21)));
    assert_eq!(byte(11, 1), left(refused(9, 8)));
    for place in [52, 79] {
        let padding = changed(&|frame| frame.texts[0][place] = 0x80);
        assert_eq!(padding, left(refused(19, 0)));
    }
    let mut store = vec![FILL; 79];
    let bytes = wire(&[&good(&[20, 3])]);
    let got = switched().receive(&bytes, &mut store);
    assert_eq!((got, store), ((96, refused(10, 80)), vec![FILL; 79]));
    // No nonce is left: behind one frame that takes the last.
    let frames = [&good(&[0]), &good(&[20, 3])];
    let bytes = wire_from(SECRETS.receiving, u64::MAX, &frames);
    let mut receiver = switched_from(SECRETS.receiving, u64::MAX);
    let mut store = filled(&[]);
    receiver.receive(&bytes, &mut store);
    let before = store.clone();
    let got = receiver.receive(&bytes[96..], &mut store);
    assert_eq!((got, store), ((96, refused(18, 0)), before));
}

/// 17, 18 and 19 of the rest of segment 1 and of the last part, and 12, zero what
/// the frame needs and keep the rest.
#[test]
fn refusals_of_later_parts_zero_what_the_frame_needs() {
    let needed = 64 + 16 + 32;
    let changed = |change: &dyn Fn(&mut SealedFrame)| {
        let mut frame = good(&[60, 3]);
        change(&mut frame);
        received(&frame)
    };
    let left = |taken, report| (taken, report, filled(&vec![0; needed]));
    for place in [0, 15, 16, 31] {
        let damaged = changed(&|frame| frame.damage.push((1, place, 1)));
        assert_eq!(damaged, left(128, refused(17, 0)));
    }
    for place in [0, 31, 32, 47] {
        let damaged = changed(&|frame| frame.damage.push((2, place, 1)));
        assert_eq!(damaged, left(176, refused(17, 0)));
    }
    for place in [12, 15] {
        let padding = changed(&|frame| frame.texts[1][place] = 1);
        assert_eq!(padding, left(128, refused(19, 0)));
    }
    for place in [3, 15, 17, 31] {
        let padding = changed(&|frame| frame.texts[2][place] = 1);
        assert_eq!(padding, left(176, refused(19, 0)));
    }
    let late = changed(&|frame| frame.texts[2][16] = 0x4F);
    assert_eq!(late, left(176, refused(12, 0x4F)));
    for (nonces, taken) in [(1, 128), (2, 176)] {
        let opened = u64::MAX - (nonces - 1);
        let bytes = wire_from(SECRETS.receiving, opened, &[&good(&[60, 3])]);
        let mut store = filled(&[]);
        let got = switched_from(SECRETS.receiving, opened).receive(&bytes, &mut store);
        assert_eq!((got.0, got.1, store), left(taken, refused(18, 0)));
    }
}

/// 18 comes in place of opening: the tag isn't looked at.
#[test]
fn short_of_a_nonce_comes_before_the_tag() {
    let mut frame = good(&[60, 3]);
    frame.damage.extend([(0, 0, 1), (1, 0, 1), (2, 0, 1)]);
    let first = [&good(&[0]), &frame];
    let bytes = wire_from(SECRETS.receiving, u64::MAX, &first);
    let mut receiver = switched_from(SECRETS.receiving, u64::MAX);
    let mut store = filled(&[]);
    receiver.receive(&bytes, &mut store);
    let got = receiver.receive(&bytes[96..], &mut store);
    assert_eq!(got, (96, refused(18, 0)));
    frame.damage.remove(0);
    for (nonces, taken) in [(1, 128), (2, 176)] {
        let mut frame = frame.clone();
        frame.damage.retain(|(part, ..)| *part == nonces);
        let opened = u64::MAX - (nonces as u64 - 1);
        let bytes = wire_from(SECRETS.receiving, opened, &[&frame]);
        let got = switched_from(SECRETS.receiving, opened).receive(&bytes, &mut store);
        assert_eq!(got, (taken, refused(18, 0)));
    }
}

/// 17 before all that a text says, 10 before the inline padding.
#[test]
fn the_order_at_byte_96() {
    let mut frame = good(&[20, 3]);
    frame.change_preamble(|preamble| preamble[..2].fill(99));
    frame.texts[0][79] = 1;
    frame.damage.push((0, 95, 1));
    assert_eq!(received(&frame).1, refused(17, 0));
    frame.damage.clear();
    assert_eq!(received(&frame).1, refused(6, 1));
    let mut frame = good(&[20, 3]);
    frame.texts[0][79] = 1;
    let mut store = vec![FILL; 79];
    let got = switched().receive(&wire(&[&frame]), &mut store);
    assert_eq!(got, (96, refused(10, 80)));
    assert_eq!(received(&frame).1, refused(19, 0));
}

/// The last part: 17, 12, 19, and then the drop. Only the low four bits of the late
/// status count.
#[test]
fn the_order_at_the_end() {
    for late in 0..=255_u8 {
        for filled in [0, 1] {
            let mut frame = good(&[5, 3]);
            *frame.late_status_mut().expect("an epilogue") = late;
            frame.texts[1][31] = filled;
            let (taken, report, _) = received(&frame);
            assert_eq!(taken, 144);
            let expected = match (late & 0x0F, filled) {
                (0x0E, 0) => Report::Frame(frame.frame),
                (0x01, 0) => Report::Dropped(frame.frame),
                (0x0E | 0x01, _) => refused(19, 0),
                _ => refused(12, u64::from(late)),
            };
            assert_eq!(report, expected);
            frame.damage.push((1, 47, 0x80));
            assert_eq!(received(&frame).1, refused(17, 0));
        }
    }
}

/// An aborted frame's segments are not looked at, its padding is.
#[test]
fn aborted_frames() {
    let mut frame = good(&[5, 3, 17]);
    *frame.late_status_mut().expect("an epilogue") = 0x01;
    let needed = store_needed(&frame.frame);
    let dropped = Report::Dropped(frame.frame);
    let zeroed = filled(&vec![0; needed]);
    assert_eq!(received(&frame), (176, dropped, zeroed.clone()));
    frame.texts[1][3] = 1;
    assert_eq!(received(&frame), (176, refused(19, 0), zeroed));
}

/// The switch is not asked for its secrets twice: what another key or nonce sealed
/// is refused with 17.
#[test]
fn other_secrets_open_nothing() {
    let bytes = wire(&[&good(&[20, 3])]);
    for secrets in [
        Secrets {
            key: OTHERS.key,
            ..SECRETS
        },
        Secrets {
            receiving: OTHERS.receiving,
            ..SECRETS
        },
        Secrets {
            receiving: SECRETS.sending,
            ..SECRETS
        },
    ] {
        let mut receiver = past_a_frame(Revision::Msgr21);
        assert_eq!(receiver.switch(&secrets).1, Ok(()));
        let mut store = filled(&[]);
        let got = receiver.receive(&bytes, &mut store);
        assert_eq!((got, store), ((96, refused(17, 0)), filled(&[])));
    }
}

/// The nonce moves on with each part and wraps, and a part that was opened isn't
/// opened again.
#[test]
fn each_part_has_its_own_nonce() {
    let frames = [&good(&[60, 3]), &good(&[0]), &good(&[3])];
    for counter in [0, u64::MAX - 3, u64::MAX - 1, u64::MAX] {
        let start = counting_from(counter);
        let bytes = wire_from(start, 0, &frames);
        let mut receiver = switched_from(start, 0);
        let mut store = filled(&[]);
        let mut left = bytes.as_slice();
        for made in frames {
            let (taken, report) = receiver.receive(left, &mut store);
            assert_eq!(
                (taken, report),
                (made.bytes_length(), Report::Frame(made.frame))
            );
            left = &left[taken..];
        }
        let replayed = &bytes[bytes.len() - 96..];
        let got = receiver.receive(replayed, &mut store);
        assert_eq!(got, (96, refused(17, 0)));
    }
}

/// As many parts are opened as nonces are left, wherever the counter stands.
#[test]
fn the_starting_nonce_is_never_used_again() {
    let frames = [&good(&[60, 3]), &good(&[60]), &good(&[3, 3]), &good(&[0])];
    let ends = [(3, 176), (5, 304), (7, 448), (8, 544)];
    for counter in [0, 5, u64::MAX] {
        for left in 1..=8_u64 {
            let opened = u64::MAX - (left - 1);
            let start = counting_from(counter);
            let bytes = wire_from(start, opened, &frames);
            let mut receiver = switched_from(start, opened);
            let mut store = filled(&[]);
            let (mut place, mut reported) = (0, 0);
            let last = loop {
                let (taken, report) = receiver.receive(&bytes[place..], &mut store);
                place += taken;
                match report {
                    Report::Frame(_) => reported += 1,
                    other => break other,
                }
            };
            let whole = ends.iter().filter(|(parts, _)| *parts <= left);
            assert_eq!(reported, whole.count());
            let expected = if left == 8 {
                Report::More
            } else {
                refused(18, 0)
            };
            assert_eq!(last, expected);
        }
    }
}

/// A call that lends less than the frame needs, behind its first part, takes nothing
/// and gives 10, whatever the piece; and so do all later ones.
#[test]
fn a_store_that_became_short() {
    let made = good(&[60, 3]);
    let bytes = wire(&[&made]);
    let needed = store_needed(&made.frame);
    for place in 0..bytes.len() {
        for lent in [needed - 1, 63, 0] {
            let mut receiver = switched();
            let mut store = filled(&[]);
            receiver.receive(&bytes[..place], &mut store);
            let before = store.clone();
            let got = receiver.receive(&[], &mut store[..lent]);
            if place < 96 {
                // The state holds what came: no store is needed yet.
                assert_eq!(got, (0, Report::More));
                let got = receiver.receive(&bytes[place..95], &mut store[..lent]);
                assert_eq!(got, (95 - place, Report::More));
                let got = receiver.receive(&bytes[95..], &mut store);
                assert_eq!(got, (bytes.len() - 95, Report::Frame(made.frame)));
            } else {
                assert_eq!(got, (0, refused(10, needed as u64)));
                let got = receiver.receive(&bytes[place..], &mut store);
                assert_eq!(got, (0, refused(10, needed as u64)));
                assert_eq!(store, before);
            }
        }
    }
}

/// Just as much as is needed will do, and no byte behind it is touched.
#[test]
fn the_shortest_store() {
    for (lengths, _) in SHAPES {
        let made = good(lengths);
        let needed = store_needed(&made.frame);
        let mut store = filled(&[]);
        let got = switched().receive(&wire(&[&made]), &mut store[..needed]);
        assert_eq!(got, (made.bytes_length(), Report::Frame(made.frame)));
        assert_eq!(store[needed..], filled(&[])[needed..]);
    }
}

/// The longest segments and the longest sum.
#[test]
fn the_longest_frame() {
    let made = good_of_zeros(&[SEGMENT_LIMIT, SEGMENT_LIMIT]);
    let needed = store_needed(&made.frame);
    assert_eq!(needed as u64, FRAME_LIMIT + 32);
    let bytes = wire(&[&made]);
    let mut store = vec![FILL; needed];
    let got = switched().receive(&bytes, &mut store);
    assert_eq!(got, (bytes.len(), Report::Frame(made.frame)));
    assert!(store.iter().all(|byte| *byte == 0));
    let mut longer = good_of_zeros(&[1]);
    let length = (SEGMENT_LIMIT + 1).to_le_bytes();
    longer.change_preamble(|preamble| preamble[2..6].copy_from_slice(&length));
    assert_eq!(received(&longer).1, refused(9, 2));
}

/// Segment 1 is never reported early.
#[test]
fn no_early_report() {
    let frames = [&good(&[20, 3]), &good(&[60, 3]), &aborted(&[60, 3, 1])];
    let mut receiver = switched();
    let mut store = filled(&[]);
    for byte in wire(&frames) {
        let (_, report) = receiver.receive(&[byte], &mut store);
        assert!(!matches!(report, Report::First(_)));
    }
}

/// What one side sends, and what the other reads with its own switch: a banner,
/// frames in crc mode, then sealed ones, whole and aborted, under any cutting.
#[test]
fn what_is_built_comes_back() {
    let mut random = Random::new(3);
    for round in 0..60 {
        let start = counting_from(random.pick(&[0, u64::MAX - 3, random_counter(round)]));
        let secrets = Secrets {
            sending: start,
            ..SECRETS
        };
        // Ours sends; its own stream is at the same point.
        let mut ours = past_a_frame(Revision::Msgr21);
        let (mut sending, answer) = ours.switch(&secrets);
        assert_eq!(answer, Ok(()));
        let mut stream = [banner(Revision::Msgr21), three_aborted(Revision::Msgr21)].concat();
        let mut expected: Vec<(Frame, bool, Vec<u8>)> = Vec::new();
        for _ in 0..random.between(1, 5) {
            let (lengths, abort) = random.pick(&SHAPES);
            let frame = frame(lengths);
            let source = random.bytes(frame.sum() as u32);
            let request = crate::builder::FrameRequest {
                revision: Revision::Msgr21,
                frame,
                abort,
                source: &source,
            };
            let queued = stream.len();
            stream.resize(queued + 800, 0);
            let built = sending.build(&request, &mut stream, queued as u64);
            stream.truncate(queued + built.expect("a good request") as usize);
            expected.push((frame, abort, source));
        }
        let most = random.pick(&[1, 7, 100, 5_000]);
        let mut theirs = Receiver::start(OWN).0;
        let mut store = filled(&[]);
        let mut place = 0;
        let mut read = Vec::new();
        let mut has_switched = false;
        while place < stream.len() {
            let piece = random.between(0, most) as usize;
            let end = stream.len().min(place + piece);
            let (taken, report) = theirs.receive(&stream[place..end], &mut store);
            place += taken;
            match report {
                Report::Frame(frame) => {
                    let segments = store[..frame.sum() as usize].to_vec();
                    read.push((frame, false, segments));
                }
                Report::Dropped(_) if !has_switched => {
                    // Their receiving nonce is our sending one.
                    let theirs_secrets = Secrets {
                        receiving: start,
                        ..OTHERS
                    };
                    let theirs_secrets = Secrets {
                        key: SECRETS.key,
                        ..theirs_secrets
                    };
                    assert_eq!(theirs.switch(&theirs_secrets).1, Ok(()));
                    has_switched = true;
                }
                Report::Dropped(frame) => read.push((frame, true, Vec::new())),
                Report::Refused(refusal) => panic!("{refusal:?}"),
                _ => {}
            }
        }
        for (sent, got) in expected.iter_mut().zip(&read) {
            if sent.1 {
                sent.2.clear();
            }
            assert_eq!(sent, got);
        }
        assert_eq!(expected.len(), read.len());
    }
}

fn random_counter(round: u64) -> u64 {
    Random::new(round).u64()
}
