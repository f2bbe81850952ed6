//! Lines of records with a switch and of sealed builds. The store's checksums are
//! published ones: 32 bytes that count up from 0, and 32 zeros.

use super::tests::printed;
use crate::checksum::{checksum, SEGMENT_START};
use crate::fixed::switching::case::{sealed, SECRETS};
use crate::fixed::switching::frames::{build, record as builds, SHAPES};
use crate::records::{Build, Record};
use crate::spoil::sealed::Sealer;
use crate::vectors::{banner, empty};
use crate::wire::Revision;

/// The frames of the file of examples, sealed elsewhere; one to a line.
const DERIVED: &str = include_str!("../../../tests/known/switch/sealed-frames.hex");

const TRY: u32 = 0xFFFF_FF00;

/// A store of 32 bytes that counts up from 0, the fixed secrets, so many parts
/// opened, and these calls; a lent length behind each where the kind is T.
fn record(kind: u8, own: u8, opened: u64, calls: &[u32], stream: &[u8]) -> Vec<u8> {
    let mut bytes = vec![kind];
    bytes.extend([own, 0, 0, 0, 0, 0, 0, 0]);
    bytes.extend([0; 8]);
    bytes.extend([32, 0, 0, 0, 0]);
    bytes.push(1);
    bytes.extend(SECRETS.key);
    bytes.extend(SECRETS.receiving);
    bytes.extend(SECRETS.sending);
    bytes.extend(opened.to_le_bytes());
    let each = if kind == b'T' { 2 } else { 1 };
    bytes.extend(((calls.len() / each) as u16).to_le_bytes());
    bytes.extend(calls.iter().flat_map(|call| call.to_le_bytes()));
    bytes.extend((stream.len() as u32).to_le_bytes());
    bytes.extend(stream);
    bytes
}

fn lines(record: &[u8]) -> Vec<String> {
    printed(record).lines().map(String::from).collect()
}

/// A banner, an empty frame, and so many sealed empty frames of tag 17.
fn stream(opened: u64, frames: usize) -> Vec<u8> {
    let mut sealer = Sealer {
        key: SECRETS.key,
        start: SECRETS.receiving,
        sealed: opened,
    };
    let mut stream = [banner(Revision::Msgr21), empty(Revision::Msgr21)].concat();
    for _ in 0..frames {
        stream.extend(sealed(&[0]).bytes(&mut sealer));
    }
    stream
}

/// The line of a buffer of 96 bytes, written or not.
fn buffer_line(front: &str, buffer: &[u8]) -> String {
    format!("{front} crc {:08x}", checksum(SEGMENT_START, buffer))
}

/// The frame that a try builds: tag 16, sealed with the first sending nonce.
fn tried() -> Vec<u8> {
    let mut frame = sealed(&[0]);
    frame.change_preamble(|preamble| preamble[0] = 16);
    frame.bytes(&mut Sealer {
        key: SECRETS.key,
        start: SECRETS.sending,
        sealed: 0,
    })
}

fn untouched() -> Vec<u8> {
    (0..96).collect()
}

const KEPT: &str = "b92286b1";
const ZEROS: &str = "756ec955";

#[test]
fn tries_print_two_lines() {
    let calls = [TRY, 26, TRY, 32, TRY, 200, TRY, 0];
    let refused = "switch refused 27 detail 0 0 0".to_string();
    let not_built = buffer_line("refused 27 detail 0 0 0", &untouched());
    let fields = "segments 1 lengths 0 0 0 0 alignments 0 0 0 0";
    let expected = [
        "start ok".to_string(),
        refused.clone(),
        not_built.clone(),
        format!("banner taken 26 supported 1 required 0 revision 1 crc {KEPT}"),
        refused.clone(),
        not_built.clone(),
        format!("frame taken 32 tag 16 {fields} crc {KEPT}"),
        "switch ok".to_string(),
        buffer_line("wrote 96", &tried()),
        format!("frame taken 96 tag 17 {fields} crc {ZEROS}"),
        refused,
        not_built,
        format!("more taken 0 crc {ZEROS}"),
    ];
    assert_eq!(lines(&record(b'X', 1, 0, &calls, &stream(0, 1))), expected);
}

/// What was counted as opened leaves one nonce; the try's own sending state has
/// spent none.
#[test]
fn opened_parts_use_nonces_up() {
    let opened = u64::MAX;
    let calls = [26, 32, TRY, 200, 200, 200];
    let printed = lines(&record(b'X', 1, opened, &calls, &stream(opened, 2)));
    assert_eq!(
        printed[3..5],
        ["switch ok", &buffer_line("wrote 96", &tried())]
    );
    assert!(printed[5].starts_with("frame taken 96 tag 17 "));
    let refused = |taken| format!("refused taken {taken} number 18 detail 0 0 0 crc {ZEROS}");
    assert_eq!(printed[6..], [refused(96), refused(0)]);
}

/// A refused try is not followed by a count: with the next one all nonces are
/// there. A refused start and msgr2.0 refuse every try.
#[test]
fn tries_that_are_refused_leave_nothing() {
    let not_built = buffer_line("refused 27 detail 0 0 0", &untouched());
    for own in [0, 2] {
        let printed = lines(&record(
            b'X',
            own,
            0,
            &[TRY, 99, TRY, 99, TRY],
            &stream(0, 0),
        ));
        let tries = printed.iter().filter(|line| line.starts_with("switch"));
        assert!(tries
            .clone()
            .all(|line| line == "switch refused 27 detail 0 0 0"));
        assert_eq!(tries.count(), 3);
        let builds = printed.iter().filter(|line| **line == not_built);
        assert_eq!(builds.count(), 3);
    }
}

/// Each call lends as much as it says; a try lends nothing.
#[test]
fn lent_lengths() {
    let calls = [26, 0, 32, 0, TRY, 0, 95, 0, 1, 31];
    let printed = lines(&record(b'T', 1, 0, &calls, &stream(0, 1)));
    assert_eq!(printed[3], "switch ok");
    assert_eq!(printed[5], format!("more taken 95 crc {KEPT}"));
    let refused = format!("refused taken 1 number 10 detail 32 0 0 crc {KEPT}");
    assert_eq!(printed[6..], [refused]);
    let calls = [26, 0, 32, 0, TRY, 0, 95, 0, 1, 65_536];
    let printed = lines(&record(b'T', 1, 0, &calls, &stream(0, 1)));
    assert!(printed[6].starts_with("frame taken 1 tag 17 ") && printed[6].ends_with(ZEROS));
}

/// Without tries the record is one of a receiver.
#[test]
fn no_tries() {
    let mut bytes = record(b'X', 1, 0, &[26, 32], &stream(0, 0));
    bytes.drain(23..71);
    bytes[22] = 0;
    let mut plain = bytes.clone();
    plain.remove(22);
    plain[0] = b'R';
    assert_eq!(lines(&bytes), lines(&plain));
    assert_eq!(lines(&bytes).len(), 3);
}

/// The line of a buffer that a frame sealed elsewhere fills.
#[test]
fn builds_print_their_lines() {
    let made = SHAPES.map(|(lengths, abort)| build(lengths, abort));
    let record = builds(0, made.to_vec()).to_bytes();
    let expected = DERIVED.lines().map(|hex| {
        let digits = |place: usize| u8::from_str_radix(&hex[place..place + 2], 16).expect("hex");
        let bytes: Vec<u8> = (0..hex.len()).step_by(2).map(digits).collect();
        buffer_line(&format!("wrote {}", bytes.len()), &bytes)
    });
    assert_eq!(lines(&record), expected.collect::<Vec<String>>());
}

fn of_96(tag: u8) -> Build {
    let mut build = build(&[0], false);
    build.frame.tag = tag;
    build
}

/// A refused build uses no nonce; spent counts from the starting nonce; a refused
/// switch's state builds nothing.
#[test]
fn builds_with_one_state() {
    let record = builds(0, vec![of_96(21), of_96(16)]).to_bytes();
    let refused = buffer_line("refused 8 detail 21 0 0", &untouched());
    let wrote = buffer_line("wrote 96", &tried());
    assert_eq!(lines(&record), [refused, wrote]);
    let record = builds(u64::MAX, vec![of_96(16), of_96(16)]).to_bytes();
    let printed = lines(&record);
    assert!(printed[0].starts_with("wrote 96 crc "));
    assert_eq!(
        printed[1],
        buffer_line("refused 18 detail 0 0 0", &untouched())
    );
    let Record::Builds(mut record) = builds(0, vec![of_96(16), of_96(21)]) else {
        panic!("a record of builds");
    };
    record.refused = true;
    let refused = buffer_line("refused 27 detail 0 0 0", &untouched());
    let printed = lines(&Record::Builds(record).to_bytes());
    assert_eq!(printed, [refused.clone(), refused]);
}

/// Builds before a bad one have printed their lines; of a receiver's record that
/// is bad none is printed.
#[test]
fn bad_records() {
    let record_of_builds = builds(0, vec![of_96(21), of_96(16)]).to_bytes();
    let cut = &record_of_builds[..record_of_builds.len() - 1];
    let refused = buffer_line("refused 8 detail 21 0 0", &untouched());
    assert_eq!(lines(cut), [refused, "bad record".to_string()]);
    let calls = record(b'X', 1, 0, &[26, TRY + 1], &stream(0, 0));
    assert_eq!(lines(&calls), ["bad record"]);
}
