//! Sealed builds: every choice of rules to break, every boundary of the room, of
//! the lengths and of the nonces, and refused builds among good ones.

use crate::fixed::request::source;
use crate::fixed::switching::case::{counting_from, SECRETS};
use crate::fixed::switching::frames::{build, record};
use crate::frame::{FRAME_LIMIT, SEGMENT_LIMIT};
use crate::input::{CARRIED_SEGMENT, LARGEST_LENGTH};
use crate::records::{Build, BuildsRecord, Record, SendBuffer, MOST_BUILDS};
use crate::secure::{part_lengths, wire_length};

/// The rules of the order behind 27: 6, 8, 9, 13, 15, 14. Eighteen is broken by
/// the state.
const RULES: u32 = 6;

/// A frame of one segment that needs two parts and breaks the rules given.
fn breaking(rules: u32) -> Build {
    let breaks = |place: u32| rules >> place & 1 == 1;
    let mut build = build(&[60], false);
    if breaks(0) {
        build.frame.segments[3].alignment = 1;
    }
    if breaks(1) {
        build.frame.tag = 21;
    }
    if breaks(2) {
        build.frame.segments[0].length = SEGMENT_LIMIT + 1;
    }
    if breaks(3) {
        build.source.push(1);
    }
    build.abort = breaks(4);
    if breaks(5) {
        build.buffer.queued = 1;
    }
    build
}

/// Every choice of rules to break, with nonces enough and with one too few, and
/// with the state of a refused switch.
fn orders() -> Vec<Record> {
    let all = || (0..1 << RULES).map(breaking).collect::<Vec<Build>>();
    let mut refused = BuildsRecord {
        refused: true,
        key: SECRETS.key,
        nonce: SECRETS.sending,
        spent: 0,
        builds: all(),
        spoilt: false,
    };
    let mut records = vec![record(0, all()), record(u64::MAX, all())];
    records.push(Record::Builds(refused.clone()));
    refused.spent = u64::MAX;
    records.push(Record::Builds(refused));
    records
}

/// Behind each refused build a good one: it begins with the nonce that the
/// refused one left.
fn refused_ones_spend_nothing() -> Vec<Record> {
    let mut builds = vec![build(&[3], false)];
    for rules in 1..1 << RULES {
        builds.push(breaking(rules));
        builds.push(build(&[3, 1], rules % 2 == 0));
    }
    let short = |left: u64| {
        let builds = [&[60_u32, 1][..], &[3, 1], &[60, 1], &[3], &[60], &[3], &[]];
        let builds =
            builds.map(|lengths| build(if lengths.is_empty() { &[0] } else { lengths }, false));
        record(u64::MAX - (left - 1), builds.to_vec())
    };
    let mut records = vec![record(0, builds)];
    records.extend((1..=9).map(short));
    records
}

/// One to three parts where none to four are left, wherever the counter stands.
fn last_nonces() -> Vec<Record> {
    let mut records = Vec::new();
    let shapes: [&[u32]; 4] = [&[48], &[49], &[48, 1], &[49, 1]];
    for counter in [0, 1, u64::MAX - 1, u64::MAX, 1 << 63] {
        for lengths in shapes {
            for spent in (u64::MAX - 3)..=u64::MAX {
                let builds = vec![build(lengths, false); 5];
                let Record::Builds(mut record) = record(spent, builds) else {
                    unreachable!("a record of builds");
                };
                record.nonce = counting_from(counter);
                records.push(Record::Builds(record));
            }
        }
    }
    records
}

/// Each length of segment 1 and of segment 2 around their blocks.
fn lengths() -> Vec<Record> {
    let firsts = (0..=130).map(|first| build(&[first], false));
    let seconds = (1..=50).map(|second| build(&[7, second], second % 3 == 0));
    let mut others = Vec::new();
    for first in [0, 1, 47, 48, 49, 64, 65] {
        for rest in [[0, 0, 1], [16, 0, 15], [0, 17, 16], [31, 32, 33]] {
            others.push(build(&[first, rest[0], rest[1], rest[2]], first == 47));
        }
    }
    let long = [
        build(&[CARRIED_SEGMENT], false),
        build(&[CARRIED_SEGMENT + 1, CARRIED_SEGMENT - 1], false),
        build(&[0, 9_000, 0, 9_001], true),
    ];
    vec![
        record(0, firsts.collect()),
        record(5, seconds.collect()),
        record(u64::MAX >> 1, others),
        record(0, long.to_vec()),
    ]
}

/// Alignments, and every byte of them.
fn aligned() -> Record {
    let mut whole = build(&[50, 2, 0, 4], false);
    for (segment, alignment) in whole.frame.segments.iter_mut().zip([8, 0, 0x1002, 0xFFFF]) {
        segment.alignment = alignment;
    }
    let mut aborted = whole.clone();
    aborted.abort = true;
    record(0, vec![whole, aborted])
}

/// Bytes queued and bytes behind; a byte too few; counts that wrap.
fn rooms() -> Record {
    let mut builds = Vec::new();
    for lengths in [&[0_u32][..], &[49], &[3, 1], &[105, 70, 0, 350]] {
        let good = build(lengths, false);
        let needed = wire_length(&good.frame);
        for (queued, behind) in [(0, 0), (3, 5), (300, 0), (0, 1)] {
            let mut roomy = good.clone();
            roomy.buffer = SendBuffer::around(needed, queued, behind, 0xC3);
            builds.push(roomy.clone());
            roomy.buffer.length -= behind + 1;
            builds.push(roomy);
        }
        for queued in [
            1,
            needed,
            needed + 1,
            1 << 32,
            u64::MAX,
            u64::MAX - needed + 1,
        ] {
            let mut wrong = good.clone();
            wrong.buffer.queued = queued;
            builds.push(wrong);
        }
        for length in [0, 1, 80, 95] {
            let mut short = good.clone();
            short.buffer.length = length.min(short.buffer.length - 1);
            builds.push(short);
        }
    }
    record(0, builds)
}

/// Frames at and above the limits have no source that a record could hold.
fn limits() -> Record {
    let at = |lengths: &[u32]| {
        let mut build = build(&[1], false);
        build.frame = crate::fixed::request::frame(lengths);
        build.source = source(build.frame.sum());
        build
    };
    let most = SEGMENT_LIMIT;
    let builds = vec![
        at(&[most]),
        at(&[most + 1]),
        at(&[most, most]),
        at(&[most, most, 1]),
        at(&[0x4000_0000; 4]),
        at(&[FRAME_LIMIT as u32]),
    ];
    record(u64::MAX, builds)
}

/// As many builds as a record can have, and none; a source as long as can be.
fn largest() -> Vec<Record> {
    let builds = vec![build(&[1], false); usize::from(MOST_BUILDS)];
    let mut long = build(&[1], false);
    long.frame.segments[0].length = LARGEST_LENGTH;
    long.source = source(u64::from(LARGEST_LENGTH));
    long.buffer.length = LARGEST_LENGTH;
    assert_eq!(part_lengths(&long.frame).len(), 2);
    vec![
        record(0, builds),
        record(0, Vec::new()),
        record(0, vec![long]),
    ]
}

pub fn builds() -> Vec<Record> {
    let mut records = orders();
    records.extend(refused_ones_spend_nothing());
    records.extend(last_nonces());
    records.extend(lengths());
    records.extend([aligned(), rooms(), limits()]);
    records.extend(largest());
    records
}
