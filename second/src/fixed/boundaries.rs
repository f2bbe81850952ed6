//! Every builder refusal from both sides of its boundary, and requests that
//! break several rules at once.

use crate::banner::{Features, BANNER_LENGTH};
use crate::fixed::request::{between_others, source, REVISIONS};
use crate::frame::{FRAME_LIMIT, SEGMENTS, SEGMENT_LIMIT};
use crate::input::{CARRIED_SEGMENT, LARGEST_LENGTH};
use crate::records::{BannerRecord, FrameRecord, Record, SendBuffer};
use crate::wire::{wire_length, Revision};

/// A good frame after a change; its source follows the lengths.
fn changed(mut record: FrameRecord, change: impl FnOnce(&mut FrameRecord)) -> FrameRecord {
    change(&mut record);
    record.source = source(record.frame.sum());
    record
}

fn counts(revision: Revision) -> Vec<FrameRecord> {
    let mut records = Vec::new();
    for lengths in [&[0; SEGMENTS], &[5, 0, 0, 0], &[1, 2, 3, 4]] {
        let good = between_others(revision, lengths);
        for count in [0, 1, 2, 3, 4, 5, 6, 128, 255] {
            records.push(changed(good.clone(), |r| r.frame.count = count));
        }
    }
    // The count alone is wrong: every field behind it is zero.
    let empty = between_others(revision, &[]);
    for count in [0, 1, 2, 3, 4, 5, 255] {
        records.push(changed(empty.clone(), |r| r.frame.count = count));
    }
    records.push(changed(empty, |r| r.frame.tag = 0));
    records
}

/// A good frame of `count` segments, the last with one byte, the others empty.
fn barely_good(revision: Revision, count: usize) -> FrameRecord {
    let mut lengths = vec![0; count];
    lengths[count - 1] = 1;
    between_others(revision, &lengths)
}

fn last_segments(revision: Revision) -> Vec<FrameRecord> {
    let mut records = Vec::new();
    for count in 1..=SEGMENTS {
        let good = barely_good(revision, count);
        records.push(good.clone());
        records.push(changed(good, |r| r.frame.segments[count - 1].length = 0));
        let full = between_others(revision, &[3; SEGMENTS][..count]);
        records.push(full.clone());
        records.push(changed(full, |r| r.frame.segments[count - 1].length = 0));
    }
    records
}

fn unused_segments(revision: Revision) -> Vec<FrameRecord> {
    let mut records = Vec::new();
    for count in 1..SEGMENTS {
        for place in count..SEGMENTS {
            let good = barely_good(revision, count);
            for length in [1, 0x100, 0x0100_0000, 0xFFFF_FFFF] {
                let spoilt = |r: &mut FrameRecord| r.frame.segments[place].length = length;
                records.push(changed(good.clone(), spoilt));
            }
            for alignment in [1, 0x100, 0xFFFF] {
                let spoilt = |r: &mut FrameRecord| r.frame.segments[place].alignment = alignment;
                records.push(changed(good.clone(), spoilt));
            }
        }
    }
    records
}

/// Two fields of a shape wrong at once, each two that follow one another: the
/// first is named.
fn two_fields(revision: Revision) -> Vec<FrameRecord> {
    let good = barely_good(revision, 1);
    let mut records = Vec::new();
    for place in 1..SEGMENTS {
        records.push(changed(good.clone(), |r| {
            r.frame.segments[place].length = 1;
            r.frame.segments[place].alignment = 1;
        }));
        records.push(changed(good.clone(), |r| {
            r.frame.segments[place].alignment = 1;
            let behind = r.frame.segments.get_mut(place + 1);
            behind.into_iter().for_each(|segment| segment.length = 1);
        }));
        let mut empty_last = barely_good(revision, place + 1);
        empty_last.frame.segments[place].length = 0;
        empty_last.frame.segments[SEGMENTS - 1].alignment = 1;
        records.push(changed(empty_last, |_| {}));
    }
    for count in [0, 5] {
        let wrong = changed(good.clone(), |r| r.frame.count = count);
        records.push(changed(wrong, |r| r.frame.segments[3].alignment = 1));
    }
    records
}

fn tags(revision: Revision) -> Vec<FrameRecord> {
    let good = between_others(revision, &[4, 2]);
    (0..=255)
        .map(|tag| changed(good.clone(), |r| r.frame.tag = tag))
        .collect()
}

/// Each place alone at the segment limit and one above it. The source is empty:
/// it is refused where the limit is kept.
fn long_segments(revision: Revision) -> Vec<FrameRecord> {
    let mut records = Vec::new();
    for place in 0..SEGMENTS {
        for length in [SEGMENT_LIMIT, SEGMENT_LIMIT + 1, u32::MAX] {
            let mut lengths = [2, 0, 1, 3];
            lengths[place] = length;
            records.push(between_others(revision, &lengths));
        }
    }
    records
}

/// The sum at its limit and one above it, sums that pass it before the last
/// length, with and without a long segment behind, and sums that wrap in 32
/// bits; the longest frames that our case files carry whole.
fn long_sums(revision: Revision) -> Vec<FrameRecord> {
    let quarter = FRAME_LIMIT as u32 / 4;
    let all: [&[u32]; 20] = [
        &[CARRIED_SEGMENT],
        &[CARRIED_SEGMENT, CARRIED_SEGMENT],
        &[0, CARRIED_SEGMENT, 0, CARRIED_SEGMENT],
        &[SEGMENT_LIMIT, SEGMENT_LIMIT],
        &[SEGMENT_LIMIT, SEGMENT_LIMIT, 1],
        &[SEGMENT_LIMIT, SEGMENT_LIMIT, 0, 1],
        &[SEGMENT_LIMIT, SEGMENT_LIMIT - 1, 1],
        &[SEGMENT_LIMIT, SEGMENT_LIMIT, 1, 1],
        &[SEGMENT_LIMIT, SEGMENT_LIMIT - 1, 2, 5],
        &[SEGMENT_LIMIT, SEGMENT_LIMIT, 1, SEGMENT_LIMIT + 1],
        &[SEGMENT_LIMIT, SEGMENT_LIMIT + 1, 0, SEGMENT_LIMIT + 1],
        &[1, 0, SEGMENT_LIMIT, SEGMENT_LIMIT],
        &[0, SEGMENT_LIMIT, 0, SEGMENT_LIMIT],
        &[1, SEGMENT_LIMIT, 0, SEGMENT_LIMIT],
        &[quarter; 4],
        &[quarter, quarter, quarter, quarter + 1],
        &[quarter + 1, quarter, quarter, quarter],
        &[0x4000_0000; 4],
        &[0x8000_0000; 2],
        &[u32::MAX, 1],
    ];
    let records = all.map(|lengths| between_others(revision, lengths));
    records.to_vec()
}

fn sources(revision: Revision) -> Vec<FrameRecord> {
    let mut records = Vec::new();
    let all: [&[u32]; 4] = [&[0], &[8], &[5, 3], &[0, 0, 0, 8]];
    for lengths in all {
        let good = between_others(revision, lengths);
        for length in [0, 1, 5, 7, 8, 9, 8 + 256, u64::from(LARGEST_LENGTH)] {
            let mut record = good.clone();
            record.source = source(length);
            records.push(record);
        }
    }
    records
}

fn aborts(revision: Revision) -> Vec<FrameRecord> {
    let all: [&[u32]; 8] = [
        &[0],
        &[1],
        &[20],
        &[0, 1],
        &[5, 3],
        &[0, 0, 7],
        &[6, 0, 0, 40],
        &[CARRIED_SEGMENT, 0, CARRIED_SEGMENT],
    ];
    let aborted = |lengths: &&[u32]| {
        let good = between_others(revision, lengths);
        changed(good, |r| r.abort = true)
    };
    all.iter().map(aborted).collect()
}

/// Buffers with just enough room for `needed` bytes, and with too little.
fn buffers(needed: u64) -> Vec<SendBuffer> {
    let fitting = needed as u32;
    let largest = u64::from(LARGEST_LENGTH);
    let all = [
        (fitting, 0),
        (fitting - 1, 0),
        (fitting + 3, 3),
        (fitting + 2, 3),
        (fitting, 1),
        (fitting, needed - 1),
        (fitting, needed),
        (fitting, needed + 1),
        (0, 0),
        (0, 1),
        (fitting, 1 << 32),
        (fitting, 1 << 63),
        (fitting, u64::MAX),
        // Queued and needed bytes together wrap to 0 and to a little.
        (fitting, 0u64.wrapping_sub(needed)),
        (fitting, 5u64.wrapping_sub(needed)),
        (LARGEST_LENGTH, largest - needed),
        (LARGEST_LENGTH, largest - needed + 1),
        (LARGEST_LENGTH, largest),
        (LARGEST_LENGTH, largest + 1),
    ];
    all.map(|(length, queued)| SendBuffer {
        length,
        fill: 0xC3,
        queued,
    })
    .to_vec()
}

fn rooms(revision: Revision) -> Vec<FrameRecord> {
    let mut records = Vec::new();
    let all: [&[u32]; 3] = [&[0], &[6], &[5, 0, 4]];
    for lengths in all {
        for abort in [false, true] {
            let good = between_others(revision, lengths);
            for buffer in buffers(wire_length(revision, &good.frame)) {
                let lent = |r: &mut FrameRecord| (r.abort, r.buffer) = (abort, buffer);
                records.push(changed(good.clone(), lent));
            }
        }
    }
    records
}

/// Every choice of broken rules among 6, 8, 9, 13, 15 and 14, so that each
/// pair, and so the order, shows.
fn orders(revision: Revision) -> Vec<FrameRecord> {
    (0..64u32)
        .map(|broken| {
            let breaks = |bit: u32| broken >> bit & 1 == 1;
            let length = if breaks(2) { SEGMENT_LIMIT + 1 } else { 5 };
            let mut record = between_others(revision, &[length]);
            record.frame.segments[3].alignment = u16::from(breaks(0));
            record.frame.tag = if breaks(1) { 21 } else { 17 };
            if breaks(3) {
                record.source.pop();
            }
            record.abort = breaks(4);
            record.buffer.length -= if breaks(5) { 6 } else { 0 };
            record
        })
        .collect()
}

fn banner(supported: u64, required: u64, buffer: SendBuffer) -> Record {
    let features = Features {
        supported,
        required,
    };
    Record::Banner(BannerRecord { features, buffer })
}

/// Own features in all pairs, each with room and, to show the order, without.
fn features() -> Vec<Record> {
    let bits = [0, 1, 2, 3, 4, 5, 1 << 32, 1 << 63, u64::MAX - 1, u64::MAX];
    let roomy = SendBuffer::around(BANNER_LENGTH, 2, 4, 0x99);
    let full = SendBuffer { queued: 7, ..roomy };
    let mut records = Vec::new();
    for supported in bits {
        for required in bits {
            records.push(banner(supported, required, roomy));
            records.push(banner(supported, required, full));
        }
    }
    records
}

fn banner_rooms() -> impl Iterator<Item = Record> {
    buffers(BANNER_LENGTH)
        .into_iter()
        .map(|buffer| banner(1, 0, buffer))
}

pub fn boundaries() -> Vec<Record> {
    let makers = [
        counts,
        last_segments,
        unused_segments,
        two_fields,
        tags,
        long_segments,
        long_sums,
        sources,
        aborts,
        rooms,
        orders,
    ];
    let mut records = Vec::new();
    for make in makers {
        let made = REVISIONS.into_iter().flat_map(make);
        records.extend(made.map(Record::Frame));
    }
    records.extend(features());
    records.extend(banner_rooms());
    records
}
