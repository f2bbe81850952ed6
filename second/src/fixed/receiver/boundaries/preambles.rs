//! Refusals 5 to 10, alone and together.

use crate::fixed::receiver::case::{preamble, whole, Case};
use crate::frame::{FRAME_LIMIT, PREAMBLE_LENGTH, SEGMENTS, SEGMENT_LIMIT};
use crate::input::CARRIED_SEGMENT;
use crate::records::Record;
use crate::spoil::WireFrame;
use crate::wire::Revision;

/// A preamble as bytes, while it is changed.
type Bytes = [u8; PREAMBLE_LENGTH];

fn changed(frame: &WireFrame, change: impl FnOnce(&mut Bytes)) -> Record {
    let mut frame = frame.clone();
    frame.change_preamble(change);
    Case::frame(&frame).edges()
}

/// Every bit of a preamble by itself.
fn checksums(revision: Revision) -> Vec<Record> {
    let bits = 0..PREAMBLE_LENGTH * 8;
    bits.map(|bit| {
        let mut frame = whole(revision, &[4, 2]);
        frame.bytes[bit / 8] ^= 1 << (bit % 8);
        Case::frame(&frame).edges()
    })
    .collect()
}

/// No preamble but zeros, and a good one with a checksum from another start.
fn false_checksums(revision: Revision) -> Vec<Record> {
    let mut zero = whole(revision, &[0]);
    zero.bytes[..PREAMBLE_LENGTH].fill(0);
    let mut complemented = whole(revision, &[4, 2]);
    for byte in &mut complemented.bytes[28..32] {
        *byte = !*byte;
    }
    let frames = [zero, complemented];
    frames.iter().flat_map(|f| Case::frame(f).both()).collect()
}

fn counts(revision: Revision) -> Vec<Record> {
    let mut records = Vec::new();
    for lengths in [&[0; SEGMENTS], &[5, 0, 0, 0], &[1, 2, 3, 4]] {
        let good = whole(revision, lengths);
        for count in [0, 1, 2, 3, 4, 5, 6, 128, 255] {
            records.push(changed(&good, |bytes| bytes[1] = count));
        }
    }
    // The count alone can be wrong: every field behind it is zero.
    let empty = whole(revision, &[]);
    for count in [0, 1, 2, 5, 255] {
        records.push(changed(&empty, |bytes| bytes[1] = count));
    }
    records
}

/// The place of a segment's length; its alignment is four bytes further.
fn length_field(place: usize) -> usize {
    2 + 6 * place
}

/// Last segments that are empty, and unused ones with a bit set.
fn shapes(revision: Revision) -> Vec<Record> {
    let mut records = Vec::new();
    for count in 1..=SEGMENTS {
        let full = whole(revision, &[3; SEGMENTS][..count]);
        let last = length_field(count - 1);
        records.push(Case::frame(&full).edges());
        records.push(changed(&full, |bytes| bytes[last..last + 4].fill(0)));
        for place in count..SEGMENTS {
            for byte in 0..6 {
                let field = length_field(place) + byte;
                records.push(changed(&full, |bytes| bytes[field] = 1));
            }
        }
    }
    records
}

/// Two bytes of a preamble wrong at once, each two of those that a shape or the
/// flags judge: the first field is named.
fn two_fields(revision: Revision) -> Vec<Record> {
    let empty = whole(revision, &[0]);
    let fields = [1, 8, 12, 14, 18, 20, 24, 26, 27];
    let mut records = Vec::new();
    for (at, &first) in fields.iter().enumerate() {
        for &second in &fields[at + 1..] {
            records.push(changed(&empty, |bytes| {
                bytes[first] = 5;
                bytes[second] = 5;
            }));
        }
    }
    records
}

fn flags(revision: Revision) -> Vec<Record> {
    let good = whole(revision, &[4, 2]);
    let fields = [26, 27];
    let bits = fields
        .into_iter()
        .flat_map(|field| (0..8).map(move |bit| (field, 1 << bit)));
    bits.map(|(field, bit)| changed(&good, |bytes| bytes[field] = bit))
        .collect()
}

fn tags(revision: Revision) -> Vec<Record> {
    let good = whole(revision, &[4, 2]);
    (0..=255)
        .map(|tag| changed(&good, |bytes| bytes[0] = tag))
        .collect()
}

fn limits(revision: Revision) -> Vec<Record> {
    let quarter = FRAME_LIMIT as u32 / 4;
    let carried: [&[u32]; 3] = [
        &[CARRIED_SEGMENT],
        &[CARRIED_SEGMENT, CARRIED_SEGMENT],
        &[0, CARRIED_SEGMENT, 0, CARRIED_SEGMENT],
    ];
    // No store of a record is long enough for the first five.
    let alone: [&[u32]; 18] = [
        &[SEGMENT_LIMIT],
        &[SEGMENT_LIMIT, SEGMENT_LIMIT],
        &[SEGMENT_LIMIT, SEGMENT_LIMIT - 1, 1],
        &[0, SEGMENT_LIMIT, 0, SEGMENT_LIMIT],
        &[quarter; SEGMENTS],
        &[SEGMENT_LIMIT + 1],
        &[0, 0, 0, SEGMENT_LIMIT + 1],
        &[SEGMENT_LIMIT, SEGMENT_LIMIT, 1],
        // The sum passes its limit before the last length.
        &[SEGMENT_LIMIT, SEGMENT_LIMIT, 1, 1],
        &[SEGMENT_LIMIT, SEGMENT_LIMIT - 1, 2, 5],
        // And a long segment stands behind that.
        &[SEGMENT_LIMIT, SEGMENT_LIMIT, 1, SEGMENT_LIMIT + 1],
        &[SEGMENT_LIMIT + 1, 0, 0, SEGMENT_LIMIT + 1],
        &[1, SEGMENT_LIMIT, 0, SEGMENT_LIMIT],
        &[quarter, quarter, quarter, quarter + 1],
        &[0x4000_0000; SEGMENTS],
        &[0x8000_0000; 2],
        &[u32::MAX, 1],
        &[5, u32::MAX],
    ];
    let whole = carried.map(|lengths| Case::frame(&whole(revision, lengths)).edges());
    let alone = alone.map(|lengths| Case::frame(&preamble(revision, lengths)).edges());
    whole.into_iter().chain(alone).collect()
}

/// Stores with one byte less than T, exactly T, one more, and hardly any.
fn stores(revision: Revision) -> Vec<Record> {
    let all: [&[u32]; 6] = [
        &[0],
        &[1],
        &[5, 3],
        &[0, 0, 0, 8],
        &[2, 0, 300],
        &[CARRIED_SEGMENT, 0, CARRIED_SEGMENT],
    ];
    let mut records = Vec::new();
    for lengths in all {
        let frame = whole(revision, lengths);
        let needed = frame.frame.sum() as u32;
        let mut lent = vec![0, needed / 2, needed.saturating_sub(1), needed, needed + 1];
        lent.dedup();
        let case = Case::frame(&frame);
        records.extend(lent.into_iter().map(|l| case.clone().with_store(l).edges()));
    }
    records
}

/// Every choice of faults among 5, 6, 7, 8, 9 and 10, so that each pair, and
/// so the order, shows. For a segment above its limit the store is always short.
fn orders(revision: Revision) -> Vec<Record> {
    (0..64u32)
        .map(|faults| {
            let has = |bit: u32| faults >> bit & 1 == 1;
            let length = if has(4) { SEGMENT_LIMIT + 1 } else { 5 };
            let mut frame = preamble(revision, &[length]);
            frame.change_preamble(|bytes| {
                bytes[0] = if has(3) { 21 } else { 17 };
                bytes[24] = u8::from(has(1));
                bytes[27] = u8::from(has(2));
            });
            frame.bytes[31] ^= u8::from(has(0));
            let lent = if has(5) { 4 } else { 5 };
            Case::frame(&frame).with_store(lent).edges()
        })
        .collect()
}

pub fn preambles(revision: Revision) -> Vec<Record> {
    let makers = [
        checksums,
        false_checksums,
        counts,
        shapes,
        two_fields,
        flags,
        tags,
        limits,
        stores,
        orders,
    ];
    makers.into_iter().flat_map(|make| make(revision)).collect()
}
