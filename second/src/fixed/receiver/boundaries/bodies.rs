//! Refusals 11, 12 and 24, drops, and which of them comes first.

use crate::fixed::receiver::case::{aborted, whole, Case};
use crate::frame::SEGMENTS;
use crate::records::Record;
use crate::spoil::WireFrame;
use crate::wire::Revision;

/// Shapes with each segment used and unused, empty and not.
const SHAPES: [&[u32]; 9] = [
    &[0],
    &[6],
    &[6, 4],
    &[0, 4],
    &[6, 0, 5],
    &[0, 0, 5],
    &[0, 3, 0, 2],
    &[0, 0, 0, 2],
    &[6, 4, 3, 2],
];

fn spoil_checksum(frame: &mut WireFrame, place: usize, byte: usize) {
    if let Some(field) = frame.checksum_mut(place) {
        field[byte] ^= 0x80;
    }
}

fn places_in(choice: u32) -> impl Iterator<Item = usize> {
    (0..SEGMENTS).filter(move |place| choice >> place & 1 == 1)
}

/// Every choice of wrong checksums, used segments' and unused ones'.
fn checksums(revision: Revision) -> Vec<Record> {
    let mut records = Vec::new();
    for lengths in SHAPES {
        for choice in 0..16 {
            let mut frame = whole(revision, lengths);
            for place in places_in(choice) {
                spoil_checksum(&mut frame, place, place);
            }
            records.push(Case::frame(&frame).edges());
        }
    }
    records
}

/// A wrong bit in each byte of each segment, and in each byte of its checksum.
fn single_faults(revision: Revision) -> Vec<Record> {
    let lengths = [6, 4, 0, 2];
    let mut frames = Vec::new();
    for (place, length) in lengths.into_iter().enumerate() {
        for byte in 0..length as usize {
            let mut frame = whole(revision, &lengths);
            frame.segment_mut(place)[byte] ^= 1;
            frames.push(frame);
        }
        for byte in 0..4 {
            let mut frame = whole(revision, &lengths);
            spoil_checksum(&mut frame, place, byte);
            frames.push(frame);
        }
    }
    frames.iter().map(|f| Case::frame(f).edges()).collect()
}

/// Used empty segments with 0 in their field, and unused ones with FFFFFFFF.
fn swapped_empty_fields(revision: Revision) -> Vec<Record> {
    let fill = |lengths: &[u32], place: usize, byte: u8| {
        let mut frame = whole(revision, lengths);
        if let Some(field) = frame.checksum_mut(place) {
            field.fill(byte);
        }
        Case::frame(&frame).edges()
    };
    vec![
        fill(&[0], 0, 0),
        fill(&[0, 4], 0, 0),
        fill(&[5, 0, 4], 1, 0),
        fill(&[0, 0, 4], 1, 0),
        fill(&[5, 4], 2, 0xFF),
        fill(&[5, 4], 3, 0xFF),
        fill(&[5], 3, 0xFF),
    ]
}

/// Every late byte, with good checksums and with a wrong one in segment 2.
fn late_bytes(revision: Revision) -> Vec<Record> {
    let mut records = Vec::new();
    for late in 0..=255 {
        let mut frame = whole(revision, &[4, 3]);
        *frame.late_byte_mut().expect("an epilogue") = late;
        records.push(Case::frame(&frame).edges());
        spoil_checksum(&mut frame, 1, 0);
        records.push(Case::frame(&frame).edges());
    }
    records
}

/// A few late bytes with every choice of wrong checksums: msgr2.1 judges the
/// first before the late byte and the others after it.
fn late_bytes_against_checksums(revision: Revision) -> Vec<Record> {
    let mut records = Vec::new();
    for late in [0x0E, 0x01, 0x00, 0x02, 0x03, 0x0F, 0x1E, 0xE1, 0xFE, 0xFF] {
        for choice in 0..16 {
            let mut frame = whole(revision, &[2, 3, 0, 1]);
            *frame.late_byte_mut().expect("an epilogue") = late;
            for place in places_in(choice) {
                spoil_checksum(&mut frame, place, 3);
            }
            records.push(Case::frame(&frame).edges());
        }
    }
    records
}

/// Aborted frames as they are built, and with bytes that aren't zero behind
/// segment 1: a drop's checksums are not compared.
fn drops(revision: Revision) -> Vec<Record> {
    let mut records = Vec::new();
    for lengths in SHAPES {
        let mut frame = aborted(revision, lengths);
        if frame.late_byte_mut().is_none() {
            continue;
        }
        records.extend(Case::frame(&frame).both());
        let exact = frame.frame.sum() as u32;
        records.push(Case::frame(&frame).with_store(exact).edges());
        for place in 1..lengths.len() {
            frame.segment_mut(place).fill(0x77);
        }
        records.extend(Case::frame(&frame).both());
    }
    records
}

/// The frame with this late byte, these fields of unused segments filled, and
/// perhaps a wrong checksum of its last segment.
fn spelled(mut frame: WireFrame, late: u8, filled: u32, wrong: bool) -> Option<Record> {
    *frame.late_byte_mut()? = late;
    for place in places_in(filled) {
        spoil_checksum(&mut frame, place, place);
    }
    if wrong {
        let last = usize::from(frame.frame.count) - 1;
        spoil_checksum(&mut frame, last, 0);
    }
    Some(Case::frame(&frame).edges())
}

/// Every choice of filled fields of unused segments in whole and in aborted
/// frames, with several late bytes, and with a wrong checksum.
fn spellings(revision: Revision) -> Vec<Record> {
    let lates: &[u8] = match revision {
        Revision::Msgr20 => &[0x00, 0x01, 0x02, 0x03, 0xFE],
        Revision::Msgr21 => &[0x0E, 0x01, 0x00, 0x0F, 0x1E, 0xE1],
    };
    let shapes: [&[u32]; 4] = [&[5], &[0, 4], &[5, 4], &[5, 0, 4]];
    let choices = shapes.into_iter().flat_map(|lengths| {
        let all = 0..1_u32 << (SEGMENTS - lengths.len());
        all.map(move |choice| (lengths, choice << lengths.len()))
    });
    let mut records = Vec::new();
    for (lengths, filled) in choices {
        for frame in [whole(revision, lengths), aborted(revision, lengths)] {
            for &late in lates {
                records.extend(spelled(frame.clone(), late, filled, false));
                records.extend(spelled(frame.clone(), late, filled, true));
            }
        }
    }
    records
}

/// Streams that end at each byte of a frame, so that what its body leaves in
/// the store while unfinished shows.
fn unfinished(revision: Revision) -> Vec<Record> {
    let frame = whole(revision, &[3, 0, 4]);
    let case = Case::frame(&frame);
    let ends = 26..26 + frame.bytes.len();
    ends.map(|end| {
        let mut case = case.clone();
        case.stream.truncate(end);
        case.uncut()
    })
    .collect()
}

pub fn bodies(revision: Revision) -> Vec<Record> {
    let makers = [
        checksums,
        single_faults,
        swapped_empty_fields,
        late_bytes,
        late_bytes_against_checksums,
        drops,
        spellings,
        unfinished,
    ];
    makers.into_iter().flat_map(|make| make(revision)).collect()
}
