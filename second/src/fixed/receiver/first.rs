//! Segment 1 reported early, at its checksum's last byte, and where it is not.
//! The segments are the bytes 0 to 31, as the store's own are: while the frame
//! stays good, the store's checksum is the published one of those bytes.

use crate::fixed::receiver::case::{counting, Case};
use crate::input::LARGEST_LENGTH;
use crate::records::Record;
use crate::spoil::WireFrame;
use crate::wire::Revision;

const ALL: u32 = LARGEST_LENGTH;
const BANNER: u32 = 26;

/// Where segment 1's checksum ends in a frame whose segment 1 has eleven bytes.
const END: u32 = 32 + 11 + 4;

fn two() -> WireFrame {
    counting(Revision::Msgr21, &[11, 21], false)
}

fn calls(frame: &WireFrame, pieces: &[u32]) -> Record {
    Case::counting(frame.revision, &[frame]).calls(pieces.to_vec())
}

/// Cut before, at and behind the checksum's last byte, and streams that end
/// before it and at it.
fn cuts() -> Vec<Record> {
    let mut cut = Case::counting(Revision::Msgr21, &[&two()]);
    let mut records = vec![
        calls(&two(), &[ALL; 4]),
        calls(&two(), &[BANNER, END - 1, 1, 0, ALL]),
        calls(&two(), &[BANNER, END, 0, ALL, ALL]),
        calls(&two(), &[BANNER, END + 1, ALL, ALL]),
    ];
    for end in [BANNER + END, BANNER + END - 1] {
        cut.stream.truncate(end as usize);
        records.push(cut.calls(vec![ALL; 3]));
    }
    records
}

/// Four segments, and two frames one behind the other.
fn others() -> Vec<Record> {
    let four = counting(Revision::Msgr21, &[11, 0, 20, 1], false);
    let frames = Case::counting(Revision::Msgr21, &[&two(), &four]);
    vec![calls(&four, &[ALL; 3]), frames.calls(vec![ALL; 6])]
}

/// One segment, an empty segment 1, msgr2.0, and a store that is too short.
fn none() -> Vec<Record> {
    let shapes = [
        counting(Revision::Msgr21, &[32], false),
        counting(Revision::Msgr21, &[0, 32], false),
        counting(Revision::Msgr20, &[11, 21], false),
    ];
    let mut records: Vec<Record> = shapes.iter().map(|f| calls(f, &[ALL; 3])).collect();
    let short = Case::counting(Revision::Msgr21, &[&two()]).with_store(31);
    records.push(short.calls(vec![ALL; 3]));
    records
}

/// A wrong checksum of segment 1; behind the early report a drop, a wrong late
/// status and a wrong checksum of segment 2.
fn faults() -> Vec<Record> {
    let spoilt = |change: fn(&mut WireFrame)| {
        let mut frame = two();
        change(&mut frame);
        calls(&frame, &[ALL; 4])
    };
    vec![
        spoilt(|frame| frame.checksum_mut(0).expect("a checksum")[3] ^= 1),
        calls(&counting(Revision::Msgr21, &[11, 21], true), &[ALL; 4]),
        spoilt(|frame| *frame.late_byte_mut().expect("an epilogue") = 0x0F),
        spoilt(|frame| frame.segment_mut(1)[20] ^= 1),
    ]
}

pub fn first() -> Vec<Record> {
    [cuts(), others(), none(), faults()].concat()
}
