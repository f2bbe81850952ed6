//! How a frame's body lies on the wire in the two revisions' crc modes.

use crate::checksum::{checksum, SEGMENT_START};
use crate::frame::{Frame, PREAMBLE_LENGTH, SEGMENTS};

#[derive(Clone, Copy, Debug, PartialEq, Eq)]
pub enum Revision {
    Msgr20,
    Msgr21,
}

/// Bytes of a segment's checksum.
pub const CHECKSUM_LENGTH: usize = 4;

const EPILOGUE_LENGTH_20: usize = 17;
const EPILOGUE_LENGTH_21: usize = 13;

/// The byte at the front of an epilogue: late flags or late status.
pub fn late_byte(revision: Revision, abort: bool) -> u8 {
    match (revision, abort) {
        (Revision::Msgr20, false) => 0x00,
        (Revision::Msgr20, true) => 0x01,
        (Revision::Msgr21, false) => 0x0E,
        (Revision::Msgr21, true) => 0x01,
    }
}

/// Whether the frame can be aborted: only an epilogue can say so.
pub fn can_abort(revision: Revision, frame: &Frame) -> bool {
    revision == Revision::Msgr20 || frame.count > 1
}

/// Bytes of the checksum right behind segment 1, 0 where there is none.
pub fn first_checksum_length(revision: Revision, frame: &Frame) -> usize {
    if revision == Revision::Msgr21 && frame.segments[0].length > 0 {
        CHECKSUM_LENGTH
    } else {
        0
    }
}

/// Bytes of the epilogue, 0 where there is none.
pub fn epilogue_length(revision: Revision, frame: &Frame) -> usize {
    match revision {
        Revision::Msgr20 => EPILOGUE_LENGTH_20,
        Revision::Msgr21 if frame.count > 1 => EPILOGUE_LENGTH_21,
        Revision::Msgr21 => 0,
    }
}

/// Bytes of the whole frame on the wire.
pub fn wire_length(revision: Revision, frame: &Frame) -> u64 {
    let checksum = first_checksum_length(revision, frame) as u64;
    let epilogue = epilogue_length(revision, frame) as u64;
    PREAMBLE_LENGTH as u64 + frame.sum() + checksum + epilogue
}

/// The bytes each segment carries; an aborted frame has zeros behind segment 1.
/// `source` holds the segments one after the other.
pub fn payloads(frame: &Frame, abort: bool, source: &[u8]) -> [Vec<u8>; SEGMENTS] {
    let mut rest = source;
    let mut place = 0;
    frame.segments.map(|segment| {
        let (mine, behind) = rest.split_at(segment.length as usize);
        rest = behind;
        place += 1;
        if abort && place > 1 {
            vec![0; mine.len()]
        } else {
            mine.to_vec()
        }
    })
}

/// The checksums an epilogue lists: 0 for unused segments.
fn checksums(frame: &Frame, payloads: &[Vec<u8>; SEGMENTS]) -> [u32; SEGMENTS] {
    std::array::from_fn(|place| {
        if frame.uses(place) {
            checksum(SEGMENT_START, &payloads[place])
        } else {
            0
        }
    })
}

fn put_checksums(wire: &mut Vec<u8>, sums: &[u32]) {
    wire.extend(sums.iter().flat_map(|sum| sum.to_le_bytes()));
}

/// The whole frame. The request must have been judged good.
pub fn frame_bytes(revision: Revision, frame: &Frame, abort: bool, source: &[u8]) -> Vec<u8> {
    let payloads = payloads(frame, abort, source);
    let sums = checksums(frame, &payloads);
    let late = late_byte(revision, abort);
    let mut wire = frame.preamble().to_vec();
    match revision {
        Revision::Msgr20 => {
            wire.extend(payloads.concat());
            wire.push(late);
            put_checksums(&mut wire, &sums);
        }
        Revision::Msgr21 => {
            wire.extend(&payloads[0]);
            if !payloads[0].is_empty() {
                put_checksums(&mut wire, &sums[..1]);
            }
            wire.extend(payloads[1..].concat());
            if frame.count > 1 {
                wire.push(late);
                put_checksums(&mut wire, &sums[1..]);
            }
        }
    }
    wire
}

#[cfg(test)]
mod tests;
