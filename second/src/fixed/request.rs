//! Requests the fixed files start from.

use crate::frame::{Frame, Segment, SEGMENTS};
use crate::input::LARGEST_LENGTH;
use crate::records::{FrameRecord, SendBuffer};
use crate::wire::{wire_length, Revision};

pub const REVISIONS: [Revision; 2] = [Revision::Msgr21, Revision::Msgr20];

/// Bytes in which neighbours differ, so that one out of place shows. A length
/// no record can give gets none: sums that wrap to 0 in 32 bits then match it.
pub fn source(length: u64) -> Vec<u8> {
    if length > u64::from(LARGEST_LENGTH) {
        return Vec::new();
    }
    (0..length)
        .map(|place| (place * 7 + place / 256 + 1) as u8)
        .collect()
}

/// A tag 17 frame that uses a segment for each length given.
pub fn frame(lengths: &[u32]) -> Frame {
    let mut segments = [Segment::default(); SEGMENTS];
    for (segment, &length) in segments.iter_mut().zip(lengths) {
        segment.length = length;
    }
    Frame {
        tag: 17,
        count: lengths.len() as u8,
        segments,
    }
}

/// A whole frame with its source, and a buffer that it fits into exactly.
pub fn exact(revision: Revision, lengths: &[u32]) -> FrameRecord {
    let frame = frame(lengths);
    FrameRecord {
        revision,
        frame,
        abort: false,
        buffer: SendBuffer::around(wire_length(revision, &frame), 0, 0, 0),
        source: source(frame.sum()),
    }
}

/// The same with bytes queued, bytes behind, and different alignments.
pub fn between_others(revision: Revision, lengths: &[u32]) -> FrameRecord {
    let mut record = exact(revision, lengths);
    let used = record.frame.segments.iter_mut().take(lengths.len());
    for (segment, alignment) in used.zip([8, 0, 0x1002, 0xFFFF]) {
        segment.alignment = alignment;
    }
    record.buffer = SendBuffer::around(u64::from(record.buffer.length), 3, 5, 0x5A);
    record
}
