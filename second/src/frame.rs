//! A frame's fields, what is judged of them alone, and its preamble.

use crate::checksum::{checksum, PREAMBLE_START};
use crate::refusal::Refusal;
use std::ops::RangeInclusive;

/// Segments that a preamble has places for.
pub const SEGMENTS: usize = 4;

/// Most bytes of a single segment.
pub const SEGMENT_LIMIT: u32 = 1_048_576;

/// Most bytes of all segments together.
pub const FRAME_LIMIT: u64 = 2_097_152;

const TAGS: RangeInclusive<u8> = 1..=20;
const COUNT_FIELD: usize = 1;
const PREAMBLE_CHECKED: usize = 28;
const FIRST_SEGMENT_FIELD: usize = 2;
const SEGMENT_FIELD_LENGTH: usize = 6;
const ALIGNMENT_OFFSET: usize = 4;
const FLAGS_AND_RESERVED: RangeInclusive<usize> = 26..=27;

/// Bytes of a preamble with its checksum.
pub const PREAMBLE_LENGTH: usize = 32;

#[derive(Clone, Copy, Debug, Default, PartialEq, Eq)]
pub struct Segment {
    pub length: u32,
    pub alignment: u16,
}

#[derive(Clone, Copy, Debug, PartialEq, Eq)]
pub struct Frame {
    pub tag: u8,
    pub count: u8,
    pub segments: [Segment; SEGMENTS],
}

/// Writes a preamble's checksum behind the bytes it covers.
pub fn put_preamble_checksum(preamble: &mut [u8; PREAMBLE_LENGTH]) {
    let (checked, field) = preamble.split_at_mut(PREAMBLE_CHECKED);
    field.copy_from_slice(&checksum(PREAMBLE_START, checked).to_le_bytes());
}

/// The byte of a preamble at which the length of the segment at the place
/// begins.
const fn length_field(place: usize) -> usize {
    FIRST_SEGMENT_FIELD + place * SEGMENT_FIELD_LENGTH
}

/// And its alignment.
const fn alignment_field(place: usize) -> usize {
    length_field(place) + ALIGNMENT_OFFSET
}

impl Segment {
    /// The segment at the given place of a preamble.
    fn read(preamble: &[u8; PREAMBLE_LENGTH], place: usize) -> Self {
        let start = length_field(place);
        let field = &preamble[start..start + SEGMENT_FIELD_LENGTH];
        Self {
            length: u32::from_le_bytes([field[0], field[1], field[2], field[3]]),
            alignment: u16::from_le_bytes([field[4], field[5]]),
        }
    }
}

impl Frame {
    /// Reads a preamble; the order of the judgements decides which number one
    /// with several faults gets.
    pub fn read(preamble: &[u8; PREAMBLE_LENGTH]) -> Result<Self, Refusal> {
        let (checked, field) = preamble.split_at(PREAMBLE_CHECKED);
        if checksum(PREAMBLE_START, checked).to_le_bytes() != field {
            return Err(Refusal::preamble_checksum(PREAMBLE_CHECKED));
        }
        let frame = Self {
            tag: preamble[0],
            count: preamble[1],
            segments: std::array::from_fn(|place| Segment::read(preamble, place)),
        };
        frame.judge_shape()?;
        if let Some(at) = FLAGS_AND_RESERVED.into_iter().find(|&at| preamble[at] != 0) {
            return Err(Refusal::flags(at));
        }
        frame.judge_tag()?;
        frame.judge_limits()?;
        Ok(frame)
    }

    /// Bytes at the store's front that a frame needs, and that a refused or
    /// dropped one leaves zeroed.
    pub fn store_needed(&self) -> u64 {
        self.sum()
    }

    /// Judges the length of the store lent for this frame.
    pub fn judge_store(&self, length: usize) -> Result<(), Refusal> {
        let needed = self.store_needed();
        if needed <= length as u64 {
            Ok(())
        } else {
            Err(Refusal::store_short(needed))
        }
    }

    /// Zeros what the frame used of the store.
    pub fn wipe(&self, store: &mut [u8]) {
        store[..self.store_needed() as usize].fill(0);
    }

    /// Bytes of all segments in front of the place, counted from 0.
    pub fn sum_before(&self, place: usize) -> usize {
        let before = self.segments[..place].iter();
        before.map(|s| s.length as usize).sum()
    }

    /// The segment at the place, out of all of them one after the other.
    pub fn segment<'a>(&self, place: usize, segments: &'a [u8]) -> &'a [u8] {
        let start = self.sum_before(place);
        &segments[start..start + self.segments[place].length as usize]
    }

    /// The sum of the four lengths; in 64 bits it can't wrap.
    pub fn sum(&self) -> u64 {
        self.segments.iter().map(|s| u64::from(s.length)).sum()
    }

    /// Whether the place, counted from 0, is that of a used segment.
    pub fn uses(&self, place: usize) -> bool {
        place < usize::from(self.count)
    }

    pub fn judge_shape(&self) -> Result<(), Refusal> {
        let count = usize::from(self.count);
        if !(1..=SEGMENTS).contains(&count) {
            return Err(Refusal::shape(COUNT_FIELD));
        }
        if count > 1 && self.segments[count - 1].length == 0 {
            return Err(Refusal::shape(length_field(count - 1)));
        }
        for place in count..SEGMENTS {
            if self.segments[place].length != 0 {
                return Err(Refusal::shape(length_field(place)));
            }
            if self.segments[place].alignment != 0 {
                return Err(Refusal::shape(alignment_field(place)));
            }
        }
        Ok(())
    }

    pub fn judge_tag(&self) -> Result<(), Refusal> {
        if TAGS.contains(&self.tag) {
            Ok(())
        } else {
            Err(Refusal::tag(self.tag))
        }
    }

    /// Each length is judged by itself first, and only then the running sum.
    pub fn judge_limits(&self) -> Result<(), Refusal> {
        let is_long = |place: &usize| self.segments[*place].length > SEGMENT_LIMIT;
        let mut sum = 0;
        let passes = |place: &usize| {
            sum += u64::from(self.segments[*place].length);
            sum > FRAME_LIMIT
        };
        let fault = (0..SEGMENTS)
            .find(is_long)
            .or_else(|| (0..SEGMENTS).find(passes));
        fault.map_or(Ok(()), |place| Err(Refusal::limit(length_field(place))))
    }

    /// The preamble; flags and the reserved byte stay 0.
    pub fn preamble(&self) -> [u8; PREAMBLE_LENGTH] {
        let mut bytes = [0; PREAMBLE_LENGTH];
        bytes[..FIRST_SEGMENT_FIELD].copy_from_slice(&[self.tag, self.count]);
        let fields = bytes[FIRST_SEGMENT_FIELD..].chunks_exact_mut(SEGMENT_FIELD_LENGTH);
        for (field, segment) in fields.zip(&self.segments) {
            field[..4].copy_from_slice(&segment.length.to_le_bytes());
            field[4..].copy_from_slice(&segment.alignment.to_le_bytes());
        }
        put_preamble_checksum(&mut bytes);
        bytes
    }
}

#[cfg(test)]
mod tests {
    use super::*;

    fn frame(count: u8, lengths: [u32; SEGMENTS]) -> Frame {
        let segments = lengths.map(|length| Segment {
            length,
            alignment: 0,
        });
        Frame {
            tag: 17,
            count,
            segments,
        }
    }

    #[test]
    fn preamble_is_laid_out_field_by_field() {
        let mut made = frame(3, [0x0102, 0, 0x03, 0]);
        made.segments[0].alignment = 0x0A0B;
        made.segments[2].alignment = 8;
        let bytes = made.preamble();
        let fields = [
            17, 3, // tag, count
            0x02, 0x01, 0, 0, 0x0B, 0x0A, // segment 1
            0, 0, 0, 0, 0, 0, // segment 2
            0x03, 0, 0, 0, 8, 0, // segment 3
            0, 0, 0, 0, 0, 0, // segment 4, unused
            0, 0, // flags, reserved
        ];
        assert_eq!(bytes[..28], fields);
        // A checksum from start 0 that runs over its own bytes too ends at 0.
        assert_eq!(bytes.len(), PREAMBLE_LENGTH);
        assert_eq!(checksum(PREAMBLE_START, &bytes), 0);
    }

    #[test]
    fn a_preamble_reads_back() {
        let mut made = frame(3, [0x0102, 0, 0x03, 0]);
        made.segments[0].alignment = 0x0A0B;
        made.segments[1].alignment = 0xFFFF;
        assert_eq!(Frame::read(&made.preamble()), Ok(made));
    }

    #[test]
    fn a_refusal_says_which_field() {
        let fault = |change: fn(&mut Frame)| {
            let mut made = frame(2, [1, 1, 0, 0]);
            change(&mut made);
            let refusal = Frame::read(&made.preamble()).unwrap_err();
            (refusal.number, refusal.detail[0])
        };
        assert_eq!(fault(|f| f.count = 0), (6, 1));
        assert_eq!(fault(|f| f.count = 5), (6, 1));
        assert_eq!(fault(|f| f.count = 1), (6, 8));
        assert_eq!(fault(|f| f.count = 4), (6, 20));
        assert_eq!(fault(|f| f.segments[1].length = 0), (6, 8));
        assert_eq!(fault(|f| f.segments[2].alignment = 1), (6, 18));
        assert_eq!(fault(|f| f.segments[3].length = 1), (6, 20));
        assert_eq!(fault(|f| f.segments[3].alignment = 1), (6, 24));
        assert_eq!(fault(|f| f.segments[0].length = 1_048_577), (9, 2));
        assert_eq!(fault(|f| f.segments[1].length = u32::MAX), (9, 8));
        let sums = |lengths| frame(4, lengths).judge_limits().map_err(|r| r.detail[0]);
        assert_eq!(sums([1_048_576, 1_048_576, 0, 1]), Err(20));
        assert_eq!(sums([1_048_576, 1_048_575, 2, 1]), Err(14));
        assert_eq!(sums([1_048_576, 1_048_576, 1, 1_048_577]), Err(20));
        assert_eq!(sums([1_048_576, 1_048_575, 0, 1]), Ok(()));
    }

    #[test]
    fn flags_are_named_before_the_reserved_byte() {
        let fault = |flags, reserved| {
            let mut bytes = frame(1, [0; SEGMENTS]).preamble();
            bytes[26..28].copy_from_slice(&[flags, reserved]);
            put_preamble_checksum(&mut bytes);
            Frame::read(&bytes).map_err(|r| (r.number, r.detail[0]))
        };
        assert_eq!(fault(1, 1), Err((7, 26)));
        assert_eq!(fault(0, 1), Err((7, 27)));
        assert_eq!(Frame::read(&[1; 32]), Err(Refusal::preamble_checksum(28)));
    }

    #[test]
    fn the_first_fault_of_a_preamble_gives_the_number() {
        let number = |change: fn(&mut [u8; PREAMBLE_LENGTH]), checked: bool| {
            let mut bytes = frame(2, [1, 1, 0, 0]).preamble();
            change(&mut bytes);
            if checked {
                put_preamble_checksum(&mut bytes);
            }
            Frame::read(&bytes).map_err(|refusal| refusal.number)
        };
        assert_eq!(number(|b| b[..].fill(0), false), Err(6));
        assert_eq!(number(|b| b[1..28].fill(0xFF), false), Err(5));
        assert_eq!(number(|b| b[0..28].fill(0xFF), true), Err(6));
        assert_eq!(number(|b| (b[0], b[4], b[26]) = (0, 0xFF, 1), true), Err(7));
        assert_eq!(number(|b| (b[0], b[4], b[27]) = (0, 0xFF, 1), true), Err(7));
        assert_eq!(number(|b| (b[0], b[4]) = (21, 0xFF), true), Err(8));
        assert_eq!(number(|b| b[4] = 0xFF, true), Err(9));
    }

    #[test]
    fn the_store_holds_the_segments_one_after_the_other() {
        let frame = frame(4, [2, 0, 3, 1]);
        let store = [10, 11, 12, 13, 14, 15, 16, 17];
        assert_eq!(frame.segment(0, &store), [10, 11]);
        assert_eq!(frame.segment(1, &store), []);
        assert_eq!(frame.segment(2, &store), [12, 13, 14]);
        assert_eq!(frame.segment(3, &store), [15]);
        assert_eq!(frame.judge_store(5), Err(Refusal::store_short(6)));
        assert_eq!(frame.judge_store(6), Ok(()));
        let mut wiped = store;
        frame.wipe(&mut wiped);
        assert_eq!(wiped, [0, 0, 0, 0, 0, 0, 16, 17]);
    }

    #[test]
    fn shape() {
        let good = |count, lengths| frame(count, lengths).judge_shape().is_ok();
        assert!(good(1, [0, 0, 0, 0]) && good(2, [0, 1, 0, 0]) && good(4, [0, 0, 0, 1]));
        assert!(!good(0, [0, 0, 0, 0]) && !good(5, [1, 1, 1, 1]));
        assert!(!good(2, [5, 0, 0, 0]) && !good(1, [0, 1, 0, 0]));
        let mut aligned = frame(1, [0, 0, 0, 0]);
        aligned.segments[0].alignment = 9;
        assert!(aligned.judge_shape().is_ok());
        aligned.segments[1].alignment = 1;
        assert!(aligned.judge_shape().is_err());
    }

    #[test]
    fn limits() {
        let good = |lengths| frame(4, lengths).judge_limits().is_ok();
        assert!(good([1_048_576, 1_048_576, 0, 0]) && good([524_288; 4]));
        assert!(!good([1_048_577, 0, 0, 1]) && !good([1_048_576, 1_048_576, 1, 0]));
        assert!(!good([0x4000_0000; 4]) && !good([0xFFFF_FFFF, 1, 0, 0]));
    }
}
