//! Where the fields of a banner and of a frame stand in its bytes.

use mahuixen::{Header, Revision, Segment};
use std::ops::Range;

/// Bytes of a preamble.
pub const PREAMBLE: usize = 32;

/// How a banner begins.
pub const MAGIC: &[u8] = b"ceph v2\n";

/// The fields of a banner.
pub const PAYLOAD_LENGTH: Range<usize> = 8..10;
pub const SUPPORTED: Range<usize> = 10..18;
pub const REQUIRED: Range<usize> = 18..26;

/// The four lengths and alignments of a preamble, and its checksum.
pub const SEGMENTS: Range<usize> = 2..26;
pub const PREAMBLE_CHECKSUM: Range<usize> = 28..32;

/// The little-endian number in a field; bytes that are not there count as 0.
pub fn number(bytes: &[u8], field: Range<usize>) -> u64 {
    let digits = field.rev().map(|place| bytes.get(place).copied());
    digits.fold(0, |number, digit| {
        number << 8 | u64::from(digit.unwrap_or(0))
    })
}

/// The field of a preamble that stands at a place.
pub fn preamble_field(place: usize) -> (String, Range<usize>) {
    let segment = (place.saturating_sub(2)) / 6 + 1;
    match (place, place.saturating_sub(2) % 6) {
        (0, _) => ("the tag".to_string(), 0..1),
        (1, _) => ("the segment count".to_string(), 1..2),
        (2..=25, 0..=3) => {
            let first = 6 * segment - 4;
            (format!("segment {segment}'s length"), first..first + 4)
        }
        (2..=25, _) => {
            let first = 6 * segment;
            (format!("segment {segment}'s alignment"), first..first + 2)
        }
        (26, _) => ("the flags byte".to_string(), 26..27),
        (27, _) => ("the reserved byte".to_string(), 27..28),
        _ => ("the checksum".to_string(), PREAMBLE_CHECKSUM),
    }
}

/// A frame whose preamble has come.
#[derive(Clone, Copy, Debug)]
pub struct Frame {
    pub revision: Revision,
    pub header: Header,
}

impl Frame {
    /// The frame that begins with these bytes, if its preamble is among them.
    pub fn read(revision: Revision, bytes: &[u8]) -> Option<Self> {
        let preamble = bytes.get(..PREAMBLE)?;
        let mut segments = [Segment::default(); 4];
        for (segment, field) in segments.iter_mut().zip(preamble[SEGMENTS].chunks(6)) {
            *segment = Segment::new(number(field, 0..4) as u32, number(field, 4..6) as u16);
        }
        let header = Header {
            tag: preamble[0],
            count: preamble[1],
            segments,
        };
        Some(Self { revision, header })
    }

    fn length(&self, segment: usize) -> usize {
        self.header.segments[segment - 1].len as usize
    }

    /// Bytes of the checksum that stands behind segment 1.
    fn first_checksum(&self) -> usize {
        match self.revision {
            Revision::Msgr21 if self.length(1) > 0 => 4,
            _ => 0,
        }
    }

    /// Where a segment, 1 to 4, stands in the frame.
    pub fn segment(&self, segment: usize) -> Range<usize> {
        let before: usize = (1..segment).map(|before| self.length(before)).sum();
        let checksum = if segment > 1 {
            self.first_checksum()
        } else {
            0
        };
        let first = PREAMBLE + before + checksum;
        first..first + self.length(segment)
    }

    /// Where the late flags or the late status stand, if the frame has them.
    pub fn late(&self) -> usize {
        self.segment(4).end
    }

    /// Where the checksum of a segment, 1 to 4, stands.
    pub fn checksum(&self, segment: usize) -> Range<usize> {
        let first = match (self.revision, segment) {
            (Revision::Msgr20, _) => self.late() + 1 + 4 * (segment - 1),
            (Revision::Msgr21, 1) => self.segment(1).end,
            (Revision::Msgr21, _) => self.late() + 1 + 4 * (segment - 2),
        };
        first..first + 4
    }

    /// Bytes of the whole frame.
    pub fn length_on_the_wire(&self) -> usize {
        match self.revision {
            Revision::Msgr20 => self.late() + 17,
            Revision::Msgr21 if self.header.count > 1 => self.late() + 13,
            Revision::Msgr21 => PREAMBLE + self.length(1) + self.first_checksum(),
        }
    }
}

#[cfg(test)]
mod tests {
    use super::*;

    /// A frame of these lengths, as many segments as there are.
    fn frame(revision: Revision, lengths: &[u32]) -> Frame {
        let segments: Vec<_> = lengths.iter().map(|len| Segment::new(*len, 8)).collect();
        let header = Header::new(17, &segments);
        Frame { revision, header }
    }

    #[test]
    fn numbers() {
        assert_eq!(number(&[1, 2, 3, 4, 5], 1..3), 0x302);
        assert_eq!(number(&[1, 2], 1..5), 2);
        assert_eq!(number(&[0xFF; 8], 0..8), u64::MAX);
    }

    /// The lengths of the protocol document's examples.
    #[test]
    fn lengths_on_the_wire() {
        let cases: [(&[u32], usize, usize); 5] = [
            (&[0], 32, 49),
            (&[20], 56, 69),
            (&[0, 70], 115, 119),
            (&[20, 70, 0, 350], 489, 489),
            (&[5, 3], 57, 57),
        ];
        for (lengths, new, old) in cases {
            assert_eq!(frame(Revision::Msgr21, lengths).length_on_the_wire(), new);
            assert_eq!(frame(Revision::Msgr20, lengths).length_on_the_wire(), old);
        }
    }

    #[test]
    fn places() {
        let new = frame(Revision::Msgr21, &[20, 70, 0, 350]);
        assert_eq!(new.segment(1), 32..52);
        assert_eq!(new.checksum(1), 52..56);
        assert_eq!((new.segment(2), new.segment(4)), (56..126, 126..476));
        assert_eq!((new.late(), new.checksum(2)), (476, 477..481));
        assert_eq!(new.checksum(4), 485..489);
        let old = frame(Revision::Msgr20, &[20, 70, 0, 350]);
        assert_eq!((old.segment(2), old.late()), (52..122, 472));
        assert_eq!((old.checksum(1), old.checksum(4)), (473..477, 485..489));
    }

    #[test]
    fn fields_of_a_preamble() {
        let field = |place| preamble_field(place);
        assert_eq!(field(1), ("the segment count".to_string(), 1..2));
        assert_eq!(field(2), ("segment 1's length".to_string(), 2..6));
        assert_eq!(field(6), ("segment 1's alignment".to_string(), 6..8));
        assert_eq!(field(20), ("segment 4's length".to_string(), 20..24));
        assert_eq!(field(24), ("segment 4's alignment".to_string(), 24..26));
        assert_eq!(field(26), ("the flags byte".to_string(), 26..27));
        assert_eq!(field(28), ("the checksum".to_string(), 28..32));
    }

    #[test]
    fn a_frame_reads_its_preamble() {
        let mut bytes = [0; 32];
        bytes[..8].copy_from_slice(&[17, 2, 5, 1, 0, 0, 8, 0]);
        bytes[8..14].copy_from_slice(&[3, 0, 0, 0, 0, 16]);
        let read = Frame::read(Revision::Msgr21, &bytes).expect("a preamble");
        let header = Header::new(17, &[Segment::new(261, 8), Segment::new(3, 4_096)]);
        assert_eq!(read.header, header);
        assert!(Frame::read(Revision::Msgr21, &bytes[..31]).is_none());
    }
}
