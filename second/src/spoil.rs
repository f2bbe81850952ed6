//! A frame on the wire whose parts can be changed one by one.

use crate::frame::{put_preamble_checksum, Frame, PREAMBLE_LENGTH};
use crate::wire::{epilogue_length, first_checksum_length, frame_bytes};
use crate::wire::{Revision, CHECKSUM_LENGTH};

pub mod sealed;

#[derive(Clone, Debug)]
pub struct WireFrame {
    pub revision: Revision,
    pub frame: Frame,
    pub bytes: Vec<u8>,
}

impl WireFrame {
    /// A good frame; `source` holds its segments one after the other.
    pub fn new(revision: Revision, frame: Frame, abort: bool, source: &[u8]) -> Self {
        Self {
            revision,
            frame,
            bytes: frame_bytes(revision, &frame, abort, source),
        }
    }

    /// The preamble alone, whatever its fields.
    pub fn preamble_only(revision: Revision, frame: Frame) -> Self {
        Self {
            revision,
            frame,
            bytes: frame.preamble().to_vec(),
        }
    }

    /// Changes the preamble and gives it a good checksum again.
    pub fn change_preamble(&mut self, change: impl FnOnce(&mut [u8; PREAMBLE_LENGTH])) {
        let preamble = self.bytes.first_chunk_mut().expect("a preamble");
        change(preamble);
        put_preamble_checksum(preamble);
    }

    /// The bytes of a segment, its place counted from 0.
    pub fn segment_mut(&mut self, place: usize) -> &mut [u8] {
        let mut start = PREAMBLE_LENGTH + self.frame.sum_before(place);
        if place > 0 {
            start += first_checksum_length(self.revision, &self.frame);
        }
        let length = self.frame.segments[place].length as usize;
        &mut self.bytes[start..start + length]
    }

    fn epilogue_mut(&mut self) -> &mut [u8] {
        let start = self.bytes.len() - epilogue_length(self.revision, &self.frame);
        &mut self.bytes[start..]
    }

    /// The late flags or the late status, where there is one.
    pub fn late_byte_mut(&mut self) -> Option<&mut u8> {
        self.epilogue_mut().first_mut()
    }

    /// The checksum field of a segment, used or not, where there is one.
    pub fn checksum_mut(&mut self, place: usize) -> Option<&mut [u8]> {
        let behind_first = self.revision == Revision::Msgr21;
        if behind_first && place == 0 {
            let length = first_checksum_length(self.revision, &self.frame);
            let start = PREAMBLE_LENGTH + self.frame.sum_before(1);
            return (length > 0).then(|| &mut self.bytes[start..start + length]);
        }
        let start = 1 + CHECKSUM_LENGTH * (place - usize::from(behind_first));
        self.epilogue_mut().get_mut(start..start + CHECKSUM_LENGTH)
    }
}

#[cfg(test)]
mod tests {
    use super::*;
    use crate::frame::Segment;

    fn frame(revision: Revision, lengths: [u32; 4]) -> WireFrame {
        let count = 4 - lengths.iter().rev().take_while(|l| **l == 0).count();
        let segments = lengths.map(|length| Segment {
            length,
            alignment: 0,
        });
        let frame = Frame {
            tag: 1,
            count: count as u8,
            segments,
        };
        let source: Vec<u8> = (1..=frame.sum() as u8).collect();
        WireFrame::new(revision, frame, false, &source)
    }

    /// Where a part of the frame lies, found by changing it.
    fn changed(frame: &WireFrame, change: impl FnOnce(&mut WireFrame)) -> Vec<usize> {
        let mut other = frame.clone();
        change(&mut other);
        let places = 0..frame.bytes.len();
        places
            .filter(|place| other.bytes[*place] != frame.bytes[*place])
            .collect()
    }

    fn flip(bytes: &mut [u8]) {
        bytes.iter_mut().for_each(|byte| *byte ^= 0xFF);
    }

    #[test]
    fn parts_of_msgr21() {
        let made = frame(Revision::Msgr21, [2, 0, 3, 0]);
        assert_eq!(changed(&made, |f| flip(f.segment_mut(0))), [32, 33]);
        let first = changed(&made, |f| flip(f.checksum_mut(0).unwrap()));
        assert_eq!(first, [34, 35, 36, 37]);
        assert_eq!(changed(&made, |f| flip(f.segment_mut(2))), [38, 39, 40]);
        assert_eq!(changed(&made, |f| *f.late_byte_mut().unwrap() = 0), [41]);
        let second = changed(&made, |f| flip(f.checksum_mut(1).unwrap()));
        assert_eq!(second, [42, 43, 44, 45]);
        let fourth = changed(&made, |f| flip(f.checksum_mut(3).unwrap()));
        assert_eq!(fourth, [50, 51, 52, 53]);
    }

    #[test]
    fn parts_of_msgr20() {
        let made = frame(Revision::Msgr20, [2, 0, 3, 0]);
        assert_eq!(changed(&made, |f| flip(f.segment_mut(2))), [34, 35, 36]);
        assert_eq!(changed(&made, |f| *f.late_byte_mut().unwrap() = 1), [37]);
        let first = changed(&made, |f| flip(f.checksum_mut(0).unwrap()));
        assert_eq!(first, [38, 39, 40, 41]);
        let fourth = changed(&made, |f| flip(f.checksum_mut(3).unwrap()));
        assert_eq!(fourth, [50, 51, 52, 53]);
    }

    #[test]
    fn parts_that_are_missing() {
        let mut single = frame(Revision::Msgr21, [2, 0, 0, 0]);
        assert!(single.late_byte_mut().is_none() && single.checksum_mut(1).is_none());
        let mut double = frame(Revision::Msgr21, [0, 1, 0, 0]);
        assert!(double.checksum_mut(0).is_none() && double.checksum_mut(1).is_some());
    }

    #[test]
    fn a_changed_preamble_is_good_again() {
        let mut made = frame(Revision::Msgr21, [2, 0, 3, 0]);
        made.change_preamble(|preamble| preamble[0] = 9);
        let read = Frame::read(made.bytes.first_chunk().unwrap());
        assert_eq!(read.map(|frame| frame.tag), Ok(9));
    }
}
