//! Sealed frames as they arrive: the first part is held until it is whole, the
//! later ones come into the store and are opened there.

use crate::epilogue::{judge_late_byte, Ending};
use crate::frame::Frame;
use crate::refusal::Refusal;
use crate::report::Report;
use crate::secure::{judge_store, last_length, padded, rest_length, store_needed, wipe};
use crate::secure::{Direction, INLINE_LENGTH};
use crate::wire::Revision;
use std::collections::VecDeque;

/// Takes off the front of an opened text as many bytes as a segment or the late
/// status has, padded. Answers them, and whether their padding is zero.
fn unpadded<'a>(text: &mut &'a [u8], length: usize) -> (&'a [u8], bool) {
    let (mine, behind) = text.split_at(padded(length));
    *text = behind;
    let (bytes, padding) = mine.split_at(length);
    (bytes, padding.iter().all(|&byte| byte == 0))
}

fn judge_padding(is_zero: bool) -> Result<(), Refusal> {
    if is_zero {
        Ok(())
    } else {
        Err(Refusal::padding())
    }
}

/// A part behind the first.
#[derive(Clone, Copy, Debug, PartialEq, Eq)]
enum LaterPart {
    /// What of segment 1 isn't inline.
    Rest,
    /// The other segments and the epilogue.
    Last,
}

/// What an opened part holds: segment bytes, and how the frame ends by it.
type Opened = (Vec<u8>, Ending);

/// A sealed frame behind its first part.
#[derive(Clone, Debug, PartialEq, Eq)]
pub struct SealedBody {
    pub frame: Frame,
    pub direction: Direction,
    /// What is still to come, the part under way first.
    parts: VecDeque<LaterPart>,
    /// Segment bytes at the store's front that are opened.
    opened: usize,
    /// Bytes behind them of the part under way, still sealed.
    sealed: usize,
}

impl SealedBody {
    /// Opens and judges the first part, and puts what stands inline in the
    /// store. A refusal leaves the store as it is.
    pub fn begin(
        mut direction: Direction,
        first: &[u8],
        store: &mut [u8],
    ) -> Result<Self, Refusal> {
        let text = direction.open(first)?;
        let (preamble, inline) = text.split_first_chunk().expect("a whole preamble");
        let frame = Frame::read(preamble)?;
        judge_store(&frame, store.len())?;
        let opened = frame.sum_before(1).min(INLINE_LENGTH);
        let (bytes, padding) = inline.split_at(opened);
        judge_padding(padding.iter().all(|&byte| byte == 0))?;
        store[..opened].copy_from_slice(bytes);
        let rest = rest_length(&frame).map(|_| LaterPart::Rest);
        let last = last_length(&frame).map(|_| LaterPart::Last);
        Ok(Self {
            frame,
            direction,
            parts: [rest, last].into_iter().flatten().collect(),
            opened,
            sealed: 0,
        })
    }

    /// Bytes of the part under way on the wire, with its tag.
    fn part_length(&self) -> usize {
        let length = match self.parts[0] {
            LaterPart::Rest => rest_length(&self.frame),
            LaterPart::Last => last_length(&self.frame),
        };
        length.expect("a part that the frame has")
    }

    /// Bytes missing from the part under way.
    pub fn wanted(&self) -> usize {
        self.part_length() - self.sealed
    }

    pub fn take(&mut self, bytes: &[u8], store: &mut [u8]) {
        let start = self.opened + self.sealed;
        store[start..start + bytes.len()].copy_from_slice(bytes);
        self.sealed += bytes.len();
    }

    fn judge_rest(&self, mut text: &[u8]) -> Result<Opened, Refusal> {
        let length = self.frame.sum_before(1) - INLINE_LENGTH;
        let (bytes, is_zero) = unpadded(&mut text, length);
        judge_padding(is_zero)?;
        Ok((bytes.to_vec(), Ending::Complete))
    }

    /// The late status comes before the padding, and that of an aborted frame is
    /// judged too.
    fn judge_last(&self, mut text: &[u8]) -> Result<Opened, Refusal> {
        let mut segments = Vec::new();
        let mut all_zero = true;
        for segment in &self.frame.segments[1..] {
            let (bytes, is_zero) = unpadded(&mut text, segment.length as usize);
            segments.extend(bytes);
            all_zero &= is_zero;
        }
        let (late, is_zero) = unpadded(&mut text, 1);
        let ending = judge_late_byte(Revision::Msgr21, late[0])?;
        judge_padding(all_zero && is_zero)?;
        Ok((segments, ending))
    }

    /// Opens the store's own bytes of the part that is now complete.
    fn open_part(&mut self, store: &[u8]) -> Result<Opened, Refusal> {
        let sealed = &store[self.opened..self.opened + self.sealed];
        let text = self.direction.open(sealed)?;
        match self.parts[0] {
            LaterPart::Rest => self.judge_rest(&text),
            LaterPart::Last => self.judge_last(&text),
        }
    }

    /// Leaves a complete part: its segment bytes stay where it began, and zeros
    /// behind them to its end.
    pub fn finish_part(&mut self, store: &mut [u8]) -> Result<Option<Report>, Refusal> {
        let (bytes, ending) = match self.open_part(store) {
            Ok(opened) => opened,
            Err(refusal) => {
                wipe(&self.frame, store);
                return Err(refusal);
            }
        };
        let part = &mut store[self.opened..self.opened + self.sealed];
        part.fill(0);
        part[..bytes.len()].copy_from_slice(&bytes);
        self.opened += bytes.len();
        self.sealed = 0;
        self.parts.pop_front();
        match ending {
            Ending::Complete => Ok(self.report(store)),
            Ending::Aborted => {
                wipe(&self.frame, store);
                Ok(Some(Report::Dropped(self.frame)))
            }
        }
    }

    /// The frame's report, once no part is left to come: then what the frame
    /// needs of the store is zero behind its segments.
    pub fn report(&self, store: &mut [u8]) -> Option<Report> {
        if !self.parts.is_empty() {
            return None;
        }
        store[self.opened..store_needed(&self.frame)].fill(0);
        Some(Report::Frame(self.frame))
    }
}

#[cfg(test)]
mod tests;
