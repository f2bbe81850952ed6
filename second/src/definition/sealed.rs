//! The entries of sealed frames. At every byte the store is what it was when the
//! frame began, but for what the frame's bytes up to there put at its front.

use super::{List, Switch};
use crate::epilogue::{judge_late_byte, Ending};
use crate::frame::{Frame, PREAMBLE_LENGTH};
use crate::refusal::Refusal;
use crate::report::Report;
use crate::secure::{judge_store, padded, part_lengths, store_needed, texts};
use crate::secure::{Direction, EPILOGUE_LENGTH, FIRST_PART_LENGTH, INLINE_LENGTH};
use crate::wire::Revision;

/// What the bytes of a sealed frame have put at the store's front.
struct Front {
    /// Segment bytes of the parts that are opened, one behind the other.
    opened: Vec<u8>,
    /// How far zeros reach behind them.
    zeros_to: usize,
    /// The bytes that came of the part under way, behind the opened ones.
    sealed: Vec<u8>,
}

impl Front {
    /// The store that was `before` when the frame began.
    fn over(&self, before: &[u8]) -> Vec<u8> {
        let front = [self.opened.as_slice(), &self.sealed].concat();
        let mut store = before.to_vec();
        let zeros_from = self.opened.len().min(self.zeros_to);
        store[zeros_from..self.zeros_to].fill(0);
        store[..front.len()].copy_from_slice(&front);
        store
    }

    /// A drop or a refusal behind the first part.
    fn zeros(frame: &Frame) -> Self {
        Self {
            opened: Vec::new(),
            zeros_to: store_needed(frame),
            sealed: Vec::new(),
        }
    }
}

/// The first part's text: the frame and the bytes of segment 1 that stand inline.
/// Padding is what the text holds besides: one that we would not have written so.
fn judge_first(text: &[u8], store_length: usize) -> Result<(Frame, Vec<u8>), Refusal> {
    let preamble = text.first_chunk::<PREAMBLE_LENGTH>();
    let frame = Frame::read(preamble.expect("a whole preamble"))?;
    judge_store(&frame, store_length)?;
    let inlined = frame.sum_before(1).min(INLINE_LENGTH);
    let inline = &text[PREAMBLE_LENGTH..PREAMBLE_LENGTH + inlined];
    let mut source = inline.to_vec();
    source.resize(frame.sum() as usize, 0);
    if texts(&frame, false, &source)[0] != text {
        return Err(Refusal::padding());
    }
    Ok((frame, inline.to_vec()))
}

/// The text of the rest of segment 1.
fn judge_rest(frame: &Frame, text: &[u8]) -> Result<Vec<u8>, Refusal> {
    let rest = &text[..frame.sum_before(1) - INLINE_LENGTH];
    let mut source = vec![0; INLINE_LENGTH];
    source.extend(rest);
    source.resize(frame.sum() as usize, 0);
    if texts(frame, false, &source)[1] != text {
        return Err(Refusal::padding());
    }
    Ok(rest.to_vec())
}

/// The text of the other segments and the epilogue.
fn judge_last(frame: &Frame, text: &[u8]) -> Result<(Vec<u8>, Ending), Refusal> {
    let late = text[text.len() - EPILOGUE_LENGTH];
    let ending = judge_late_byte(Revision::Msgr21, late)?;
    let mut source = vec![0; frame.sum_before(1)];
    let mut place = 0;
    for segment in &frame.segments[1..] {
        let length = segment.length as usize;
        source.extend(&text[place..place + length]);
        place += padded(length);
    }
    let mut ours = texts(frame, false, &source).pop().expect("a last part");
    ours[place] = late;
    if ours != text {
        return Err(Refusal::padding());
    }
    Ok((source.split_off(frame.sum_before(1)), ending))
}

/// A later part's segment bytes, and what is reported at its last byte.
fn judge_later(frame: &Frame, is_rest: bool, text: &[u8]) -> Result<(Vec<u8>, Ending), Refusal> {
    if is_rest {
        Ok((judge_rest(frame, text)?, Ending::Complete))
    } else {
        judge_last(frame, text)
    }
}

impl List {
    /// The entries of sealed frames from the place on, until the list ends.
    pub fn push_sealed_frames(&mut self, switch: &Switch, stream: &[u8], mut place: usize) {
        let mut direction = Direction::new(switch.key, switch.nonce, switch.opened);
        while let Some(next) = self.push_sealed(&mut direction, &stream[place..], place) {
            place = next;
        }
    }

    /// The entry of the sealed frame that `wire` begins with, which is the stream
    /// from the place on; answers where the next one begins, if the list goes on.
    fn push_sealed(
        &mut self,
        direction: &mut Direction,
        wire: &[u8],
        place: usize,
    ) -> Option<usize> {
        let first = wire.get(..FIRST_PART_LENGTH)?;
        let judged = direction.open(first);
        let (frame, inline) = match judged.and_then(|text| judge_first(&text, self.store.len())) {
            Ok(judged) => judged,
            Err(refusal) => {
                self.push(Report::Refused(refusal), place + FIRST_PART_LENGTH);
                return None;
            }
        };
        let before = self.store.clone();
        let mut front = Front {
            opened: inline,
            zeros_to: 0,
            sealed: Vec::new(),
        };
        let mut end = FIRST_PART_LENGTH;
        let lengths = part_lengths(&frame);
        for (number, length) in lengths.iter().enumerate().skip(1) {
            let begins = end;
            end += length;
            let Some(sealed) = wire.get(begins..end) else {
                front.sealed = wire[begins..].to_vec();
                self.store = front.over(&before);
                return None;
            };
            let is_rest = number == 1 && frame.sum_before(1) > INLINE_LENGTH;
            let text = direction.open(sealed);
            let report = match text.and_then(|text| judge_later(&frame, is_rest, &text)) {
                Ok((bytes, Ending::Complete)) => {
                    front.zeros_to = front.opened.len() + length;
                    front.opened.extend(bytes);
                    continue;
                }
                Ok((_, Ending::Aborted)) => Report::Dropped(frame),
                Err(refusal) => Report::Refused(refusal),
            };
            self.store = Front::zeros(&frame).over(&before);
            self.push(report, place + end);
            return matches!(report, Report::Dropped(_)).then_some(place + end);
        }
        front.zeros_to = store_needed(&frame);
        self.store = front.over(&before);
        self.push(Report::Frame(frame), place + end);
        Some(place + end)
    }
}

#[cfg(test)]
mod tests;
