//! How a stream is cut into the pieces of a record's calls.

use crate::banner::Features;
use crate::definition::{entries_switched, Entry, Switch};
use crate::input::LARGEST_LENGTH;
use crate::records::{Call, FrameStore};
use crate::report::Report;

/// Where calls on a stream stop, however it is cut.
pub struct Course {
    /// The byte of each entry.
    ends: Vec<usize>,
    /// The byte behind which the switch is made, where one is.
    switch_at: Option<usize>,
    /// Bytes of the stream.
    length: usize,
    /// Bytes that can be taken of it: a refusal leaves the rest.
    last: usize,
}

impl Course {
    pub fn of(own: Features, store: FrameStore, stream: &[u8]) -> Self {
        Self::switched(own, store, stream, None)
    }

    /// The course of a stream with a switch.
    pub fn switched(
        own: Features,
        store: FrameStore,
        stream: &[u8],
        switch: Option<&Switch>,
    ) -> Self {
        let entries = entries_switched(own, stream, &store.bytes(), switch).entries;
        let last = match entries.last() {
            _ if own.judge_own().is_err() => 0,
            Some(entry) if matches!(entry.report, Report::Refused(_)) => entry.byte,
            _ => stream.len(),
        };
        let is_frame =
            |entry: &&Entry| matches!(entry.report, Report::Frame(_) | Report::Dropped(_));
        let frame = |after: usize| entries.iter().filter(is_frame).nth(after.checked_sub(1)?);
        Self {
            ends: entries.iter().map(|entry| entry.byte).collect(),
            switch_at: switch.and_then(|switch| Some(frame(switch.after)?.byte)),
            length: stream.len(),
            last,
        }
    }

    /// Whether calls have taken all they can.
    pub fn has_ended(&self, place: usize) -> bool {
        place >= self.last
    }

    /// Where a call stops that is offered a piece from `place` on.
    pub fn stop(&self, place: usize, piece: u32) -> usize {
        let offered = (place + piece as usize).min(self.last);
        let entry = self.ends.iter().find(|end| **end > place);
        entry.map_or(offered, |end| offered.min(*end))
    }

    /// Pieces that cut the stream at the given places, which must rise. After
    /// a call that stops at an entry, the next is offered the rest up to the
    /// same cut. The calls go on until all is taken that can be.
    pub fn pieces(&self, cuts: impl IntoIterator<Item = usize>) -> Vec<u32> {
        let mut pieces = Vec::new();
        let mut place = 0;
        for cut in cuts.into_iter().chain([self.length]) {
            while place < cut && !self.has_ended(place) {
                let piece = (cut - place).min(LARGEST_LENGTH as usize) as u32;
                pieces.push(piece);
                place = self.stop(place, piece);
            }
        }
        pieces
    }

    /// The calls of such pieces, with the try at the place where the switch is
    /// made.
    pub fn calls(&self, pieces: &[u32], place: u8) -> Vec<Call> {
        let mut calls = Vec::new();
        let mut at = 0;
        for &piece in pieces {
            let before = at;
            at = self.stop(at, piece);
            calls.push(Call::Receive(piece));
            if before < at && self.switch_at == Some(at) {
                calls.push(Call::Switch(place));
            }
        }
        calls
    }

    /// Every call is offered all that is left.
    pub fn whole(&self) -> Vec<u32> {
        self.pieces([])
    }

    pub fn byte_by_byte(&self) -> Vec<u32> {
        self.pieces(1..self.length)
    }

    /// Every entry's byte begins a piece, so that a report one byte early or
    /// late shows.
    pub fn edges(&self) -> Vec<u32> {
        self.pieces(self.ends.iter().map(|end| end - 1))
    }

    /// Cuts right before every entry's byte, at it and right behind it.
    pub fn around(&self) -> Vec<u32> {
        self.pieces(self.ends.iter().flat_map(|end| end - 1..=end + 1))
    }
}

#[cfg(test)]
mod tests {
    use super::*;
    use crate::vectors::{banner, empty, three_whole};
    use crate::wire::Revision;

    const OWN: Features = Features::new(1, 0);
    const STORE: FrameStore = FrameStore { length: 0, fill: 0 };

    /// A banner and two empty msgr2.1 frames: entries at 26, 58 and 90.
    fn stream() -> Vec<u8> {
        let empty = empty(Revision::Msgr21);
        [banner(Revision::Msgr21), empty.clone(), empty].concat()
    }

    #[test]
    fn calls_stop_at_entries() {
        let course = Course::of(OWN, STORE, &stream());
        assert_eq!(course.whole(), [90, 64, 32]);
        assert_eq!(course.pieces([30, 58]), [30, 4, 28, 32]);
        assert_eq!(course.edges(), [25, 32, 31, 32, 31, 1]);
        assert_eq!(course.around(), [25, 1, 1, 30, 1, 1, 30, 1]);
        assert_eq!(course.byte_by_byte(), [1; 90]);
        assert_eq!(course.stop(26, 40), 58);
    }

    #[test]
    fn an_early_report_is_an_entry() {
        let stream = [banner(Revision::Msgr21), three_whole(Revision::Msgr21)].concat();
        let store = FrameStore {
            length: 41,
            fill: 0,
        };
        let course = Course::of(OWN, store, &stream);
        assert_eq!(course.whole(), [116, 90, 45]);
        assert_eq!(course.around(), [25, 1, 1, 43, 1, 1, 43, 1]);
    }

    #[test]
    fn nothing_is_taken_behind_a_refusal() {
        let mut spoilt = stream();
        spoilt[30] ^= 1;
        let course = Course::of(OWN, STORE, &spoilt);
        assert_eq!(course.whole(), [90, 64]);
        assert_eq!(course.stop(58, 9), 58);
        let refused = Course::of(Features::new(2, 0), STORE, &stream());
        assert_eq!(refused.whole(), []);
        assert!(refused.has_ended(0));
    }
}
