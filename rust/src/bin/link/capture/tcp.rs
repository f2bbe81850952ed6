//! What one side of a connection sent, put in order by its sequence numbers.

use super::packet::Segment;
use std::collections::BTreeMap;
use std::time::Duration;

/// A sequence number further away than this, which is the largest window that
/// TCP has, belongs to no byte under way.
const LARGEST_WINDOW: u32 = 1 << 30;

/// One direction of a connection.
///
/// Bytes have places, which do not wrap around as sequence numbers do. The
/// place of the first one seen is 0, so places may be negative.
#[derive(Clone, Debug, Default)]
pub struct Direction<'a> {
    /// The sequence number at place 0.
    origin: Option<u32>,
    /// The place of the stream's first byte, where its SYN was captured.
    start: Option<i64>,
    /// The place behind the highest byte.
    highest: i64,
    /// The bytes by their places; none overlap, and none are empty.
    pieces: BTreeMap<i64, &'a [u8]>,
    /// Where the FIN says that the stream ends.
    fin: Option<i64>,
    /// The place that was reached by the numbers of acknowledgements, the
    /// other side's and the own ones; a FIN counts as a byte.
    reached: i64,
    pub reset: bool,
    pub counts: Counts,
    /// When its first and its last packet were captured.
    pub times: Option<(Duration, Duration)>,
}

/// What was noticed while the segments came.
#[derive(Clone, Copy, Debug, Default, PartialEq, Eq)]
pub struct Counts {
    /// Segments that had bytes.
    pub segments: u64,
    /// Those without a byte that was new, and bytes that came again.
    pub duplicates: u64,
    pub repeated_bytes: u64,
    /// Bytes that came again with another value.
    pub conflicting_bytes: u64,
    /// Segments with new bytes in front of others that were there already.
    pub out_of_order: u64,
    /// Segments that were not captured whole.
    pub truncated: u64,
    /// Segments whose place cannot be right.
    pub out_of_window: u64,
}

/// The bytes from the stream's first one on, up to where some are missing.
#[derive(Clone, Debug, PartialEq, Eq)]
pub struct Run<'a> {
    /// A piece a TCP segment.
    pub pieces: Vec<&'a [u8]>,
    pub length: u64,
    pub gap: Option<Gap>,
}

/// Bytes that are missing behind a run.
#[derive(Clone, Copy, Debug, PartialEq, Eq)]
pub enum Gap {
    /// So many, and behind them are so many bytes in so many pieces.
    Inside {
        missing: u64,
        pieces: u64,
        bytes: u64,
    },
    /// So many at the stream's end, by its FIN or by what the other side
    /// acknowledged.
    AtTheEnd { missing: u64 },
}

impl<'a> Direction<'a> {
    /// The next segment that was captured.
    pub fn take(&mut self, segment: &Segment<'a>, time: Duration) {
        let first = self.times.map_or(time, |(first, _)| first);
        self.times = Some((first, time));
        self.reset |= segment.reset;
        let length = segment.bytes.len() + segment.missing;
        if length == 0 && !segment.syn && !segment.fin {
            // A reset may have any number.
            if !segment.reset {
                self.reach(segment.sequence);
            }
            return;
        }
        let Some(place) = self.place(segment.sequence) else {
            self.counts.out_of_window += 1;
            return;
        };
        // The SYN stands in front of the first byte and has a number too.
        let place = place + i64::from(segment.syn);
        if segment.syn {
            self.start = Some(place);
        }
        self.counts.truncated += u64::from(segment.missing > 0);
        self.insert(place, segment.bytes);
        let end = place + length as i64;
        if segment.fin {
            self.fin = Some(end);
        }
        self.highest = self.highest.max(end);
    }

    /// An acknowledgement shows that all up to this number was sent.
    pub fn reach(&mut self, sequence: u32) {
        if self.origin.is_some() {
            let place = self.place(sequence).unwrap_or(0);
            self.reached = self.reached.max(place);
        }
    }

    /// Whether a SYN with this number begins another connection: one that is
    /// not right in front of the bytes that there are.
    pub fn is_reused(&self, sequence: u32) -> bool {
        let first = self.start().map(|first| first as u32);
        let due = self.origin.map(|origin| {
            let first = first.map(|first| origin.wrapping_add(first));
            first.map(|first| first.wrapping_sub(1))
        });
        due.is_some_and(|due| due != Some(sequence))
    }

    /// The place of the first byte: behind the SYN or, where there is none, the
    /// lowest.
    fn start(&self) -> Option<i64> {
        self.start.or(self.pieces.keys().next().copied())
    }

    /// The place of a sequence number: the one nearest to the highest byte.
    fn place(&mut self, sequence: u32) -> Option<i64> {
        let origin = *self.origin.get_or_insert(sequence);
        let nearest = origin.wrapping_add(self.highest as u32);
        let ahead = sequence.wrapping_sub(nearest) as i32;
        (ahead.unsigned_abs() <= LARGEST_WINDOW).then(|| self.highest + i64::from(ahead))
    }

    /// Puts bytes at a place; those that are there already stay.
    fn insert(&mut self, place: i64, bytes: &'a [u8]) {
        if bytes.is_empty() {
            return;
        }
        self.counts.segments += 1;
        let (mut place, mut left) = (place, bytes);
        let (mut new, mut late) = (0, false);
        while !left.is_empty() {
            let known = self.known(place);
            let length = match known {
                Some(known) => known.len().min(left.len()),
                None => self.room(place, left.len()),
            };
            let (here, behind) = left.split_at(length);
            if let Some(known) = known {
                let differing = here.iter().zip(known).filter(|(a, b)| a != b);
                self.counts.conflicting_bytes += differing.count() as u64;
            } else {
                self.pieces.insert(place, here);
                late |= place < self.highest;
                new += length;
            }
            place += length as i64;
            left = behind;
        }
        self.counts.repeated_bytes += (bytes.len() - new) as u64;
        self.counts.duplicates += u64::from(new == 0);
        self.counts.out_of_order += u64::from(late);
    }

    /// The bytes that are there already, from a place on.
    fn known(&self, place: i64) -> Option<&'a [u8]> {
        let (start, piece) = self.pieces.range(..=place).next_back()?;
        let known = piece.get((place - start) as usize..)?;
        (!known.is_empty()).then_some(known)
    }

    /// How many of so many bytes fit at a place before there are others.
    fn room(&self, place: i64, length: usize) -> usize {
        let next = self.pieces.range(place..).next();
        next.map_or(length, |(next, _)| length.min((next - place) as usize))
    }

    /// Whether the SYN was captured.
    pub fn has_syn(&self) -> bool {
        self.start.is_some()
    }

    /// Whether the FIN was captured.
    pub fn has_fin(&self) -> bool {
        self.fin.is_some()
    }

    /// Whether it has bytes, in front of a gap or behind it.
    pub fn has_bytes(&self) -> bool {
        !self.pieces.is_empty()
    }

    /// The bytes from the first one on.
    pub fn run(&self) -> Run<'a> {
        let start = self.start().unwrap_or(0);
        let mut pieces = Vec::new();
        let mut end = start;
        for (place, piece) in self.pieces.range(start..) {
            if *place != end {
                break;
            }
            pieces.push(*piece);
            end += piece.len() as i64;
        }
        let length = (end - start) as u64;
        let gap = self.gap(end);
        Run {
            pieces,
            length,
            gap,
        }
    }

    /// What is missing behind a run that ends at a place.
    fn gap(&self, end: i64) -> Option<Gap> {
        let mut behind = self.pieces.range(end..).peekable();
        if let Some((next, _)) = behind.peek() {
            let missing = (*next - end) as u64;
            let (mut pieces, mut bytes) = (0, 0);
            for (_, piece) in behind {
                pieces += 1;
                bytes += piece.len() as u64;
            }
            return Some(Gap::Inside {
                missing,
                pieces,
                bytes,
            });
        }
        // Where no FIN was captured, there may have been one all the same.
        let due = self.fin.unwrap_or(self.highest.max(self.reached - 1));
        let missing = u64::try_from(due - end).unwrap_or(0);
        (missing > 0).then_some(Gap::AtTheEnd { missing })
    }
}
