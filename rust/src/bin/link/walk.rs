//! Reads a link with the proved receiver, part by part. This is the only place
//! that calls it.

use mahuixen::{Features, Header, Receiver, Refusal, Report, Revision};

/// How many bytes in front of a part and behind a refusal are kept.
pub const AROUND: usize = 16;

/// What a part of the link turned out to be.
#[derive(Clone, Copy, Debug, PartialEq, Eq)]
pub enum Event {
    Banner { peer: Features, revision: Revision },
    Frame(Header),
    Dropped(Header),
}

/// A banner, or a frame that was handed over or dropped.
#[derive(Clone, Copy, Debug)]
pub struct Part<'a> {
    pub what: Event,
    /// Its first and its last byte, counted from 1.
    pub first: u64,
    pub last: u64,
    /// The store, with a frame's segments at its front.
    pub store: &'a [u8],
}

/// A link that is being read.
pub struct Walk {
    receiver: Receiver,
    store: Vec<u8>,
    /// Bytes up to and including the last part.
    complete: u64,
    /// The last bytes of the part before, the bytes of the part under way, and
    /// the first bytes behind a refusal.
    before: Vec<u8>,
    part: Vec<u8>,
    behind: Vec<u8>,
    revision: Option<Revision>,
    refused: Option<Refusal>,
}

/// How a link ends.
#[derive(Clone, Copy, Debug)]
pub enum End<'a> {
    /// At the end of a part, or without a byte.
    Ok,
    /// Inside of a part.
    Cut(Unfinished<'a>),
    /// Its last part is refused.
    Refused(Refusal, Unfinished<'a>),
}

/// A part that is not finished, or that is refused.
#[derive(Clone, Copy, Debug)]
pub struct Unfinished<'a> {
    /// Its first byte, counted from 1.
    pub first: u64,
    /// What came of it.
    pub bytes: &'a [u8],
    /// The bytes in front of it and, where it is refused, behind it.
    pub before: &'a [u8],
    pub behind: &'a [u8],
    /// What the link speaks; none inside of the banner.
    pub revision: Option<Revision>,
    /// The length of the store.
    pub store: usize,
}

impl Walk {
    /// A link from its first byte on.
    pub fn start(own: Features, store: usize) -> Result<Self, Refusal> {
        Ok(Self {
            receiver: Receiver::start(own)?,
            store: vec![0; store],
            complete: 0,
            before: Vec::new(),
            part: Vec::new(),
            behind: Vec::new(),
            revision: None,
            refused: None,
        })
    }

    /// Offers the next bytes, and shows each part that they complete.
    pub fn offer<E>(
        &mut self,
        mut piece: &[u8],
        mut show: impl FnMut(Part) -> Result<(), E>,
    ) -> Result<(), E> {
        while !piece.is_empty() && self.refused.is_none() {
            let received = self.receiver.receive(piece, &mut self.store);
            let (taken, left) = piece.split_at(received.taken);
            self.part.extend(taken);
            piece = left;
            if let Some(what) = self.completed(received.report) {
                show(self.pass(what))?;
            }
        }
        let more = AROUND.saturating_sub(self.behind.len()).min(piece.len());
        self.behind.extend(&piece[..more]);
        Ok(())
    }

    /// The part that a report completes.
    fn completed(&mut self, report: Report) -> Option<Event> {
        match report {
            // An early report completes no part: the frame's own report follows.
            Report::More | Report::First(_) => None,
            Report::Banner { peer, revision } => {
                self.revision = Some(revision);
                Some(Event::Banner { peer, revision })
            }
            Report::Frame(header) => Some(Event::Frame(header)),
            Report::Dropped(header) => Some(Event::Dropped(header)),
            Report::Refused(refusal) => {
                self.refused = Some(refusal);
                None
            }
        }
    }

    /// Goes on behind the part under way, which is complete.
    fn pass(&mut self, what: Event) -> Part<'_> {
        let first = self.complete + 1;
        self.complete += self.part.len() as u64;
        self.part.drain(..self.part.len().saturating_sub(AROUND));
        std::mem::swap(&mut self.before, &mut self.part);
        self.part.clear();
        Part {
            what,
            first,
            last: self.complete,
            store: &self.store,
        }
    }

    /// Whether no further byte can change what is said of the link.
    pub fn is_over(&self) -> bool {
        self.refused.is_some() && self.behind.len() == AROUND
    }

    /// Bytes taken.
    pub fn taken(&self) -> u64 {
        self.complete + self.part.len() as u64
    }

    /// How the link ends, if no byte follows.
    pub fn end(&self) -> End<'_> {
        let unfinished = Unfinished {
            first: self.complete + 1,
            bytes: &self.part,
            before: &self.before,
            behind: &self.behind,
            revision: self.revision,
            store: self.store.len(),
        };
        match self.refused {
            Some(refusal) => End::Refused(refusal, unfinished),
            None if self.part.is_empty() => End::Ok,
            None => End::Cut(unfinished),
        }
    }
}

#[cfg(test)]
mod tests {
    use super::*;

    /// The bytes behind a refusal are kept, in whatever pieces they come.
    #[test]
    fn bytes_behind_a_refusal() {
        let stream: Vec<u8> = (0..100).collect();
        for size in 1..40 {
            let mut walk = Walk::start(Features::new(1, 0), 0).expect("our features");
            let mut offered = 0;
            for piece in stream.chunks(size) {
                if walk.is_over() {
                    break;
                }
                let shown = walk.offer(piece, |part| Err(part.last));
                assert_eq!(shown, Ok(()));
                offered += piece.len();
            }
            assert!((24..24 + size).contains(&offered));
            let End::Refused(refusal, unfinished) = walk.end() else {
                panic!("a banner out of nothing");
            };
            assert_eq!((refusal, unfinished.first), (Refusal::Magic, 1));
            assert_eq!(unfinished.bytes, &stream[..8]);
            assert_eq!(unfinished.behind, &stream[8..24]);
            assert_eq!(walk.taken(), 8);
        }
    }
}
