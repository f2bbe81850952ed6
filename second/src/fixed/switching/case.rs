//! Streams with a switch that these files start from, and the records made of
//! them.

use crate::banner::Features;
use crate::cutting::Course;
use crate::definition::Switch;
use crate::fixed::receiver::case::{peer, whole, OWN};
use crate::fixed::request::{frame, source};
use crate::input::LARGEST_LENGTH;
use crate::records::{Call, FrameStore, Record, SwitchingRecord, Try};
use crate::secure::{store_needed, Nonce, Secrets};
use crate::spoil::sealed::{SealedFrame, Sealer};
use crate::spoil::WireFrame;
use crate::wire::Revision;

/// As much as a call can be offered.
pub const ALL: u32 = LARGEST_LENGTH;

/// Key 10 to 1F; the nonces' counters are far from where they wrap.
pub const SECRETS: Secrets = Secrets {
    key: *b"\x10\x11\x12\x13\x14\x15\x16\x17\x18\x19\x1A\x1B\x1C\x1D\x1E\x1F",
    receiving: *b"\xA0\xA1\xA2\xA3\x01\0\0\0\0\0\0\0",
    sending: *b"\xB0\xB1\xB2\xB3\x02\0\0\0\0\0\0\0",
};

/// Secrets that go with no stream.
pub const OTHERS: Secrets = Secrets {
    key: [0x77; 16],
    receiving: [0x88; 12],
    sending: [0x99; 12],
};

/// The calls behind the end of a stream: no bytes, a few, all there could be.
const AFTERWARDS: [Call; 3] = [Call::Receive(0), Call::Receive(7), Call::Receive(ALL)];

/// The nonce with this counter behind the same fixed bytes.
pub fn counting_from(counter: u64) -> Nonce {
    let mut nonce = SECRETS.receiving;
    nonce[4..].copy_from_slice(&counter.to_le_bytes());
    nonce
}

/// A stream with a switch, the store it is received into, and our own features.
#[derive(Clone)]
pub struct Case {
    pub own: Features,
    pub store: FrameStore,
    /// The try that goes with the stream, and one that doesn't.
    pub tries: [Try; 2],
    /// The frame or drop after which the first is made.
    pub after: usize,
    pub stream: Vec<u8>,
}

/// A good sealed frame that uses a segment for each length given.
pub fn sealed(lengths: &[u32]) -> SealedFrame {
    let frame = frame(lengths);
    SealedFrame::new(frame, false, &source(frame.sum()))
}

pub fn sealed_aborted(lengths: &[u32]) -> SealedFrame {
    let frame = frame(lengths);
    SealedFrame::new(frame, true, &source(frame.sum()))
}

impl Case {
    /// A banner, a frame in crc mode, and the sealed ones behind the switch; the
    /// store has five bytes more than they need.
    pub fn new(frames: &[&SealedFrame]) -> Self {
        Self::counted(frames, SECRETS.receiving, 0)
    }

    /// The same from this nonce on, so many parts counted as opened.
    pub fn counted(frames: &[&SealedFrame], start: Nonce, opened: u64) -> Self {
        let clear = [whole(Revision::Msgr21, &[2])];
        Self::behind(&clear, frames, start, opened)
    }

    /// The same behind these frames in crc mode.
    pub fn behind(clear: &[WireFrame], frames: &[&SealedFrame], start: Nonce, opened: u64) -> Self {
        let mut stream = peer(Revision::Msgr21).banner();
        stream.extend(clear.iter().flat_map(|frame| &frame.bytes));
        let secrets = Secrets {
            receiving: start,
            ..SECRETS
        };
        let mut sealer = Sealer {
            key: secrets.key,
            start,
            sealed: opened,
        };
        for frame in frames {
            stream.extend(frame.bytes(&mut sealer));
        }
        let needed = frames.iter().map(|frame| store_needed(&frame.frame));
        let needed = needed.max().unwrap_or(0) as u32;
        let store = FrameStore {
            length: (needed + 5).min(LARGEST_LENGTH),
            fill: 0x5A,
        };
        let other = Try {
            secrets: OTHERS,
            opened: 0,
        };
        Self {
            own: OWN,
            store,
            tries: [Try { secrets, opened }, other],
            after: clear.len(),
            stream,
        }
    }

    pub fn with_store(mut self, length: u32) -> Self {
        self.store.length = length;
        self
    }

    pub fn course(&self) -> Course {
        let Try { secrets, opened } = self.tries[0];
        let switch = Switch {
            after: self.after,
            key: secrets.key,
            nonce: secrets.receiving,
            opened,
        };
        Course::switched(self.own, self.store, &self.stream, Some(&switch))
    }

    /// The record of these calls alone.
    pub fn calls(&self, calls: Vec<Call>) -> Record {
        Record::Switching(SwitchingRecord {
            own: self.own,
            store: self.store,
            tries: self.tries.to_vec(),
            calls,
            stream: self.stream.clone(),
        })
    }

    /// The record of these pieces with the switch among them, and some calls
    /// behind the end.
    pub fn cut(&self, pieces: &[u32]) -> Record {
        let mut calls = self.course().calls(pieces, 0);
        calls.extend(AFTERWARDS);
        self.calls(calls)
    }

    /// The stream whole.
    pub fn uncut(&self) -> Record {
        self.cut(&self.course().whole())
    }

    /// The stream with a cut right before each entry's byte.
    pub fn edges(&self) -> Record {
        self.cut(&self.course().edges())
    }

    pub fn both(&self) -> [Record; 2] {
        [self.uncut(), self.edges()]
    }
}
