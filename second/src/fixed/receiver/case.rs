//! Streams the receiver's fixed files start from, and the records made of them.

use crate::banner::Features;
use crate::cutting::Course;
use crate::fixed::request::{frame, source};
use crate::frame::Frame;
use crate::input::LARGEST_LENGTH;
use crate::records::{FrameStore, ReceiverRecord, Record};
use crate::spoil::WireFrame;
use crate::wire::Revision;

/// The features we mostly have.
pub const OWN: Features = Features::new(1, 0);

/// The calls behind the end of a stream: no bytes, a few, all there could be.
const AFTERWARDS: [u32; 3] = [0, 7, LARGEST_LENGTH];

/// A stream, the store it is received into, and our own features.
#[derive(Clone)]
pub struct Case {
    pub own: Features,
    pub store: FrameStore,
    pub stream: Vec<u8>,
}

/// Features of a peer with whom we come to the revision.
pub fn peer(revision: Revision) -> Features {
    Features::new(u64::from(revision == Revision::Msgr21), 0)
}

/// Different alignments for the used segments, so that swapped ones show.
fn aligned(lengths: &[u32]) -> Frame {
    let mut frame = frame(lengths);
    let used = frame.segments.iter_mut().take(lengths.len());
    for (segment, alignment) in used.zip([8, 0, 0x1002, 0xFFFF]) {
        segment.alignment = alignment;
    }
    frame
}

pub fn whole(revision: Revision, lengths: &[u32]) -> WireFrame {
    let frame = aligned(lengths);
    WireFrame::new(revision, frame, false, &source(frame.sum()))
}

pub fn aborted(revision: Revision, lengths: &[u32]) -> WireFrame {
    let frame = aligned(lengths);
    WireFrame::new(revision, frame, true, &source(frame.sum()))
}

/// A frame whose segments are together the bytes 0 to 31.
pub fn counting(revision: Revision, lengths: &[u32], abort: bool) -> WireFrame {
    let source: Vec<u8> = (0..32).collect();
    WireFrame::new(revision, frame(lengths), abort, &source)
}

/// A preamble with these lengths, and no body behind it.
pub fn preamble(revision: Revision, lengths: &[u32]) -> WireFrame {
    WireFrame::preamble_only(revision, aligned(lengths))
}

impl Case {
    /// Any stream, with a store of a few bytes.
    pub fn stream(stream: Vec<u8>) -> Self {
        let store = FrameStore {
            length: 12,
            fill: 0x5A,
        };
        Self {
            own: OWN,
            store,
            stream,
        }
    }

    /// A banner and the frames, with a store of the bytes 0 to 31: while the
    /// segments are those too, its checksum is the published one.
    pub fn counting(revision: Revision, frames: &[&WireFrame]) -> Self {
        let mut stream = peer(revision).banner();
        stream.extend(frames.iter().flat_map(|frame| &frame.bytes));
        let store = FrameStore {
            length: 32,
            fill: 0,
        };
        Self {
            store,
            ..Self::stream(stream)
        }
    }

    /// A banner, the frame, and a good frame behind it; the store has a few
    /// bytes more than the frame needs.
    pub fn frame(frame: &WireFrame) -> Self {
        let behind = whole(frame.revision, &[3, 2]);
        let banner = peer(frame.revision).banner();
        let mut case = Self::stream([banner, frame.bytes.clone(), behind.bytes].concat());
        case.store.length += frame.frame.sum().min(u64::from(LARGEST_LENGTH - 12)) as u32;
        case
    }

    pub fn with_store(mut self, length: u32) -> Self {
        self.store.length = length;
        self
    }

    pub fn course(&self) -> Course {
        Course::of(self.own, self.store, &self.stream)
    }

    /// The record of these calls and some behind the end.
    pub fn cut(&self, mut pieces: Vec<u32>) -> Record {
        pieces.extend(AFTERWARDS);
        self.calls(pieces)
    }

    /// The record of these calls alone.
    pub fn calls(&self, pieces: Vec<u32>) -> Record {
        Record::Receiver(ReceiverRecord {
            own: self.own,
            store: self.store,
            pieces,
            stream: self.stream.clone(),
        })
    }

    /// The stream whole.
    pub fn uncut(&self) -> Record {
        self.cut(self.course().whole())
    }

    /// The stream with a cut right before each entry's byte.
    pub fn edges(&self) -> Record {
        self.cut(self.course().edges())
    }

    pub fn both(&self) -> [Record; 2] {
        [self.uncut(), self.edges()]
    }
}
