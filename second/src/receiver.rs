//! The receiver: it is given a stream in any pieces and reports the banner,
//! then the frames, or why the stream is turned away.

use crate::banner::{
    judge_magic, judge_payload_length, Features, BANNER_HEAD_LENGTH, MAGIC_LENGTH,
};
use crate::epilogue::{judge_epilogue, judge_first_checksum, Ending};
use crate::frame::{Frame, PREAMBLE_LENGTH};
use crate::refusal::Refusal;
use crate::report::Report;
use crate::secure::{self, Direction, Secrets, Sending, FIRST_PART_LENGTH};
use crate::wire::{epilogue_length, first_checksum_length, Revision};
use sealed::SealedBody;
use std::collections::VecDeque;

mod sealed;

#[derive(Clone, Debug, PartialEq, Eq)]
pub struct Receiver {
    own: Features,
    stage: Stage,
}

#[derive(Clone, Debug, PartialEq, Eq)]
enum Stage {
    /// The banner's bytes so far.
    Banner(Vec<u8>),
    Preamble {
        revision: Revision,
        /// Whether a frame or a drop came right before, and not the banner.
        after_frame: bool,
        bytes: Vec<u8>,
    },
    Body(Body),
    /// The first part of a sealed frame so far.
    FirstPart {
        direction: Direction,
        bytes: Vec<u8>,
    },
    SealedBody(SealedBody),
    /// Repeated at every later call.
    Refused(Refusal),
}

/// A stretch of a body that is judged, if at all, when it is complete.
#[derive(Clone, Copy, Debug, PartialEq, Eq)]
enum Stretch {
    /// Segment bytes, until this many are in the store.
    SegmentsUpTo(usize),
    FirstChecksum,
    Epilogue,
}

#[derive(Clone, Debug, PartialEq, Eq)]
struct Body {
    revision: Revision,
    frame: Frame,
    /// What is still to come, the stretch under way first.
    stretches: VecDeque<Stretch>,
    /// Segment bytes in the store.
    stored: usize,
    /// Bytes so far of the checksum or the epilogue under way.
    held: Vec<u8>,
}

/// The payload length a banner gives in its head.
fn payload_length(banner: &[u8]) -> u16 {
    u16::from_le_bytes([banner[MAGIC_LENGTH], banner[MAGIC_LENGTH + 1]])
}

/// How long the banner must be for its next judgement.
fn next_banner_length(bytes: &[u8]) -> usize {
    match bytes.len() {
        0..MAGIC_LENGTH => MAGIC_LENGTH,
        MAGIC_LENGTH..BANNER_HEAD_LENGTH => BANNER_HEAD_LENGTH,
        _ => BANNER_HEAD_LENGTH + usize::from(payload_length(bytes)),
    }
}

/// Judges a banner that has just grown to one of those lengths. Only a whole
/// one tells the peer's features.
fn judge_banner(own: Features, bytes: &[u8]) -> Result<Option<(Features, Revision)>, Refusal> {
    match bytes.len() {
        MAGIC_LENGTH => judge_magic(bytes).map(|()| None),
        BANNER_HEAD_LENGTH => judge_payload_length(payload_length(bytes)).map(|()| None),
        _ => {
            let peer = Features::read(&bytes[BANNER_HEAD_LENGTH..]);
            let revision = own.judge_peer(&peer)?;
            Ok(Some((peer, revision)))
        }
    }
}

impl Body {
    fn new(revision: Revision, frame: Frame) -> Self {
        let mut stretches = VecDeque::new();
        if first_checksum_length(revision, &frame) > 0 {
            stretches.push_back(Stretch::SegmentsUpTo(frame.sum_before(1)));
            stretches.push_back(Stretch::FirstChecksum);
        }
        stretches.push_back(Stretch::SegmentsUpTo(frame.sum() as usize));
        if epilogue_length(revision, &frame) > 0 {
            stretches.push_back(Stretch::Epilogue);
        }
        Self {
            revision,
            frame,
            stretches,
            stored: 0,
            held: Vec::new(),
        }
    }

    /// Bytes missing from the stretch under way.
    fn wanted(&self) -> usize {
        match self.stretches[0] {
            Stretch::SegmentsUpTo(end) => end - self.stored,
            Stretch::FirstChecksum => {
                first_checksum_length(self.revision, &self.frame) - self.held.len()
            }
            Stretch::Epilogue => epilogue_length(self.revision, &self.frame) - self.held.len(),
        }
    }

    fn take(&mut self, bytes: &[u8], store: &mut [u8]) {
        if let Stretch::SegmentsUpTo(_) = self.stretches[0] {
            let end = self.stored + bytes.len();
            store[self.stored..end].copy_from_slice(bytes);
            self.stored = end;
        } else {
            self.held.extend(bytes);
        }
    }

    /// Judges the stretch that is now complete by the store's own bytes.
    fn judge_stretch(&self, store: &[u8]) -> Result<Ending, Refusal> {
        match self.stretches[0] {
            Stretch::SegmentsUpTo(_) => Ok(Ending::Complete),
            Stretch::FirstChecksum => {
                judge_first_checksum(&self.frame, &self.held, store).map(|()| Ending::Complete)
            }
            Stretch::Epilogue => judge_epilogue(self.revision, &self.frame, &self.held, store),
        }
    }

    /// Leaves a complete stretch; answers what it reports. Behind segment 1's
    /// checksum that is an early report, where more segments follow; the last
    /// stretch tells how the frame ends.
    fn finish_stretch(&mut self, store: &mut [u8]) -> Result<Option<Report>, Refusal> {
        let judged = self.judge_stretch(store);
        if judged != Ok(Ending::Complete) {
            self.frame.wipe(store);
        }
        let ending = judged?;
        let stretch = self.stretches.pop_front();
        self.held.clear();
        let early = stretch == Some(Stretch::FirstChecksum) && self.frame.count > 1;
        Ok(match ending {
            _ if early => Some(Report::First(self.frame)),
            _ if !self.stretches.is_empty() => None,
            Ending::Complete => Some(Report::Frame(self.frame)),
            Ending::Aborted => Some(Report::Dropped(self.frame)),
        })
    }
}

impl Stage {
    fn preamble(revision: Revision, after_frame: bool) -> Self {
        Self::Preamble {
            revision,
            after_frame,
            bytes: Vec::with_capacity(PREAMBLE_LENGTH),
        }
    }

    fn first_part(direction: Direction) -> Self {
        Self::FirstPart {
            direction,
            bytes: Vec::with_capacity(FIRST_PART_LENGTH),
        }
    }

    /// Whether a caller may switch to secure mode: msgr2.1 in crc mode, behind a
    /// frame or a drop and before any byte of the next.
    fn may_switch(&self) -> bool {
        match self {
            Stage::Preamble {
                revision,
                after_frame,
                bytes,
            } => *revision == Revision::Msgr21 && *after_frame && bytes.is_empty(),
            _ => false,
        }
    }

    /// Bytes missing before the next judgement.
    fn wanted(&self) -> usize {
        match self {
            Stage::Banner(bytes) => next_banner_length(bytes) - bytes.len(),
            Stage::Preamble { bytes, .. } => PREAMBLE_LENGTH - bytes.len(),
            Stage::Body(body) => body.wanted(),
            Stage::FirstPart { bytes, .. } => FIRST_PART_LENGTH - bytes.len(),
            Stage::SealedBody(body) => body.wanted(),
            Stage::Refused(_) => 0,
        }
    }

    fn take(&mut self, taken: &[u8], store: &mut [u8]) {
        match self {
            Stage::Banner(bytes)
            | Stage::Preamble { bytes, .. }
            | Stage::FirstPart { bytes, .. } => bytes.extend(taken),
            Stage::Body(body) => body.take(taken, store),
            Stage::SealedBody(body) => body.take(taken, store),
            Stage::Refused(_) => {}
        }
    }
}

impl Receiver {
    /// Starts a receiver with our own features. One whose start is refused
    /// comes back too, and repeats the refusal.
    pub fn start(own: Features) -> (Self, Result<(), Refusal>) {
        let judged = own.judge_own();
        let stage = match judged {
            Ok(()) => Stage::Banner(Vec::new()),
            Err(refusal) => Stage::Refused(refusal),
        };
        (Self { own, stage }, judged)
    }

    /// Takes bytes of the piece up to and including the one that completes a
    /// report; answers how many, and the report.
    pub fn receive(&mut self, piece: &[u8], store: &mut [u8]) -> (usize, Report) {
        if let Err(refusal) = self.judge_call(store) {
            return (0, self.refuse(refusal));
        }
        let mut taken = 0;
        loop {
            let left = &piece[taken..];
            let wanted = self.stage.wanted();
            let count = wanted.min(left.len());
            self.stage.take(&left[..count], store);
            taken += count;
            if count < wanted {
                return (taken, Report::More);
            }
            match self.step(store) {
                Ok(Some(report)) => return (taken, report),
                Ok(None) => {}
                Err(refusal) => return (taken, self.refuse(refusal)),
            }
        }
    }

    /// Switches to secure mode, and hands back the state to build with. A switch
    /// at another moment changes nothing, and nothing can be built with its state.
    pub fn switch(&mut self, secrets: &Secrets) -> (Sending, Result<(), Refusal>) {
        self.switch_after(secrets, 0)
    }

    /// The same, with so many of the receiving direction's nonces used already.
    pub fn switch_after(
        &mut self,
        secrets: &Secrets,
        opened: u64,
    ) -> (Sending, Result<(), Refusal>) {
        if !self.stage.may_switch() {
            return (Sending::Refused, Err(Refusal::switch_refused()));
        }
        let Secrets {
            key,
            receiving,
            sending,
        } = *secrets;
        self.stage = Stage::first_part(Direction::new(key, receiving, opened));
        (Sending::Sealing(Direction::new(key, sending, 0)), Ok(()))
    }

    /// What turns a call away before it takes a byte. A body under way must
    /// find the whole room it was promised, whatever the piece.
    fn judge_call(&self, store: &[u8]) -> Result<(), Refusal> {
        match &self.stage {
            Stage::Refused(refusal) => Err(*refusal),
            Stage::Body(body) => body.frame.judge_store(store.len()),
            Stage::SealedBody(body) => secure::judge_store(&body.frame, store.len()),
            Stage::Banner(_) | Stage::Preamble { .. } | Stage::FirstPart { .. } => Ok(()),
        }
    }

    fn refuse(&mut self, refusal: Refusal) -> Report {
        self.stage = Stage::Refused(refusal);
        Report::Refused(refusal)
    }

    /// Judges what is now complete and goes on to what follows it.
    fn step(&mut self, store: &mut [u8]) -> Result<Option<Report>, Refusal> {
        match &mut self.stage {
            Stage::Banner(bytes) => {
                let Some((peer, revision)) = judge_banner(self.own, bytes)? else {
                    return Ok(None);
                };
                self.stage = Stage::preamble(revision, false);
                Ok(Some(Report::Banner { peer, revision }))
            }
            Stage::Preamble {
                revision, bytes, ..
            } => {
                let frame = Frame::read(bytes.first_chunk().expect("a whole preamble"))?;
                frame.judge_store(store.len())?;
                self.stage = Stage::Body(Body::new(*revision, frame));
                Ok(None)
            }
            Stage::Body(body) => {
                let report = body.finish_stretch(store)?;
                if body.stretches.is_empty() {
                    self.stage = Stage::preamble(body.revision, true);
                }
                Ok(report)
            }
            Stage::FirstPart { direction, bytes } => {
                let body = SealedBody::begin(direction.clone(), bytes, store)?;
                let report = body.report(store);
                self.stage = match report {
                    Some(_) => Stage::first_part(body.direction),
                    None => Stage::SealedBody(body),
                };
                Ok(report)
            }
            Stage::SealedBody(body) => {
                let report = body.finish_part(store)?;
                if report.is_some() {
                    self.stage = Stage::first_part(body.direction.clone());
                }
                Ok(report)
            }
            Stage::Refused(refusal) => Err(*refusal),
        }
    }
}

#[cfg(test)]
mod tests;
