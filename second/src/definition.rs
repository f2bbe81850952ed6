//! The list of a stream's entries, defined over the whole stream at once: a
//! check on the receiver, which it doesn't use, and a guide to where calls end.

use crate::banner::{
    judge_magic, judge_payload_length, Features, BANNER_HEAD_LENGTH, MAGIC_LENGTH,
};
use crate::epilogue::{judge_epilogue, judge_first_checksum, Ending};
use crate::frame::{Frame, PREAMBLE_LENGTH};
use crate::gcm::KEY_LENGTH;
use crate::refusal::Refusal;
use crate::report::Report;
use crate::secure::Nonce;
use crate::wire::{epilogue_length, wire_length, Revision, CHECKSUM_LENGTH};

mod sealed;

/// A banner, early report, frame, drop or refusal.
#[derive(Clone, Debug, PartialEq, Eq)]
pub struct Entry {
    pub report: Report,
    /// How many stream bytes there are up to and including it.
    pub byte: usize,
    /// The store right after it.
    pub store: Vec<u8>,
}

#[derive(Clone, Debug, PartialEq, Eq)]
pub struct List {
    pub entries: Vec<Entry>,
    /// The store after all bytes of the stream.
    pub store: Vec<u8>,
}

/// The switch to secure mode that the reader of a stream makes.
#[derive(Clone, Copy, Debug, PartialEq, Eq)]
pub struct Switch {
    /// The frame or drop after which it is made, counted from 1.
    pub after: usize,
    pub key: [u8; KEY_LENGTH],
    pub nonce: Nonce,
    /// Parts that count as opened already.
    pub opened: u64,
}

/// A report and its byte, counted from where its banner or frame begins;
/// nothing where the byte lies past the stream's end.
type Judged = Option<(Report, usize)>;

fn refused(refusal: Refusal, byte: usize) -> Judged {
    Some((Report::Refused(refusal), byte))
}

fn judge_banner(own: Features, stream: &[u8]) -> Judged {
    let magic = stream.get(..MAGIC_LENGTH)?;
    if let Err(refusal) = judge_magic(magic) {
        return refused(refusal, MAGIC_LENGTH);
    }
    let length = stream[MAGIC_LENGTH..].first_chunk()?;
    let length = u16::from_le_bytes(*length);
    if let Err(refusal) = judge_payload_length(length) {
        return refused(refusal, BANNER_HEAD_LENGTH);
    }
    let end = BANNER_HEAD_LENGTH + usize::from(length);
    let peer = Features::read(stream.get(BANNER_HEAD_LENGTH..end)?);
    match own.judge_peer(&peer) {
        Ok(revision) => Some((Report::Banner { peer, revision }, end)),
        Err(refusal) => refused(refusal, end),
    }
}

/// Where a body's segment bytes lie on the wire: msgr2.1 has segment 1's
/// checksum in between.
fn put_segments(revision: Revision, frame: &Frame, body: &[u8], store: &mut [u8]) {
    let all = frame.sum() as usize;
    let first = match revision {
        Revision::Msgr20 => all,
        Revision::Msgr21 => frame.segments[0].length as usize,
    };
    let gap = if first > 0 { CHECKSUM_LENGTH } else { 0 };
    for (place, stored) in store.iter_mut().enumerate().take(all) {
        let on_wire = if place < first { place } else { place + gap };
        if let Some(byte) = body.get(on_wire) {
            *stored = *byte;
        }
    }
}

/// Where segment 1's checksum ends, counted from the frame's first byte; nothing
/// where the frame has none behind it.
fn first_end(revision: Revision, frame: &Frame) -> Option<usize> {
    let first = frame.segments[0].length as usize;
    let has_checksum = revision == Revision::Msgr21 && first > 0;
    has_checksum.then_some(PREAMBLE_LENGTH + first + CHECKSUM_LENGTH)
}

/// Judges segment 1 by the checksum behind it; `store` has its bytes. A good
/// one is reported where more segments follow.
fn judge_first(revision: Revision, frame: &Frame, wire: &[u8], store: &[u8]) -> Judged {
    let end = first_end(revision, frame)?;
    let field = wire.get(end - CHECKSUM_LENGTH..end)?;
    match judge_first_checksum(frame, field, store) {
        Err(refusal) => refused(refusal, end),
        Ok(()) if frame.count > 1 => Some((Report::First(*frame), end)),
        Ok(()) => None,
    }
}

/// Judges a whole frame at its end; `store` has its segments.
fn judge_end(revision: Revision, frame: &Frame, wire: &[u8], store: &[u8]) -> Judged {
    let length = wire_length(revision, frame) as usize;
    let whole = wire.get(..length)?;
    let epilogue = &whole[length - epilogue_length(revision, frame)..];
    let ending = if epilogue.is_empty() {
        Ok(Ending::Complete)
    } else {
        judge_epilogue(revision, frame, epilogue, store)
    };
    match ending {
        Ok(Ending::Complete) => Some((Report::Frame(*frame), length)),
        Ok(Ending::Aborted) => Some((Report::Dropped(*frame), length)),
        Err(refusal) => refused(refusal, length),
    }
}

impl List {
    fn push(&mut self, report: Report, byte: usize) {
        let store = self.store.clone();
        self.entries.push(Entry {
            report,
            byte,
            store,
        });
    }

    /// An entry of a frame behind its preamble; a drop and a refusal zero what it
    /// used of the store. Answers the byte, if the list goes on behind it.
    fn push_of(&mut self, frame: &Frame, report: Report, byte: usize) -> Option<usize> {
        if matches!(report, Report::Dropped(_) | Report::Refused(_)) {
            frame.wipe(&mut self.store);
        }
        self.push(report, byte);
        (!matches!(report, Report::Refused(_))).then_some(byte)
    }

    /// The entries of the frame that `wire` begins with, which is the stream from
    /// the place on; answers where the next one begins, if the list goes on.
    fn push_frame(&mut self, revision: Revision, wire: &[u8], place: usize) -> Option<usize> {
        let preamble = wire.first_chunk::<PREAMBLE_LENGTH>()?;
        let fits = |frame: Frame| frame.judge_store(self.store.len()).map(|()| frame);
        let frame = match Frame::read(preamble).and_then(fits) {
            Ok(frame) => frame,
            Err(refusal) => {
                self.push(Report::Refused(refusal), place + PREAMBLE_LENGTH);
                return None;
            }
        };
        let body = &wire[PREAMBLE_LENGTH..];
        let first = frame.segments[0].length as usize;
        put_segments(
            revision,
            &frame,
            &body[..body.len().min(first)],
            &mut self.store,
        );
        if let Some((report, byte)) = judge_first(revision, &frame, wire, &self.store) {
            self.push_of(&frame, report, place + byte)?;
        }
        put_segments(revision, &frame, body, &mut self.store);
        let (report, length) = judge_end(revision, &frame, wire, &self.store)?;
        self.push_of(&frame, report, place + length)
    }
}

/// The entries of a stream in crc mode, for a receiver with our own features and
/// the store as it is at the start.
pub fn entries(own: Features, stream: &[u8], store: &[u8]) -> List {
    entries_switched(own, stream, store, None)
}

/// The entries of a stream whose reader makes the switch, where there is one: the
/// frames behind the named one are sealed.
pub fn entries_switched(
    own: Features,
    stream: &[u8],
    store: &[u8],
    switch: Option<&Switch>,
) -> List {
    let mut list = List {
        entries: Vec::new(),
        store: store.to_vec(),
    };
    if own.judge_own().is_err() {
        return list;
    }
    let Some((report, mut place)) = judge_banner(own, stream) else {
        return list;
    };
    list.push(report, place);
    let Report::Banner { revision, .. } = report else {
        return list;
    };
    let sealed = switch.filter(|_| revision == Revision::Msgr21);
    for number in 1.. {
        let Some(next) = list.push_frame(revision, &stream[place..], place) else {
            break;
        };
        place = next;
        if let Some(switch) = sealed.filter(|switch| switch.after == number) {
            list.push_sealed_frames(switch, stream, place);
            break;
        }
    }
    list
}

#[cfg(test)]
mod tests;
