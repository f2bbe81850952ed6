//! The builders: they judge a request in the fixed order, and only then write
//! behind what the send buffer already holds.

use crate::banner::{Features, BANNER_LENGTH};
use crate::frame::Frame;
use crate::refusal::Refusal;
use crate::wire::{can_abort, frame_bytes, wire_length, Revision};

/// What a frame is built from; `source` holds its segments one after the other.
pub struct FrameRequest<'a> {
    pub revision: Revision,
    pub frame: Frame,
    pub abort: bool,
    pub source: &'a [u8],
}

impl FrameRequest<'_> {
    /// Judges all but the send buffer.
    pub fn judge(&self) -> Result<(), Refusal> {
        self.frame.judge_shape()?;
        self.frame.judge_tag()?;
        self.frame.judge_limits()?;
        self.judge_source()?;
        self.judge_abort()
    }

    fn judge_source(&self) -> Result<(), Refusal> {
        if self.source.len() as u64 == self.frame.sum() {
            Ok(())
        } else {
            Err(Refusal::source_length())
        }
    }

    fn judge_abort(&self) -> Result<(), Refusal> {
        if self.abort && !can_abort(self.revision, &self.frame) {
            Err(Refusal::abort_one_segment())
        } else {
            Ok(())
        }
    }
}

/// The part of the send buffer to write to, right behind the queued bytes.
pub fn place(buffer: &mut [u8], queued: u64, needed: u64) -> Result<&mut [u8], Refusal> {
    // With more queued than the buffer holds there is no free part at all.
    match (buffer.len() as u64).checked_sub(queued) {
        Some(free) if needed <= free => {
            let start = queued as usize;
            Ok(&mut buffer[start..start + needed as usize])
        }
        _ => Err(Refusal::no_room(needed)),
    }
}

/// Builds our banner; answers the bytes written.
pub fn build_banner(features: Features, buffer: &mut [u8], queued: u64) -> Result<u64, Refusal> {
    features.judge_own()?;
    let place = place(buffer, queued, BANNER_LENGTH)?;
    place.copy_from_slice(&features.banner());
    Ok(BANNER_LENGTH)
}

/// Builds a whole or an aborted frame; answers the bytes written. The order of
/// the judgements decides which number a request with several faults gets.
pub fn build_frame(request: &FrameRequest, buffer: &mut [u8], queued: u64) -> Result<u64, Refusal> {
    let FrameRequest {
        revision,
        frame,
        abort,
        source,
    } = request;
    request.judge()?;
    let needed = wire_length(*revision, frame);
    let place = place(buffer, queued, needed)?;
    place.copy_from_slice(&frame_bytes(*revision, frame, *abort, source));
    Ok(needed)
}

#[cfg(test)]
mod tests;
