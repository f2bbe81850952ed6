//! The state that a switch hands to the builder: it seals frames, and goes on
//! to the next nonces with each that is built.

use super::{part_lengths, texts, wire_length, Direction};
use crate::builder::{place, FrameRequest};
use crate::refusal::Refusal;

#[derive(Clone, Debug, PartialEq, Eq)]
pub enum Sending {
    /// From a switch that was refused: nothing is built with it.
    Refused,
    Sealing(Direction),
}

impl Sending {
    /// Builds a sealed frame, whole or aborted, behind the queued bytes; answers
    /// the bytes written. The order of the judgements decides which number a
    /// request with several faults gets; a refused one uses no nonce.
    pub fn build(
        &mut self,
        request: &FrameRequest,
        buffer: &mut [u8],
        queued: u64,
    ) -> Result<u64, Refusal> {
        let Self::Sealing(direction) = self else {
            return Err(Refusal::switch_refused());
        };
        request.judge()?;
        let needed = wire_length(&request.frame);
        let place = place(buffer, queued, needed)?;
        if (part_lengths(&request.frame).len() as u128) > direction.left() {
            return Err(Refusal::nonces_spent());
        }
        let mut sealed = Vec::new();
        for text in texts(&request.frame, request.abort, request.source) {
            sealed.extend(direction.seal(&text)?);
        }
        place.copy_from_slice(&sealed);
        Ok(needed)
    }
}
