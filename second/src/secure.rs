//! msgr2.1-secure: the nonces of a direction, the parts of a sealed frame, and
//! the state that seals what we send.

mod direction;
mod layout;
mod sending;

pub use direction::{Direction, Nonce};
pub use layout::{judge_store, padded, part_lengths, store_needed, texts, wipe};
pub use layout::{last_length, rest_length, wire_length};
pub use layout::{EPILOGUE_LENGTH, FIRST_PART_LENGTH, INLINE_LENGTH};
pub use sending::Sending;

use crate::gcm::KEY_LENGTH;

/// What a caller brings to a switch: one key, and for each direction the nonce
/// that it starts from.
#[derive(Clone, Copy, Debug, PartialEq, Eq)]
pub struct Secrets {
    pub key: [u8; KEY_LENGTH],
    pub receiving: Nonce,
    pub sending: Nonce,
}

#[cfg(test)]
mod tests;
