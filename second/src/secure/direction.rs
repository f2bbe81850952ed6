//! One direction of a secure link: its key, and which nonces it has used.

use crate::gcm::{self, AUTH_TAG_LENGTH, KEY_LENGTH, NONCE_LENGTH};
use crate::refusal::Refusal;

pub type Nonce = [u8; NONCE_LENGTH];

/// Bytes of a nonce that stay as they are; the counter stands behind them.
const FIXED_LENGTH: usize = 4;

/// A counter of 64 bits takes this many values before it comes back to the one
/// it started from, wherever that is.
const ALL_NONCES: u128 = 1 << 64;

#[derive(Clone, Debug, PartialEq, Eq)]
pub struct Direction {
    key: [u8; KEY_LENGTH],
    start: Nonce,
    /// Parts that were sealed or opened, one nonce each.
    used: u128,
}

impl Direction {
    /// A direction from its first nonce on, `used` of which are gone.
    pub fn new(key: [u8; KEY_LENGTH], start: Nonce, used: u64) -> Self {
        Self {
            key,
            start,
            used: u128::from(used),
        }
    }

    /// Nonces that were never used.
    pub fn left(&self) -> u128 {
        ALL_NONCES - self.used
    }

    /// The nonce of the next part, where there is one that was never used.
    fn next_nonce(&self) -> Option<Nonce> {
        let (fixed, counter) = self.start.split_at(FIXED_LENGTH);
        let counter = u64::from_le_bytes(counter.try_into().expect("eight bytes"));
        let next = counter.wrapping_add(self.used as u64);
        let nonce = [fixed, &next.to_le_bytes()].concat();
        (self.left() > 0).then(|| nonce.try_into().expect("twelve bytes"))
    }

    /// Seals a part, the tag last, and uses a nonce up.
    pub fn seal(&mut self, text: &[u8]) -> Result<Vec<u8>, Refusal> {
        let nonce = self.next_nonce().ok_or(Refusal::nonces_spent())?;
        let mut sealed = vec![0; text.len() + AUTH_TAG_LENGTH];
        gcm::seal(&self.key, &nonce, text, &mut sealed)?;
        self.used += 1;
        Ok(sealed)
    }

    /// Opens a part with its tag and uses a nonce up. Without one that was never
    /// used it isn't opened at all.
    pub fn open(&mut self, sealed: &[u8]) -> Result<Vec<u8>, Refusal> {
        let nonce = self.next_nonce().ok_or(Refusal::nonces_spent())?;
        let mut text = vec![0; sealed.len().saturating_sub(AUTH_TAG_LENGTH)];
        gcm::open(&self.key, &nonce, sealed, &mut text)?;
        self.used += 1;
        Ok(text)
    }
}
