//! AES-128 (FIPS 197) and GCM (NIST SP 800-38D) with 12-byte nonces, 16-byte
//! tags, no associated data, the tag last. Written to be read beside those
//! two documents: no table is typed in, every product is worked out.

use crate::refusal::Refusal;
use std::sync::OnceLock;

#[cfg(test)]
mod tests;

pub const KEY_LENGTH: usize = 16;
pub const NONCE_LENGTH: usize = 12;
pub const AUTH_TAG_LENGTH: usize = 16;

/// GCM's longest text: 2^39 - 256 bits.
pub const LONGEST_TEXT: u64 = (1 << 36) - 32;

const ROUNDS: usize = 10;

type Block = [u8; 16];

/// Multiplication by x modulo x^8 + x^4 + x^3 + x + 1.
fn xtime(byte: u8) -> u8 {
    let carried = if byte & 0x80 == 0 { 0 } else { 0x1B };
    (byte << 1) ^ carried
}

/// The product of two bytes.
fn product(a: u8, b: u8) -> u8 {
    let mut power = b;
    let mut sum = 0;
    for bit in 0..8 {
        if a >> bit & 1 == 1 {
            sum ^= power;
        }
        power = xtime(power);
    }
    sum
}

/// The byte whose product with this one is 1; 0 for 0.
fn inverse(byte: u8) -> u8 {
    let found = (1..=255).find(|&other| product(byte, other) == 1);
    found.unwrap_or(0)
}

/// The inverse under the affine map: each bit with four that follow it in a
/// cycle, and the constant 63.
fn substitute(byte: u8) -> u8 {
    let inverse = inverse(byte);
    let turned = (1..5).map(|places| inverse.rotate_left(places));
    turned.fold(inverse ^ 0x63, |sum, next| sum ^ next)
}

fn substitutions() -> &'static [u8; 256] {
    static ALL: OnceLock<[u8; 256]> = OnceLock::new();
    ALL.get_or_init(|| std::array::from_fn(|byte| substitute(byte as u8)))
}

fn sub_bytes(state: Block) -> Block {
    state.map(|byte| substitutions()[usize::from(byte)])
}

/// Byte r + 4c stands in row r and column c; row r moves r columns on.
fn shift_rows(state: Block) -> Block {
    std::array::from_fn(|place| {
        let (row, column) = (place % 4, place / 4);
        state[row + 4 * ((column + row) % 4)]
    })
}

fn mix_columns(state: Block) -> Block {
    std::array::from_fn(|place| {
        let (row, column) = (place % 4, place / 4);
        let below = |steps: usize| state[4 * column + (row + steps) % 4];
        product(2, below(0)) ^ product(3, below(1)) ^ below(2) ^ below(3)
    })
}

fn add(a: Block, b: Block) -> Block {
    std::array::from_fn(|place| a[place] ^ b[place])
}

/// The schedule, a word at a time as FIPS 197 has it, then as round keys.
fn expand(key: &[u8; KEY_LENGTH]) -> [Block; ROUNDS + 1] {
    let mut words: Vec<[u8; 4]> = key
        .chunks_exact(4)
        .map(|word| [word[0], word[1], word[2], word[3]])
        .collect();
    let mut constant = 1;
    for place in 4..4 * (ROUNDS + 1) {
        let mut word = words[place - 1];
        if place % 4 == 0 {
            word.rotate_left(1);
            word = word.map(|byte| substitutions()[usize::from(byte)]);
            word[0] ^= constant;
            constant = xtime(constant);
        }
        let before = words[place - 4];
        words.push(std::array::from_fn(|byte| word[byte] ^ before[byte]));
    }
    std::array::from_fn(|round| std::array::from_fn(|byte| words[4 * round + byte / 4][byte % 4]))
}

/// One key's block cipher.
pub struct Cipher {
    round_keys: [Block; ROUNDS + 1],
}

impl Cipher {
    pub fn new(key: &[u8; KEY_LENGTH]) -> Self {
        Self {
            round_keys: expand(key),
        }
    }

    pub fn encrypt(&self, block: Block) -> Block {
        let mut state = add(block, self.round_keys[0]);
        for round in 1..ROUNDS {
            let mixed = mix_columns(shift_rows(sub_bytes(state)));
            state = add(mixed, self.round_keys[round]);
        }
        add(shift_rows(sub_bytes(state)), self.round_keys[ROUNDS])
    }

    /// The encrypted block of a nonce and a count; the count starts at 1.
    fn key_stream(&self, nonce: &[u8; NONCE_LENGTH], count: u32) -> Block {
        let mut block = [0; 16];
        block[..NONCE_LENGTH].copy_from_slice(nonce);
        block[NONCE_LENGTH..].copy_from_slice(&count.to_be_bytes());
        self.encrypt(block)
    }

    /// GCTR from the second count on: the first is the tag's.
    fn masked(&self, nonce: &[u8; NONCE_LENGTH], text: &[u8]) -> Vec<u8> {
        let mut count = 1;
        let mut out = Vec::with_capacity(text.len());
        for chunk in text.chunks(16) {
            count += 1;
            let stream = self.key_stream(nonce, count);
            out.extend(chunk.iter().zip(stream).map(|(byte, mask)| byte ^ mask));
        }
        out
    }

    fn tag(&self, nonce: &[u8; NONCE_LENGTH], masked: &[u8]) -> [u8; AUTH_TAG_LENGTH] {
        let hash_key = u128::from_be_bytes(self.encrypt([0; 16]));
        let first = u128::from_be_bytes(self.key_stream(nonce, 1));
        (hash(hash_key, masked) ^ first).to_be_bytes()
    }
}

/// The product of SP 800-38D's 6.3; the first bit of a block is the highest.
fn block_product(x: u128, y: u128) -> u128 {
    const R: u128 = 0xE1 << 120;
    let (mut z, mut v) = (0, y);
    for bit in (0..128).rev() {
        if x >> bit & 1 == 1 {
            z ^= v;
        }
        v = if v & 1 == 1 { v >> 1 ^ R } else { v >> 1 };
    }
    z
}

/// GHASH of the bytes, padded with zeros, and of a block with their length.
fn hash(hash_key: u128, bytes: &[u8]) -> u128 {
    let padded = bytes.chunks(16).map(|chunk| {
        let mut block = [0; 16];
        block[..chunk.len()].copy_from_slice(chunk);
        u128::from_be_bytes(block)
    });
    let lengths = bytes.len() as u128 * 8;
    let blocks = padded.chain([lengths]);
    blocks.fold(0, |sum, block| block_product(sum ^ block, hash_key))
}

/// Seals `text` into the front of `out`; answers how many bytes that took.
pub fn seal(
    key: &[u8; KEY_LENGTH],
    nonce: &[u8; NONCE_LENGTH],
    text: &[u8],
    out: &mut [u8],
) -> Result<u64, Refusal> {
    if text.len() as u64 > LONGEST_TEXT {
        return Err(Refusal::limit_of_text());
    }
    let needed = text.len() + AUTH_TAG_LENGTH;
    if out.len() < needed {
        return Err(Refusal::no_room(needed as u64));
    }
    let cipher = Cipher::new(key);
    let masked = cipher.masked(nonce, text);
    let tag = cipher.tag(nonce, &masked);
    out[..text.len()].copy_from_slice(&masked);
    out[text.len()..needed].copy_from_slice(&tag);
    Ok(needed as u64)
}

/// Opens `sealed` into the front of `out`; answers the text's length.
pub fn open(
    key: &[u8; KEY_LENGTH],
    nonce: &[u8; NONCE_LENGTH],
    sealed: &[u8],
    out: &mut [u8],
) -> Result<u64, Refusal> {
    let Some(length) = sealed.len().checked_sub(AUTH_TAG_LENGTH) else {
        return Err(Refusal::auth_tag());
    };
    if length as u64 > LONGEST_TEXT {
        return Err(Refusal::limit_of_text());
    }
    if out.len() < length {
        return Err(Refusal::no_room(length as u64));
    }
    let (masked, tag) = sealed.split_at(length);
    let cipher = Cipher::new(key);
    if cipher.tag(nonce, masked) != tag {
        out[..length].fill(0);
        return Err(Refusal::auth_tag());
    }
    out[..length].copy_from_slice(&cipher.masked(nonce, masked));
    Ok(length as u64)
}
