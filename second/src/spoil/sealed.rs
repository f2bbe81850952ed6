//! A sealed frame whose parts can be changed before they are sealed and after
//! it. Unlike a builder it seals whatever it is given, with a nonce that was used
//! before too.

use crate::frame::{put_preamble_checksum, Frame, PREAMBLE_LENGTH};
use crate::gcm::{self, AUTH_TAG_LENGTH, KEY_LENGTH};
use crate::secure::{padded, texts, Nonce, EPILOGUE_LENGTH, INLINE_LENGTH};
use std::ops::Range;

/// Where a padding lies: the part, and the bytes of its text.
pub type Padding = (usize, Range<usize>);

/// A change of sealed bytes: the part, the byte in it, and what is put over that
/// bit by bit.
pub type Damage = (usize, usize, u8);

#[derive(Clone, Debug)]
pub struct SealedFrame {
    pub frame: Frame,
    /// What is sealed, part by part.
    pub texts: Vec<Vec<u8>>,
    /// How many nonces too far each part's is.
    pub nonces_off: Vec<u64>,
    /// What is put over the key, bit by bit, that each part is sealed with.
    pub keys_off: Vec<u8>,
    pub damage: Vec<Damage>,
}

/// Numbers that the parts of a stream are sealed with.
#[derive(Clone, Copy, Debug)]
pub struct Sealer {
    pub key: [u8; KEY_LENGTH],
    pub start: Nonce,
    /// Parts before the next one.
    pub sealed: u64,
}

impl Sealer {
    fn nonce(&self, off: u64) -> Nonce {
        let mut nonce = self.start;
        let counter = nonce[4..].first_chunk().expect("eight bytes");
        let counter = u64::from_le_bytes(*counter);
        let next = counter.wrapping_add(self.sealed).wrapping_add(off);
        nonce[4..].copy_from_slice(&next.to_le_bytes());
        nonce
    }

    fn seal(&mut self, text: &[u8], nonce_off: u64, key_off: u8) -> Vec<u8> {
        let mut key = self.key;
        key[KEY_LENGTH - 1] ^= key_off;
        let mut sealed = vec![0; text.len() + AUTH_TAG_LENGTH];
        let nonce = self.nonce(nonce_off);
        gcm::seal(&key, &nonce, text, &mut sealed).expect("room for it");
        self.sealed = self.sealed.wrapping_add(1);
        sealed
    }
}

impl SealedFrame {
    /// A good frame; `source` holds its segments one after the other.
    pub fn new(frame: Frame, abort: bool, source: &[u8]) -> Self {
        let texts = texts(&frame, abort, source);
        Self {
            frame,
            nonces_off: vec![0; texts.len()],
            keys_off: vec![0; texts.len()],
            texts,
            damage: Vec::new(),
        }
    }

    pub fn preamble_mut(&mut self) -> &mut [u8; PREAMBLE_LENGTH] {
        self.texts[0].first_chunk_mut().expect("a preamble")
    }

    /// Changes the preamble and gives it a good checksum again.
    pub fn change_preamble(&mut self, change: impl FnOnce(&mut [u8; PREAMBLE_LENGTH])) {
        let preamble = self.preamble_mut();
        change(preamble);
        put_preamble_checksum(preamble);
    }

    /// The late status, where there is one.
    pub fn late_status_mut(&mut self) -> Option<&mut u8> {
        let has_one = self.frame.count > 1;
        let last = self.texts.last_mut().filter(|_| has_one)?;
        let place = last.len() - EPILOGUE_LENGTH;
        last.get_mut(place)
    }

    /// All that must be zero, part by part: behind what stands inline, behind the
    /// rest of segment 1, behind each other segment, behind the late status.
    pub fn paddings(&self) -> Vec<Padding> {
        let first = self.frame.sum_before(1);
        let inline_end = PREAMBLE_LENGTH + INLINE_LENGTH;
        let inlined = PREAMBLE_LENGTH + first.min(INLINE_LENGTH);
        let mut all = vec![(0, inlined..inline_end)];
        let mut part = 1;
        if first > INLINE_LENGTH {
            let rest = first - INLINE_LENGTH;
            all.push((part, rest..padded(rest)));
            part += 1;
        }
        if self.frame.count > 1 {
            let mut place = 0;
            for segment in &self.frame.segments[1..] {
                let length = segment.length as usize;
                all.push((part, place + length..place + padded(length)));
                place += padded(length);
            }
            all.push((part, place + 1..place + EPILOGUE_LENGTH));
        }
        all.retain(|(_, bytes)| !bytes.is_empty());
        all
    }

    /// Bytes of the frame on the wire.
    pub fn bytes_length(&self) -> usize {
        self.texts
            .iter()
            .map(|text| text.len() + AUTH_TAG_LENGTH)
            .sum()
    }

    /// The frame on the wire.
    pub fn bytes(&self, sealer: &mut Sealer) -> Vec<u8> {
        let offs = self.nonces_off.iter().zip(&self.keys_off);
        let texts = self.texts.iter().zip(offs);
        let seal = |(text, (nonce, key)): (&Vec<u8>, (&u64, &u8))| sealer.seal(text, *nonce, *key);
        let mut parts: Vec<Vec<u8>> = texts.map(seal).collect();
        for (part, place, bits) in &self.damage {
            parts[*part][*place] ^= bits;
        }
        parts.concat()
    }
}

#[cfg(test)]
mod tests {
    use super::*;
    use crate::fixed::request::{frame, source};
    use crate::secure::Direction;

    const KEY: [u8; 16] = [3; 16];
    const START: Nonce = [0xFF; 12];

    fn made(lengths: &[u32], abort: bool) -> SealedFrame {
        let frame = frame(lengths);
        SealedFrame::new(frame, abort, &source(frame.sum()))
    }

    fn sealer() -> Sealer {
        Sealer {
            key: KEY,
            start: START,
            sealed: 0,
        }
    }

    #[test]
    fn parts_open_one_after_the_other() {
        let made = made(&[105, 70, 0, 350], false);
        let bytes = made.bytes(&mut sealer());
        assert_eq!(bytes.len(), 640);
        let mut direction = Direction::new(KEY, START, 0);
        let parts = [&bytes[..96], &bytes[96..176], &bytes[176..]];
        for (part, text) in parts.into_iter().zip(&made.texts) {
            assert_eq!(direction.open(part).as_ref(), Ok(text));
        }
    }

    #[test]
    fn every_padding_is_named_and_is_zero() {
        let padding = |lengths: &[u32]| {
            let made = made(lengths, false);
            let zeros = |(part, bytes): &Padding| made.texts[*part][bytes.clone()].to_vec();
            assert!(made.paddings().iter().flat_map(zeros).all(|byte| byte == 0));
            made.paddings()
        };
        assert_eq!(padding(&[0]), [(0, 32..80)]);
        assert_eq!(padding(&[48]), []);
        assert_eq!(padding(&[49]), [(1, 1..16)]);
        assert_eq!(padding(&[64]), []);
        assert_eq!(padding(&[20, 16]), [(0, 52..80), (1, 17..32)]);
        let all = [(1, 57..64), (2, 70..80), (2, 430..432), (2, 433..448)];
        assert_eq!(padding(&[105, 70, 0, 350]), all);
    }

    #[test]
    fn late_statuses() {
        assert_eq!(made(&[5, 1], false).late_status_mut(), Some(&mut 0x0E));
        assert_eq!(made(&[50, 1], true).late_status_mut(), Some(&mut 0x01));
        assert_eq!(made(&[50], false).late_status_mut(), None);
    }
}
