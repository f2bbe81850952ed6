//! Generated sealing records: texts of all lengths, sealed bytes that are
//! good, damaged, cut or under another key or nonce, in buffers with and
//! without room.

use crate::gcm::{self, AUTH_TAG_LENGTH, KEY_LENGTH, NONCE_LENGTH};
use crate::input::LARGEST_LENGTH;
use crate::random::Random;
use crate::records::{FrameStore, Record, SealingRecord};

/// Records of seals and openings.
pub fn records(seed: u64, count: u64) -> impl Iterator<Item = Record> {
    let mut random = Random::new(seed);
    (0..count).map(move |_| record(&mut random))
}

fn record(random: &mut Random) -> Record {
    if random.once_in(3) {
        Record::Seal(seal_record(random))
    } else {
        Record::Open(open_record(random))
    }
}

/// Around whole blocks for the most part, now and then long.
fn length(random: &mut Random) -> u32 {
    match random.between(1, 200) {
        1..=20 => 0,
        21..=100 => random.between(1, 48),
        101..=160 => 16 * random.between(1, 12) + random.between(0, 2) - 1,
        161..=195 => random.between(1, 1_100),
        196..=199 => random.between(1, 6_000),
        _ => random.between(1, LARGEST_LENGTH - AUTH_TAG_LENGTH as u32),
    }
}

/// Any bytes, or all the same: a zero key and an all-ones counter are worth
/// a look of their own.
fn array<const N: usize>(random: &mut Random) -> [u8; N] {
    match random.between(1, 10) {
        1 => [0; N],
        2 => [0xFF; N],
        _ => std::array::from_fn(|_| random.u8()),
    }
}

fn text(random: &mut Random) -> Vec<u8> {
    let length = length(random);
    match random.between(1, 8) {
        1 => vec![0; length as usize],
        _ => random.bytes(length),
    }
}

/// A buffer with room for `needed` bytes, a byte too short, empty or any.
fn store(random: &mut Random, needed: usize) -> FrameStore {
    let needed = needed as u32;
    let length = match random.between(1, 12) {
        1 => needed.saturating_sub(1),
        2 => random.between(0, needed),
        3 => 0,
        4..=7 => needed,
        _ => needed + random.between(0, 40),
    };
    FrameStore {
        length: length.min(LARGEST_LENGTH),
        fill: random.u8(),
    }
}

fn seal_record(random: &mut Random) -> SealingRecord {
    let bytes = text(random);
    SealingRecord {
        key: array(random),
        nonce: array(random),
        store: store(random, bytes.len() + AUTH_TAG_LENGTH),
        bytes,
    }
}

fn sealed(key: &[u8; KEY_LENGTH], nonce: &[u8; NONCE_LENGTH], text: &[u8]) -> Vec<u8> {
    let mut out = vec![0; text.len() + AUTH_TAG_LENGTH];
    gcm::seal(key, nonce, text, &mut out).expect("room for it");
    out
}

fn flip_a_bit(random: &mut Random, bytes: &mut [u8]) {
    if let Some(last) = bytes.len().checked_sub(1) {
        let place = random.between(0, last as u32) as usize;
        bytes[place] ^= 1 << random.between(0, 7);
    }
}

/// Bytes that somebody sealed, mostly with something changed on the way.
fn open_record(random: &mut Random) -> SealingRecord {
    let (mut key, mut nonce) = (array(random), array(random));
    let text = text(random);
    let mut bytes = sealed(&key, &nonce, &text);
    let tag = text.len();
    match random.between(1, 16) {
        1 | 2 => flip_a_bit(random, &mut bytes),
        3 | 4 => flip_a_bit(random, &mut bytes[tag..]),
        5 => flip_a_bit(random, &mut bytes[..tag]),
        6 => flip_a_bit(random, &mut key),
        7 => flip_a_bit(random, &mut nonce),
        8 => {
            bytes.pop();
        }
        9 => bytes.truncate(random.between(0, 16) as usize),
        10 => bytes[tag..].fill(0),
        11 => bytes.push(0),
        _ => {}
    }
    bytes.truncate(LARGEST_LENGTH as usize);
    SealingRecord {
        key,
        nonce,
        store: store(random, bytes.len().saturating_sub(AUTH_TAG_LENGTH)),
        bytes,
    }
}

#[cfg(test)]
mod tests {
    use super::*;
    use crate::run::run;

    #[test]
    fn every_kind_of_answer_comes_up_often() {
        let bytes: Vec<u8> = records(1, 3_000)
            .flat_map(|record| record.to_bytes())
            .collect();
        let mut printed = Vec::new();
        run(&bytes, &mut printed).expect("writing to memory");
        let text = String::from_utf8(printed).expect("plain text");
        assert_eq!(text.lines().count(), 3_000);
        for kind in [
            "wrote ",
            "wrote 16 ",
            "wrote 0 ",
            "refused 14 ",
            "refused 17 ",
        ] {
            let seen = text.lines().filter(|line| line.starts_with(kind)).count();
            assert!(seen >= 40, "{kind}: {seen}");
        }
    }
}
