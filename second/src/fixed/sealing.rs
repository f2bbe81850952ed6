//! Sealing records: published and derived vectors, every boundary of the
//! lengths, every damaged bit, and records that are none.

use crate::fixed::CaseFile;
use crate::gcm::{self, AUTH_TAG_LENGTH};
use crate::input::LARGEST_LENGTH;
use crate::records::{FrameStore, Record, SealingRecord};

/// A line is key, nonce, text and sealed bytes in hex digits, a `-` for none.
const PUBLISHED: &str = include_str!("../../../tests/known/sealing/gcm-published.hex");
const DERIVED: &str = include_str!("../../../tests/known/sealing/gcm-derived.hex");

fn hex(word: &str) -> Vec<u8> {
    let digits = word.trim_matches('-');
    let byte = |place: usize| u8::from_str_radix(&digits[place..place + 2], 16);
    let bytes = (0..digits.len()).step_by(2).map(byte);
    bytes.collect::<Result<_, _>>().expect("hex digits")
}

struct Vector {
    key: [u8; 16],
    nonce: [u8; 12],
    text: Vec<u8>,
    sealed: Vec<u8>,
}

fn vectors(lines: &str) -> Vec<Vector> {
    let vector = |line: &str| {
        let words: Vec<Vec<u8>> = line.split(' ').map(hex).collect();
        Vector {
            key: words[0].clone().try_into().expect("a key"),
            nonce: words[1].clone().try_into().expect("a nonce"),
            text: words[2].clone(),
            sealed: words[3].clone(),
        }
    };
    lines.lines().map(vector).collect()
}

impl Vector {
    fn record(&self, length: usize, fill: u8, bytes: &[u8]) -> SealingRecord {
        SealingRecord {
            key: self.key,
            nonce: self.nonce,
            store: FrameStore {
                length: length as u32,
                fill,
            },
            bytes: bytes.to_vec(),
        }
    }

    /// Sealed into a buffer that it fills, opened into one that the text
    /// fills, and opened with a wrong last bit.
    fn records(&self) -> [Record; 3] {
        let mut wrong = self.sealed.clone();
        *wrong.last_mut().expect("a tag") ^= 1;
        [
            Record::Seal(self.record(self.sealed.len(), 0, &self.text)),
            Record::Open(self.record(self.text.len(), 0, &self.sealed)),
            Record::Open(self.record(self.text.len(), 0, &wrong)),
        ]
    }
}

fn records(lines: &str) -> Vec<Record> {
    vectors(lines).iter().flat_map(Vector::records).collect()
}

/// The GCM specification's test cases 1 to 3.
pub fn published() -> Vec<Record> {
    records(PUBLISHED)
}

pub fn derived() -> Vec<Record> {
    records(DERIVED)
}

fn example(length: u32) -> Vector {
    let key: [u8; 16] = std::array::from_fn(|place| place as u8 * 17);
    let nonce: [u8; 12] = std::array::from_fn(|place| 0xF0 ^ place as u8);
    let text: Vec<u8> = (0..length).map(|place| (place * 7 + 3) as u8).collect();
    let mut sealed = vec![0; text.len() + AUTH_TAG_LENGTH];
    gcm::seal(&key, &nonce, &text, &mut sealed).expect("room for it");
    Vector {
        key,
        nonce,
        text,
        sealed,
    }
}

/// Lengths around whole blocks and the longest, with a byte of room too few,
/// just enough and one to spare; sealed bytes too short to have a tag.
pub fn boundaries() -> Vec<Record> {
    let longest = LARGEST_LENGTH - AUTH_TAG_LENGTH as u32;
    let lengths = (0..=34).chain([47, 48, 49, 255, 256, 257, 4_096, longest]);
    let mut records = Vec::new();
    for length in lengths {
        let vector = example(length);
        let (text, sealed) = (vector.text.len(), vector.sealed.len());
        for room in [sealed - 1, sealed, sealed + 1] {
            let room = room.min(LARGEST_LENGTH as usize);
            records.push(Record::Seal(vector.record(room, 0x5A, &vector.text)));
        }
        for room in [text.saturating_sub(1), text, text + 1] {
            records.push(Record::Open(vector.record(room, 0x5A, &vector.sealed)));
        }
    }
    let vector = example(20);
    for kept in 0..vector.sealed.len() {
        records.push(Record::Open(vector.record(
            24,
            0xC3,
            &vector.sealed[..kept],
        )));
    }
    records
}

/// Each bit of sealed bytes, of the key and of the nonce, turned by itself.
pub fn every_bit() -> Vec<Record> {
    let vector = example(21);
    let mut records = Vec::new();
    for bit in 0..vector.sealed.len() * 8 {
        let mut bytes = vector.sealed.clone();
        bytes[bit / 8] ^= 1 << (bit % 8);
        records.push(Record::Open(vector.record(23, 0x11, &bytes)));
    }
    for bit in 0..128 + 96 {
        let mut record = vector.record(23, 0x11, &vector.sealed);
        let place = bit / 8;
        let byte = match place {
            0..=15 => &mut record.key[place],
            _ => &mut record.nonce[place - 16],
        };
        *byte ^= 1 << (bit % 8);
        records.push(Record::Open(record));
    }
    records
}

/// Records cut off anywhere in their fields, and lengths above the limit.
pub fn bad_files() -> Vec<CaseFile> {
    let vector = example(5);
    let seal = Record::Seal(vector.record(21, 0, &vector.text));
    let open = Record::Open(vector.record(5, 0, &vector.sealed));
    let mut files = Vec::new();
    for record in [&seal, &open] {
        let length = record.to_bytes().len();
        for kept in [1, 16, 17, 28, 29, 33, 34, 37, length - 1] {
            files.push(CaseFile::cut(record, kept));
        }
        for place in [29, 34] {
            let mut bytes = record.to_bytes();
            bytes[place..place + 4].copy_from_slice(&(LARGEST_LENGTH + 1).to_le_bytes());
            files.push(CaseFile::spoilt(&[seal.clone()], &bytes, &[open.clone()]));
        }
    }
    files
}
