//! Checksum records: the published vectors, and every byte and start value
//! that shows a word of the table.

use crate::checksum::SEGMENT_START;
use crate::fixed::request::source;
use crate::input::LARGEST_LENGTH;
use crate::records::{ChecksumRecord, Record};

/// The iSCSI SCSI Read (10) command of RFC 3720 B.4.
const READ_COMMAND: [u8; 48] = [
    0x01, 0xC0, 0x00, 0x00, 0x00, 0x00, 0x00, 0x00, 0x00, 0x00, 0x00, 0x00, //
    0x00, 0x00, 0x00, 0x00, 0x14, 0x00, 0x00, 0x00, 0x00, 0x00, 0x04, 0x00, //
    0x00, 0x00, 0x00, 0x14, 0x00, 0x00, 0x00, 0x18, 0x28, 0x00, 0x00, 0x00, //
    0x00, 0x00, 0x00, 0x00, 0x02, 0x00, 0x00, 0x00, 0x00, 0x00, 0x00, 0x00, //
];

pub fn checksum_of(start: u32, bytes: &[u8]) -> Record {
    Record::Checksum(ChecksumRecord {
        start,
        bytes: bytes.to_vec(),
    })
}

pub fn rfc3720() -> Vec<Record> {
    let up: Vec<u8> = (0..32).collect();
    let down: Vec<u8> = (0..32).rev().collect();
    let vectors: [&[u8]; 6] = [
        &[0; 32],
        &[0xFF; 32],
        &up,
        &down,
        &READ_COMMAND,
        b"123456789",
    ];
    let records = vectors.map(|bytes| checksum_of(SEGMENT_START, bytes));
    records.to_vec()
}

/// From start 0 a single byte gives its word of the table.
fn table_words() -> impl Iterator<Item = Record> {
    (0..=255).map(|byte| checksum_of(0, &[byte]))
}

/// The start value by itself, then each of its bits alone over a few zeros.
fn starts() -> impl Iterator<Item = Record> {
    let empty = [0, 1, 0x8000_0000, SEGMENT_START].map(|start| checksum_of(start, &[]));
    let bits = (0..32).map(|bit| checksum_of(1 << bit, &[0; 3]));
    empty.into_iter().chain(bits)
}

/// Lengths on both sides of the sizes by which bytes may be taken at a time.
fn lengths() -> impl Iterator<Item = Record> {
    let short = 0..=65;
    let long = [
        255,
        256,
        257,
        4_095,
        4_096,
        4_097,
        u64::from(LARGEST_LENGTH),
    ];
    short
        .chain(long)
        .flat_map(|length| [0, SEGMENT_START].map(|start| checksum_of(start, &source(length))))
}

pub fn checksums() -> Vec<Record> {
    table_words().chain(starts()).chain(lengths()).collect()
}
