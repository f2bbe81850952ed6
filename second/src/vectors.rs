//! Banners and frames written out by hand, for tests. The segments are ones
//! whose checksums are published; the preamble checksums were worked out bit
//! by bit elsewhere.

use crate::frame::{Frame, Segment, SEGMENTS};
use crate::wire::Revision;

pub const DIGITS: &[u8; 9] = b"123456789";
pub const DIGITS_CHECKSUM: [u8; 4] = [0x7C, 0x6D, 0xF9, 0x1C];
const ZEROS_CHECKSUM: [u8; 4] = [0x55, 0xC9, 0x6E, 0x75];
const COUNTING_CHECKSUM: [u8; 4] = [0xB1, 0x86, 0x22, 0xB9];
const EMPTY_CHECKSUM: [u8; 4] = [0xFF; 4];
const UNUSED_CHECKSUM: [u8; 4] = [0; 4];

/// A banner that supports REVISION_1 or nothing, and requires nothing.
pub fn banner(revision: Revision) -> Vec<u8> {
    let mut bytes = b"ceph v2\n\x10\0".to_vec();
    bytes.push(u8::from(revision == Revision::Msgr21));
    bytes.resize(26, 0);
    bytes
}

pub fn frame(tag: u8, count: u8, fields: [(u32, u16); SEGMENTS]) -> Frame {
    let segments = fields.map(|(length, alignment)| Segment { length, alignment });
    Frame {
        tag,
        count,
        segments,
    }
}

/// Tag 16 and nothing else.
pub fn empty_frame() -> Frame {
    frame(16, 1, [(0, 0); SEGMENTS])
}

pub fn empty(revision: Revision) -> Vec<u8> {
    let mut bytes = [0; 32];
    bytes[..2].copy_from_slice(&[16, 1]);
    bytes[28..].copy_from_slice(&[0x8A, 0x7B, 0xDD, 0x5B]);
    let mut bytes = bytes.to_vec();
    if revision == Revision::Msgr20 {
        bytes.push(0x00);
        bytes.extend(EMPTY_CHECKSUM);
        bytes.extend([UNUSED_CHECKSUM; 3].concat());
    }
    bytes
}

/// Tag 20 and nine digits.
pub fn single_frame() -> Frame {
    frame(20, 1, [(9, 0), (0, 0), (0, 0), (0, 0)])
}

pub fn single_of_msgr21() -> Vec<u8> {
    let mut preamble = [0; 32];
    preamble[..3].copy_from_slice(&[20, 1, 9]);
    preamble[28..].copy_from_slice(&[0x3E, 0x68, 0x65, 0x9D]);
    [preamble.as_slice(), DIGITS, &DIGITS_CHECKSUM].concat()
}

/// Nine digits at alignment 8, nothing, 32 counting bytes at 0x1002.
pub fn three_frame() -> Frame {
    frame(17, 3, [(9, 8), (0, 0), (32, 0x1002), (0, 0)])
}

const THREE_PREAMBLE: [u8; 32] = [
    0x11, 0x03, // tag, count
    0x09, 0x00, 0x00, 0x00, 0x08, 0x00, // segment 1
    0x00, 0x00, 0x00, 0x00, 0x00, 0x00, // segment 2
    0x20, 0x00, 0x00, 0x00, 0x02, 0x10, // segment 3
    0x00, 0x00, 0x00, 0x00, 0x00, 0x00, // segment 4
    0x00, 0x00, // flags, reserved
    0xF4, 0x7F, 0xEE, 0xA9, // checksum
];

fn counting() -> Vec<u8> {
    (0..32).collect()
}

/// Its segments one after the other: 41 bytes.
pub fn three_source() -> Vec<u8> {
    [DIGITS.as_slice(), &counting()].concat()
}

pub fn three_whole(revision: Revision) -> Vec<u8> {
    let counting = counting();
    let parts: [&[u8]; 8] = match revision {
        Revision::Msgr20 => [
            &THREE_PREAMBLE,
            DIGITS,
            &counting,
            &[0x00],
            &DIGITS_CHECKSUM,
            &EMPTY_CHECKSUM,
            &COUNTING_CHECKSUM,
            &UNUSED_CHECKSUM,
        ],
        Revision::Msgr21 => [
            &THREE_PREAMBLE,
            DIGITS,
            &DIGITS_CHECKSUM,
            &counting,
            &[0x0E],
            &EMPTY_CHECKSUM,
            &COUNTING_CHECKSUM,
            &UNUSED_CHECKSUM,
        ],
    };
    parts.concat()
}

pub fn three_aborted(revision: Revision) -> Vec<u8> {
    let parts: [&[u8]; 8] = match revision {
        Revision::Msgr20 => [
            &THREE_PREAMBLE,
            DIGITS,
            &[0; 32],
            &[0x01],
            &DIGITS_CHECKSUM,
            &EMPTY_CHECKSUM,
            &ZEROS_CHECKSUM,
            &UNUSED_CHECKSUM,
        ],
        Revision::Msgr21 => [
            &THREE_PREAMBLE,
            DIGITS,
            &DIGITS_CHECKSUM,
            &[0; 32],
            &[0x01],
            &EMPTY_CHECKSUM,
            &ZEROS_CHECKSUM,
            &UNUSED_CHECKSUM,
        ],
    };
    parts.concat()
}
