//! CRC32-C: reflected polynomial, any start value, no final complement.

use std::sync::OnceLock;

const POLYNOMIAL: u32 = 0x82F6_3B78;

/// Start value of a preamble's checksum.
pub const PREAMBLE_START: u32 = 0;

/// Start value of a segment's checksum, and so the checksum of an empty segment.
pub const SEGMENT_START: u32 = 0xFFFF_FFFF;

/// One step of the bit-by-bit rule: the lowest bit leaves.
fn bit_step(state: u32) -> u32 {
    let shifted = state >> 1;
    if state & 1 == 1 {
        shifted ^ POLYNOMIAL
    } else {
        shifted
    }
}

/// The table is worked out at run time from the bit-by-bit rule, so that no
/// list of constants can be copied wrongly.
fn table() -> &'static [u32; 256] {
    static TABLE: OnceLock<[u32; 256]> = OnceLock::new();
    TABLE.get_or_init(|| {
        let mut words = [0; 256];
        for (word, byte) in words.iter_mut().zip(0u32..) {
            *word = (0..8).fold(byte, |state, _| bit_step(state));
        }
        words
    })
}

/// The checksum of `bytes` from the start value `start`.
pub fn checksum(start: u32, bytes: &[u8]) -> u32 {
    let words = table();
    bytes.iter().fold(start, |state, &byte| {
        let [low, ..] = state.to_le_bytes();
        words[usize::from(low ^ byte)] ^ (state >> 8)
    })
}

#[cfg(test)]
mod tests {
    use super::*;

    /// The definition itself, one bit at a time and without a table.
    fn bit_by_bit(start: u32, bytes: &[u8]) -> u32 {
        bytes.iter().fold(start, |state, &byte| {
            (0..8).fold(state ^ u32::from(byte), |state, _| bit_step(state))
        })
    }

    #[test]
    fn published_vectors() {
        let up: Vec<u8> = (0..32).collect();
        let down: Vec<u8> = (0..32).rev().collect();
        assert_eq!(checksum(SEGMENT_START, b"123456789"), !0xE306_9283);
        assert_eq!(checksum(SEGMENT_START, &[0; 32]), !0x8A91_36AA);
        assert_eq!(checksum(SEGMENT_START, &[0xFF; 32]), !0x62A8_AB43);
        assert_eq!(checksum(SEGMENT_START, &up), !0x46DD_794E);
        assert_eq!(checksum(SEGMENT_START, &down), !0x113F_DB5C);
    }

    #[test]
    fn start_values() {
        assert_eq!(checksum(PREAMBLE_START, &[0; 28]), 0);
        assert_eq!(checksum(SEGMENT_START, &[]), 0xFFFF_FFFF);
        assert_eq!(checksum(0x1234_5678, &[]), 0x1234_5678);
    }

    #[test]
    fn table_follows_the_bit_by_bit_rule() {
        let bytes: Vec<u8> = (0..=255).collect();
        for start in [0, 1, 0x8000_0000, 0xDEAD_BEEF, 0xFFFF_FFFF] {
            assert_eq!(checksum(start, &bytes), bit_by_bit(start, &bytes));
            for &byte in &bytes {
                assert_eq!(checksum(start, &[byte]), bit_by_bit(start, &[byte]));
            }
        }
    }
}
