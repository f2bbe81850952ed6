//! Checksums written for the figures only, to hold the library's against: the
//! usual ways to work out CRC32-C, from any start value and with no complement.

const POLYNOMIAL: u32 = 0x82F6_3B78;

/// `TABLES[n][byte]` is what the byte gives with n zero bytes behind it.
static TABLES: [[u32; 256]; 16] = tables();

const fn tables() -> [[u32; 256]; 16] {
    let mut tables = [[0; 256]; 16];
    let mut byte = 0;
    while byte < 256 {
        let mut word = byte as u32;
        let mut bit = 0;
        while bit < 8 {
            word = (word >> 1) ^ (POLYNOMIAL * (word & 1));
            bit += 1;
        }
        tables[0][byte] = word;
        byte += 1;
    }
    let mut n = 1;
    while n < 16 {
        let mut byte = 0;
        while byte < 256 {
            let word = tables[n - 1][byte];
            tables[n][byte] = (word >> 8) ^ tables[0][(word & 255) as usize];
            byte += 1;
        }
        n += 1;
    }
    tables
}

/// One byte at a time.
pub fn bytewise(start: u32, bytes: &[u8]) -> u32 {
    bytes.iter().fold(start, |sum, &byte| {
        (sum >> 8) ^ TABLES[0][usize::from(sum as u8 ^ byte)]
    })
}

/// What the four bytes of a word give, with `behind` zero bytes behind them.
#[inline(always)]
fn word(word: u32, behind: usize) -> u32 {
    let [a, b, c, d] = word.to_le_bytes().map(usize::from);
    let far = TABLES[behind + 3][a] ^ TABLES[behind + 2][b];
    far ^ TABLES[behind + 1][c] ^ TABLES[behind][d]
}

fn word_at(bytes: &[u8], at: usize) -> u32 {
    u32::from_le_bytes(bytes[at..at + 4].try_into().expect("four bytes"))
}

/// Slicing by 8: a table for each of eight bytes.
pub fn by_8(start: u32, bytes: &[u8]) -> u32 {
    let groups = bytes.chunks_exact(8);
    let rest = groups.remainder();
    let sum = groups.fold(start, |sum, group| {
        word(sum ^ word_at(group, 0), 4) ^ word(word_at(group, 4), 0)
    });
    bytewise(sum, rest)
}

/// Slicing by 16.
pub fn by_16(start: u32, bytes: &[u8]) -> u32 {
    let groups = bytes.chunks_exact(16);
    let rest = groups.remainder();
    let sum = groups.fold(start, |sum, group| {
        let later = word(word_at(group, 4), 8) ^ word(word_at(group, 8), 4);
        word(sum ^ word_at(group, 0), 12) ^ later ^ word(word_at(group, 12), 0)
    });
    bytewise(sum, rest)
}

/// The processor's own instruction, where it has one.
#[cfg(target_arch = "x86_64")]
pub fn instruction() -> Option<fn(u32, &[u8]) -> u32> {
    use std::arch::x86_64::{_mm_crc32_u64, _mm_crc32_u8};

    #[target_feature(enable = "sse4.2")]
    unsafe fn checksum(start: u32, bytes: &[u8]) -> u32 {
        let groups = bytes.chunks_exact(8);
        let rest = groups.remainder();
        let sum = groups.fold(u64::from(start), |sum, group| {
            _mm_crc32_u64(
                sum,
                u64::from_le_bytes(group.try_into().expect("eight bytes")),
            )
        });
        rest.iter()
            .fold(sum as u32, |sum, &byte| _mm_crc32_u8(sum, byte))
    }

    // SAFETY: handed out only where the processor has the instruction.
    let safe = |start, bytes: &[u8]| unsafe { checksum(start, bytes) };
    is_x86_feature_detected!("sse4.2").then_some(safe)
}

#[cfg(not(target_arch = "x86_64"))]
pub fn instruction() -> Option<fn(u32, &[u8]) -> u32> {
    None
}
