//! Counters that wrap, and nonces that run short at every part.

use crate::fixed::switching::case::{counting_from, sealed, sealed_aborted, Case};
use crate::records::Record;

/// Frames of one to three parts, ten in all.
fn case(counter: u64, opened: u64) -> Case {
    let frames = [
        &sealed(&[3]),
        &sealed(&[60]),
        &sealed_aborted(&[60, 4]),
        &sealed(&[3, 4]),
        &sealed(&[0]),
        &sealed(&[0]),
    ];
    Case::counted(&frames, counting_from(counter), opened)
}

pub fn nonces() -> Vec<Record> {
    let near = [
        0,
        1,
        2,
        u64::MAX - 3,
        u64::MAX - 1,
        u64::MAX,
        1 << 32,
        1 << 63,
    ];
    let mut records = Vec::new();
    for counter in near {
        records.extend(case(counter, 0).both());
        for left in 0..=11 {
            records.extend(case(counter, u64::MAX - left).both());
        }
    }
    for opened in [1, u64::from(u32::MAX), 1 << 32, 1 << 63] {
        records.push(case(u64::MAX - 1, opened).uncut());
    }
    records
}
