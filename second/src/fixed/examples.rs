//! The msgr2 page's example frames, whole and aborted.

use crate::fixed::request::{between_others, REVISIONS};
use crate::records::Record;

/// The lengths of the used segments of 0+0+0+0, 20+0+0+0, 0+70+0+0 and
/// 20+70+0+350.
pub const EXAMPLES: [&[u32]; 4] = [&[0], &[20], &[0, 70], &[20, 70, 0, 350]];

pub fn examples() -> Vec<Record> {
    let mut records = Vec::new();
    for revision in REVISIONS {
        for abort in [false, true] {
            for lengths in EXAMPLES {
                let mut record = between_others(revision, lengths);
                record.abort = abort;
                records.push(Record::Frame(record));
            }
        }
    }
    records
}
