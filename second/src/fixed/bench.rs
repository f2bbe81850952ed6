//! The bench cases that records for checksums and builders can ask for.

use crate::checksum::{PREAMBLE_START, SEGMENT_START};
use crate::fixed::examples::EXAMPLES;
use crate::fixed::published::checksum_of;
use crate::fixed::request::{exact, REVISIONS};
use crate::records::{FrameRecord, Record, SendBuffer};
use crate::wire::Revision;

fn accepted(revision: Revision, lengths: &[u32]) -> Record {
    Record::Frame(exact(revision, lengths))
}

/// Refused requests get a buffer that counts from 0 to 31: it must come back
/// as it was, and the checksum of those bytes is published.
fn refused(revision: Revision, lengths: &[u32]) -> Record {
    Record::Frame(FrameRecord {
        buffer: SendBuffer::around(32, 0, 0, 0),
        ..exact(revision, lengths)
    })
}

/// Cases 1 to 3.
fn checksums() -> Vec<Record> {
    vec![
        checksum_of(SEGMENT_START, b"123456789"),
        checksum_of(SEGMENT_START, &[0; 32]),
        checksum_of(PREAMBLE_START, &[0; 28]),
    ]
}

/// Cases 4 and 5.
fn wire_lengths() -> Vec<Record> {
    let pairs = REVISIONS.map(|revision| EXAMPLES.map(|lengths| accepted(revision, lengths)));
    pairs.concat()
}

/// Case 7.
fn shapes(revision: Revision) -> Vec<Record> {
    vec![refused(revision, &[5, 0]), accepted(revision, &[0])]
}

/// Case 8, without a source: at the limits that is refused, above them a
/// length.
fn limits(revision: Revision) -> Vec<Record> {
    vec![
        refused(revision, &[1_048_576]),
        refused(revision, &[1_048_577]),
        refused(revision, &[1_048_576, 1_048_576]),
        refused(revision, &[1_048_576, 1_048_576, 1]),
    ]
}

/// Case 12. The source is empty, which is what the sum is in 32 bits.
fn wrapping_sum(revision: Revision) -> Vec<Record> {
    vec![refused(revision, &[0x4000_0000; 4])]
}

pub fn bench() -> Vec<Record> {
    let mut records = checksums();
    records.extend(wire_lengths());
    for cases in [shapes, limits, wrapping_sum] {
        records.extend(REVISIONS.into_iter().flat_map(cases));
    }
    records
}
