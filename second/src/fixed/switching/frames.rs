//! The example frames of the protocol's own page, and frames around what fits
//! behind a preamble, each built with its own nonces.

use crate::fixed::request::{frame, source};
use crate::fixed::switching::case::SECRETS;
use crate::records::{Build, BuildsRecord, Record, SendBuffer};
use crate::secure::wire_length;

/// Lengths, and whether the frame is aborted. The first six are the page's.
pub const SHAPES: [(&[u32], bool); 16] = [
    (&[0], false),
    (&[20], false),
    (&[0, 70], false),
    (&[20, 70, 0, 350], false),
    (&[105], false),
    (&[105, 70, 0, 350], false),
    (&[105, 70, 0, 350], true),
    (&[0, 70], true),
    (&[1], false),
    (&[47], false),
    (&[48], false),
    (&[49], false),
    (&[64], false),
    (&[65], false),
    (&[48, 16], false),
    (&[49, 1, 16, 17], true),
];

/// A whole or aborted frame, with its source and a buffer that it fills.
pub fn build(lengths: &[u32], abort: bool) -> Build {
    let frame = frame(lengths);
    Build {
        frame,
        abort,
        buffer: SendBuffer::around(wire_length(&frame), 0, 0, 0),
        source: source(frame.sum()),
    }
}

/// Builds one after the other with the state of a switch, some parts sealed
/// already.
pub fn record(spent: u64, builds: Vec<Build>) -> Record {
    Record::Builds(BuildsRecord {
        refused: false,
        key: SECRETS.key,
        nonce: SECRETS.sending,
        spent,
        builds,
        spoilt: false,
    })
}

pub fn frames() -> Vec<Record> {
    let builds = SHAPES.map(|(lengths, abort)| build(lengths, abort));
    vec![record(0, builds.to_vec())]
}
