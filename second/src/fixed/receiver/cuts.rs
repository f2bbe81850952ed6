//! One stream in each revision, cut in two at every byte and byte by byte.

use crate::fixed::receiver::case::{aborted, peer, whole, Case};
use crate::fixed::request::REVISIONS;
use crate::records::Record;
use crate::wire::Revision;

/// Whole and aborted frames, with and without bytes in segment 1, and at the
/// end one with a wrong checksum.
fn stream(revision: Revision) -> Vec<u8> {
    let mut last = whole(revision, &[4, 5]);
    last.segment_mut(1)[0] ^= 1;
    let frames = [
        whole(revision, &[9, 0, 5]),
        aborted(revision, &[4, 6]),
        whole(revision, &[0]),
        aborted(revision, &[0, 3]),
        whole(revision, &[2]),
        last,
    ];
    let mut stream = peer(revision).banner();
    stream.extend(frames.iter().flat_map(|frame| &frame.bytes));
    stream
}

fn cuts_of(revision: Revision) -> Vec<Record> {
    let case = Case::stream(stream(revision)).with_store(17);
    let course = case.course();
    let places = 0..=case.stream.len();
    let mut records: Vec<Record> = places
        .map(|place| case.cut(course.pieces([place])))
        .collect();
    records.push(case.cut(course.byte_by_byte()));
    records
}

pub fn cuts() -> Vec<Record> {
    REVISIONS.into_iter().flat_map(cuts_of).collect()
}
