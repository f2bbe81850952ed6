//! Every receiver refusal from both sides of its boundary, what else the late
//! byte and the checksums lead to, and streams with several faults at once.

mod banners;
mod bodies;
mod preambles;

use crate::fixed::receiver::case::{aborted, peer, whole, Case};
use crate::fixed::request::REVISIONS;
use crate::input::{CARRIED_SEGMENT, LARGEST_LENGTH, LARGEST_STREAM, MOST_CALLS};
use crate::records::Record;
use crate::wire::Revision;

/// Records at the largest numbers that a record may have.
fn largest() -> Vec<Record> {
    let frame = whole(Revision::Msgr21, &[CARRIED_SEGMENT, 0, CARRIED_SEGMENT]);
    let mut stream = peer(Revision::Msgr21).banner();
    while stream.len() < LARGEST_STREAM as usize {
        stream.extend(&frame.bytes);
    }
    stream.truncate(LARGEST_STREAM as usize);
    let long = Case::stream(stream).with_store(LARGEST_LENGTH);
    let short = Case::frame(&whole(Revision::Msgr21, &[5, 3]));
    vec![
        long.uncut(),
        short.calls(vec![1; usize::from(MOST_CALLS)]),
        short.calls(vec![]),
        Case::stream(Vec::new()).calls(vec![0, 1]),
        Case::stream(Vec::new()).with_store(0).calls(vec![]),
    ]
}

/// Frame after frame in one store: each starts at its front again, and what
/// the one before left behind the new one's bytes stays.
fn one_store(revision: Revision) -> Vec<Record> {
    let frames = [
        whole(revision, &[5, 7]),
        whole(revision, &[0]),
        whole(revision, &[3]),
        aborted(revision, &[2, 3]),
        whole(revision, &[0, 0, 0, 4]),
        aborted(revision, &[1, 0, 10]),
        whole(revision, &[1]),
    ];
    let mut stream = peer(revision).banner();
    stream.extend(frames.iter().flat_map(|frame| &frame.bytes));
    Case::stream(stream).with_store(20).both().to_vec()
}

pub fn boundaries() -> Vec<Record> {
    let mut records = banners::banners();
    for revision in REVISIONS {
        records.extend(preambles::preambles(revision));
        records.extend(bodies::bodies(revision));
        records.extend(one_store(revision));
    }
    records.extend(largest());
    records
}
