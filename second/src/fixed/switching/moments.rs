//! A try at every byte of a stream, besides the one that goes with it.

use crate::fixed::receiver::case::{aborted, peer, whole};
use crate::fixed::switching::case::{sealed, sealed_aborted, Case, ALL, SECRETS};
use crate::records::{Call, Record};
use crate::wire::Revision;
use Call::{Receive, Switch};

/// The calls that take the stream's first bytes, up to the place, and those that
/// take the rest, with a try between the two.
fn tried_at(case: &Case, place: usize, other: u8) -> Record {
    let course = case.course();
    let pieces = course.pieces([place]);
    let mut calls = Vec::new();
    let mut at = 0;
    let mut tried = false;
    for call in course.calls(&pieces, 0) {
        if at >= place && !tried {
            calls.push(Switch(other));
            tried = true;
        }
        calls.push(call);
        if let Receive(piece) = call {
            at = course.stop(at, piece);
        }
    }
    calls.extend([Switch(other), Receive(0), Receive(ALL)]);
    case.calls(calls)
}

fn tried_everywhere(case: &Case) -> Vec<Record> {
    let places = 0..=case.stream.len();
    places
        .flat_map(|place| [0, 1].map(|other| tried_at(case, place, other)))
        .collect()
}

/// Frames in crc mode alone: after each frame and drop the switch may be made,
/// and the next frame is then no sealed one.
fn clear(revision: Revision) -> Case {
    let frames = [
        whole(revision, &[4, 3]),
        aborted(revision, &[1, 2]),
        whole(revision, &[0]),
    ];
    let mut case = Case::new(&[]);
    case.stream = peer(revision).banner();
    case.stream.extend(frames.iter().flat_map(|f| &f.bytes));
    case.after = usize::MAX;
    case.with_store(40)
}

pub fn moments() -> Vec<Record> {
    let behind = [
        whole(Revision::Msgr21, &[4, 3]),
        aborted(Revision::Msgr21, &[1, 2]),
    ];
    let frames = [&sealed(&[50, 3]), &sealed_aborted(&[3, 3]), &sealed(&[0])];
    let case = Case::behind(&behind, &frames, SECRETS.receiving, 0);
    let mut refused = Case::behind(&behind, &frames[..1], SECRETS.receiving, 0);
    let last = refused.stream.len() - 1;
    refused.stream[last] ^= 0x80;
    let mut records = tried_everywhere(&case);
    records.extend(tried_everywhere(&refused));
    records.extend(tried_everywhere(&clear(Revision::Msgr21)));
    records.extend(tried_everywhere(&clear(Revision::Msgr20)));
    records
}
