//! Stores that are long enough or not, and calls that lend stores of different
//! lengths.

use crate::cutting::Course;
use crate::fixed::switching::case::{sealed, sealed_aborted, Case, ALL};
use crate::records::{Call, LendingRecord, LentCall, Record};
use crate::secure::store_needed;
use Call::{Receive, Switch};

const SHAPES: [&[u32]; 7] = [
    &[0],
    &[16],
    &[48],
    &[49],
    &[5, 3],
    &[60, 17],
    &[0, 0, 16, 1],
];

fn lending(case: &Case, calls: Vec<LentCall>) -> Record {
    Record::Lending(LendingRecord {
        own: case.own,
        store: case.store,
        tries: case.tries.to_vec(),
        calls,
        stream: case.stream.clone(),
    })
}

/// A store of each length up to some bytes more than is needed.
fn lengths() -> Vec<Record> {
    let mut records = Vec::new();
    for lengths in SHAPES {
        let frame = sealed(lengths);
        let needed = store_needed(&frame.frame) as u32;
        let case = Case::new(&[&frame, &sealed(&[1])]);
        for length in [0, 2, 31, 32, needed - 17, needed - 1, needed, needed + 1] {
            records.extend(case.clone().with_store(length).both());
        }
    }
    records
}

fn lending_all(call: Call) -> LentCall {
    LentCall { call, lent: ALL }
}

/// The calls that take the stream's first bytes, up to the place, the switch
/// among them.
fn up_to(course: &Course, place: usize) -> Vec<LentCall> {
    let mut pieces = Vec::new();
    let mut at = 0;
    while at < place {
        let piece = (place - at) as u32;
        pieces.push(piece);
        at = course.stop(at, piece);
    }
    let calls = course.calls(&pieces, 0);
    calls.into_iter().map(lending_all).collect()
}

/// At every byte of a stream one call that lends as much as the frame needs, one
/// byte less, its segments' length, or nothing; behind it the whole store.
fn one_shorter(lengths: &[u32]) -> Vec<Record> {
    let frame = sealed(lengths);
    let needed = store_needed(&frame.frame) as u32;
    let sum = frame.frame.sum() as u32;
    let case = Case::new(&[&frame, &sealed(&[0])]);
    let course = case.course();
    let clear = case.stream.len() - 96 - frame.bytes_length();
    let mut records = Vec::new();
    for place in clear..=case.stream.len() {
        for (lent, piece) in [
            (needed, ALL),
            (needed - 1, ALL),
            (needed - 1, 0),
            (sum, 1),
            (0, 1),
        ] {
            let mut calls = up_to(&course, place);
            calls.push(LentCall::receive(piece, lent));
            calls.push(LentCall {
                call: Switch(1),
                lent: 0,
            });
            calls.extend([Receive(1), Receive(ALL), Receive(ALL)].map(lending_all));
            records.push(lending(&case, calls));
        }
    }
    records
}

/// Stores that grow and shrink from call to call, over several frames: what is
/// not lent stays, and what an earlier frame left in it is seen again.
fn up_and_down() -> Vec<Record> {
    let frames = [
        &sealed(&[60, 7]),
        &sealed(&[0]),
        &sealed_aborted(&[2, 3]),
        &sealed(&[16]),
        &sealed(&[0, 0, 0, 4]),
        &sealed_aborted(&[50, 0, 10]),
    ];
    let case = Case::new(&frames);
    let course = case.course();
    let calls = course.calls(&course.whole(), 0);
    let lents = [
        [112, 117, 113],
        [117, 112, 32],
        [ALL, 118, 112],
        [112, 111, 117],
        [112, 64, 48],
    ];
    let record = |lents: [u32; 3]| {
        let lents = lents.into_iter().cycle();
        let calls = calls.iter().zip(lents);
        let calls = calls.map(|(&call, lent)| LentCall { call, lent });
        lending(&case, calls.collect())
    };
    lents.into_iter().map(record).collect()
}

pub fn stores() -> Vec<Record> {
    let mut records = lengths();
    for lengths in [&[60_u32, 5][..], &[0, 1], &[50], &[3]] {
        records.extend(one_shorter(lengths));
    }
    records.extend(up_and_down());
    records
}
