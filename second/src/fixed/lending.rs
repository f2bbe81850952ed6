//! The fixed files of records whose calls lend stores of different lengths.

use crate::cutting::Course;
use crate::fixed::published::checksum_of;
use crate::fixed::receiver::case::{aborted, peer, whole, Case};
use crate::fixed::request::REVISIONS;
use crate::fixed::CaseFile;
use crate::input::{LARGEST_LENGTH, LARGEST_STREAM, MOST_CALLS};
use crate::records::{LendingRecord, LentCall, Record};
use crate::wire::Revision;

const STORE_LENGTH_FIELD: usize = 17;
const SWITCHES_FIELD: usize = 22;
const CALLS_FIELD: usize = 23;
const FIRST_CALL_FIELD: usize = 25;

/// Calls that lend the whole store.
fn lending_all(pieces: &[u32]) -> impl Iterator<Item = LentCall> + '_ {
    let lending = |&piece| LentCall::receive(piece, LARGEST_LENGTH);
    pieces.iter().map(lending)
}

fn lending(case: &Case, calls: Vec<LentCall>) -> Record {
    Record::Lending(LendingRecord {
        own: case.own,
        store: case.store,
        tries: Vec::new(),
        calls,
        stream: case.stream.clone(),
    })
}

/// The calls that take the stream's first bytes, up to the place.
fn up_to(course: &Course, place: usize) -> Vec<LentCall> {
    let mut calls = Vec::new();
    let mut at = 0;
    while at < place {
        let piece = (place - at) as u32;
        calls.extend(lending_all(&[piece]));
        at = course.stop(at, piece);
    }
    calls
}

/// At every byte of a stream one call that lends as much as the frame under
/// way needs, one byte less, or nothing, and is offered nothing, a byte or all;
/// behind it the whole store is lent again.
fn one_shorter(revision: Revision, lengths: &[u32]) -> Vec<Record> {
    let frame = whole(revision, lengths);
    let needed = frame.frame.sum() as u32;
    let case = Case::frame(&frame);
    let course = case.course();
    let mut records = Vec::new();
    for place in 0..=case.stream.len() {
        for lent in [needed, needed.saturating_sub(1), 0] {
            for piece in [0, 1, LARGEST_LENGTH] {
                let mut calls = up_to(&course, place);
                calls.push(LentCall::receive(piece, lent));
                calls.extend(lending_all(&[1, LARGEST_LENGTH, LARGEST_LENGTH]));
                records.push(lending(&case, calls));
            }
        }
    }
    records
}

/// Stores that grow and shrink from call to call, over several frames: what is
/// not lent stays, and what an earlier frame left in it is seen again.
fn up_and_down(revision: Revision) -> Vec<Record> {
    let frames = [
        whole(revision, &[5, 7]),
        aborted(revision, &[2, 3]),
        whole(revision, &[3]),
        whole(revision, &[0, 0, 0, 4]),
        aborted(revision, &[1, 0, 10]),
    ];
    let mut stream = peer(revision).banner();
    stream.extend(frames.iter().flat_map(|frame| &frame.bytes));
    let case = Case::stream(stream).with_store(20);
    let whole = case.course().whole();
    let lents = [[12, 13, 20], [20, 12, 19], [65_536, 12, 21], [12, 11, 20]];
    let record = |lents: [u32; 3]| {
        let lents = lents.into_iter().cycle();
        let calls = whole.iter().zip(lents);
        let calls = calls.map(|(&piece, lent)| LentCall::receive(piece, lent));
        lending(&case, calls.collect())
    };
    lents.into_iter().map(record).collect()
}

/// Records at the largest numbers.
fn largest() -> Vec<Record> {
    let short = Case::frame(&whole(Revision::Msgr21, &[5, 3]));
    let mut stream = peer(Revision::Msgr21).banner();
    stream.extend(whole(Revision::Msgr21, &[16_384, 16_384]).bytes);
    stream.resize(LARGEST_STREAM as usize, 0x63);
    let long = Case::stream(stream).with_store(LARGEST_LENGTH);
    let calls = |piece, lent, count| vec![LentCall::receive(piece, lent); usize::from(count)];
    vec![
        lending(&short, calls(1, LARGEST_LENGTH, MOST_CALLS)),
        lending(&long, calls(LARGEST_LENGTH, LARGEST_LENGTH, 4)),
        lending(&long, calls(LARGEST_LENGTH, 32_768, 4)),
        lending(&long, calls(LARGEST_LENGTH, 32_767, 4)),
        lending(&short, calls(0, 0, 0u16)),
        lending(&Case::stream(Vec::new()).with_store(0), calls(0, 1, 2)),
    ]
}

pub fn boundaries() -> Vec<Record> {
    let mut records = Vec::new();
    for revision in REVISIONS {
        records.extend(one_shorter(revision, &[6, 4]));
        records.extend(one_shorter(revision, &[0, 3, 0, 2]));
        records.extend(one_shorter(revision, &[5]));
        records.extend(up_and_down(revision));
    }
    records.extend(largest());
    records
}

fn record() -> Record {
    let case = Case::frame(&whole(Revision::Msgr21, &[5, 3]));
    lending(&case, lending_all(&[30, 40, 50]).collect())
}

fn spoilt(bad: &[u8]) -> CaseFile {
    CaseFile::spoilt(&[record()], bad, &[checksum_of(0, b"behind")])
}

/// The record with other bytes at the place.
fn patched(place: usize, bytes: &[u8]) -> CaseFile {
    let mut bad = record().to_bytes();
    bad[place..place + bytes.len()].copy_from_slice(bytes);
    spoilt(&bad)
}

/// Files that end in a bad record of this kind.
pub fn bad() -> Vec<CaseFile> {
    let above = (LARGEST_LENGTH + 1).to_le_bytes();
    let whole = record().to_bytes().len();
    let case = Case::frame(&whole_frame());
    let calls = lending_all(&vec![1; usize::from(MOST_CALLS) + 1]).collect();
    let stream = Case::stream(vec![0x63; LARGEST_STREAM as usize + 1]);
    let mut files = vec![
        patched(0, b"t"),
        patched(STORE_LENGTH_FIELD, &above),
        patched(SWITCHES_FIELD, &[9]),
        patched(SWITCHES_FIELD, &[0xFF]),
        patched(CALLS_FIELD, &[0xFF; 2]),
        patched(FIRST_CALL_FIELD, &above),
        patched(FIRST_CALL_FIELD + 4, &above),
        patched(FIRST_CALL_FIELD + 20, &above),
        patched(FIRST_CALL_FIELD, &0xFFFF_FF00_u32.to_le_bytes()),
        patched(FIRST_CALL_FIELD + 24, &[0xFF; 4]),
        spoilt(&lending(&case, calls).to_bytes()),
        spoilt(&lending(&stream, Vec::new()).to_bytes()),
    ];
    let places = [1, 9, 17, 21, 22, 23, 24, 25, 29, 33, 48, 49, 52, 53];
    let cut = |kept: usize| CaseFile::cut(&record(), kept);
    files.extend(places.into_iter().chain([whole - 1]).map(cut));
    files
}

fn whole_frame() -> crate::spoil::WireFrame {
    whole(Revision::Msgr21, &[5, 3])
}
