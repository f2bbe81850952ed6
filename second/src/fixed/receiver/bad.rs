//! Files that end in a bad receiver record: none of its lines is printed.

use crate::fixed::published::checksum_of;
use crate::fixed::receiver::case::{whole, Case};
use crate::fixed::CaseFile;
use crate::input::{LARGEST_LENGTH, LARGEST_STREAM, MOST_CALLS};
use crate::records::Record;
use crate::wire::Revision;

const STORE_LENGTH_FIELD: usize = 17;
const CALLS_FIELD: usize = 22;
const FIRST_PIECE_FIELD: usize = 24;

fn case() -> Case {
    Case::frame(&whole(Revision::Msgr21, &[5, 3]))
}

fn record() -> Record {
    case().calls(vec![30, 40, 50])
}

/// A good receiver record, the bad bytes, and a good record behind them.
fn spoilt(bad: &[u8]) -> CaseFile {
    CaseFile::spoilt(&[record()], bad, &[checksum_of(0, b"behind")])
}

/// The record with other bytes at the place.
fn patched(place: usize, bytes: &[u8]) -> CaseFile {
    let mut bad = record().to_bytes();
    bad[place..place + bytes.len()].copy_from_slice(bytes);
    spoilt(&bad)
}

/// Ends of input inside each field or right before it.
fn cuts() -> Vec<CaseFile> {
    let whole = record().to_bytes().len();
    let places = [1, 8, 9, 16, 17, 20, 21, 22, 23, 24, 28, 35, 36, 39, 40];
    let cut = |kept: usize| CaseFile::cut(&record(), kept);
    places.into_iter().chain([whole - 1]).map(cut).collect()
}

/// One above each largest number, with all that it asks for.
fn over_long() -> Vec<CaseFile> {
    let above = (LARGEST_LENGTH + 1).to_le_bytes();
    let calls = case().calls(vec![1; usize::from(MOST_CALLS) + 1]);
    let stream = Case::stream(vec![0x63; LARGEST_STREAM as usize + 1]);
    vec![
        patched(STORE_LENGTH_FIELD, &above),
        patched(FIRST_PIECE_FIELD, &above),
        patched(FIRST_PIECE_FIELD + 8, &above),
        spoilt(&calls.to_bytes()),
        spoilt(&stream.calls(vec![1]).to_bytes()),
    ]
}

pub fn files() -> Vec<CaseFile> {
    let mut files = vec![
        patched(0, b"r"),
        patched(STORE_LENGTH_FIELD, &[0xFF; 4]),
        patched(CALLS_FIELD, &[0xFF; 2]),
        patched(FIRST_PIECE_FIELD, &[0xFF; 4]),
        patched(FIRST_PIECE_FIELD + 12, &[0xFF; 4]),
    ];
    files.extend(cuts());
    files.extend(over_long());
    files
}
