//! Files that end in a bad record of receivers with tries or of sealed builds. Of
//! the former none of its lines is printed; of the latter those of the builds
//! before the bad one.

use crate::fixed::published::checksum_of;
use crate::fixed::switching::case::{sealed, Case};
use crate::fixed::switching::frames;
use crate::fixed::CaseFile;
use crate::input::{LARGEST_LENGTH, LARGEST_STREAM, MOST_CALLS};
use crate::records::{Build, Call, LendingRecord, LentCall, Record, SwitchingRecord};
use crate::records::{MOST_BUILDS, MOST_TRIES, TRY_LENGTH};
use Call::{Receive, Switch};

const STORE_LENGTH_FIELD: usize = 17;
const TRIES_FIELD: usize = 22;
/// Of a record with two tries.
const CALLS_FIELD: usize = TRIES_FIELD + 1 + 2 * TRY_LENGTH;
const FIRST_CALL_FIELD: usize = CALLS_FIELD + 2;

/// Of a record of builds.
const FIRST_BUILD: usize = 40;
const ABORT_FIELD: usize = 26;
const BUFFER_FIELD: usize = 27;
const SOURCE_FIELD: usize = 40;

fn switching() -> SwitchingRecord {
    let case = Case::new(&[&sealed(&[5])]);
    SwitchingRecord {
        own: case.own,
        store: case.store,
        tries: case.tries.to_vec(),
        calls: vec![Receive(26), Receive(50), Switch(0), Receive(100)],
        stream: case.stream,
    }
}

fn lending() -> LendingRecord {
    let SwitchingRecord {
        own,
        store,
        tries,
        calls,
        stream,
    } = switching();
    let lent = |call| LentCall { call, lent: 70 };
    LendingRecord {
        own,
        store,
        tries,
        calls: calls.into_iter().map(lent).collect(),
        stream,
    }
}

/// A good record, the bad bytes, and a good record behind them.
fn spoilt(bad: &[u8]) -> CaseFile {
    let good = [Record::Switching(switching())];
    CaseFile::spoilt(&good, bad, &[checksum_of(0, b"behind")])
}

fn patched(record: &Record, place: usize, bytes: &[u8]) -> CaseFile {
    let mut bad = record.to_bytes();
    bad[place..place + bytes.len()].copy_from_slice(bytes);
    spoilt(&bad)
}

/// Both kinds of receivers: the numbers of tries and calls, and what calls name.
fn receivers() -> Vec<CaseFile> {
    let above = (LARGEST_LENGTH + 1).to_le_bytes();
    let mut files = Vec::new();
    let both = [
        (Record::Switching(switching()), 4),
        (Record::Lending(lending()), 8),
    ];
    for (record, call) in &both {
        let calls = FIRST_CALL_FIELD;
        let number = |number: u32| number.to_le_bytes();
        files.extend([
            patched(record, STORE_LENGTH_FIELD, &above),
            patched(record, TRIES_FIELD, &[MOST_TRIES + 1]),
            patched(record, TRIES_FIELD, &[0xFF]),
            patched(record, CALLS_FIELD, &(MOST_CALLS + 1).to_le_bytes()),
            patched(record, calls, &above),
            patched(record, calls, &number(0xFFFF_FEFF)),
            patched(record, calls, &number(0xFFFF_FF02)),
            patched(record, calls + 2 * call, &number(0xFFFF_FF02)),
            patched(record, calls + 3 * call, &[0xFF; 4]),
            patched(record, calls + 4 * call, &[0xFF; 4]),
        ]);
        let length = record.to_bytes().len();
        let cuts = [1, 9, 17, 21, 22, 23, 38, 39, 50, 51, 62, 63, 70, 71, 118];
        let cuts = cuts
            .into_iter()
            .chain([119, 120, 121, 124, 125, length - 1]);
        files.extend(cuts.map(|kept| CaseFile::cut(record, kept)));
    }
    // What a try lends is a length as well.
    files.push(patched(&both[1].0, FIRST_CALL_FIELD + 2 * 8 + 4, &above));
    files.push(patched(&both[1].0, FIRST_CALL_FIELD + 4, &above));
    files
}

/// One above each largest number, with all that it asks for.
fn over_long() -> Vec<CaseFile> {
    let mut tries = switching();
    tries
        .tries
        .resize(usize::from(MOST_TRIES) + 1, tries.tries[0]);
    let mut calls = switching();
    calls.calls = vec![Receive(1); usize::from(MOST_CALLS) + 1];
    let mut stream = switching();
    stream.stream = vec![0x63; LARGEST_STREAM as usize + 1];
    let mut none = switching();
    none.tries.clear();
    let records = [tries, calls, stream, none].map(Record::Switching);
    records
        .iter()
        .map(|record| spoilt(&record.to_bytes()))
        .collect()
}

fn builds() -> Vec<Build> {
    vec![
        frames::build(&[3], false),
        frames::build(&[50, 2], true),
        frames::build(&[7, 0, 1], false),
    ]
}

/// The bytes of a record of builds, and where each begins.
fn record_of_builds() -> (Record, Vec<usize>) {
    let record = frames::record(0, builds());
    let mut place = FIRST_BUILD;
    let mut places = Vec::new();
    for build in builds() {
        places.push(place);
        place += SOURCE_FIELD + 4 + build.source.len();
    }
    (record, places)
}

/// Bytes of a bad record of builds: those before the bad one have run.
fn ran(bad: &[u8], builds: usize) -> CaseFile {
    let mut file = spoilt(bad);
    file.lines += builds;
    file
}

fn bad_builds() -> Vec<CaseFile> {
    let (record, places) = record_of_builds();
    let bytes = record.to_bytes();
    let with = |place: usize, other: &[u8], builds: usize| {
        let mut bad = bytes.clone();
        bad[place..place + other.len()].copy_from_slice(other);
        ran(&bad, builds)
    };
    let above = (LARGEST_LENGTH + 1).to_le_bytes();
    let most = (MOST_BUILDS + 1).to_le_bytes();
    let mut files = vec![
        with(0, b"y", 0),
        with(1, &[2], 0),
        with(1, &[0xFF], 0),
        with(FIRST_BUILD - 2, &most, 0),
        with(FIRST_BUILD - 2, &[0xFF; 2], 0),
    ];
    for (number, place) in places.iter().enumerate() {
        files.push(with(place + ABORT_FIELD, &[2], number));
        files.push(with(place + BUFFER_FIELD, &above, number));
        files.push(with(place + SOURCE_FIELD, &above, number));
    }
    for kept in (1..bytes.len())
        .step_by(5)
        .chain([FIRST_BUILD, bytes.len() - 1])
    {
        let mut file = CaseFile::cut(&record, kept);
        let ends = places[1..].iter().filter(|place| **place <= kept);
        file.lines += ends.count();
        files.push(file);
    }
    // One more build than there are.
    let mut more = bytes.clone();
    more[FIRST_BUILD - 2] += 1;
    let mut file = CaseFile::spoilt(&[], &more, &[]);
    file.lines += places.len();
    files.push(file);
    files
}

pub fn files() -> Vec<CaseFile> {
    let mut files = receivers();
    files.extend(over_long());
    files.extend(bad_builds());
    files
}
