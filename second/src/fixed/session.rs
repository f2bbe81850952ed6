//! The fixed files of sessions.

use crate::fixed::published::checksum_of;
use crate::fixed::CaseFile;
use crate::input::MOST_CALLS;
use crate::records::{Record, SessionCall, SessionRecord};
use SessionCall::{Accept, Ack, Held, Reconnect, Reset};

/// The most messages that a session holds.
const HELD_LIMIT: u64 = 64;

/// The first byte of the first call.
const FIRST_CALL: usize = 11;

/// Bytes of a call.
const CALL: usize = 9;

fn session(last: u64, calls: Vec<SessionCall>) -> Record {
    Record::Session(SessionRecord::good(last, calls))
}

fn accepts(count: u64) -> Vec<SessionCall> {
    (0..count).map(|place| Accept(1_000 + place)).collect()
}

/// The calls, each followed by a look at both ends of what is held.
fn looked_at(calls: &[SessionCall]) -> Vec<SessionCall> {
    let look = [Held(0), Held(1), Held(HELD_LIMIT - 1), Held(HELD_LIMIT)];
    let each = calls
        .iter()
        .map(|call| [&[*call], look.as_slice()].concat());
    each.flatten().collect()
}

/// Each line of the format page, and the refusals, in as few calls as show them.
pub fn shown() -> Vec<Record> {
    let calls = vec![
        Accept(111),
        Accept(777),
        Accept(888),
        Ack(4),
        Reconnect(4),
        Held(0),
        Reset { full: true },
        Held(0),
    ];
    vec![
        session(3, calls),
        session(
            0,
            vec![Ack(1), Reconnect(1), Reconnect(0), Reset { full: false }],
        ),
        session(u64::MAX, vec![Accept(7), Ack(u64::MAX)]),
        session(0, accepts(HELD_LIMIT + 1)),
    ]
}

/// A table that becomes full, with every number of acks that frees a place.
fn full_tables() -> Vec<Record> {
    let record = |last: u64, acked: u64| {
        let mut calls = accepts(HELD_LIMIT + 1);
        calls.extend(looked_at(&[Ack(last + acked)]));
        calls.extend(accepts(acked + 1));
        calls.extend(looked_at(&[Reconnect(last + acked), Reset { full: false }]));
        calls.extend(looked_at(&[Reset { full: true }, Reconnect(last)]));
        session(last, calls)
    };
    let lasts = [0, 1, 62, 63, 64, 1_000, u64::MAX - 2 * HELD_LIMIT];
    let each = lasts.into_iter();
    each.flat_map(|last| {
        (0..=HELD_LIMIT)
            .step_by(8)
            .map(move |acked| record(last, acked))
    })
    .collect()
}

/// Acks and reconnects around the last number and around an earlier ack.
fn acks() -> Vec<Record> {
    let mut records = Vec::new();
    for last in [0, 1, 5, u64::MAX - 9] {
        for number in [0, last, last + 1, last + 4, last + 8, last + 9, u64::MAX] {
            let mut calls = accepts(8);
            calls.push(Ack(last + 4));
            calls.extend(looked_at(&[Ack(number), Reconnect(number), Ack(last + 2)]));
            records.push(session(last, calls));
        }
    }
    records
}

/// The last numbers there are: 25 comes before a full table's 22.
fn spent() -> Vec<Record> {
    let mut records = Vec::new();
    for left in [0, 1, 2, HELD_LIMIT - 1, HELD_LIMIT, HELD_LIMIT + 1] {
        let mut calls = accepts(HELD_LIMIT + 2);
        calls.extend(looked_at(&[Ack(u64::MAX), Accept(5), Reconnect(u64::MAX)]));
        records.push(session(u64::MAX - left, calls));
    }
    records
}

fn places() -> Record {
    let mut calls = accepts(3);
    calls.extend([0, 1, 2, 3, 64, 1 << 32, u64::MAX].map(Held));
    session(9, calls)
}

fn largest() -> Vec<Record> {
    let most = u64::from(MOST_CALLS);
    let mut resends = accepts(HELD_LIMIT);
    resends.resize(usize::from(MOST_CALLS), Reconnect(0));
    vec![
        session(0, accepts(most)),
        session(u64::MAX - HELD_LIMIT, resends),
        session(0, Vec::new()),
    ]
}

pub fn boundaries() -> Vec<Record> {
    let mut records = vec![places()];
    records.extend(full_tables());
    records.extend(acks());
    records.extend(spent());
    records.extend(largest());
    records
}

fn record() -> Record {
    let calls = [Accept(7), Accept(8), Ack(1), Reset { full: true }];
    session(0, calls.to_vec())
}

/// Bad bytes behind which a good record stands; `ran` calls come before them.
fn spoilt(bad: &[u8], ran: usize) -> CaseFile {
    let mut file = CaseFile::spoilt(&[record()], bad, &[checksum_of(0, b"behind")]);
    file.lines += ran;
    file
}

/// The record with other bytes in a call: those before it still run.
fn patched(call: usize, place: usize, bytes: &[u8]) -> CaseFile {
    let mut bad = record().to_bytes();
    let at = FIRST_CALL + CALL * call + place;
    bad[at..at + bytes.len()].copy_from_slice(bytes);
    spoilt(&bad, call)
}

/// Files that end in a bad record of this kind.
pub fn bad() -> Vec<CaseFile> {
    let mut kind = record().to_bytes();
    kind[0] = b'n';
    let mut count = record().to_bytes();
    count[9..11].copy_from_slice(&(MOST_CALLS + 1).to_le_bytes());
    let mut more = record().to_bytes();
    more[9] += 1;
    let mut files = vec![
        spoilt(&kind, 0),
        spoilt(&count, 0),
        spoilt(
            &session(0, accepts(u64::from(MOST_CALLS) + 1)).to_bytes(),
            0,
        ),
        patched(0, 0, &[5]),
        patched(1, 0, &[0xFF]),
        patched(2, 0, &[6]),
        patched(3, 1, &[2]),
        patched(3, 2, &[1]),
        patched(3, 8, &[0x80]),
    ];
    let length = record().to_bytes().len();
    for kept in 1..length {
        let mut file = CaseFile::cut(&record(), kept);
        file.lines += kept.saturating_sub(FIRST_CALL) / CALL;
        files.push(file);
    }
    let mut one_more = CaseFile::spoilt(&[record()], &more, &[]);
    one_more.lines += 4;
    files.push(one_more);
    files
}
