//! Each line and each refusal of sealed frames and of the switch, in as few
//! calls as show them.

use crate::banner::Features;
use crate::fixed::receiver::case::{aborted, peer, whole};
use crate::fixed::switching::case::{sealed, sealed_aborted, Case, ALL, OTHERS, SECRETS};
use crate::fixed::switching::frames::SHAPES;
use crate::records::{Call, LendingRecord, LentCall, Record};
use crate::spoil::sealed::SealedFrame;
use crate::wire::Revision;
use Call::{Receive, Switch};

const BANNER: u32 = 26;

/// The frame in crc mode before the switch: two bytes and their checksum.
const CLEAR: u32 = 32 + 2 + 4;

/// The example frames one behind the other.
fn examples() -> Record {
    let frames = SHAPES.map(|(lengths, abort)| match abort {
        false => sealed(lengths),
        true => sealed_aborted(lengths),
    });
    Case::new(&frames.each_ref()).uncut()
}

fn changed(lengths: &[u32], change: impl FnOnce(&mut SealedFrame)) -> Record {
    let mut frame = sealed(lengths);
    change(&mut frame);
    Case::new(&[&frame, &sealed(&[1])]).uncut()
}

/// A wrong last bit of the tag of each part; each part short of a nonce.
fn tags_and_nonces() -> Vec<Record> {
    let lengths = [60, 5, 0, 17];
    let part = |part: usize| {
        let length = sealed(&lengths).texts[part].len();
        changed(&lengths, |frame| frame.damage.push((part, length + 15, 1)))
    };
    let left = |left: u64| {
        let opened = u64::MAX - (left - 1);
        let frames = [&sealed(&[3]), &sealed(&lengths)];
        Case::counted(&frames, SECRETS.receiving, opened).uncut()
    };
    (0..3).map(part).chain((1..=4).map(left)).collect()
}

/// A byte that isn't zero in each padding, and no padding at all.
fn paddings() -> Vec<Record> {
    let mut records = Vec::new();
    for lengths in [&[20_u32][..], &[60, 5, 0, 17], &[48], &[64]] {
        for (part, bytes) in sealed(lengths).paddings() {
            records.push(changed(lengths, |frame| frame.texts[part][bytes.start] = 1));
        }
    }
    records
}

/// Late statuses, of an aborted frame with a filled padding too.
fn late_statuses() -> Vec<Record> {
    let status = |late: u8| {
        changed(&[20, 5], |frame| {
            *frame.late_status_mut().expect("an epilogue") = late;
        })
    };
    let mut records: Vec<Record> = [0x00, 0x0F, 0x1F, 0x1E, 0x01, 0xE1].map(status).to_vec();
    let mut filled = sealed_aborted(&[20, 5]);
    *filled.texts[1].last_mut().expect("padding") = 1;
    records.push(Case::new(&[&filled]).uncut());
    records
}

/// Each refusal of a preamble, behind a good tag.
fn preambles() -> Vec<Record> {
    let byte = |(place, byte): (usize, u8)| {
        changed(&[20, 5], |frame| {
            frame.change_preamble(|preamble| preamble[place] = byte);
        })
    };
    let faults = [(1, 5), (26, 1), (27, 1), (0, 0), (4, 0x20)];
    let mut records: Vec<Record> = faults.map(byte).to_vec();
    records.push(changed(&[20, 5], |frame| frame.preamble_mut()[31] ^= 1));
    let short = |lengths: &[u32], store| Case::new(&[&sealed(lengths)]).with_store(store).uncut();
    records.push(short(&[20, 5], 79));
    records.push(short(&[20, 5], 80));
    records.push(short(&[0], 31));
    records.push(short(&[0], 32));
    records
}

/// Tries at moments at which none may be made: behind the banner, behind an early
/// report, inside a frame in crc mode and behind one byte of the next; then the
/// right one; inside each part of a sealed frame, behind it, and behind a refusal.
fn wrong_moments() -> Record {
    let clear = [
        whole(Revision::Msgr21, &[9, 5]),
        aborted(Revision::Msgr21, &[2, 1]),
    ];
    let frames = [&sealed(&[50, 3]), &sealed_aborted(&[3, 3]), &sealed(&[0])];
    let mut case = Case::behind(&clear, &frames, SECRETS.receiving, 0);
    let last = case.stream.len() - 1;
    case.stream[last] ^= 1;
    let mut calls = vec![
        Switch(0),
        Receive(BANNER - 1),
        Switch(0),
        Receive(1),
        Switch(0),
    ];
    // Segment 1 of the first frame, its checksum, the rest; the frame behind it.
    calls.extend([Receive(ALL), Switch(0), Receive(1), Switch(0), Receive(ALL)]);
    calls.extend([Receive(1), Switch(0), Receive(ALL), Switch(0), Receive(ALL)]);
    calls.extend([Switch(0), Switch(1), Receive(0), Switch(0), Switch(0)]);
    calls.extend([Receive(95), Switch(0), Receive(1), Switch(1), Receive(32)]);
    calls.extend([Switch(0), Receive(47), Switch(0), Receive(ALL), Switch(0)]);
    calls.extend([
        Receive(ALL),
        Switch(1),
        Receive(ALL),
        Switch(0),
        Receive(ALL),
    ]);
    calls.extend([Switch(1), Receive(0)]);
    case.calls(calls)
}

/// After the frame behind which the switch could have been made, one byte of the
/// next frame in crc mode.
fn a_byte_too_late() -> Record {
    let clear = [whole(Revision::Msgr21, &[2]), whole(Revision::Msgr21, &[3])];
    let case = Case::behind(&clear, &[&sealed(&[1])], SECRETS.receiving, 0);
    let calls = vec![
        Receive(BANNER),
        Receive(CLEAR),
        Receive(1),
        Switch(0),
        Receive(ALL),
        Receive(0),
        Switch(0),
        Receive(ALL),
    ];
    case.calls(calls)
}

/// msgr2.0, a refused banner, a refused start.
fn no_switch_at_all() -> Vec<Record> {
    let calls = vec![
        Receive(ALL),
        Switch(0),
        Receive(ALL),
        Switch(0),
        Receive(ALL),
    ];
    let mut old = Case::new(&[]);
    old.stream = peer(Revision::Msgr20).banner();
    old.stream.extend(whole(Revision::Msgr20, &[2]).bytes);
    let mut refused = Case::new(&[&sealed(&[0])]);
    refused.stream[18] = 2;
    let mut not_started = Case::new(&[&sealed(&[0])]);
    not_started.own = Features::new(0, 1);
    [old, refused, not_started]
        .map(|case| case.calls(calls.clone()))
        .to_vec()
}

/// The switch that succeeds has another key, or another nonce.
fn other_secrets() -> Vec<Record> {
    let case = Case::new(&[&sealed(&[3])]);
    let calls = vec![Receive(ALL), Receive(ALL), Switch(0), Receive(ALL)];
    let with = |key, receiving| {
        let mut case = case.clone();
        case.tries[0].secrets.key = key;
        case.tries[0].secrets.receiving = receiving;
        case.calls(calls.clone())
    };
    vec![
        with(OTHERS.key, SECRETS.receiving),
        with(SECRETS.key, OTHERS.receiving),
        with(SECRETS.key, SECRETS.sending),
    ]
}

/// Calls that lend other lengths of the store: too little while the first part
/// comes does no harm; behind it, it is refused before a byte is taken.
fn lent() -> Record {
    let case = Case::new(&[&sealed(&[20, 5]), &sealed(&[0]), &sealed(&[20, 5])]);
    let lent = |call, lent| LentCall { call, lent };
    let calls = vec![
        lent(Receive(ALL), 0),
        lent(Receive(ALL), 2),
        lent(Switch(0), 0),
        lent(Receive(95), 0),
        lent(Receive(1), 80),
        lent(Receive(10), 80),
        lent(Receive(ALL), ALL),
        lent(Receive(ALL), 32),
        lent(Receive(96), 80),
        lent(Receive(ALL), 79),
        lent(Switch(0), 0),
        lent(Receive(ALL), ALL),
    ];
    Record::Lending(LendingRecord {
        own: case.own,
        store: case.store,
        tries: case.tries.to_vec(),
        calls,
        stream: case.stream,
    })
}

pub fn shown() -> Vec<Record> {
    let mut records = vec![examples()];
    records.extend(tags_and_nonces());
    records.extend(paddings());
    records.extend(late_statuses());
    records.extend(preambles());
    records.extend([wrong_moments(), a_byte_too_late()]);
    records.extend(no_switch_at_all());
    records.extend(other_secrets());
    records.push(lent());
    records
}
