//! The receiver held to the definition over many streams with a switch, many
//! moments to make it, and many cuttings.

use crate::banner::Features;
use crate::definition::tests::Calls;
use crate::definition::{entries, entries_switched, Entry, List, Switch};
use crate::fixed::request::source;
use crate::fixed::switching::case::{sealed, sealed_aborted, SECRETS};
use crate::generate::switching::records;
use crate::random::Random;
use crate::records::{Call, Record, SwitchingRecord};
use crate::refusal::Refusal;
use crate::report::Report;
use crate::spoil::sealed::{SealedFrame, Sealer};
use crate::vectors::{banner, empty, empty_frame, three_aborted};
use crate::wire::Revision;

/// A switch with the fixed secrets after this frame.
fn after(frame: usize) -> Switch {
    Switch {
        after: frame,
        key: SECRETS.key,
        nonce: SECRETS.receiving,
        opened: 0,
    }
}

fn sealed_bytes(frames: &[&SealedFrame]) -> Vec<u8> {
    let mut sealer = Sealer {
        key: SECRETS.key,
        start: SECRETS.receiving,
        sealed: 0,
    };
    let bytes = frames.iter().flat_map(|frame| frame.bytes(&mut sealer));
    bytes.collect()
}

fn list(stream: &[u8], switch: &Switch) -> List {
    entries_switched(Features::new(1, 0), stream, &[9; 600], Some(switch))
}

/// The entries' bytes and stores: 96 and 640 bytes behind the switch, then an
/// aborted frame, then one whose rest of segment 1 is refused.
#[test]
fn entries_of_a_stream() {
    let mut last = sealed(&[60, 1]);
    last.damage.push((1, 0, 1));
    let long = sealed(&[105, 70, 0, 350]);
    let frames = [&sealed(&[0]), &long, &sealed_aborted(&[0, 70]), &last];
    let clear = [banner(Revision::Msgr21), empty(Revision::Msgr21)].concat();
    let stream = [clear, sealed_bytes(&frames)].concat();
    let list = list(&stream, &after(1));
    let filled = |front: &[u8], zeros: usize| {
        let mut store = vec![9; 600];
        store[..zeros].fill(0);
        store[..front.len()].copy_from_slice(front);
        store
    };
    let entry = |report, byte, store| Entry {
        report,
        byte,
        store,
    };
    let segments = source(525);
    let refusal = Report::Refused(Refusal::auth_tag());
    let expected = [
        entry(Report::Frame(empty_frame()), 58, filled(&[], 0)),
        entry(Report::Frame(frames[0].frame), 58 + 96, filled(&[], 32)),
        entry(Report::Frame(long.frame), 154 + 640, filled(&segments, 576)),
        // Zeros in the 112 bytes that it needs; behind them the last frame's own.
        entry(Report::Dropped(frames[2].frame), 794 + 208, {
            let mut store = filled(&segments, 576);
            store[..112].fill(0);
            store
        }),
        entry(refusal, 1_002 + 128, {
            let mut store = filled(&segments, 576);
            store[..112].fill(0);
            store
        }),
    ];
    assert_eq!(list.entries[1..], expected);
    assert_eq!(list.store, expected[4].store);
}

/// A judgement past the stream's end isn't made; what came of a part stands in the
/// store.
#[test]
fn judgements_past_the_end_are_not_made() {
    let clear = [banner(Revision::Msgr21), empty(Revision::Msgr21)].concat();
    let sealed = sealed_bytes(&[&sealed(&[60, 1])]);
    let stream = [clear, sealed.clone()].concat();
    for length in 0..176 {
        let list = list(&stream[..58 + length], &after(1));
        assert_eq!(list.entries.len(), 2, "{length} bytes");
        let mut store = vec![9; 600];
        let opened = match length {
            0..96 => 0,
            96..128 => 48,
            _ => 60,
        };
        store[..opened].copy_from_slice(&source(61)[..opened]);
        if opened == 60 {
            store[60..80].fill(0);
        }
        let begins = [0, 96, 128][[0, 48, 60].iter().position(|o| *o == opened).unwrap()];
        if opened > 0 {
            let came = &sealed[begins..length];
            store[opened..opened + came.len()].copy_from_slice(came);
        }
        assert_eq!(list.store, store, "{length} bytes");
    }
    assert_eq!(list(&stream, &after(1)).entries.len(), 3);
}

/// Without a switch, or with one after a frame that doesn't come, or in msgr2.0, it
/// is the list of crc mode.
#[test]
fn without_a_switch() {
    for revision in [Revision::Msgr20, Revision::Msgr21] {
        let stream = [banner(revision), three_aborted(revision), empty(revision)].concat();
        let plain = entries(Features::new(1, 0), &stream, &[9; 600]);
        let never = list(&stream, &after(3));
        assert_eq!((&plain, plain.entries.len()), (&never, never.entries.len()));
        assert_eq!(list(&stream, &after(0)), plain);
        let behind_first = list(&stream, &after(1));
        assert_eq!(behind_first == plain, revision == Revision::Msgr20);
    }
}

fn switching(seed: u64, count: u64) -> impl Iterator<Item = SwitchingRecord> {
    records(seed, count).filter_map(|record| match record {
        Record::Switching(record) => Some(record),
        _ => None,
    })
}

fn started(record: &SwitchingRecord) -> Calls<'_> {
    Calls::new(record.own, record.store, &record.stream)
}

fn call(calls: &mut Calls, record: &SwitchingRecord, call: Call) {
    match call {
        Call::Receive(length) => calls.call(length as usize),
        Call::Switch(place) => {
            let one = &record.tries[usize::from(place)];
            calls.switch(&one.secrets, one.opened);
        }
    }
}

/// Each call and each try of generated records, the store after every one.
#[test]
fn generated_calls_leave_the_defined_store_each_time() {
    for record in switching(21, 2_500) {
        let mut calls = started(&record);
        for &each in &record.calls {
            call(&mut calls, &record, each);
            calls.judge_store();
        }
        calls.judge_end();
    }
}

/// The frame after which the calls of a record make the switch, and the try.
fn made(record: &SwitchingRecord) -> Option<(usize, u8)> {
    let mut calls = started(record);
    for &each in &record.calls {
        let before = calls.receiver.clone();
        call(&mut calls, record, each);
        if let Call::Switch(place) = each {
            if calls.receiver != before {
                return Some((calls.frames(), place));
            }
        }
    }
    None
}

/// The stream in pieces of up to `most` bytes, some of them empty, the same
/// switch made after the same frame, and tries anywhere else.
fn cut_at_random<'a>(
    record: &'a SwitchingRecord,
    switch: Option<(usize, u8)>,
    random: &mut Random,
    most: u32,
) -> Calls<'a> {
    let mut calls = started(record);
    let mut left = switch;
    while !calls.has_ended() {
        calls.call(random.between(0, most) as usize);
        match left {
            Some((after, place)) if calls.may_switch() && calls.frames() == after => {
                call(&mut calls, record, Call::Switch(place));
                left = None;
            }
            _ if !calls.may_switch() && random.once_in(6) => {
                call(&mut calls, record, Call::Switch(0));
            }
            _ => {}
        }
    }
    for length in [0, 3, 70_000] {
        calls.call(length);
    }
    calls.judge_end();
    calls
}

#[test]
fn reports_do_not_depend_on_the_cuts() {
    let mut random = Random::new(6);
    for record in switching(22, 1_500) {
        let switch = made(&record);
        let whole = cut_at_random(&record, switch, &mut random, 140_000);
        for most in [1, 7, 60, 400] {
            let cut = cut_at_random(&record, switch, &mut random, most);
            assert_eq!(cut.receiver, whole.receiver);
            assert_eq!(cut.store, whole.store);
        }
    }
}

#[test]
fn the_same_bytes_leave_the_same_state() {
    let mut random = Random::new(7);
    let small = switching(23, 3_000).filter(|record| record.stream.len() < 500);
    for record in small.take(60) {
        let switch = made(&record);
        let whole = &record.stream;
        for length in (0..whole.len()).step_by(3) {
            let mut record = record.clone();
            record.stream.truncate(length);
            let once = cut_at_random(&record, switch, &mut random, 140_000);
            let bytewise = cut_at_random(&record, switch, &mut random, 1);
            assert_eq!(once.receiver, bytewise.receiver);
            assert_eq!(once.store, bytewise.store);
        }
    }
}
