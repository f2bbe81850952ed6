//! Every choice of faults of each part, so that the order of the refusals shows.

use crate::fixed::switching::case::{sealed, sealed_aborted, Case, SECRETS};
use crate::records::Record;
use crate::spoil::sealed::SealedFrame;

/// Faults of the first part: 18, 17, 5, 6, 7, 8, 9, 10, 19.
const FIRST_FAULTS: u32 = 9;

/// What a frame of 5 and 3 bytes needs of the store.
const NEEDED: u32 = 64;

/// The stream of a good frame of one part and the faulty one behind it, with so
/// many nonces that its part at the place has none, or with nonces enough.
fn behind_a_good_one(frame: &SealedFrame, short_at: Option<u64>) -> Case {
    let opened = short_at.map_or(0, |place| u64::MAX - place);
    let frames = [&sealed(&[0]), frame, &sealed(&[1])];
    Case::counted(&frames, SECRETS.receiving, opened)
}

fn first(faults: u32) -> Record {
    let has = |place: u32| faults >> place & 1 == 1;
    let mut frame = sealed(&[5, 3]);
    if has(1) {
        frame.damage.push((0, 95, 0x80));
    }
    frame.change_preamble(|preamble| {
        if has(3) {
            preamble[24] = 1;
        }
        if has(4) {
            preamble[27] = 2;
        }
        if has(5) {
            preamble[0] = 21;
        }
        if has(6) {
            preamble[4] = 0x20;
        }
    });
    if has(2) {
        frame.preamble_mut()[28] ^= 1;
    }
    if has(8) {
        frame.texts[0][79] = 1;
    }
    let case = behind_a_good_one(&frame, has(0).then_some(0));
    let store = if has(7) { NEEDED - 1 } else { NEEDED };
    case.with_store(store).uncut()
}

/// Faults of the rest of segment 1: 18, 17, 19.
fn rest(lengths: &[u32], faults: u32) -> [Record; 2] {
    let has = |place: u32| faults >> place & 1 == 1;
    let mut frame = sealed(lengths);
    if has(1) {
        frame.damage.push((1, 0, 1));
    }
    if has(2) {
        *frame.texts[1].last_mut().expect("padding") = 0x40;
    }
    behind_a_good_one(&frame, has(0).then_some(1)).both()
}

/// Faults of the last part: 18, 17, 12, 19, and then a drop.
fn last(lengths: &[u32], faults: u32) -> [Record; 2] {
    let has = |place: u32| faults >> place & 1 == 1;
    let mut frame = if has(4) {
        sealed_aborted(lengths)
    } else {
        sealed(lengths)
    };
    let part = frame.texts.len() - 1;
    if has(1) {
        frame.damage.push((part, frame.texts[part].len(), 4));
    }
    if has(2) {
        let late = frame.late_status_mut().expect("an epilogue");
        *late ^= 0x02;
    }
    if has(3) {
        let (_, padding) = frame.paddings().pop().expect("an epilogue's");
        frame.texts[part][padding.start] = 0x10;
    }
    behind_a_good_one(&frame, has(0).then_some(part as u64)).both()
}

pub fn orders() -> Vec<Record> {
    let mut records: Vec<Record> = (0..1 << FIRST_FAULTS).map(first).collect();
    for lengths in [&[60_u32][..], &[60, 1], &[49, 0, 7, 2]] {
        records.extend((0..8).flat_map(|faults| rest(lengths, faults)));
    }
    for lengths in [&[60_u32, 1][..], &[0, 1], &[48, 16, 0, 30], &[97, 0, 0, 1]] {
        records.extend((0..32).flat_map(|faults| last(lengths, faults)));
    }
    records
}
