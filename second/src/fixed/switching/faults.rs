//! A wrong bit at every place of a sealed frame, every byte of padding that isn't
//! zero, every late status, and parts sealed with what isn't theirs.

use crate::fixed::switching::case::{sealed, sealed_aborted, Case};
use crate::records::Record;
use crate::spoil::sealed::SealedFrame;

/// The frame with a change, and a good one behind it, whole.
fn changed(mut frame: SealedFrame, change: impl FnOnce(&mut SealedFrame)) -> Record {
    change(&mut frame);
    Case::new(&[&frame, &sealed(&[1])]).uncut()
}

/// Each bit of each part on the wire, its tag's among them.
fn bits() -> Vec<Record> {
    let mut records = Vec::new();
    let frame = sealed(&[50, 3]);
    for part in 0..frame.texts.len() {
        let bytes = frame.texts[part].len() + 16;
        for bit in 0..8 * bytes {
            let damage = (part, bit / 8, 1 << (bit % 8));
            records.push(changed(frame.clone(), |frame| frame.damage.push(damage)));
        }
    }
    records
}

/// Each byte of each padding, behind a good tag, of whole and aborted frames.
fn paddings() -> Vec<Record> {
    let mut records = Vec::new();
    let shapes: [&[u32]; 7] = [
        &[0],
        &[20],
        &[60],
        &[5, 3],
        &[60, 5, 0, 17],
        &[2, 1, 17, 3],
        &[47, 16],
    ];
    for lengths in shapes {
        let mut frames = vec![sealed(lengths)];
        if lengths.len() > 1 {
            frames.push(sealed_aborted(lengths));
        }
        for frame in frames {
            for (part, bytes) in frame.paddings() {
                for place in bytes {
                    let bit = 1 << (place % 8);
                    let fill = |frame: &mut SealedFrame| frame.texts[part][place] = bit;
                    records.push(changed(frame.clone(), fill));
                }
            }
        }
    }
    records
}

/// Every late status, alone and with a filled padding behind it.
fn late_statuses() -> Vec<Record> {
    let mut records = Vec::new();
    for late in 0..=255 {
        for filled in [0, 1] {
            records.push(changed(sealed(&[50, 3]), |frame| {
                *frame.late_status_mut().expect("an epilogue") = late;
                *frame.texts[2].last_mut().expect("padding") = filled;
            }));
        }
    }
    records
}

/// An aborted frame whose segments are not zeros: they are not looked at.
fn aborted_with_bytes() -> Record {
    changed(sealed(&[50, 3]), |frame| {
        *frame.late_status_mut().expect("an epilogue") = 1;
    })
}

/// A part under the nonce of the part before it, of the next, of one far away;
/// under another key; two parts of the same length in each other's place.
fn sealed_wrongly() -> Vec<Record> {
    let mut records = Vec::new();
    let frame = sealed(&[50, 3]);
    for part in 0..frame.texts.len() {
        for off in [1, u64::MAX, 1 << 32] {
            let turn = |frame: &mut SealedFrame| frame.nonces_off[part] = off;
            records.push(changed(frame.clone(), turn));
        }
        let turn = |frame: &mut SealedFrame| frame.keys_off[part] = 1;
        records.push(changed(frame.clone(), turn));
    }
    let alike = sealed(&[64, 0, 0, 1]);
    records.push(changed(alike, |frame| frame.texts.swap(1, 2)));
    let mut swapped = Case::new(&[&sealed(&[3]), &sealed(&[4])]);
    let first = swapped.stream.len() - 2 * 96;
    swapped.stream[first..].rotate_left(96);
    records.push(swapped.uncut());
    // The same frame twice.
    let mut twice = Case::new(&[&sealed(&[3])]);
    twice.stream.extend_from_within(first..);
    records.push(twice.uncut());
    records
}

/// A preamble whose lengths are not those of the parts behind it.
fn other_lengths() -> Vec<Record> {
    let mut records = Vec::new();
    for (place, byte) in [(2, 51), (2, 49), (2, 64), (8, 4), (8, 2), (1, 1), (14, 1)] {
        records.push(changed(sealed(&[50, 3]), |frame| {
            frame.change_preamble(|preamble| preamble[place] = byte);
        }));
    }
    records
}

/// Each bit of a preamble turned behind a good tag, its checksum put right or
/// not.
fn preamble_bits() -> Vec<Record> {
    let mut records = Vec::new();
    for bit in 0..8 * 28 {
        let turn = |preamble: &mut [u8; 32]| preamble[bit / 8] ^= 1 << (bit % 8);
        records.push(changed(sealed(&[5, 3]), |f| f.change_preamble(turn)));
    }
    for bit in 0..8 * 32 {
        let turn = |f: &mut SealedFrame| f.preamble_mut()[bit / 8] ^= 1 << (bit % 8);
        records.push(changed(sealed(&[5, 3]), turn));
    }
    records
}

pub fn faults() -> Vec<Record> {
    let mut records = bits();
    records.extend(paddings());
    records.extend(late_statuses());
    records.push(aborted_with_bytes());
    records.extend(sealed_wrongly());
    records.extend(other_lengths());
    records.extend(preamble_bits());
    records
}
