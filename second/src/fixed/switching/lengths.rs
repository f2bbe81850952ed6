//! Frames of every length around their blocks, one behind the other, and the
//! longest that a record can carry.

use crate::fixed::switching::case::{sealed, sealed_aborted, Case};
use crate::input::CARRIED_SEGMENT;
use crate::records::Record;
use crate::spoil::sealed::SealedFrame;

fn one_behind_the_other(frames: &[SealedFrame]) -> [Record; 2] {
    let frames: Vec<&SealedFrame> = frames.iter().collect();
    Case::new(&frames).both()
}

/// Segment 1 alone, from nothing to some blocks behind what fits inline.
fn firsts() -> Vec<SealedFrame> {
    (0..=130).map(|first| sealed(&[first])).collect()
}

fn seconds() -> Vec<SealedFrame> {
    let firsts = [0, 47, 48, 49];
    firsts
        .into_iter()
        .flat_map(|first| (1..=34).map(move |second| sealed(&[first, second])))
        .collect()
}

/// Empty segments in front, between and behind, whole and aborted.
fn others() -> Vec<SealedFrame> {
    let mut frames = Vec::new();
    for first in [0, 1, 48, 49, 64, 65, 80] {
        for [second, third, fourth] in [[0, 0, 1], [16, 0, 15], [0, 17, 16], [31, 32, 33]] {
            let lengths = [first, second, third, fourth];
            frames.push(sealed(&lengths));
            frames.push(sealed_aborted(&lengths));
        }
        frames.push(sealed(&[first, 0, 9]));
        frames.push(sealed_aborted(&[first, 17, 9]));
    }
    frames
}

pub fn lengths() -> Vec<Record> {
    let mut records = Vec::new();
    for frames in [firsts(), seconds(), others()] {
        records.extend(one_behind_the_other(&frames));
    }
    let longest = [
        sealed(&[CARRIED_SEGMENT]),
        sealed(&[CARRIED_SEGMENT + 1, CARRIED_SEGMENT - 1]),
        sealed_aborted(&[0, CARRIED_SEGMENT]),
    ];
    records.extend(one_behind_the_other(&longest));
    records
}
