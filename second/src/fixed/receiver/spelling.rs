//! Epilogues that are not spelled as we write them. As in the file of early
//! reports the segments are the bytes 0 to 31, and so is the store.

use crate::fixed::receiver::case::{counting, Case};
use crate::input::LARGEST_LENGTH;
use crate::records::Record;
use crate::spoil::WireFrame;
use crate::wire::Revision;

const ALL: u32 = LARGEST_LENGTH;

fn set_late_byte(frame: &mut WireFrame, late: u8) {
    *frame.late_byte_mut().expect("an epilogue") = late;
}

/// Puts a 1 into the checksum field of a segment, 1 to 4.
fn fill(frame: &mut WireFrame, segment: usize) {
    frame.checksum_mut(segment - 1).expect("a field")[0] = 1;
}

/// A wrong byte in a segment, 1 to 4.
fn damage(frame: &mut WireFrame, segment: usize) {
    frame.segment_mut(segment - 1)[0] ^= 1;
}

type Change = fn(&mut WireFrame);

fn changed(revision: Revision, abort: bool, change: Change) -> Record {
    let mut frame = counting(revision, &[11, 21], abort);
    change(&mut frame);
    Case::counting(revision, &[&frame]).calls(vec![ALL; 4])
}

fn msgr21() -> Vec<Record> {
    let whole = |change| changed(Revision::Msgr21, false, change);
    let aborted = |change| changed(Revision::Msgr21, true, change);
    vec![
        whole(|frame| fill(frame, 3)),
        whole(|frame| fill(frame, 4)),
        whole(|frame| [3, 4].into_iter().for_each(|k| fill(frame, k))),
        whole(|frame| {
            fill(frame, 4);
            set_late_byte(frame, 0x0F);
        }),
        whole(|frame| {
            fill(frame, 4);
            damage(frame, 2);
        }),
        whole(|frame| {
            fill(frame, 4);
            damage(frame, 1);
        }),
        whole(|frame| set_late_byte(frame, 0x1E)),
        aborted(|frame| fill(frame, 4)),
        aborted(|frame| set_late_byte(frame, 0xE1)),
    ]
}

fn msgr20() -> Vec<Record> {
    let whole = |change| changed(Revision::Msgr20, false, change);
    let aborted = |change| changed(Revision::Msgr20, true, change);
    vec![
        whole(|frame| fill(frame, 3)),
        whole(|frame| [3, 4].into_iter().for_each(|k| fill(frame, k))),
        whole(|frame| set_late_byte(frame, 0x02)),
        whole(|frame| set_late_byte(frame, 0x03)),
        whole(|frame| {
            fill(frame, 4);
            set_late_byte(frame, 0xFE);
        }),
        whole(|frame| {
            damage(frame, 1);
            set_late_byte(frame, 0xFE);
        }),
        aborted(|frame| fill(frame, 4)),
        aborted(|frame| set_late_byte(frame, 0x81)),
    ]
}

/// One segment: in msgr2.0 the field of segment 2; in msgr2.1 there is none.
fn single() -> Vec<Record> {
    let mut old = counting(Revision::Msgr20, &[32], false);
    fill(&mut old, 2);
    let new = counting(Revision::Msgr21, &[32], false);
    [old, new]
        .map(|frame| Case::counting(frame.revision, &[&frame]).calls(vec![ALL; 3]))
        .to_vec()
}

/// The last byte by itself, and a good frame behind it that is not read.
fn at_the_end() -> Record {
    let good = counting(Revision::Msgr20, &[11, 21], false);
    let mut filled = good.clone();
    fill(&mut filled, 3);
    let case = Case::counting(Revision::Msgr20, &[&good, &filled, &good]);
    case.calls(vec![ALL, ALL, 80, ALL, ALL])
}

pub fn spelling() -> Vec<Record> {
    let mut records = [msgr21(), msgr20(), single()].concat();
    records.push(at_the_end());
    records
}
