//! Streams with a switch, cut in two at every byte and byte by byte.

use crate::fixed::receiver::case::{aborted, whole};
use crate::fixed::switching::case::{sealed, sealed_aborted, Case, SECRETS};
use crate::records::Record;
use crate::spoil::sealed::SealedFrame;
use crate::wire::Revision;

fn cuts_of(case: &Case) -> Vec<Record> {
    let course = case.course();
    let places = 0..=case.stream.len();
    let mut records: Vec<Record> = places
        .map(|place| case.cut(&course.pieces([place])))
        .collect();
    records.push(case.cut(&course.byte_by_byte()));
    records.push(case.cut(&course.around()));
    records
}

/// The stream that ends at each of its bytes.
fn ends_of(case: &Case) -> Vec<Record> {
    let ended = |length: usize| {
        let mut case = case.clone();
        case.stream.truncate(length);
        case.uncut()
    };
    (0..case.stream.len()).map(ended).collect()
}

/// Whole and aborted frames of one, two and three parts; the last one refused.
fn case() -> Case {
    let clear = [aborted(Revision::Msgr21, &[4, 6])];
    let mut last = sealed(&[50, 1]);
    let part = last.texts.len() - 1;
    last.texts[part][5] = 1;
    let frames = [
        &sealed(&[50, 20]),
        &sealed(&[0]),
        &sealed_aborted(&[49, 0, 3]),
        &sealed(&[0, 0, 0, 1]),
        &sealed(&[65]),
        &last,
    ];
    Case::behind(&clear, &frames, SECRETS.receiving, 0)
}

/// A refusal inside a frame: bytes behind it stay where they are.
fn refused(frame: SealedFrame) -> Case {
    let clear = [whole(Revision::Msgr21, &[4])];
    Case::behind(&clear, &[&frame, &sealed(&[3])], SECRETS.receiving, 0)
}

pub fn cuts() -> Vec<Record> {
    let mut rest = sealed(&[70, 5]);
    rest.damage.push((1, 3, 1));
    let mut records = cuts_of(&case());
    records.extend(ends_of(&case()));
    records.extend(cuts_of(&refused(rest)));
    records
}
