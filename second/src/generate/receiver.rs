//! Generated receiver records: streams with and without faults, in stores of
//! all lengths, cut in every way.

use super::link::{flip_a_bit, link, spoil_banner, spoil_frame, Link, Size};
use crate::cutting::Course;
use crate::input::{CARRIED_SEGMENT, LARGEST_LENGTH};
use crate::random::Random;
use crate::records::{FrameStore, ReceiverRecord};

/// The longest stream that is received byte by byte.
const LONGEST_BY_BYTES: usize = 300;

/// Random pieces a stream is cut into before the rest is offered whole.
const MOST_RANDOM_PIECES: usize = 30;

pub fn records(seed: u64, count: u64) -> impl Iterator<Item = ReceiverRecord> {
    let mut random = Random::new(seed);
    std::iter::repeat_with(move || group(&mut random))
        .flatten()
        .take(count as usize)
}

/// Mostly a single record; now and then all the ways to cut a stream in two.
fn group(random: &mut Random) -> Vec<ReceiverRecord> {
    if random.once_in(280) {
        cut_in_two(random)
    } else {
        vec![single(random)]
    }
}

fn cut_in_two(random: &mut Random) -> Vec<ReceiverRecord> {
    let record = uncut(random, Size::Small);
    let course = Course::of(record.own, record.store, &record.stream);
    let places = 0..=record.stream.len();
    places
        .map(|place| {
            let mut pieces = course.pieces([place]);
            pieces.extend(afterwards(random));
            ReceiverRecord {
                pieces,
                ..record.clone()
            }
        })
        .collect()
}

fn single(random: &mut Random) -> ReceiverRecord {
    let size = random.pick(&[Size::Small, Size::Any]);
    let mut record = uncut(random, size);
    let course = Course::of(record.own, record.store, &record.stream);
    let by_bytes = record.stream.len() <= LONGEST_BY_BYTES;
    record.pieces = match random.between(1, 100) {
        1..=25 => course.whole(),
        26..=35 => course.edges(),
        36..=40 => course.around(),
        41..=45 if by_bytes => course.byte_by_byte(),
        _ => random_pieces(random, &course),
    };
    record.pieces.extend(afterwards(random));
    record
}

/// A stream and its store, and no calls yet.
fn uncut(random: &mut Random, size: Size) -> ReceiverRecord {
    let mut link = link(random, size);
    match random.between(1, 100) {
        1..=45 => spoil_frame(random, &mut link),
        46..=55 => spoil_banner(random, &mut link),
        _ => {}
    }
    let store = FrameStore {
        length: store_length(random, &link),
        fill: random.u8(),
    };
    let mut stream = link.bytes();
    spoil_stream(random, &mut stream);
    ReceiverRecord {
        own: link.own,
        store,
        pieces: Vec::new(),
        stream,
    }
}

/// Faults that have no regard for what the bytes mean, for some streams.
fn spoil_stream(random: &mut Random, stream: &mut Vec<u8>) {
    match random.between(1, 100) {
        1..=10 => flip_a_bit(random, stream),
        11..=18 => {
            let kept = random.between(0, stream.len() as u32);
            stream.truncate(kept as usize);
        }
        19..=22 => {
            let more = random.between(1, 60);
            stream.extend(random.bytes(more));
        }
        23 => {
            let length = random.between(0, 60);
            *stream = random.bytes(length);
        }
        _ => {}
    }
}

/// Mostly enough for every frame; else one byte short of what some frame
/// needs, or hardly any.
fn store_length(random: &mut Random, link: &Link) -> u32 {
    let sums = link.frames.iter().map(|frame| frame.frame.sum() as u32);
    let mut sums: Vec<u32> = sums.collect();
    sums.push(0);
    let most = *sums.iter().max().expect("at least one sum");
    match random.between(1, 20) {
        1..=10 => most + random.between(1, 20),
        11..=13 => most,
        14 | 15 => random.pick(&sums).saturating_sub(1),
        16 => random.pick(&sums),
        17 => random.between(0, 40),
        18 => most + 300,
        _ => most + CARRIED_SEGMENT,
    }
}

/// Empty pieces, single bytes, a few, all that is left, and more than that.
fn random_pieces(random: &mut Random, course: &Course) -> Vec<u32> {
    let mut pieces = Vec::new();
    let mut place = 0;
    while !course.has_ended(place) && pieces.len() < MOST_RANDOM_PIECES {
        let piece = match random.between(1, 20) {
            1..=3 => 0,
            4..=6 => random.between(1, 3),
            7..=15 => random.between(1, 60),
            16..=18 => random.between(1, 400),
            _ => random.between(1, LARGEST_LENGTH),
        };
        pieces.push(piece);
        place = course.stop(place, piece);
    }
    while !course.has_ended(place) {
        pieces.push(LARGEST_LENGTH);
        place = course.stop(place, LARGEST_LENGTH);
    }
    pieces
}

/// Calls behind the end or behind a refusal.
fn afterwards(random: &mut Random) -> Vec<u32> {
    let count = random.pick(&[0, 1, 1, 2, 3]);
    (0..count)
        .map(|_| random.pick(&[0, 1, 5, 32, LARGEST_LENGTH]))
        .collect()
}

#[cfg(test)]
mod tests;
