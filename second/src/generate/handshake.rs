//! Generated bodies, handshake steps and modes: good ones, ones at every
//! limit, and good ones that were damaged.

use crate::body::{shortest, Body, LONGEST_LIST, TAGS};
use crate::frame::SEGMENT_LIMIT;
use crate::handshake::{step, Side, State, Verdict};
use crate::input::LARGEST_LENGTH;
use crate::random::Random;
use crate::records::{BodyRecord, ModeRecord, Record, StepsRecord, WriteRecord};

pub fn records(seed: u64, count: u64) -> impl Iterator<Item = Record> {
    let mut random = Random::new(seed);
    (0..count).map(move |_| record(&mut random))
}

fn record(random: &mut Random) -> Record {
    match random.between(1, 100) {
        1..=45 => Record::Body(body_record(random)),
        46..=75 => Record::Write(write_record(random)),
        76..=92 => Record::Steps(steps_record(random)),
        _ => Record::Mode(mode_record(random)),
    }
}

/// Mostly short, now and then up to what a segment may have, or above it.
fn run(random: &mut Random) -> Vec<u8> {
    let length = match random.between(1, 200) {
        1..=40 => 0,
        41..=150 => random.between(1, 24),
        151..=196 => random.between(1, 300),
        197 => random.between(1, 4_096),
        _ => around(random, SEGMENT_LIMIT),
    };
    random.bytes(length.min(LARGEST_LENGTH))
}

/// A number a little below or above another.
fn around(random: &mut Random, middle: u32) -> u32 {
    (middle + random.between(0, 8)).saturating_sub(random.between(0, 60))
}

fn list(random: &mut Random) -> Vec<u32> {
    let longest = LONGEST_LIST as u32;
    let count = match random.between(1, 20) {
        1..=4 => 0,
        5..=16 => random.between(1, 4),
        17 => random.between(longest - 1, longest + 1),
        18 => 64,
        _ => random.between(0, longest),
    };
    (0..count).map(|_| mode(random)).collect()
}

/// A small number for the most part.
fn mode(random: &mut Random) -> u32 {
    match random.between(1, 12) {
        1 => random.u32(),
        2 => random.pick(&[0, u32::MAX]),
        _ => random.between(1, 4),
    }
}

fn error(random: &mut Random) -> i32 {
    let any = random.u32() as i32;
    random.pick(&[-95, -1, -13, -22, -2, i32::MIN, 0, 1, i32::MAX, any])
}

fn numbers<const N: usize>(random: &mut Random) -> [u64; N] {
    let mut numbers = [0; N];
    for number in &mut numbers {
        *number = number64(random);
    }
    numbers
}

fn number64(random: &mut Random) -> u64 {
    let any = random.u64();
    let small = u64::from(random.between(0, 300));
    random.pick(&[any, small, small, u64::MAX, 1 << 32])
}

/// A tag of a body, or now and then any.
fn tag(random: &mut Random) -> u8 {
    match random.between(1, 25) {
        1 => random.u8(),
        2 => random.between(0, 22) as u8,
        _ => random.pick(&TAGS),
    }
}

fn body(random: &mut Random, tag: u8) -> Option<Body> {
    Some(match tag {
        1 => Body::Hello {
            entity: random.u8(),
            address: run(random),
        },
        2 => Body::AuthRequest {
            method: mode(random),
            modes: list(random),
            payload: run(random),
        },
        3 => Body::BadMethod {
            method: mode(random),
            error: error(random),
            methods: list(random),
            modes: list(random),
        },
        4 | 5 => Body::AuthMore {
            payload: run(random),
        },
        6 => Body::AuthDone {
            global_id: number64(random),
            mode: mode(random),
            payload: run(random),
        },
        8 | 9 => Body::Ident {
            addresses: mode(random),
            block: run(random),
            closing: numbers(random),
        },
        11 => Body::Reconnect {
            addresses: mode(random),
            block: run(random),
            closing: numbers(random),
        },
        10 | 15 | 20 => Body::Number(number64(random)),
        12 => Body::Reset { full: random.u8() },
        18 | 19 => Body::Stamp(random.u64().to_le_bytes()),
        _ => return None,
    })
}

/// Bytes left out, added or changed, or all of them by chance.
fn damage(random: &mut Random, tag: u8, bytes: &mut Vec<u8>) {
    let length = bytes.len() as u32;
    match random.between(1, 10) {
        1..=3 => bytes.truncate(random.between(0, length) as usize),
        4 => {
            let more = random.between(1, 9);
            bytes.extend(random.bytes(more));
        }
        5 => {
            bytes.pop();
        }
        6 => bytes.push(random.u8()),
        7 => {
            let length = around(random, shortest(tag) as u32 + 1);
            *bytes = random.bytes(length);
        }
        8 => {
            let length = random.between(0, 60);
            *bytes = random.bytes(length);
        }
        _ if length > 0 => {
            // The counts and lengths stand among the first bytes.
            let place = random.between(0, length.min(16) - 1) as usize;
            bytes[place] = random.pick(&[0, 1, 31, 32, 33, 127, 128, 255]);
        }
        _ => {}
    }
}

fn body_record(random: &mut Random) -> BodyRecord {
    let tag = tag(random);
    let like = if random.once_in(15) {
        random.pick(&TAGS)
    } else {
        tag
    };
    let mut bytes = body(random, like).map_or_else(Vec::new, |body| body.bytes());
    if random.once_in(2) {
        damage(random, tag, &mut bytes);
    }
    bytes.truncate(LARGEST_LENGTH as usize);
    BodyRecord { tag, bytes }
}

fn write_record(random: &mut Random) -> WriteRecord {
    let tag = tag(random);
    let body = body(random, tag);
    let needed = body.as_ref().map_or(0, |body| body.bytes().len() as u32);
    let length = match random.between(1, 10) {
        1..=3 => needed,
        4 => needed.saturating_sub(1),
        5 => random.between(0, needed.max(1)),
        6 => 0,
        _ => needed + random.between(1, 40),
    };
    WriteRecord {
        tag,
        length: length.min(LARGEST_LENGTH),
        fill: random.u8(),
        body,
    }
}

const CLIENT_TAGS: [u8; 16] = [1, 3, 4, 6, 7, 9, 10, 12, 13, 14, 15, 16, 17, 18, 19, 20];
const SERVER_TAGS: [u8; 10] = [1, 2, 5, 7, 8, 11, 17, 18, 19, 20];

/// A step that the side takes where there is one, or now and then any.
fn next_step(random: &mut Random, side: Side, state: State) -> (u8, Verdict) {
    if random.once_in(40) {
        let any = random.u8();
        let tag = random.pick(&[any, 0, 7, 9, 16, 21]);
        return (tag, Verdict(random.between(0, 31) as u8));
    }
    let tags: &[u8] = match side {
        Side::Client => &CLIENT_TAGS,
        Side::Server => &SERVER_TAGS,
    };
    let mut chosen = (random.pick(tags), Verdict(random.between(0, 31) as u8));
    for _ in 0..40 {
        if step(side, state, chosen.0, chosen.1).is_ok() {
            break;
        }
        chosen = (random.pick(tags), Verdict(random.between(0, 31) as u8));
    }
    chosen
}

fn steps_record(random: &mut Random) -> StepsRecord {
    let side = random.pick(&[Side::Client, Side::Server]);
    let count = random.between(0, 24);
    let mut state = State::Hello;
    let mut steps = Vec::new();
    for _ in 0..count {
        let (tag, verdict) = next_step(random, side, state);
        state = step(side, state, tag, verdict).unwrap_or(State::Closed);
        steps.push((tag, verdict));
        if state == State::Closed && random.once_in(2) {
            break;
        }
    }
    StepsRecord {
        side,
        steps,
        breaks_off: false,
    }
}

fn mode_record(random: &mut Random) -> ModeRecord {
    let mut list = || {
        let count = random.pick(&[0, 1, 2, 3, 4, 5, 32]);
        let numbers = (0..count).map(|_| mode(random));
        numbers.collect::<Vec<u32>>()
    };
    ModeRecord {
        preferred: list(),
        own: list(),
    }
}

#[cfg(test)]
mod tests {
    use super::*;
    use crate::body;

    /// Every answer comes often enough to be compared.
    #[test]
    fn all_answers_come() {
        let mut bodies = [0; 21];
        let mut refused = 0;
        let mut written = [0; 3];
        let mut states = [0; 2];
        for record in records(1, 4_000) {
            match record {
                Record::Body(record) => match body::read(record.tag, &record.bytes) {
                    Ok(_) => bodies[usize::from(record.tag)] += 1,
                    Err(_) => refused += 1,
                },
                Record::Write(record) => {
                    let mut buffer = record.buffer();
                    let kind = match body::write(record.body.as_ref(), &mut buffer) {
                        Ok(_) => 0,
                        Err(refusal) => usize::from(refusal.number == 20) + 1,
                    };
                    written[kind] += 1;
                }
                Record::Steps(record) => {
                    let mut state = State::Hello;
                    for (tag, verdict) in record.steps {
                        state = step(record.side, state, tag, verdict).unwrap_or(State::Closed);
                    }
                    states[0] += usize::from(state == State::Ready);
                    states[1] += usize::from(state == State::Closed);
                }
                _ => {}
            }
        }
        assert!(TAGS.iter().all(|tag| bodies[usize::from(*tag)] > 15));
        assert!(refused > 300 && written.iter().all(|count| *count > 50));
        assert!(states.iter().all(|count| *count > 50));
    }
}
