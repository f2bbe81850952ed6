//! Generated records of sealed builds: good requests and ones that break the
//! rules of the order, with nonces enough and near their end.

use super::secure::nonce;
use super::{alignment, disturb_buffer, payload, roomy_buffer};
use super::{mutated, put_together, single_aborted, twice_wrong};
use crate::frame::{Frame, Segment, SEGMENTS};
use crate::input::CARRIED_SUM;
use crate::random::Random;
use crate::records::{Build, BuildsRecord, FrameRecord};
use crate::secure::wire_length;

pub fn records(seed: u64, count: u64) -> impl Iterator<Item = BuildsRecord> {
    let mut random = Random::new(seed ^ 0x59);
    (0..count).map(move |_| record(&mut random))
}

/// Mostly around what fits behind the preamble and around whole blocks.
fn length(random: &mut Random, place: usize) -> u32 {
    match random.between(1, 300) {
        1..=70 => 0,
        71..=130 if place == 0 => random.between(46, 50),
        71..=220 => 16 * random.between(1, 8) + random.between(0, 2) - 1,
        221..=280 => random.between(1, 150),
        281..=299 => random.between(1, 1_200),
        _ => random.between(1, 16_384),
    }
}

fn good_frame(random: &mut Random) -> Frame {
    let count = random.between(1, 4) as usize;
    let mut segments = [Segment::default(); SEGMENTS];
    for (place, segment) in segments.iter_mut().enumerate().take(count) {
        segment.length = length(random, place).min(CARRIED_SUM / 4);
        segment.alignment = alignment(random);
    }
    let last = &mut segments[count - 1];
    if count > 1 && last.length == 0 {
        last.length = random.between(1, 33);
    }
    Frame {
        tag: random.between(1, 20) as u8,
        count: count as u8,
        segments,
    }
}

fn good(random: &mut Random) -> Build {
    let frame = good_frame(random);
    Build {
        frame,
        abort: frame.count > 1 && random.once_in(3),
        buffer: roomy_buffer(random, wire_length(&frame)),
        source: payload(random, frame.sum() as u32),
    }
}

/// The request of a frame in crc mode; its buffer is long enough here too, for
/// the most part.
fn sealed(random: &mut Random, record: FrameRecord) -> Build {
    let needed = wire_length(&record.frame).min(u64::from(CARRIED_SUM));
    let mut buffer = roomy_buffer(random, needed);
    if record.buffer.queued >= u64::from(record.buffer.length) {
        buffer = record.buffer;
    }
    Build {
        frame: record.frame,
        abort: record.abort,
        buffer,
        source: record.source,
    }
}

fn build(random: &mut Random) -> Build {
    match random.between(1, 100) {
        1..=60 => good(random),
        61..=70 => {
            let mut build = good(random);
            let needed = wire_length(&build.frame);
            disturb_buffer(random, &mut build.buffer, needed);
            build
        }
        71..=84 => {
            let record = mutated(random);
            sealed(random, record)
        }
        85..=92 => {
            let record = twice_wrong(random);
            sealed(random, record)
        }
        93..=96 => {
            let record = single_aborted(random);
            sealed(random, record)
        }
        _ => {
            let record = put_together(random);
            sealed(random, record)
        }
    }
}

/// Mostly none, or so many that few are left.
fn spent(random: &mut Random) -> u64 {
    let few = u64::from(random.between(0, 8));
    match random.between(1, 6) {
        1 | 2 => u64::MAX - few,
        3 => random.u64(),
        _ => 0,
    }
}

fn record(random: &mut Random) -> BuildsRecord {
    let count = random.pick(&[0, 1, 2, 3, 5, 8]);
    BuildsRecord {
        refused: random.once_in(15),
        key: std::array::from_fn(|_| random.u8()),
        nonce: nonce(random),
        spent: spent(random),
        builds: (0..count).map(|_| build(random)).collect(),
        spoilt: false,
    }
}

#[cfg(test)]
mod tests {
    use super::*;
    use crate::records::Record;
    use crate::run::run;

    fn answers(seed: u64, count: u64) -> Vec<String> {
        let records = records(seed, count).map(Record::Builds);
        let bytes: Vec<u8> = records.flat_map(|record| record.to_bytes()).collect();
        let mut printed = Vec::new();
        run(&bytes, &mut printed).expect("writing to memory");
        let text = String::from_utf8(printed).expect("plain text");
        text.lines().map(String::from).collect()
    }

    #[test]
    fn every_build_has_its_line() {
        let lines = answers(3, 500);
        let records = records(3, 500).map(Record::Builds);
        let expected: usize = records.map(|record| record.lines()).sum();
        assert_eq!(lines.len(), expected);
        assert!(!lines.iter().any(|line| line == "bad record"));
    }

    #[test]
    fn every_kind_of_answer_comes_up_often() {
        let lines = answers(1, 3_000);
        for number in [27, 6, 8, 9, 13, 15, 14, 18] {
            let kind = format!("refused {number} ");
            let seen = lines.iter().filter(|line| line.starts_with(&kind)).count();
            assert!(seen >= 40, "{kind}: {seen}");
        }
        let seen = lines.iter().filter(|line| line.starts_with("wrote "));
        assert!(seen.count() > 3_000);
    }
}
