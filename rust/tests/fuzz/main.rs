//! Every call of the library, given generated streams, states, sessions, requests
//! and bodies in one process with the independent second program; their answers
//! must be the same.
//!
//! `MAHUIXEN_STREAMS` says how many streams and builds, and with them how many of
//! all else, `MAHUIXEN_SEED` what they are generated from. `cargo test --release
//! --test fuzz -- --nocapture` shows how often each kind of answer came up.

mod bodies;
mod builds;
mod delivered;
mod guarded;
mod handshake;
mod longest;
mod probes;
mod rebuilt;
mod same;
mod sealed_links;
mod sealed_states;
mod sealing;
mod sessions;
mod streams;
mod switches;
mod tally;

use second::generate;
use second::random::Random;
use second::records::Record;
use std::path::Path;
use streams::{Seen, Store};
use tally::Tally;

const STREAMS: u64 = 500_000;
const SEED: u64 = 1;

/// A number from the environment, or the usual one where it isn't set.
fn option(name: &str, usual: u64) -> u64 {
    match std::env::var(name) {
        Ok(text) => text.parse().expect("a number in the environment"),
        Err(_) => usual,
    }
}

fn streams() -> u64 {
    option("MAHUIXEN_STREAMS", STREAMS)
}

fn seed() -> u64 {
    option("MAHUIXEN_SEED", SEED)
}

#[test]
fn streams_and_states() {
    let mut random = Random::new(seed());
    let mut seen = Seen::default();
    for record in generate::receiver::records(seed(), streams()) {
        let between = Store::any(&mut random);
        streams::run(&mut random, &record, between, &mut seen);
    }
    seen.calls.expect("calls", streams(), &streams::KINDS);
    let probes = &seen.probes;
    probes.expect("calls on changed states", streams(), &probes::KINDS);
}

#[test]
fn states_put_together() {
    let mut random = Random::new(seed() ^ 0x5747);
    let mut probes = Tally::default();
    for _ in 0..streams() {
        probes::put_together(&mut random, &mut probes);
    }
    probes.expect("calls on states put together", streams(), &probes::KINDS);
    let mut probes = Tally::default();
    let states = streams() / 2;
    for _ in 0..states {
        probes::put_together_sealed(&mut random, &mut probes);
    }
    let kinds = &probes::SEALED_KINDS;
    probes.expect("calls on sealed states put together", states, kinds);
}

#[test]
fn recordings() {
    let folder = Path::new(env!("CARGO_MANIFEST_DIR")).join("../recordings");
    let mut random = Random::new(seed());
    let mut seen = Seen::default();
    let records = second::recordings::records(&folder).expect("recorded links");
    let links = records.len() as u64;
    for record in records {
        let Record::Receiver(record) = record else {
            unreachable!("not a record of a link")
        };
        streams::run(&mut random, &record, Store::Kept, &mut seen);
    }
    let calls = &seen.calls;
    calls.expect("calls on recordings", links, &streams::KINDS);
}

#[test]
fn longest_frames() {
    let mut random = Random::new(seed());
    let mut tally = Tally::default();
    for record in longest::builds(&mut random) {
        builds::run(&mut random, &record, &mut tally);
    }
    tally.expect("builds at the limits", 0, &builds::KINDS);
    let mut seen = Seen::default();
    for record in longest::streams(&mut random) {
        streams::run(&mut random, &record, Store::Kept, &mut seen);
    }
    let calls = &seen.calls;
    calls.expect("calls at the limits", 0, &streams::KINDS);
}

#[test]
fn builds() {
    let mut random = Random::new(seed());
    let mut tally = Tally::default();
    for record in generate::records(seed(), streams()) {
        builds::run(&mut random, &record, &mut tally);
    }
    tally.expect("builds", streams(), &builds::KINDS);
}

#[test]
fn switched_links() {
    let mut random = Random::new(seed() ^ 0x5357);
    let mut seen = switches::Seen::default();
    let links = streams() / 10;
    for record in generate::switching::records(seed(), links) {
        switches::run(&mut random, &record, &mut seen);
    }
    let calls = &seen.calls;
    calls.expect("calls on switched links", links, &switches::KINDS);
    let probes = &seen.probes;
    probes.expect("calls on changed states of them", links, &probes::KINDS);
}

#[test]
fn sealed_links() {
    let mut random = Random::new(seed() ^ 0x4C4B);
    for _ in 0..streams() / 500 {
        sealed_links::run(&mut random);
    }
}

#[test]
fn deliveries() {
    let mut random = Random::new(seed() ^ 0x4A43);
    let mut tally = Tally::default();
    let links = streams() / 5;
    for _ in 0..links {
        delivered::run(&mut random, &mut tally);
    }
    tally.expect("calls of deliver", links, &delivered::KINDS);
}

#[test]
fn sealing_and_opening() {
    let mut random = Random::new(seed());
    let mut tally = Tally::default();
    let texts = streams() / 10;
    for record in generate::sealing::records(seed(), texts) {
        sealing::run(&mut random, &record, &mut tally);
    }
    tally.expect("texts sealed and opened", texts, &sealing::KINDS);
}

#[test]
fn sealed_builds() {
    let mut random = Random::new(seed());
    let mut tally = Tally::default();
    let states = streams() / 20;
    for record in generate::builds::records(seed(), states) {
        sealing::builds(&mut random, &record, &mut tally);
    }
    tally.expect("sealed builds", states, &sealing::BUILD_KINDS);
}

#[test]
fn sessions() {
    let mut random = Random::new(seed());
    let mut tally = Tally::default();
    let count = streams() / 10;
    for record in generate::session::records(seed(), count) {
        sessions::run(&mut random, &record, &mut tally);
    }
    for _ in 0..count {
        sessions::put_together(&mut random, &mut tally);
    }
    tally.expect("calls on sessions", count, &sessions::KINDS);
}

#[test]
fn bodies_steps_and_modes() {
    let mut random = Random::new(seed());
    let (mut bodies, mut steps) = (Tally::default(), Tally::default());
    let count = streams() / 5;
    for record in generate::handshake::records(seed(), count) {
        match record {
            Record::Body(record) => bodies::read(&mut random, &record, &mut bodies),
            Record::Write(record) => bodies::write(&mut random, &record, &mut bodies),
            Record::Steps(record) => handshake::steps(&mut random, &record, &mut steps),
            Record::Mode(record) => handshake::modes(&record, &mut steps),
            _ => unreachable!("not among the records of the handshake"),
        }
    }
    bodies.expect("bodies", count, &bodies::KINDS);
    steps.expect("steps and modes", count, &handshake::KINDS);
}
