//! The handshake: every step there is, generated runs and lists of modes, done by
//! both.

use crate::same;
use crate::tally::Tally;
use mahuixen::sys::{self, RawVerdict};
use mahuixen::{pick_mode, AuthVerdict, Handshake, Refusal, Verdict};
use second::handshake::{self, Side, State};
use second::random::Random;
use second::records::{ModeRecord, StepsRecord};

const STEPPED: &str = "steps";
const UNEXPECTED: &str = "steps by a tag that is not waited for";
const BEYOND: &str = "steps with a number beyond its field";
const PICKED: &str = "modes";
const NONE_PICKED: &str = "no mode in common";

pub const KINDS: [&str; 5] = [STEPPED, UNEXPECTED, BEYOND, PICKED, NONE_PICKED];

fn answer<T>(answer: Result<T, second::refusal::Refusal>) -> Result<T, Refusal> {
    answer.map_err(|refusal| Refusal::from(mahuixen::Numbers::from(same::numbers(refusal))))
}

const STATES: [(Handshake, State); 9] = [
    (Handshake::Hello, State::Hello),
    (Handshake::Auth, State::Auth),
    (Handshake::More, State::More),
    (Handshake::Signature, State::Signature),
    (Handshake::Session, State::Session),
    (Handshake::Ready, State::Ready),
    (Handshake::Standby, State::Standby),
    (Handshake::Wait, State::Wait),
    (Handshake::Closed, State::Closed),
];

fn state(theirs: State) -> Handshake {
    let same = STATES.iter().find(|(_, second)| *second == theirs);
    same.expect("one of nine").0
}

/// The verdict whose parts are the bits of a case record's byte.
fn verdict(bits: u8) -> Verdict {
    use AuthVerdict::{More, Signature, Standby, Stay};
    let auth = [Stay, More, Signature, Standby][usize::from(bits & 3)];
    let says = |bit: u8| bits >> bit & 1 == 1;
    Verdict {
        auth,
        signature: says(2),
        features: says(3),
        reconnect: says(4),
    }
}

#[test]
fn every_step_is_the_second_programs() {
    for ((ours, theirs), bits) in STATES.iter().flat_map(|s| (0..32).map(move |v| (*s, v))) {
        for tag in 0..=u8::MAX {
            let second = |side| {
                answer(handshake::step(side, theirs, tag, handshake::Verdict(bits))).map(state)
            };
            let verdict = verdict(bits);
            assert_eq!(ours.client_step(tag, &verdict), second(Side::Client));
            assert_eq!(ours.server_step(tag, &verdict), second(Side::Server));
        }
    }
}

/// A number beyond its field is 26, and the state stays.
fn beyond(random: &mut Random, side: Side, state: Handshake, tag: u8, verdict: Verdict) {
    let mut state = u64::from(state.number());
    let mut tag = u64::from(tag);
    let mut verdict = RawVerdict::from(verdict);
    match random.between(1, 6) {
        1 => state = random.pick(&[9, 255, 256, u64::MAX]),
        2 => tag |= 1 << random.between(8, 63),
        3 => verdict.auth |= 1 << random.between(2, 63),
        4 => verdict.signature |= 1 << random.between(1, 63),
        5 => verdict.features |= 1 << random.between(1, 63),
        _ => verdict.reconnect |= 1 << random.between(1, 63),
    }
    let step = match side {
        Side::Client => sys::client_step,
        Side::Server => sys::server_step,
    };
    assert_eq!(step(state, tag, &verdict), (state, same::CONTRADICTS));
}

pub fn steps(random: &mut Random, record: &StepsRecord, tally: &mut Tally) {
    let (mut ours, mut theirs) = (Handshake::Hello, State::Hello);
    for &(tag, bits) in &record.steps {
        let verdict = verdict(bits.0);
        if random.once_in(4) {
            beyond(random, record.side, ours, tag, verdict);
            tally.count(BEYOND);
        }
        let stepped = match record.side {
            Side::Client => ours.client_step(tag, &verdict),
            Side::Server => ours.server_step(tag, &verdict),
        };
        let due = handshake::step(record.side, theirs, tag, bits);
        assert_eq!(stepped, answer(due).map(state));
        tally.count([STEPPED, UNEXPECTED][usize::from(due.is_err())]);
        (ours, theirs) = match due {
            Ok(next) => (state(next), next),
            Err(_) => (Handshake::Closed, State::Closed),
        };
    }
}

pub fn modes(record: &ModeRecord, tally: &mut Tally) {
    let due = handshake::pick(&record.preferred, &record.own);
    assert_eq!(pick_mode(&record.preferred, &record.own), due);
    let number = sys::pick_mode(&record.preferred, &record.own);
    assert_eq!(number, due.map_or(1 << 32, u64::from));
    tally.count([NONE_PICKED, PICKED][usize::from(due.is_some())]);
}
