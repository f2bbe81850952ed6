//! Generated sessions: calls around what is held, what was sent and the last
//! number there is.

use crate::random::Random;
use crate::records::{SessionCall, SessionRecord};
use crate::session::Session;
use SessionCall::{Accept, Ack, Held, Reconnect, Reset};

pub fn records(seed: u64, count: u64) -> impl Iterator<Item = SessionRecord> {
    let mut random = Random::new(seed ^ 0x4E);
    (0..count).map(move |_| record(&mut random))
}

fn record(random: &mut Random) -> SessionRecord {
    let last = match random.between(1, 10) {
        1..=4 => 0,
        5 | 6 => u64::from(random.between(1, 200)),
        7 => u64::MAX - u64::from(random.between(0, 80)),
        8 => u64::MAX - u64::from(random.between(0, 3)),
        _ => random.u64(),
    };
    let count = random.pick(&[0, 1, 3, 10, 40, 160]);
    let sends = random.between(1, 9);
    let mut sent = Sent {
        session: Session::after(last),
        last,
    };
    let calls = (0..count).map(|_| call(random, &mut sent, sends));
    SessionRecord::good(last, calls.collect())
}

/// What the calls so far led to, so that the next can be near it.
struct Sent {
    session: Session,
    last: u64,
}

/// `sends` of ten calls send a message.
fn call(random: &mut Random, sent: &mut Sent, sends: u32) -> SessionCall {
    if random.between(1, 10) <= sends {
        let handle = random.u64();
        if let Ok(number) = sent.session.accept(handle) {
            sent.last = number;
        }
        return Accept(handle);
    }
    match random.between(1, 10) {
        1..=4 => {
            let number = number(random, sent);
            // A refused one changes nothing.
            let _ = sent.session.ack(number);
            Ack(number)
        }
        5 | 6 => {
            let number = number(random, sent);
            let _ = sent.session.ack(number);
            Reconnect(number)
        }
        7 => {
            let full = random.once_in(3);
            sent.session.reset(full);
            Reset { full }
        }
        _ => Held(place(random, sent)),
    }
}

/// Numbers that are held, the last one, the ones at either side, and any.
fn number(random: &mut Random, sent: &Sent) -> u64 {
    let held = sent.session.held().len() as u32;
    let back = u64::from(random.between(0, held + 1));
    match random.between(1, 12) {
        1..=8 => sent.last.saturating_sub(back),
        9 => sent.last.saturating_sub(u64::from(held)),
        10 => sent.last.saturating_add(1),
        11 => random.pick(&[0, u64::MAX]),
        _ => random.u64(),
    }
}

fn place(random: &mut Random, sent: &Sent) -> u64 {
    let held = sent.session.held().len() as u64;
    match random.between(1, 6) {
        1..=3 => u64::from(random.between(0, held as u32)),
        4 => held,
        5 => 0,
        _ => random.u64(),
    }
}

#[cfg(test)]
mod tests {
    use super::*;
    use crate::records::Record;
    use crate::run::run;

    #[test]
    fn every_kind_of_answer_comes_up_often() {
        let records: Vec<Record> = records(1, 2_000).map(Record::Session).collect();
        let bytes: Vec<u8> = records.iter().flat_map(Record::to_bytes).collect();
        let mut printed = Vec::new();
        run(&bytes, &mut printed).expect("writing to memory");
        let text = String::from_utf8(printed).expect("plain text");
        let expected: usize = records.iter().map(Record::lines).sum();
        assert_eq!(text.lines().count(), expected);
        for wanted in [
            "number ",
            "ack held 0",
            "ack held ",
            "resend 0",
            "resend 1 ",
            "reset held ",
            "held none",
            "held ",
            "refused 22 ",
            "refused 23 ",
            "refused 25 ",
        ] {
            let seen = text.lines().filter(|line| line.starts_with(wanted)).count();
            assert!(seen >= 40, "{wanted}: {seen}");
        }
    }
}
