//! Generated receiver records with tries to switch: streams that go over to
//! secure mode, with and without faults, in stores of all lengths, cut in every
//! way, and tries at moments at which none may be made.

use super::link::{flip_a_bit, Size};
use super::secure::{any_try, secure_link, spoil, SecureLink};
use crate::banner::Features;
use crate::definition::{entries_switched, Switch};
use crate::input::LARGEST_LENGTH;
use crate::random::Random;
use crate::receiver::Receiver;
use crate::records::MOST_TRIES;
use crate::records::{Call, FrameStore, LendingRecord, LentCall, Record, SwitchingRecord, Try};
use crate::report::Report;
use crate::secure::store_needed;

/// The longest stream that is received byte by byte.
const LONGEST_BY_BYTES: usize = 700;

/// The longest stream that is cut in two at every byte.
const LONGEST_IN_TWO: usize = 900;

/// Random pieces a stream is cut into before the rest is offered whole.
const MOST_RANDOM_PIECES: usize = 30;

pub fn records(seed: u64, count: u64) -> impl Iterator<Item = Record> {
    let mut random = Random::new(seed ^ 0x58);
    std::iter::repeat_with(move || group(&mut random))
        .flatten()
        .take(count as usize)
}

/// Mostly a single record; now and then all the ways to cut a stream in two.
fn group(random: &mut Random) -> Vec<Record> {
    if random.once_in(900) {
        return cut_in_two(random);
    }
    let size = random.pick(&[Size::Small, Size::Any]);
    let case = Case::new(random, size);
    let mut driver = Driver::new(&case);
    driver.habit = Habit::any(random);
    let cuts = match driver.habit.lending {
        Lending::Whole => cuts(random, &case),
        // A store can become short only inside a frame.
        _ => random_cuts(random, case.stream.len()),
    };
    driver.drive(random, &cuts);
    driver.afterwards(random);
    vec![driver.record(random)]
}

fn cut_in_two(random: &mut Random) -> Vec<Record> {
    let mut case = Case::new(random, Size::Small);
    while case.stream.len() > LONGEST_IN_TWO {
        case = Case::new(random, Size::Small);
    }
    let places = 0..=case.stream.len();
    places
        .map(|place| {
            let mut driver = Driver::new(&case);
            driver.drive(random, &[place]);
            driver.record(random)
        })
        .collect()
}

/// A stream, its store, the tries, and when the right one is made.
struct Case {
    own: Features,
    store: FrameStore,
    tries: Vec<Try>,
    /// The try that goes with the stream.
    right: u8,
    /// The frame or drop after which it is made.
    after: usize,
    stream: Vec<u8>,
    /// What the sealed frames need of the store.
    needed: Vec<u32>,
}

impl Case {
    fn new(random: &mut Random, size: Size) -> Self {
        let mut link = secure_link(random, size);
        let needed = needed(&link);
        if random.once_in(2) {
            spoil(random, &mut link);
        }
        let mut stream = link.bytes();
        spoil_stream(random, &mut stream);
        let store = FrameStore {
            length: store_length(random, &needed),
            fill: random.u8(),
        };
        let mut tries: Vec<Try> = (0..random.pick(&[0, 0, 1, 2, u32::from(MOST_TRIES) - 1]))
            .map(|_| any_try(random))
            .collect();
        let right = random.between(0, tries.len() as u32) as u8;
        tries.insert(usize::from(right), link.switch);
        Self {
            own: link.clear.own,
            store,
            tries,
            right,
            after: link.clear.frames.len(),
            stream,
            needed,
        }
    }

    fn right_try(&self) -> &Try {
        &self.tries[usize::from(self.right)]
    }

    /// The bytes at which calls stop where the right switch is made.
    fn ends(&self) -> Vec<usize> {
        let Try { secrets, opened } = self.right_try();
        let switch = Switch {
            after: self.after,
            key: secrets.key,
            nonce: secrets.receiving,
            opened: *opened,
        };
        let store = self.store.bytes();
        let list = entries_switched(self.own, &self.stream, &store, Some(&switch));
        list.entries.iter().map(|entry| entry.byte).collect()
    }
}

fn needed(link: &SecureLink) -> Vec<u32> {
    let clear = link
        .clear
        .frames
        .iter()
        .map(|frame| frame.frame.sum() as u32);
    let sealed = link.frames.iter().map(|f| store_needed(&f.frame) as u32);
    clear.chain(sealed).collect()
}

/// Mostly enough for every frame; else a byte short of what some frame needs, or
/// hardly any.
fn store_length(random: &mut Random, needed: &[u32]) -> u32 {
    let most = needed.iter().copied().max().unwrap_or(0);
    let length = match random.between(1, 20) {
        1..=9 => most + random.between(1, 20),
        10..=17 => most,
        18 => random.pick(needed).saturating_sub(1),
        19 => random.pick(needed) + random.between(0, 100),
        _ => most + 300,
    };
    length.min(LARGEST_LENGTH)
}

/// Faults that have no regard for what the bytes mean, for some streams.
fn spoil_stream(random: &mut Random, stream: &mut Vec<u8>) {
    let length = stream.len() as u32;
    match random.between(1, 100) {
        1..=5 => flip_a_bit(random, stream),
        6..=12 => stream.truncate(random.between(0, length) as usize),
        13..=14 => {
            let more = random.between(1, 120);
            stream.extend(random.bytes(more));
        }
        // A byte more or less from some place on.
        15 if length > 0 => {
            stream.remove(random.between(0, length - 1) as usize);
        }
        16 => stream.insert(random.between(0, length) as usize, random.u8()),
        _ => {}
    }
}

/// Where pieces end, in rising order.
fn cuts(random: &mut Random, case: &Case) -> Vec<usize> {
    let length = case.stream.len();
    match random.between(1, 100) {
        1..=30 => Vec::new(),
        31..=38 => case.ends().iter().map(|end| end - 1).collect(),
        39..=44 => case
            .ends()
            .iter()
            .flat_map(|end| end - 1..=end + 1)
            .collect(),
        45..=48 if length <= LONGEST_BY_BYTES => (1..length).collect(),
        _ => random_cuts(random, length),
    }
}

/// Single bytes, a few, many, about a part.
fn random_cuts(random: &mut Random, length: usize) -> Vec<usize> {
    let mut cuts = Vec::new();
    let mut place = 0;
    while place < length && cuts.len() < MOST_RANDOM_PIECES {
        place += match random.between(1, 20) {
            1..=5 => random.between(1, 3),
            6..=11 => random.between(1, 60),
            12..=17 => random.between(90, 100),
            _ => random.between(1, 1_000),
        } as usize;
        cuts.push(place);
    }
    cuts
}

/// What tries are made, and how much of the store is lent.
#[derive(Clone, Copy)]
struct Habit {
    /// The right try is made when its moment comes.
    switches: bool,
    /// One of the tries is made at the first moment at which it may be.
    early: bool,
    /// Tries at moments at which none may be made: one in so many calls, and how
    /// many at the most.
    wrong: Option<u32>,
    most_wrong: usize,
    lending: Lending,
}

#[derive(Clone, Copy, PartialEq, Eq)]
enum Lending {
    /// The whole store, and no number for it in the record.
    Whole,
    Enough,
    /// Seldom too little.
    Seldom,
    /// Around what some frame needs.
    Around(u32),
    Any,
}

impl Habit {
    const GOOD: Self = Self {
        switches: true,
        early: false,
        wrong: None,
        most_wrong: 0,
        lending: Lending::Whole,
    };

    fn any(random: &mut Random) -> Self {
        let mut habit = Self {
            switches: !random.once_in(20),
            early: random.once_in(30),
            wrong: random.pick(&[None, None, Some(2), Some(9)]),
            most_wrong: random.between(1, 6) as usize,
            ..Self::GOOD
        };
        let around = random.between(0, 2);
        habit.lending = match random.between(1, 20) {
            1 => Lending::Enough,
            2 | 3 => Lending::Seldom,
            4 | 5 => Lending::Around(around),
            6 => Lending::Any,
            _ => Lending::Whole,
        };
        habit
    }
}

/// The calls of a record, made on a receiver of our own as they are chosen.
struct Driver<'a> {
    case: &'a Case,
    habit: Habit,
    receiver: Receiver,
    store: Vec<u8>,
    place: usize,
    calls: Vec<LentCall>,
    /// Frames and drops reported.
    reported: usize,
    /// Whether the last call that took bytes reported the last of them.
    at_a_frame: bool,
    refused: bool,
    wrong_tries: usize,
}

impl<'a> Driver<'a> {
    fn new(case: &'a Case) -> Self {
        Self {
            case,
            habit: Habit::GOOD,
            receiver: Receiver::start(case.own).0,
            store: case.store.bytes(),
            place: 0,
            calls: Vec::new(),
            reported: 0,
            at_a_frame: false,
            refused: case.own.judge_own().is_err(),
            wrong_tries: 0,
        }
    }

    fn lent(&self, random: &mut Random) -> u32 {
        let all = self.case.store.length;
        let lent = match self.habit.lending {
            Lending::Whole => LARGEST_LENGTH,
            Lending::Enough => random.pick(&[LARGEST_LENGTH, all]),
            Lending::Seldom if random.once_in(8) => random.between(0, all),
            Lending::Seldom => all,
            Lending::Around(which) => {
                let needed = &self.case.needed;
                let about = needed[which as usize % needed.len()];
                (about + random.between(0, 3)).saturating_sub(1)
            }
            Lending::Any => random.between(0, all + 1),
        };
        lent.min(LARGEST_LENGTH)
    }

    fn receive(&mut self, random: &mut Random, length: u32) {
        let lent = self.lent(random);
        let left = &self.case.stream[self.place..];
        let piece = &left[..left.len().min(length as usize)];
        let some = self.store.len().min(lent as usize);
        let (taken, report) = self.receiver.receive(piece, &mut self.store[..some]);
        self.place += taken;
        self.calls.push(LentCall::receive(length, lent));
        match report {
            Report::Frame(_) | Report::Dropped(_) => self.reported += 1,
            Report::Refused(_) => self.refused = true,
            _ => {}
        }
        let is_frame = matches!(report, Report::Frame(_) | Report::Dropped(_));
        self.at_a_frame = is_frame || (self.at_a_frame && taken == 0);
    }

    fn switch(&mut self, random: &mut Random, place: u8) {
        let lent = self.lent(random);
        let Try { secrets, opened } = &self.case.tries[usize::from(place)];
        let (_, switched) = self.receiver.switch_after(secrets, *opened);
        self.at_a_frame &= switched.is_err();
        let call = Call::Switch(place);
        self.calls.push(LentCall { call, lent });
    }

    /// Makes the tries that are due now.
    fn switch_where_due(&mut self, random: &mut Random) {
        let any = random.between(0, self.case.tries.len() as u32 - 1) as u8;
        let Habit {
            switches, early, ..
        } = self.habit;
        if self.at_a_frame && early {
            self.habit.early = false;
            self.switch(random, any);
        }
        if self.at_a_frame && switches && self.reported == self.case.after {
            if random.once_in(6) {
                self.receive(random, 0);
            }
            self.switch(random, self.case.right);
            // Once more, which is too late.
            if random.once_in(12) {
                self.switch(random, any);
            }
        }
        let wrong = self.habit.wrong.filter(|_| !self.at_a_frame);
        let due = wrong.is_some_and(|times| random.once_in(times));
        if due && self.wrong_tries < self.habit.most_wrong {
            self.wrong_tries += 1;
            self.switch(random, any);
        }
    }

    /// Calls whose pieces end at the cuts, until all is taken that can be.
    fn drive(&mut self, random: &mut Random, cuts: &[usize]) {
        let whole = self.case.stream.len();
        self.switch_where_due(random);
        for &cut in cuts.iter().chain([&whole]) {
            while self.place < cut.min(whole) && !self.refused {
                let piece = (cut - self.place).min(LARGEST_LENGTH as usize) as u32;
                self.receive(random, piece);
                self.switch_where_due(random);
                if random.once_in(40) {
                    self.receive(random, 0);
                }
            }
        }
    }

    /// Calls and tries behind the end or behind a refusal.
    fn afterwards(&mut self, random: &mut Random) {
        for _ in 0..random.pick(&[0, 1, 1, 2, 3]) {
            let piece = random.pick(&[0, 1, 5, 96, LARGEST_LENGTH]);
            self.receive(random, piece);
            if random.once_in(5) {
                let any = random.between(0, self.case.tries.len() as u32 - 1) as u8;
                self.switch(random, any);
            }
        }
    }

    /// A record without a store's length for each call where all of it is lent.
    fn record(self, random: &mut Random) -> Record {
        let Case {
            own,
            store,
            tries,
            stream,
            ..
        } = self.case;
        let (own, store) = (*own, *store);
        let (tries, stream) = (tries.clone(), stream.clone());
        if self.habit.lending == Lending::Whole && !random.once_in(30) {
            let calls = self.calls.iter().map(|call| call.call).collect();
            return Record::Switching(SwitchingRecord {
                own,
                store,
                tries,
                calls,
                stream,
            });
        }
        Record::Lending(LendingRecord {
            own,
            store,
            tries,
            calls: self.calls,
            stream,
        })
    }
}

#[cfg(test)]
mod tests;
