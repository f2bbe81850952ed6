//! A generated stream and its calls, answered by both receivers.

use crate::guarded::{Framed, Guarded};
use crate::tally::Tally;
use crate::{probes, same};
use mahuixen::sys::{self, RawReport};
use mahuixen::{Receiver, State};
use second::definition::{entries, List};
use second::random::Random;
use second::records::ReceiverRecord;
use second::report::Report;

pub const KINDS: [&str; 20] = same::KINDS;

/// One call in so many is tried on changed states too.
const PROBED: u32 = 3;

/// What happens to the store between the calls.
#[derive(Clone, Copy, PartialEq, Eq)]
pub enum Store {
    /// Nothing, as it should be: then the list of entries is the defined one.
    Kept,
    /// Somebody writes to it.
    Poisoned,
    /// Some calls are lent only its front.
    Shortened,
}

impl Store {
    pub fn any(random: &mut Random) -> Self {
        random.pick(&[Self::Kept, Self::Kept, Self::Poisoned, Self::Shortened])
    }
}

/// The library's receiver, by the crate's types or by the bare numbers.
enum Library {
    Typed(Receiver),
    Bare(State),
}

impl Library {
    fn start(record: &ReceiverRecord, typed: bool) -> Self {
        let own = same::features(record.own);
        let (state, refused) = sys::start(own);
        let refusal = record.own.judge_own().err().map(same::numbers);
        assert_eq!(refused, refusal.unwrap_or_default().number);
        match Receiver::start(own) {
            Ok(receiver) if typed => Self::Typed(receiver),
            // A refused start has a state too.
            _ => Self::Bare(state),
        }
    }

    fn state(&self) -> State {
        match self {
            Self::Typed(receiver) => receiver.clone().into_raw(),
            Self::Bare(state) => *state,
        }
    }

    /// Makes the call and holds its report to the expected one.
    fn receive(&mut self, piece: &[u8], store: &mut [u8], (taken, expected): (usize, &Report)) {
        match self {
            Self::Typed(receiver) => {
                let received = receiver.receive(piece, store);
                let report = received.report;
                assert!(same::tells(&report, expected), "{report:?}: {expected:?}");
                assert_eq!(received.taken, taken);
            }
            Self::Bare(state) => {
                let mut framed = Framed::new(*state);
                let report = sys::receive(&mut framed.it, piece, store);
                *state = framed.taken_out();
                assert_eq!(report, same::raw(taken, expected));
            }
        }
    }
}

/// A stream under way: what the calls so far have left on both sides.
struct Run<'a> {
    record: &'a ReceiverRecord,
    between: Store,
    library: Library,
    lent: Guarded,
    second: second::receiver::Receiver,
    store: Vec<u8>,
    taken: usize,
    /// The defined list, and how many of its entries were reported.
    list: List,
    reported: usize,
}

impl<'a> Run<'a> {
    fn start(random: &mut Random, record: &'a ReceiverRecord, between: Store) -> Self {
        let store = record.store.bytes();
        Self {
            record,
            between,
            library: Library::start(record, random.once_in(2)),
            lent: Guarded::new(random, &store),
            second: second::receiver::Receiver::start(record.own).0,
            list: entries(record.own, &record.stream, &store),
            store,
            taken: 0,
            reported: 0,
        }
    }

    /// Writes the same bytes into both stores.
    fn poison(&mut self, random: &mut Random) {
        for _ in 0..random.between(0, 4) {
            if let Some(last) = self.store.len().checked_sub(1) {
                let place = random.between(0, last as u32) as usize;
                self.store[place] = random.u8();
                self.lent.lend()[place] = self.store[place];
            }
        }
    }

    /// How much of the store the next call is lent.
    fn lent_length(&self, random: &mut Random) -> usize {
        let length = self.store.len();
        if self.between == Store::Shortened && random.once_in(6) {
            random.between(0, length as u32) as usize
        } else {
            length
        }
    }

    fn call(&mut self, random: &mut Random, offered: u32, probes: &mut Tally) -> RawReport {
        if self.between == Store::Poisoned && random.once_in(2) {
            self.poison(random);
        }
        let left = &self.record.stream[self.taken..];
        let piece = &left[..left.len().min(offered as usize)];
        let length = self.lent_length(random);
        if random.once_in(PROBED) {
            let store = &self.store[..length];
            probes::changed(random, self.library.state(), piece, store, probes);
        }
        let (taken, report) = self.second.receive(piece, &mut self.store[..length]);
        let held = Guarded::new(random, piece);
        let store = &mut self.lent.lend()[..length];
        self.library
            .receive(held.content(), store, (taken, &report));
        held.expect(piece, "piece");
        self.lent.expect(&self.store, "store");
        self.taken += taken;
        self.hold_to_the_list(&report);
        same::raw(taken, &report)
    }

    /// The first report of each entry stands at its byte, with its store.
    fn hold_to_the_list(&mut self, report: &Report) {
        let after_a_refusal = match self.reported.checked_sub(1) {
            Some(last) => matches!(self.list.entries[last].report, Report::Refused(_)),
            None => self.record.own.judge_own().is_err(),
        };
        if self.between != Store::Kept || after_a_refusal || *report == Report::More {
            return;
        }
        let entry = &self.list.entries[self.reported];
        assert_eq!((report, self.taken), (&entry.report, entry.byte));
        assert!(self.lent.content() == entry.store, "not the entry's store");
        self.reported += 1;
    }

    /// The calls of a generated record go on until all is taken that can be.
    fn end(&self) {
        if self.between == Store::Kept {
            assert_eq!(self.reported, self.list.entries.len());
            assert!(self.lent.content() == self.list.store, "not the last store");
        }
    }
}

/// How often each kind of answer came up.
#[derive(Default)]
pub struct Seen {
    pub calls: Tally,
    pub probes: Tally,
}

/// Makes the calls of the record and compares them.
pub fn run(random: &mut Random, record: &ReceiverRecord, between: Store, seen: &mut Seen) {
    let mut run = Run::start(random, record, between);
    for &offered in &record.pieces {
        let report = run.call(random, offered, &mut seen.probes);
        seen.calls.count(same::kind(&report));
    }
    run.end();
}
