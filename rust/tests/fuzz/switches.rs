//! Generated links with tries to switch among their calls, answered by both
//! receivers: reports, stores, and the frame that is built with what a try handed
//! back.

use crate::guarded::{Framed, Guarded};
use crate::sealing::moved;
use crate::tally::Tally;
use crate::{probes, same};
use mahuixen::sys;
use mahuixen::{Header, Nonce, RawSending, Segment, Sending, State};
use second::builder::FrameRequest;
use second::frame::{Frame, Segment as SecondSegment, SEGMENTS};
use second::random::Random;
use second::receiver::Receiver;
use second::records::{Call, FrameStore, Record, Try};
use second::secure::Sending as Second;
use second::wire::Revision;

/// A frame without a byte of its own.
const EMPTY: u8 = 16;

/// One call in so many is tried on changed states too.
const PROBED: u32 = 4;

const MADE: &str = "switches made";
const NOT_MADE: &str = "switches refused";
const SEALED: &str = "sealed frames";
const DROPPED: &str = "sealed frames dropped";

pub const KINDS: [&str; 27] = [
    same::KINDS[0],
    same::KINDS[1],
    same::KINDS[2],
    same::KINDS[3],
    same::KINDS[4],
    same::KINDS[5],
    same::REFUSED[1],
    same::REFUSED[2],
    same::REFUSED[3],
    same::REFUSED[5],
    same::REFUSED[6],
    same::REFUSED[7],
    same::REFUSED[8],
    same::REFUSED[9],
    same::REFUSED[10],
    same::REFUSED[11],
    same::REFUSED[12],
    same::REFUSED[17],
    same::REFUSED[18],
    same::REFUSED[19],
    same::REFUSED[24],
    same::REFUSED[4],
    same::REFUSED[16],
    MADE,
    NOT_MADE,
    SEALED,
    DROPPED,
];

/// How often each kind of answer came up.
#[derive(Default)]
pub struct Seen {
    pub calls: Tally,
    pub probes: Tally,
}

/// Builds a frame with what the two tries handed back.
fn build_with(sending: RawSending, theirs: &mut Second) {
    let mut wire: [u8; 96] = std::array::from_fn(|place| place as u8);
    let mut due = wire;
    let header = Header::new(EMPTY, &[Segment::default()]);
    let built = Sending::from_raw(sending).build(&mut wire, 0, &header, &[]);
    let request = FrameRequest {
        revision: Revision::Msgr21,
        frame: Frame {
            tag: EMPTY,
            count: 1,
            segments: [SecondSegment::default(); SEGMENTS],
        },
        abort: false,
        source: &[],
    };
    let answer = theirs.build(&request, &mut due, 0);
    assert_eq!(same::bare(built), same::built(answer));
    assert_eq!(wire, due);
}

struct Both<'a> {
    ours: State,
    theirs: Receiver,
    our_store: Guarded,
    their_store: Vec<u8>,
    left: &'a [u8],
}

impl<'a> Both<'a> {
    fn start(
        random: &mut Random,
        own: second::banner::Features,
        store: &FrameStore,
        stream: &'a [u8],
    ) -> Self {
        let (ours, refused) = sys::start(same::features(own));
        let (theirs, started) = Receiver::start(own);
        let due = started.err().map(same::numbers).unwrap_or_default();
        assert_eq!(refused, due.number);
        Self {
            ours,
            theirs,
            our_store: Guarded::new(random, &store.bytes()),
            their_store: store.bytes(),
            left: stream,
        }
    }

    fn receive(&mut self, random: &mut Random, length: u32, lent: usize, seen: &mut Seen) {
        let piece = &self.left[..self.left.len().min(length as usize)];
        let lent = lent.min(self.their_store.len());
        if random.once_in(PROBED) {
            let store = &self.their_store[..lent];
            probes::changed(random, self.ours, piece, store, &mut seen.probes);
        }
        let held = Guarded::new(random, piece);
        let mut framed = Framed::new(self.ours);
        let store = &mut self.our_store.lend()[..lent];
        let report = sys::receive(&mut framed.it, held.content(), store);
        self.ours = framed.taken_out();
        let (taken, due) = self.theirs.receive(piece, &mut self.their_store[..lent]);
        assert_eq!(report, same::raw(taken, &due));
        held.expect(piece, "piece");
        self.our_store.expect(&self.their_store, "store");
        self.left = &self.left[taken..];
        seen.calls.count(match (self.ours.mode, report.kind) {
            (1, 2) => SEALED,
            (1, 3) => DROPPED,
            _ => same::kind(&report),
        });
    }

    fn switch(&mut self, tried: &Try, seen: &mut Seen) {
        let Try { secrets, opened } = tried;
        let before = self.ours;
        let mut framed = Framed::new(self.ours);
        let (sending, number) = sys::switch(
            &mut framed.it,
            &secrets.key,
            &secrets.receiving,
            &secrets.sending,
        );
        self.ours = framed.taken_out();
        let (mut theirs, due) = self.theirs.switch_after(secrets, *opened);
        assert_eq!(
            number,
            due.err().map(same::numbers).unwrap_or_default().number
        );
        if number == 0 {
            // Where it would be after so many parts.
            let sealed = &mut self.ours.sealed;
            sealed.nonce = Nonce(moved(sealed.nonce.0, *opened));
            sealed.opened = *opened;
            seen.calls.count(MADE);
        } else {
            assert_eq!(self.ours, before);
            seen.calls.count(NOT_MADE);
        }
        build_with(sending, &mut theirs);
    }

    fn call(
        &mut self,
        random: &mut Random,
        (call, lent): (Call, usize),
        tries: &[Try],
        seen: &mut Seen,
    ) {
        match call {
            Call::Receive(length) => self.receive(random, length, lent, seen),
            Call::Switch(place) => self.switch(&tries[usize::from(place)], seen),
        }
    }
}

pub fn run(random: &mut Random, record: &Record, seen: &mut Seen) {
    match record {
        Record::Switching(record) => {
            let mut both = Both::start(random, record.own, &record.store, &record.stream);
            for call in &record.calls {
                both.call(random, (*call, usize::MAX), &record.tries, seen);
            }
        }
        Record::Lending(record) => {
            let mut both = Both::start(random, record.own, &record.store, &record.stream);
            for call in &record.calls {
                let call = (call.call, call.lent as usize);
                both.call(random, call, &record.tries, seen);
            }
        }
        _ => unreachable!("not among the records of switches"),
    }
}
