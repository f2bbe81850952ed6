//! `deliver` beside the second program's receiver, reading of bodies and session,
//! in both revisions and behind a switch: the report, the effect, every word of
//! the session and every byte of the store, with stores that are written to or
//! lent short between the calls, and on states and sessions that no call handed
//! out.

use crate::guarded::{Framed, Guarded};
use crate::probes::{at_once, change};
use crate::rebuilt::Meaning;
use crate::same::{self, REFUSED};
use crate::sessions::{any_words, refusal, Second};
use crate::streams::Store;
use crate::tally::Tally;
use mahuixen::sys::{self, RawAnswer, RawReport, RawSession};
use mahuixen::{Effect, Numbers, Receiver, Refusal, Session, State};
use second::banner::Features;
use second::body::{self, Body};
use second::builder::FrameRequest;
use second::frame::{Frame, Segment, SEGMENTS};
use second::random::Random;
use second::report::Report;
use second::secure::{store_needed, Direction, Secrets, Sending};
use second::wire::{can_abort, frame_bytes, Revision};

const NOTHING: &str = "nothing";
const ACKED: &str = "acks";
const RESET: &str = "resets";
const RESENT: &str = "reconnects";
const AHEAD: &str = "numbers never given, refused with 23";
const BROKEN: &str = "asked of a session that contradicts itself, refused with 26";
const MALFORMED: &str = "malformed bodies";

const MSGR20: &str = "frames that speak to the session, msgr2.0";
const MSGR21: &str = "frames that speak to the session, msgr2.1";
const SEALED: &str = "frames that speak to the session, sealed";

const PROBED: &str = "changed states and sessions, compared";
const CONTRADICTION: &str = "changed states, refused with 26";

pub const KINDS: [&str; 14] = [
    NOTHING,
    ACKED,
    RESET,
    RESENT,
    AHEAD,
    BROKEN,
    MALFORMED,
    MSGR20,
    MSGR21,
    SEALED,
    PROBED,
    CONTRADICTION,
    REFUSED[11],
    REFUSED[17],
];

/// What the second program's session does with a whole frame, in words.
fn done(session: &mut Second, report: &Report, store: &[u8]) -> RawAnswer {
    let Report::Frame(frame) = report else {
        return RawAnswer::default();
    };
    if !matches!(frame.tag, 20 | 15 | 12) {
        return RawAnswer::default();
    }
    let first = frame.segments[0].length as usize;
    let body = match body::read(frame.tag, &store[..first]) {
        Ok(_) if frame.count != 1 => Err(second::refusal::Refusal::body_malformed(first)),
        read => read,
    };
    match (frame.tag, body) {
        (_, Err(why)) => RawAnswer {
            kind: 5,
            refusal: same::numbers(why),
            ..RawAnswer::default()
        },
        (20, Ok(Body::Number(number))) => session.ack(number),
        (15, Ok(Body::Number(number))) => session.reconnect(number),
        (12, Ok(Body::Reset { full })) => session.reset(full == 1),
        (tag, Ok(other)) => unreachable!("tag {tag} with {other:?}"),
    }
}

/// The effect by the crate's types.
fn typed(effect: &RawAnswer, report: &Report) -> Effect {
    let is_reset = matches!(report, Report::Frame(frame) if frame.tag == 12);
    match effect.kind {
        0 => Effect::Nothing,
        1 if is_reset => Effect::Reset,
        1 => Effect::Acked,
        3 => Effect::Resend(effect.number as usize),
        4 => Effect::Refused(refusal(effect)),
        _ => Effect::Malformed(refusal(effect)),
    }
}

fn kind(effect: &RawAnswer, report: &Report) -> &'static str {
    match (typed(effect, report), effect.refusal.number) {
        (Effect::Nothing, _) => NOTHING,
        (Effect::Acked, _) => ACKED,
        (Effect::Reset, _) => RESET,
        (Effect::Resend(_), _) => RESENT,
        (Effect::Refused(_), 23) => AHEAD,
        (Effect::Refused(_), _) => BROKEN,
        (Effect::Malformed(_), _) => MALFORMED,
    }
}

/// A frame that often speaks to the session, and often well: around the numbers
/// of this one.
fn frame(random: &mut Random, session: &RawSession) -> (Frame, Vec<u8>) {
    let tag = random.pick(&[20, 20, 15, 12, 12, 17, 10, 19]);
    let due = if tag == 12 { 1 } else { 8 };
    let length = match random.once_in(6) {
        true => random.between(0, 10),
        false => due,
    };
    let long = random.between(0, 90);
    let lengths = match random.between(1, 8) {
        1 => vec![length, random.between(1, 40)],
        2 if tag == 17 => vec![long, long / 2, 0, 1 + long],
        _ => vec![length],
    };
    let mut segments = [Segment::default(); SEGMENTS];
    for (segment, length) in segments.iter_mut().zip(&lengths) {
        segment.length = *length;
        segment.alignment = random.u16();
    }
    let frame = Frame {
        tag,
        count: lengths.len() as u8,
        segments,
    };
    let mut source = random.bytes(frame.sum() as u32);
    if length == due && lengths[0] == due && !random.once_in(8) {
        let near = session.last.wrapping_sub(random.between(0, 70).into());
        let few = u64::from(random.between(0, 3));
        let wide = random.pick(&[near, near, session.last, session.last.wrapping_add(few)]);
        let number = if tag == 12 { few } else { wide };
        source[..due as usize].copy_from_slice(&number.to_le_bytes()[..due as usize]);
    }
    (frame, source)
}

/// A stream, with a switch behind so many of its bytes or none.
struct Link {
    own: Features,
    revision: Revision,
    stream: Vec<u8>,
    switch: Option<(usize, Secrets)>,
    /// What the frame that needs most of the store needs.
    needed: usize,
}

fn link(random: &mut Random, session: &RawSession) -> Link {
    let revision = random.pick(&[Revision::Msgr20, Revision::Msgr21, Revision::Msgr21]);
    let own = Features::new(u64::from(revision == Revision::Msgr21), 0);
    let mut link = Link {
        own,
        revision,
        stream: own.banner(),
        switch: None,
        needed: 0,
    };
    for _ in 0..random.between(1, 4) {
        let (frame, source) = frame(random, session);
        let abort = can_abort(revision, &frame) && random.once_in(10);
        link.stream
            .extend(frame_bytes(revision, &frame, abort, &source));
        link.needed = link.needed.max(frame.sum() as usize);
        if link.switch.is_none() && revision == Revision::Msgr21 && random.once_in(2) {
            break_off(random, &mut link, session);
            break;
        }
    }
    if random.once_in(4) {
        let at = random.between(0, link.stream.len() as u32 - 1) as usize;
        link.stream[at] ^= 1 << random.between(0, 7);
    }
    link
}

/// Behind the crc frames so far sealed ones come.
fn break_off(random: &mut Random, link: &mut Link, session: &RawSession) {
    let secrets = Secrets {
        key: std::array::from_fn(|_| random.u8()),
        receiving: std::array::from_fn(|_| random.u8()),
        sending: std::array::from_fn(|_| random.u8()),
    };
    link.switch = Some((link.stream.len(), secrets));
    let mut sending = Sending::Sealing(Direction::new(secrets.key, secrets.receiving, 0));
    for _ in 0..random.between(1, 5) {
        let (frame, source) = frame(random, session);
        let request = FrameRequest {
            revision: Revision::Msgr21,
            frame,
            abort: frame.count > 1 && random.once_in(10),
            source: &source,
        };
        let mut wire = vec![0; source.len() + 300];
        let length = sending.build(&request, &mut wire, 0).expect("room for it");
        link.stream.extend(&wire[..length as usize]);
        link.needed = link.needed.max(store_needed(&frame));
    }
}

/// Both sides between two calls.
struct Both {
    state: State,
    receiver: second::receiver::Receiver,
    session: Second,
    lent: Guarded,
    store: Vec<u8>,
}

/// What a call of `deliver` did.
type Done = (RawReport, RawAnswer);

/// The library's `deliver`, by bare numbers or by the crate's types; its state and
/// session stay inside of what they are.
fn deliver(
    random: &mut Random,
    (state, words): (&mut State, &mut RawSession),
    piece: &[u8],
    store: &mut [u8],
    due: (&Done, &Report),
) {
    let ((report, effect), told) = due;
    // A refusal that was put together may have details that its number does not.
    let refusal = Refusal::from(Numbers::from(report.refusal));
    let has_a_type = report.kind != 4 || same::bare(Err(refusal)).1 == report.refusal;
    if has_a_type && random.once_in(3) {
        let mut receiver = Receiver::from_raw(*state);
        let mut session = Session::from_raw(words.clone());
        let (received, done) = receiver.deliver(&mut session, piece, store);
        assert!(
            same::tells(&received.report, told),
            "{received:?}: {told:?}"
        );
        assert_eq!(received.taken as u64, report.taken);
        assert_eq!(done, typed(effect, told));
        (*state, *words) = (receiver.into_raw(), session.into_raw());
        return;
    }
    let (mut at, mut of) = (Framed::new(*state), Framed::new(words.clone()));
    let done = sys::deliver(&mut at.it, &mut of.it, piece, store);
    assert_eq!(done, (*report, *effect), "{state:?}");
    (*state, *words) = (at.taken_out(), of.taken_out());
}

impl Both {
    fn start(random: &mut Random, link: &Link, session: RawSession) -> Self {
        let room = match random.once_in(12) {
            true => link.needed / 2,
            false => link.needed + random.between(0, 20) as usize,
        };
        let store = random.bytes(room as u32);
        Self {
            state: sys::start(same::features(link.own)).0,
            receiver: second::receiver::Receiver::start(link.own).0,
            session: Second::of(session),
            lent: Guarded::new(random, &store),
            store,
        }
    }

    fn switch(&mut self, secrets: &Secrets) {
        let Secrets {
            key,
            receiving,
            sending,
        } = secrets;
        let mut framed = Framed::new(self.state);
        let (_, number) = sys::switch(&mut framed.it, key, receiving, sending);
        self.state = framed.taken_out();
        let (_, due) = self.receiver.switch(secrets);
        assert_eq!(number, same::built(due.map(|()| 0)).1.number);
    }

    fn poison(&mut self, random: &mut Random) {
        if let Some(last) = self.store.len().checked_sub(1) {
            let place = random.between(0, last as u32) as usize;
            self.store[place] ^= 1 << random.between(0, 7);
            self.lent.lend()[place] = self.store[place];
        }
    }

    /// Makes the call; answers how many bytes were taken, and the report.
    fn call(
        &mut self,
        random: &mut Random,
        piece: &[u8],
        lent: usize,
        tally: &mut Tally,
    ) -> (usize, Report) {
        let mut words = self.session.words().clone();
        let (taken, report) = self.receiver.receive(piece, &mut self.store[..lent]);
        let effect = done(&mut self.session, &report, &self.store);
        let held = Guarded::new(random, piece);
        let due = (same::raw(taken, &report), effect);
        let store = &mut self.lent.lend()[..lent];
        deliver(
            random,
            (&mut self.state, &mut words),
            held.content(),
            store,
            (&due, &report),
        );
        held.expect(piece, "piece");
        self.lent.expect(&self.store, "store");
        assert_eq!(words, *self.session.words());
        tally.count(kind(&effect, &report));
        (taken, report)
    }

    /// The same call on a changed state, or with another session, by a second
    /// receiver and session that are put in their places.
    fn probe(&self, random: &mut Random, piece: &[u8], lent: usize, tally: &mut Tally) {
        let mut state = self.state;
        for _ in 0..random.pick(&[0, 1, 1, 2]) {
            change(random, &mut state);
        }
        let mut words = match random.once_in(2) {
            true => any_words(random),
            false => self.session.words().clone(),
        };
        let mut session = Second::of(words.clone());
        let before = &self.store[..lent];
        let mut due_store = before.to_vec();
        let (due, report) = rebuilt(&state, &mut session, piece, &mut due_store);
        let mut lent = Guarded::new(random, before);
        let handed = state;
        let sides = (&mut state, &mut words);
        deliver(random, sides, piece, lent.lend(), (&due, &report));
        lent.expect(&due_store, "store");
        assert_eq!(words, *session.words());
        let is_26 = due.0.refusal.number == 26;
        assert!(
            !is_26 || state == handed,
            "a refused call changed the state"
        );
        tally.count(if is_26 { CONTRADICTION } else { PROBED });
    }
}

/// What `deliver` is due to do in this state, by a second receiver that is put in
/// the same place.
fn rebuilt(state: &State, session: &mut Second, piece: &[u8], store: &mut [u8]) -> (Done, Report) {
    let meaning = Meaning::of(state);
    let at_once = at_once(state, &meaning, store.len());
    if let (None, Some(meaning)) = (at_once, meaning) {
        let (taken, report) = meaning.rebuilt(store).receive(piece, store);
        let effect = done(session, &report, store);
        return ((same::raw(taken, &report), effect), report);
    }
    let refusal = at_once.unwrap_or(same::CONTRADICTS);
    let report = RawReport {
        kind: 4,
        refusal,
        ..RawReport::default()
    };
    let told = second::refusal::Refusal {
        number: refusal.number as u8,
        detail: [refusal.first, refusal.second, refusal.third],
    };
    ((report, RawAnswer::default()), Report::Refused(told))
}

/// A session to begin with: some messages are held, or it contradicts itself.
fn any_session(random: &mut Random) -> RawSession {
    if random.once_in(8) {
        return any_words(random);
    }
    let last = random.pick(&[0, 0, u64::MAX - 70]);
    let mut session = Second::of(RawSession {
        released: last,
        last,
        ..sys::session_start()
    });
    for _ in 0..random.between(0, 9) {
        session.accept(random.u64());
    }
    session.words().clone()
}

/// A link under way.
struct Run<'a> {
    link: &'a Link,
    between: Store,
    both: Both,
    at: usize,
    sealed: bool,
}

impl Run<'_> {
    /// How many bytes are offered: none behind a switch that is still to be made.
    fn offered(&self, random: &mut Random) -> usize {
        let most = random.pick(&[5, 60, 100, 400]);
        let most = random.between(0, most) as usize;
        let end = match &self.link.switch {
            Some((place, _)) if !self.sealed => *place,
            _ => self.link.stream.len(),
        };
        most.min(end - self.at)
    }

    /// How much of the store is lent.
    fn lent(&self, random: &mut Random) -> usize {
        let length = self.both.store.len();
        match self.between {
            Store::Shortened if random.once_in(6) => random.between(0, length as u32) as usize,
            _ => length,
        }
    }

    /// Makes a call; answers whether nothing more is to come.
    fn call(&mut self, random: &mut Random, tally: &mut Tally) -> bool {
        let (offered, lent) = (self.offered(random), self.lent(random));
        let piece = &self.link.stream[self.at..self.at + offered];
        if self.between == Store::Poisoned && random.once_in(4) {
            self.both.poison(random);
        }
        if random.once_in(3) {
            self.both.probe(random, piece, lent, tally);
        }
        let (taken, report) = self.both.call(random, piece, lent, tally);
        self.at += taken;
        self.count(&report, tally);
        match &self.link.switch {
            Some((place, secrets)) if self.at == *place && !self.sealed => {
                self.both.switch(secrets);
                self.sealed = true;
            }
            _ => {}
        }
        self.at == self.link.stream.len() || matches!(report, Report::Refused(_))
    }

    fn count(&self, report: &Report, tally: &mut Tally) {
        match report {
            Report::Frame(frame) if matches!(frame.tag, 20 | 15 | 12) => {
                tally.count(match (self.sealed, self.link.revision) {
                    (true, _) => SEALED,
                    (false, Revision::Msgr20) => MSGR20,
                    (false, Revision::Msgr21) => MSGR21,
                });
            }
            Report::Refused(refusal) if matches!(refusal.number, 11 | 17) => {
                tally.count(REFUSED[usize::from(refusal.number)]);
            }
            _ => {}
        }
    }
}

/// Makes calls on a generated link until nothing more is to come, and now and then
/// some more.
pub fn run(random: &mut Random, tally: &mut Tally) {
    let session = any_session(random);
    let link = link(random, &session);
    let mut run = Run {
        between: Store::any(random),
        both: Both::start(random, &link, session),
        link: &link,
        at: 0,
        sealed: false,
    };
    for _ in 0..60 {
        if run.call(random, tally) && random.once_in(2) {
            return;
        }
    }
}
