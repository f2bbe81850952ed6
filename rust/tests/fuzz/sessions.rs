//! Sessions: generated calls on sessions from a start, near the last number of
//! all, and put together from nothing, answered by both; every word of the
//! session and of the answer is compared.

use crate::guarded::Framed;
use crate::same;
use crate::tally::Tally;
use mahuixen::sys::{self, RawAnswer, RawSession};
use mahuixen::{Message, Numbers, Refusal, Session};
use second::random::Random;
use second::records::{SessionCall, SessionRecord};

const SESSION_PLACES: u64 = 64;

const ACCEPTED: &str = "accepted";
const DONE: &str = "done";
const RESENT: &str = "to be sent again";
const HELD: &str = "held messages";
const NONE_HELD: &str = "places beyond those held";

pub const KINDS: [&str; 9] = [
    ACCEPTED,
    DONE,
    RESENT,
    HELD,
    NONE_HELD,
    same::REFUSED[22],
    same::REFUSED[23],
    same::REFUSED[25],
    same::REFUSED[26],
];

fn answered(kind: u64, number: u64) -> RawAnswer {
    RawAnswer {
        kind,
        number,
        ..RawAnswer::default()
    }
}

fn contradicts() -> RawAnswer {
    RawAnswer {
        kind: 4,
        refusal: same::CONTRADICTS,
        ..RawAnswer::default()
    }
}

/// The second program's session beside the words that the library has for it.
pub struct Second {
    words: RawSession,
    /// None where the words contradict each other.
    session: Option<second::session::Session>,
}

type Answer = Result<RawAnswer, second::refusal::Refusal>;

impl Second {
    /// A session in the place that the words say.
    pub fn of(words: RawSession) -> Self {
        let held = words.last.checked_sub(words.released);
        let session = held.filter(|held| *held <= SESSION_PLACES).map(|held| {
            let mut session = second::session::Session::after(words.released);
            for number in (1..=held).map(|place| words.released + place) {
                let handle = words.handles[(number % SESSION_PLACES) as usize];
                assert_eq!(session.accept(handle), Ok(number));
            }
            session
        });
        Self { words, session }
    }

    pub fn words(&self) -> &RawSession {
        &self.words
    }

    /// The handles stay where they are, whatever is released.
    fn call(&mut self, call: impl FnOnce(&mut second::session::Session) -> Answer) -> RawAnswer {
        let Some(session) = &mut self.session else {
            return contradicts();
        };
        match call(session) {
            Ok(answer) => {
                if answer.kind == 2 {
                    self.words.last = answer.number;
                }
                self.words.released = self.words.last - session.held().len() as u64;
                answer
            }
            Err(refusal) => RawAnswer {
                kind: 4,
                refusal: same::numbers(refusal),
                ..RawAnswer::default()
            },
        }
    }

    pub fn accept(&mut self, handle: u64) -> RawAnswer {
        let answer = self.call(|session| Ok(answered(2, session.accept(handle)?)));
        if answer.kind == 2 {
            self.words.handles[(answer.number % SESSION_PLACES) as usize] = handle;
        }
        answer
    }

    pub fn ack(&mut self, number: u64) -> RawAnswer {
        self.call(|session| session.ack(number).map(|()| answered(1, 0)))
    }

    pub fn reconnect(&mut self, msg_seq: u64) -> RawAnswer {
        self.call(|session| Ok(answered(3, session.reconnect(msg_seq)?.len() as u64)))
    }

    pub fn reset(&mut self, full: bool) -> RawAnswer {
        self.call(|session| {
            session.reset(full);
            Ok(answered(1, 0))
        })
    }

    fn held(&self, place: u64) -> (u64, Message) {
        let Some(session) = &self.session else {
            return (26, Message::default());
        };
        let place = usize::try_from(place).unwrap_or(usize::MAX);
        let message = session.held().get(place).copied();
        message.map_or((0, Message::default()), |message| {
            let (number, handle) = (message.number, message.handle);
            (1, Message { number, handle })
        })
    }
}

fn kind(answer: &RawAnswer) -> &'static str {
    match answer.kind {
        1 => DONE,
        2 => ACCEPTED,
        3 => RESENT,
        _ => same::REFUSED[answer.refusal.number as usize],
    }
}

/// The crate's answer in bare numbers.
fn bare(kind: u64, answer: Result<u64, Refusal>) -> RawAnswer {
    match answer {
        Ok(number) => answered(kind, number),
        Err(refusal) => RawAnswer {
            kind: 4,
            refusal: same::bare(Err(refusal)).1,
            ..RawAnswer::default()
        },
    }
}

/// What the crate's types say of a session that agrees with itself, or not.
fn typed(words: &RawSession, theirs: &Second) {
    let session = Session::from_raw(words.clone());
    assert_eq!(
        (session.released(), session.last()),
        (words.released, words.last)
    );
    let Some(second) = &theirs.session else {
        assert_eq!(session.held(0), Err(Refusal::StateContradicts));
        return;
    };
    let held = second.held();
    assert_eq!(
        (session.len(), session.is_empty()),
        (held.len(), held.is_empty())
    );
    for message in &held {
        assert_eq!(session.handle(message.number), Some(message.handle));
    }
    assert_eq!(session.handle(0), None);
    assert_eq!(session.handle(words.last.wrapping_add(1)), None);
    if let Some(before) = words.last.checked_sub(SESSION_PLACES) {
        assert_eq!(session.handle(before), None);
    }
}

/// Any number but 0 is a full reset.
fn full(random: &mut Random, is_full: bool) -> u64 {
    let any = random.u64() | 1;
    random.pick(&[1, 2, any]) * u64::from(is_full)
}

/// The library's answer by bare numbers.
fn by_numbers(random: &mut Random, session: &mut RawSession, call: SessionCall) -> RawAnswer {
    match call {
        SessionCall::Accept(handle) => sys::session_accept(session, handle),
        SessionCall::Ack(number) => sys::session_ack(session, number),
        SessionCall::Reconnect(number) => sys::session_reconnect(session, number),
        SessionCall::Reset { full: is_full } => sys::session_reset(session, full(random, is_full)),
        SessionCall::Held(_) => unreachable!("not a call that answers so"),
    }
}

/// The library's answer by the crate's types.
fn by_types(session: &mut Session, call: SessionCall) -> RawAnswer {
    match call {
        SessionCall::Accept(handle) => bare(2, session.accept(handle)),
        SessionCall::Ack(number) => bare(1, session.ack(number).map(|()| 0)),
        SessionCall::Reconnect(number) => bare(3, session.reconnect(number).map(|n| n as u64)),
        SessionCall::Reset { full } => bare(1, session.reset(full).map(|()| 0)),
        SessionCall::Held(_) => unreachable!("not a call that answers so"),
    }
}

/// The message at a place, on both sides.
fn held(theirs: &Second, place: u64, tally: &mut Tally) {
    let found = sys::session_held(&theirs.words, place);
    assert_eq!(found, theirs.held(place));
    tally.count(match found.0 {
        0 => NONE_HELD,
        1 => HELD,
        _ => same::REFUSED[26],
    });
}

/// Makes the call on both sides, and compares what it leaves.
fn call(random: &mut Random, theirs: &mut Second, call: SessionCall, tally: &mut Tally) {
    let before = theirs.words.clone();
    let due = match call {
        SessionCall::Held(place) => return held(theirs, place, tally),
        SessionCall::Accept(handle) => theirs.accept(handle),
        SessionCall::Ack(number) => theirs.ack(number),
        SessionCall::Reconnect(number) => theirs.reconnect(number),
        SessionCall::Reset { full } => theirs.reset(full),
    };
    let mut ours = Framed::new(before.clone());
    assert_eq!(by_numbers(random, &mut ours.it, call), due);
    assert_eq!(ours.taken_out(), theirs.words);
    if random.once_in(2) {
        let mut session = Session::from_raw(before);
        assert_eq!(by_types(&mut session, call), due);
        let words = session.into_raw();
        assert_eq!(words, theirs.words);
        typed(&words, theirs);
    }
    tally.count(kind(&due));
}

/// The calls of a generated record.
pub fn run(random: &mut Random, record: &SessionRecord, tally: &mut Tally) {
    let last = record.last;
    let start = RawSession {
        released: last,
        last,
        ..sys::session_start()
    };
    let mut theirs = Second::of(start);
    for each in &record.calls {
        call(random, &mut theirs, *each, tally);
    }
}

/// Words that often contradict each other: too many held, or more released than
/// given.
pub fn any_words(random: &mut Random) -> RawSession {
    let any = random.u64();
    let near = u64::from(random.between(0, 70));
    let last = random.pick(&[0, near, any, u64::MAX, u64::MAX - near]);
    let apart = u64::from(random.between(0, 66));
    let released = random.pick(&[
        last,
        last.saturating_sub(apart),
        last.saturating_sub(apart),
        last.saturating_sub(64),
        last.wrapping_sub(65),
        last.wrapping_add(1),
        any,
    ]);
    RawSession {
        released,
        last,
        handles: std::array::from_fn(|_| random.u64()),
    }
}

/// A call on a session put together from nothing.
pub fn put_together(random: &mut Random, tally: &mut Tally) {
    let mut theirs = Second::of(any_words(random));
    let near = theirs.words.last.wrapping_sub(random.between(0, 66).into());
    let any = random.u64();
    let number = random.pick(&[near, near, theirs.words.last, any]);
    let each = match random.between(1, 5) {
        1 => SessionCall::Accept(any),
        2 => SessionCall::Ack(number),
        3 => SessionCall::Reconnect(number),
        4 => SessionCall::Reset {
            full: random.once_in(2),
        },
        _ => SessionCall::Held(random.between(0, 65).into()),
    };
    call(random, &mut theirs, each, tally);
}

/// What a refusal in a session's answer says, by the crate's types.
pub fn refusal(answer: &RawAnswer) -> Refusal {
    Refusal::from(Numbers::from(answer.refusal))
}
