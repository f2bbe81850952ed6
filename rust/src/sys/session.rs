//! Sessions.

use super::{Block, CrcState, FirstPart, Key, Nonce, RawRefusal, RawReport, SealedState, State};

/// The messages that were sent and are not acknowledged yet: those with the
/// numbers above `released` up to `last`.
///
/// Any session is answered; one in which more than 64 numbers lie between the
/// two, or `last` lies below `released`, gets refusal 26.
#[repr(C)]
#[derive(Clone, Debug, PartialEq, Eq)]
pub struct RawSession {
    /// Up to this number none is held.
    pub released: u64,
    /// The last number given.
    pub last: u64,
    /// The caller's handles, message n's at n % 64.
    pub handles: [u64; 64],
}

/// What a call answers: 1 done, 2 accepted, 3 to be sent again, 4 refused.
#[repr(C)]
#[derive(Clone, Copy, Debug, Default, PartialEq, Eq)]
pub struct RawAnswer {
    /// Which of the four it is.
    pub kind: u64,
    /// The message's number, or how many are to be sent again.
    pub number: u64,
    /// The refusal.
    pub refusal: RawRefusal,
}

/// A message that is held.
#[repr(C)]
#[derive(Clone, Copy, Debug, Default, PartialEq, Eq)]
pub struct Message {
    /// Its number.
    pub number: u64,
    /// The caller's handle for it.
    pub handle: u64,
}

type Handles = [u64; 64];

// SAFETY: as `include/mahuixen.h` declares them.
unsafe extern "C" {
    fn mahuixen_session_start_in(session: *mut RawSession, handles: *mut Handles);
    fn mahuixen_session_accept_in(
        session: *mut RawSession,
        handles: *mut Handles,
        answer: *mut RawAnswer,
        handle: u64,
    ) -> u64;
    fn mahuixen_session_ack_in(
        session: *mut RawSession,
        handles: *mut Handles,
        answer: *mut RawAnswer,
        number: u64,
    ) -> u64;
    fn mahuixen_session_reconnect_in(
        session: *mut RawSession,
        handles: *mut Handles,
        answer: *mut RawAnswer,
        msg_seq: u64,
    ) -> u64;
    fn mahuixen_session_reset_in(
        session: *mut RawSession,
        handles: *mut Handles,
        answer: *mut RawAnswer,
        full: u64,
    ) -> u64;
    fn mahuixen_session_held_in(
        session: *const RawSession,
        handles: *const Handles,
        message: *mut Message,
        place: u64,
    ) -> u64;
    fn mahuixen_deliver_in(
        state: *mut State,
        crc: *mut CrcState,
        block: *mut Block,
        sealed: *mut SealedState,
        first: *mut FirstPart,
        key: *mut Key,
        nonce: *mut Nonce,
        session: *mut RawSession,
        handles: *const Handles,
        report: *mut RawReport,
        effect: *mut RawAnswer,
        piece: *const u8,
        piece_len: u64,
        store: *mut u8,
        store_len: u64,
    ) -> u64;
}

/// A session of which no message was sent.
#[must_use]
pub fn session_start() -> RawSession {
    let mut session = RawSession {
        released: 0,
        last: 0,
        handles: [0; 64],
    };
    let whole = &raw mut session;
    // SAFETY: the session is lent to this call alone. The library writes its
    // handles and what stands before them, each by its own pointer, and keeps
    // neither.
    unsafe { mahuixen_session_start_in(whole, &raw mut (*whole).handles) };
    session
}

type Call = unsafe extern "C" fn(*mut RawSession, *mut Handles, *mut RawAnswer, u64) -> u64;

fn called(call: Call, session: &mut RawSession, number: u64) -> RawAnswer {
    let mut answer = RawAnswer::default();
    let whole: *mut RawSession = session;
    // SAFETY: as in `session_start`; the call is one of the four above.
    unsafe { call(whole, &raw mut (*whole).handles, &mut answer, number) };
    answer
}

/// A message is to be sent.
pub fn session_accept(session: &mut RawSession, handle: u64) -> RawAnswer {
    called(mahuixen_session_accept_in, session, handle)
}

/// The peer has the messages up to a number.
pub fn session_ack(session: &mut RawSession, number: u64) -> RawAnswer {
    called(mahuixen_session_ack_in, session, number)
}

/// A reconnect_ok came with this msg_seq.
pub fn session_reconnect(session: &mut RawSession, msg_seq: u64) -> RawAnswer {
    called(mahuixen_session_reconnect_in, session, msg_seq)
}

/// A reset came, a full one where the number is not 0.
pub fn session_reset(session: &mut RawSession, full: u64) -> RawAnswer {
    called(mahuixen_session_reset_in, session, full)
}

/// 1 and the message at a place of those held, 0 where there are fewer, or 26.
#[must_use]
pub fn session_held(session: &RawSession, place: u64) -> (u64, Message) {
    let mut message = Message::default();
    // SAFETY: the session is only read, and lent to this call.
    let found = unsafe { mahuixen_session_held_in(session, &session.handles, &mut message, place) };
    (found, message)
}

/// Offers a piece of the stream to the receiver in this state, and does to the
/// session what the report asks: the report, and what was done, which is 0
/// nothing, an answer, or 5 for a malformed body.
pub fn deliver(
    state: &mut State,
    session: &mut RawSession,
    piece: &[u8],
    store: &mut [u8],
) -> (RawReport, RawAnswer) {
    let mut report = RawReport::default();
    let mut effect = RawAnswer::default();
    let whole: *mut State = state;
    let held: *mut RawSession = session;
    // SAFETY: as in `receive`; of the session the library writes the numbers,
    // which stand before the handles, and only reads the handles.
    unsafe {
        mahuixen_deliver_in(
            whole,
            &raw mut (*whole).crc,
            &raw mut (*whole).crc.block,
            &raw mut (*whole).sealed,
            &raw mut (*whole).sealed.first,
            &raw mut (*whole).sealed.key,
            &raw mut (*whole).sealed.nonce,
            held,
            &raw const (*held).handles,
            &mut report,
            &mut effect,
            piece.as_ptr(),
            piece.len() as u64,
            store.as_mut_ptr(),
            store.len() as u64,
        )
    };
    (report, effect)
}
