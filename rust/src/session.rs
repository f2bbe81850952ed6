//! A session that outlives its connections.

use crate::refusal::{Numbers, Refusal};
use crate::sys::{self, RawAnswer, RawSession};
use crate::tag;

pub use crate::sys::Message;

/// The messages that were sent and are not acknowledged yet, each with its
/// number and a handle of the caller's, so that they can be sent again after a
/// reconnect. It holds 64 at most.
///
/// ```
/// use mahuixen::{Message, Refusal, Session};
///
/// let mut session = Session::start();
/// assert_eq!(session.accept(700), Ok(1));
/// assert_eq!(session.accept(701), Ok(2));
/// assert_eq!(session.accept(702), Ok(3));
///
/// // The peer has the first; then the connection is lost, and in the next one the
/// // peer says that it has the second too.
/// session.ack(1)?;
/// assert_eq!(session.reconnect(2), Ok(1));
/// assert_eq!(session.held(0), Ok(Some(Message { number: 3, handle: 702 })));
/// assert_eq!(session.held(1), Ok(None));
///
/// assert_eq!(session.ack(4), Err(Refusal::AckAhead));
/// # Ok::<(), Refusal>(())
/// ```
#[derive(Clone, Debug, PartialEq, Eq)]
pub struct Session {
    state: RawSession,
}

/// How many messages a session holds at most.
pub const SESSION_PLACES: usize = 64;

/// The number of an answer that is no refusal.
fn number(answer: RawAnswer) -> Result<u64, Refusal> {
    match answer.kind {
        1..=3 => Ok(answer.number),
        // 4; the library has no other.
        _ => Err(Refusal::from(Numbers::from(answer.refusal))),
    }
}

impl Default for Session {
    fn default() -> Self {
        Self::start()
    }
}

impl Session {
    /// A session of which no message was sent.
    #[must_use]
    pub fn start() -> Self {
        Self::from_raw(sys::session_start())
    }

    /// A message is to be sent: answers its number, under which it is held until
    /// it is acknowledged.
    ///
    /// # Errors
    ///
    /// [`Refusal::StateContradicts`], [`Refusal::NumbersSpent`] or [`Refusal::TableFull`]; the
    /// session is then as it was, as with every call.
    ///
    /// ```
    /// use mahuixen::{Refusal, Session, SESSION_PLACES};
    ///
    /// let mut session = Session::start();
    /// for handle in 0..SESSION_PLACES as u64 {
    ///     assert_eq!(session.accept(handle), Ok(handle + 1));
    /// }
    /// assert_eq!(session.accept(64), Err(Refusal::TableFull));
    /// ```
    pub fn accept(&mut self, handle: u64) -> Result<u64, Refusal> {
        number(sys::session_accept(&mut self.state, handle))
    }

    /// The peer has the messages up to a number: they are held no longer.
    ///
    /// # Errors
    ///
    /// [`Refusal::StateContradicts`] or [`Refusal::AckAhead`].
    pub fn ack(&mut self, up_to: u64) -> Result<(), Refusal> {
        number(sys::session_ack(&mut self.state, up_to)).map(drop)
    }

    /// A reconnect_ok came with this msg_seq: an ack, and what is then held is to
    /// be sent again. Answers how many that are.
    ///
    /// # Errors
    ///
    /// [`Refusal::StateContradicts`] or [`Refusal::AckAhead`].
    pub fn reconnect(&mut self, msg_seq: u64) -> Result<usize, Refusal> {
        // At most 64.
        number(sys::session_reconnect(&mut self.state, msg_seq)).map(|held| held as usize)
    }

    /// A session_reset came: a full one, whose byte is 1, drops what is held,
    /// another keeps it.
    ///
    /// # Errors
    ///
    /// [`Refusal::StateContradicts`].
    ///
    /// ```
    /// use mahuixen::Session;
    ///
    /// let mut session = Session::start();
    /// session.accept(700)?;
    /// session.reset(true)?;
    /// assert_eq!(session.held(0), Ok(None));
    /// assert_eq!(session.accept(701), Ok(2));
    /// # Ok::<(), mahuixen::Refusal>(())
    /// ```
    pub fn reset(&mut self, full: bool) -> Result<(), Refusal> {
        number(sys::session_reset(&mut self.state, full.into())).map(drop)
    }

    /// The message at a place of those held, 0 the oldest; none where fewer are
    /// held.
    ///
    /// # Errors
    ///
    /// [`Refusal::StateContradicts`].
    pub fn held(&self, place: usize) -> Result<Option<Message>, Refusal> {
        match sys::session_held(&self.state, place as u64) {
            (0, _) => Ok(None),
            (1, message) => Ok(Some(message)),
            // 26, which has no details.
            _ => Err(Refusal::StateContradicts),
        }
    }

    /// Up to this number no message is held: they were acknowledged, or dropped by
    /// a full reset.
    ///
    /// ```
    /// use mahuixen::Session;
    ///
    /// let mut session = Session::start();
    /// for handle in [700, 701, 702] {
    ///     session.accept(handle)?;
    /// }
    /// let before = session.released();
    /// session.ack(2)?;
    /// let freed: Vec<_> = (before + 1..=session.released()).map(|n| session.handle(n)).collect();
    /// assert_eq!(freed, [Some(700), Some(701)]);
    /// assert_eq!((session.released(), session.last(), session.len()), (2, 3, 1));
    /// # Ok::<(), mahuixen::Refusal>(())
    /// ```
    #[must_use]
    pub const fn released(&self) -> u64 {
        self.state.released
    }

    /// The last number that was given; 0 before the first.
    #[must_use]
    pub const fn last(&self) -> u64 {
        self.state.last
    }

    /// How many messages are held: those from above [`Session::released`] up to
    /// [`Session::last`].
    #[must_use]
    pub fn len(&self) -> usize {
        let held = self.state.last.saturating_sub(self.state.released);
        usize::try_from(held).unwrap_or(usize::MAX)
    }

    /// Whether no message is held.
    #[must_use]
    pub fn is_empty(&self) -> bool {
        self.len() == 0
    }

    /// The handle of one of the last 64 messages, held or already released: a
    /// handle stays where it is until the message 64 numbers later is accepted.
    /// None of any other number.
    ///
    /// ```
    /// use mahuixen::Session;
    ///
    /// let mut session = Session::start();
    /// session.accept(700)?;
    /// session.ack(1)?;
    /// assert_eq!(session.held(0), Ok(None));
    /// assert_eq!([0, 1, 2].map(|number| session.handle(number)), [None, Some(700), None]);
    /// # Ok::<(), mahuixen::Refusal>(())
    /// ```
    #[must_use]
    pub fn handle(&self, number: u64) -> Option<u64> {
        let places = self.state.handles.len() as u64;
        let is_kept = number > 0 && self.last().checked_sub(number)? < places;
        is_kept.then(|| self.state.handles[(number % places) as usize])
    }

    /// The session in this state, wherever it was kept. Any state will do: one that
    /// contradicts itself is told so at the next call.
    ///
    /// ```
    /// use mahuixen::{Refusal, Session};
    ///
    /// let mut session = Session::start();
    /// session.accept(700)?;
    /// let mut kept = session.into_raw();
    /// assert_eq!((kept.released, kept.last, kept.handles[1]), (0, 1, 700));
    ///
    /// kept.released = 2;
    /// assert_eq!(Session::from_raw(kept).accept(701), Err(Refusal::StateContradicts));
    /// # Ok::<(), Refusal>(())
    /// ```
    #[must_use]
    pub const fn from_raw(state: RawSession) -> Self {
        Self { state }
    }

    pub(crate) fn raw(&mut self) -> &mut RawSession {
        &mut self.state
    }

    /// The session's state, to be kept and put back with [`Session::from_raw`].
    #[must_use]
    pub fn into_raw(self) -> RawSession {
        self.state
    }
}

/// What a delivered report did to the session.
#[must_use = "what it releases may be freed, what it drops or resends is to be sent"]
#[derive(Clone, Copy, Debug, PartialEq, Eq)]
pub enum Effect {
    /// The report asks nothing of the session.
    Nothing,
    /// An ack was done: what the session holds no longer may be freed, which are
    /// the messages up to [`Session::released`].
    Acked,
    /// A reset was done. What a full one dropped was not acknowledged, and is to be
    /// sent as new messages; another drops nothing.
    Reset,
    /// A reconnect_ok was done: so many messages are held, and are to be sent
    /// again.
    Resend(usize),
    /// The session turned it down, and nothing changed: [`Refusal::AckAhead`] or
    /// [`Refusal::StateContradicts`].
    Refused(Refusal),
    /// A frame that speaks to the session has a body that is not its tag's, and
    /// nothing changed: [`Refusal::BodyMalformed`].
    Malformed(Refusal),
}

impl Effect {
    /// What was done, of a report on a frame with this tag: an ack and a reset are
    /// answered alike.
    pub(crate) fn of(effect: RawAnswer, tag: u64) -> Self {
        let refusal = || Refusal::from(Numbers::from(effect.refusal));
        match effect.kind {
            0 => Self::Nothing,
            1 if tag == u64::from(tag::SESSION_RESET) => Self::Reset,
            1 => Self::Acked,
            // At most 64.
            3 => Self::Resend(effect.number as usize),
            4 => Self::Refused(refusal()),
            // 5; the library has no other here.
            _ => Self::Malformed(refusal()),
        }
    }
}
