//! The handshake as steps, and the connection mode that a server picks.

use crate::refusal::Refusal;
use crate::sys::{self, RawRefusal, RawVerdict};

/// A side's state. A server alone comes to `More` and `Standby`, a client alone
/// to `Wait`.
#[must_use = "a step answers the state that the side is in from then on"]
#[derive(Clone, Copy, Debug, PartialEq, Eq, Hash)]
pub enum Handshake {
    /// The peer's hello is to come.
    Hello,
    /// Authentication is under way.
    Auth,
    /// A server waits for an auth_request_more.
    More,
    /// The peer's auth_signature is to come.
    Signature,
    /// The session is to be made or resumed.
    Session,
    /// Messages may come.
    Ready,
    /// A server waits for its own authentication service.
    Standby,
    /// A client was told to wait.
    Wait,
    /// Nothing more is taken.
    Closed,
}

/// Where an auth request leads a server.
#[derive(Clone, Copy, Debug, Default, PartialEq, Eq, Hash)]
pub enum AuthVerdict {
    /// The state stays: the method was turned down.
    #[default]
    Stay,
    /// More is to come.
    More,
    /// Authentication is done.
    Signature,
    /// The caller answers later.
    Standby,
}

/// What the caller found of a frame. A step looks only at the part that it asks
/// for.
#[derive(Clone, Copy, Debug, Default, PartialEq, Eq, Hash)]
pub struct Verdict {
    /// Where an auth request leads a server.
    pub auth: AuthVerdict,
    /// The signature is good.
    pub signature: bool,
    /// The client's ident misses no feature.
    pub features: bool,
    /// The reconnect is accepted.
    pub reconnect: bool,
}

impl Handshake {
    /// All states, each at its number.
    const ALL: [Self; 9] = [
        Self::Hello,
        Self::Auth,
        Self::More,
        Self::Signature,
        Self::Session,
        Self::Ready,
        Self::Standby,
        Self::Wait,
        Self::Closed,
    ];

    /// The state's number in C, 0 to 8.
    ///
    /// ```
    /// assert_eq!(mahuixen::Handshake::Ready.number(), 5);
    /// ```
    #[must_use]
    pub const fn number(self) -> u8 {
        self as u8
    }

    /// The state with this number; the library answers none above 8.
    fn from_number(number: u64) -> Self {
        let place = usize::try_from(number).unwrap_or(usize::MAX);
        Self::ALL.get(place).copied().unwrap_or(Self::Closed)
    }

    fn stepped((state, refusal): (u64, RawRefusal)) -> Result<Self, Refusal> {
        Refusal::given(refusal).map_or(Ok(Self::from_number(state)), Err)
    }

    /// The state that a client in this one comes to when a frame with this tag
    /// came.
    ///
    /// # Errors
    ///
    /// [`Refusal::UnexpectedTag`]; the side is then closed.
    ///
    /// ```
    /// use mahuixen::{tag, Handshake, Refusal, Verdict};
    ///
    /// let good = Verdict { signature: true, ..Verdict::default() };
    /// let came = [tag::HELLO, tag::AUTH_DONE, tag::AUTH_SIGNATURE, tag::SERVER_IDENT];
    /// let mut client = Handshake::Hello;
    /// for tag in came {
    ///     client = client.client_step(tag, &good)?;
    /// }
    /// assert_eq!(client, Handshake::Ready);
    ///
    /// let unexpected = client.client_step(tag::HELLO, &good);
    /// assert_eq!(unexpected, Err(Refusal::UnexpectedTag { tag: 1 }));
    /// # Ok::<(), Refusal>(())
    /// ```
    pub fn client_step(self, tag: u8, verdict: &Verdict) -> Result<Self, Refusal> {
        let verdict = (*verdict).into();
        Self::stepped(sys::client_step(self.number().into(), tag.into(), &verdict))
    }

    /// The state that a server in this one comes to when a frame with this tag
    /// came.
    ///
    /// # Errors
    ///
    /// [`Refusal::UnexpectedTag`]; the side is then closed.
    ///
    /// ```
    /// use mahuixen::{tag, AuthVerdict, Handshake, Refusal, Verdict};
    ///
    /// let more = Verdict { auth: AuthVerdict::More, ..Verdict::default() };
    /// let server = Handshake::Auth.server_step(tag::AUTH_REQUEST, &more)?;
    /// assert_eq!(server, Handshake::More);
    /// # Ok::<(), Refusal>(())
    /// ```
    pub fn server_step(self, tag: u8, verdict: &Verdict) -> Result<Self, Refusal> {
        let verdict = (*verdict).into();
        Self::stepped(sys::server_step(self.number().into(), tag.into(), &verdict))
    }
}

impl From<Verdict> for RawVerdict {
    fn from(verdict: Verdict) -> Self {
        Self {
            auth: verdict.auth as u64,
            signature: verdict.signature.into(),
            features: verdict.features.into(),
            reconnect: verdict.reconnect.into(),
        }
    }
}

/// The first of the client's preferred connection modes that is on the server's
/// own list.
///
/// ```
/// use mahuixen::pick_mode;
///
/// assert_eq!(pick_mode(&[2, 1], &[1, 2]), Some(2));
/// assert_eq!(pick_mode(&[2], &[1]), None);
/// ```
#[must_use]
pub fn pick_mode(preferred: &[u32], allowed: &[u32]) -> Option<u32> {
    u32::try_from(sys::pick_mode(preferred, allowed)).ok()
}
