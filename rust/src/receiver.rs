//! Receiving a stream that may be cut anywhere.

use crate::features::Revision;
use crate::frame::Header;
use crate::refusal::{Numbers, Refusal};
use crate::sealing::Sending;
use crate::session::{Effect, Session};
use crate::sys::{self, Features, RawReport, State};
use core::fmt;

/// What a call says.
///
/// ```
/// use mahuixen::{tag, Header, Report, Segment};
///
/// let header = Header::new(tag::MESSAGE, &[Segment::new(9, 8), Segment::new(70, 0)]);
/// let told = Report::Frame(header).to_string();
/// assert_eq!(told, "frame, tag 17 message, lengths 9 70, alignments 8 0");
/// ```
#[derive(Clone, Copy, Debug, PartialEq, Eq)]
pub enum Report {
    /// The whole piece was taken, and nothing is complete.
    More,
    /// The peer's banner is complete.
    Banner {
        /// The peer's features.
        peer: Features,
        /// The revision that the rest of the stream speaks.
        revision: Revision,
    },
    /// Segment 1 of a msgr2.1 frame came and its checksum holds, and more
    /// segments follow; it stands at the store's front
    /// ([`Header::first_segment_in`]) and may be read there from now on. The same
    /// frame is still reported at its end, as a frame or dropped, or refused.
    First(Header),
    /// A frame is complete and all its checks hold; its segments stand one
    /// behind the other at the store's front ([`Header::segments_in`]).
    Frame(Header),
    /// A frame that its sender aborted is over; the store's first bytes, as
    /// many as its segments had, are 0.
    Dropped(Header),
    /// The stream is turned away, and every later call says so again.
    Refused(Refusal),
}

/// What came of a call.
#[must_use = "bytes that were not taken are to be offered again"]
#[derive(Clone, Copy, Debug, PartialEq, Eq)]
pub struct Received {
    /// How many bytes of the piece were taken. Those behind them belong to
    /// what comes next and are to be offered again.
    pub taken: usize,
    /// The report that the last of them completes.
    pub report: Report,
}

/// A receiver of one stream. A clone is a receiver of its own, which goes on from
/// the same byte; of a receiver and its clones one alone may switch, since each
/// would hand out a [`Sending`] that starts from the same nonce.
///
/// ```
/// use mahuixen::{Features, Receiver, Refusal, Report, Revision};
///
/// let mut receiver = Receiver::start(Features::new(1, 0))?;
/// let mut store = [0; 100];
///
/// // The peer's banner, with a payload of 18 bytes, and a byte behind it.
/// let mut stream = b"ceph v2\n\x12\0".to_vec();
/// stream.extend([0; 19]);
/// let banner = receiver.receive(&stream, &mut store);
/// let report = Report::Banner { peer: Features::new(0, 0), revision: Revision::Msgr20 };
/// assert_eq!((banner.taken, banner.report), (28, report));
///
/// // What was not taken is offered again, here with a bad preamble.
/// let more = receiver.receive(&stream[28..], &mut store);
/// assert_eq!((more.taken, more.report), (1, Report::More));
/// let refused = receiver.receive(&[1; 500], &mut store);
/// assert_eq!(refused.taken, 31);
/// assert_eq!(refused.report, Report::Refused(Refusal::PreambleChecksum { at: 28 }));
///
/// // A refused stream stays refused, whatever is offered and lent.
/// let again = receiver.receive(&[0; 500], &mut []);
/// assert_eq!((again.taken, again.report), (0, refused.report));
/// # Ok::<(), Refusal>(())
/// ```
#[derive(Clone, Debug, PartialEq, Eq)]
pub struct Receiver {
    state: State,
}

impl Receiver {
    /// A receiver with our own features, at the start of its stream.
    ///
    /// # Errors
    ///
    /// [`Refusal::OwnFeatures`] and nothing else.
    ///
    /// ```
    /// use mahuixen::{Features, Receiver, Refusal};
    ///
    /// assert!(Receiver::start(Features::new(1, 1)).is_ok());
    /// assert_eq!(Receiver::start(Features::new(2, 0)), Err(Refusal::OwnFeatures));
    /// ```
    pub fn start(own: Features) -> Result<Self, Refusal> {
        let (state, refused) = sys::start(own);
        match refused {
            0 => Ok(Self::from_raw(state)),
            // 16, the one refusal of a start, has no details.
            _ => Err(Refusal::OwnFeatures),
        }
    }

    /// Offers the next bytes of the stream, from the first one not yet taken
    /// on. Bytes are taken up to and including the one that completes a
    /// report; of a piece that is not empty at least one, unless the report is
    /// a refusal.
    ///
    /// Lend the same store at every call, as the last call left it: between
    /// two calls it holds the frame that is under way. [`STORE_LIMIT`] bytes
    /// are always enough; less will do where the peer's longest frame is known.
    ///
    /// [`STORE_LIMIT`]: crate::STORE_LIMIT
    ///
    /// ```
    /// use mahuixen::{Features, Receiver, Refusal, Report};
    ///
    /// let mut receiver = Receiver::start(Features::new(1, 0))?;
    /// let more = receiver.receive(b"ceph", &mut []);
    /// assert_eq!((more.taken, more.report), (4, Report::More));
    /// let refused = receiver.receive(b" v1\n and more", &mut []);
    /// assert_eq!((refused.taken, refused.report), (4, Report::Refused(Refusal::Magic)));
    /// # Ok::<(), Refusal>(())
    /// ```
    pub fn receive(&mut self, piece: &[u8], store: &mut [u8]) -> Received {
        Received::from(sys::receive(&mut self.state, piece, store))
    }

    /// Receives as [`Receiver::receive`] does, and does to the session what the
    /// report asks. Only a whole frame asks anything: an ack or a reconnect_ok
    /// releases messages, a full reset drops them. The number of an
    /// acknowledgement in a message's own header is the caller's to read, and goes
    /// to [`Session::ack`].
    ///
    /// ```
    /// use mahuixen::{build_banner, build_frame, tag, Features, Header, Receiver, Revision};
    /// use mahuixen::{Effect, Refusal, Report, Segment, Session};
    ///
    /// let mut session = Session::start();
    /// session.accept(700)?;
    /// session.accept(701)?;
    ///
    /// // The peer's banner, and an ack of the first message.
    /// let own = Features::new(1, 0);
    /// let ack = Header::new(tag::ACK, &[Segment::new(8, 0)]);
    /// let mut stream = [0; 100];
    /// let banner = build_banner(&mut stream, 0, own)?;
    /// let frame = build_frame(&mut stream, banner, Revision::Msgr21, &ack, &1u64.to_le_bytes())?;
    ///
    /// let mut receiver = Receiver::start(own)?;
    /// let mut store = [0; 100];
    /// let (_, effect) = receiver.deliver(&mut session, &stream[..banner], &mut store);
    /// assert_eq!(effect, Effect::Nothing);
    /// let (received, effect) = receiver.deliver(&mut session, &stream[banner..], &mut store);
    /// assert_eq!((received.taken, received.report), (frame, Report::Frame(ack)));
    /// assert_eq!(effect, Effect::Acked);
    /// assert_eq!(session.held(0)?.map(|message| message.handle), Some(701));
    /// # Ok::<(), Refusal>(())
    /// ```
    pub fn deliver(
        &mut self,
        session: &mut Session,
        piece: &[u8],
        store: &mut [u8],
    ) -> (Received, Effect) {
        let (report, effect) = sys::deliver(&mut self.state, session.raw(), piece, store);
        let effect = Effect::of(effect, report.header.tag);
        (Received::from(report), effect)
    }

    /// Switches a msgr2.1 stream to secure, behind a reported or dropped frame
    /// and before any byte of the next: sealed frames come from then on, and
    /// what is handed out builds ours. One key, and a nonce each for the peer's
    /// first part and for ours. They are for one switch only: a clone of this
    /// receiver, or another connection, that is switched with them too would
    /// seal with the same nonces again.
    ///
    /// # Errors
    ///
    /// [`Refusal::SwitchRefused`] anywhere else and [`Refusal::StateContradicts`]; the receiver is
    /// then as it was.
    ///
    /// ```
    /// use mahuixen::{Features, Receiver, Refusal};
    ///
    /// use mahuixen::{build_banner, build_frame, tag, Header, Report, Revision, Segment};
    ///
    /// let own = Features::new(1, 0);
    /// let header = Header::new(tag::AUTH_SIGNATURE, &[Segment::new(1, 8)]);
    /// let mut sent = [0; 100];
    /// let banner = build_banner(&mut sent, 0, own)?;
    /// let frame = build_frame(&mut sent, banner, Revision::Msgr21, &header, &[9])?;
    ///
    /// let mut receiver = Receiver::start(own)?;
    /// let mut store = [0; 64];
    /// let taken = receiver.receive(&sent, &mut store).taken;
    /// let (key, theirs, ours) = ([7; 16], [1; 12], [2; 12]);
    /// assert_eq!(receiver.switch(&key, &theirs, &ours), Err(Refusal::SwitchRefused));
    ///
    /// let reported = receiver.receive(&sent[taken..taken + frame], &mut store);
    /// assert_eq!(reported.report, Report::Frame(header));
    /// let sending = receiver.switch(&key, &theirs, &ours)?.into_raw();
    /// assert_eq!((sending.key.0, sending.nonce.0), (key, ours));
    ///
    /// // A part that was not sealed with the key.
    /// let refused = receiver.receive(&[0; 96], &mut store);
    /// assert_eq!((refused.taken, refused.report), (96, Report::Refused(Refusal::AuthTag)));
    /// # Ok::<(), Refusal>(())
    /// ```
    pub fn switch(
        &mut self,
        key: &[u8; 16],
        receiving_nonce: &[u8; 12],
        sending_nonce: &[u8; 12],
    ) -> Result<Sending, Refusal> {
        match sys::switch(&mut self.state, key, receiving_nonce, sending_nonce) {
            (sending, 0) => Ok(Sending::from_raw(sending)),
            (_, 27) => Err(Refusal::SwitchRefused),
            // 26; the library has no other number here.
            _ => Err(Refusal::StateContradicts),
        }
    }

    /// The receiver in this state, wherever the state was kept. Any state will
    /// do: one that contradicts itself is told so at the next call.
    ///
    /// ```
    /// use mahuixen::{Features, Receiver, Refusal, Report, State};
    ///
    /// let mut receiver = Receiver::start(Features::new(1, 0))?;
    /// assert_eq!(receiver.receive(b"ceph", &mut []).taken, 4);
    /// let kept: State = receiver.into_raw();
    ///
    /// let mut receiver = Receiver::from_raw(kept);
    /// assert_eq!(receiver.receive(b" v2\n", &mut []).report, Report::More);
    ///
    /// let mut broken = Receiver::from_raw(State { mode: 2, ..kept });
    /// let received = broken.receive(b" v2\n", &mut []);
    /// assert_eq!((received.taken, received.report), (0, Report::Refused(Refusal::StateContradicts)));
    /// # Ok::<(), Refusal>(())
    /// ```
    #[must_use]
    pub const fn from_raw(state: State) -> Self {
        Self { state }
    }

    /// The receiver's state, to be kept and put back with
    /// [`Receiver::from_raw`].
    ///
    /// ```
    /// use mahuixen::{Features, Receiver, Refusal};
    ///
    /// let mut receiver = Receiver::start(Features::new(1, 0))?;
    /// assert_eq!(receiver.receive(b"ceph", &mut []).taken, 4);
    /// let state = receiver.into_raw();
    /// assert_eq!((state.mode, state.crc.stage, state.crc.got), (0, 0, 4));
    /// assert_eq!(&state.crc.block.0[..5], b"ceph\0");
    /// # Ok::<(), Refusal>(())
    /// ```
    #[must_use]
    pub const fn into_raw(self) -> State {
        self.state
    }
}

impl From<RawReport> for Received {
    fn from(report: RawReport) -> Self {
        Self {
            // Never more than the piece has.
            taken: report.taken as usize,
            report: Report::from(report),
        }
    }
}

impl From<RawReport> for Report {
    fn from(report: RawReport) -> Self {
        match report.kind {
            0 => Self::More,
            1 => Self::Banner {
                peer: report.peer,
                revision: Revision::from_number(report.revision),
            },
            2 => Self::Frame(report.header.into()),
            3 => Self::Dropped(report.header.into()),
            5 => Self::First(report.header.into()),
            // 4; the library has no kind above 5.
            _ => Self::Refused(Refusal::from(Numbers::from(report.refusal))),
        }
    }
}

impl fmt::Display for Report {
    fn fmt(&self, f: &mut fmt::Formatter<'_>) -> fmt::Result {
        match self {
            Self::More => write!(f, "more"),
            Self::Banner { peer, revision } => write!(f, "banner, {peer}: {revision}"),
            Self::First(header) => write!(f, "segment 1 of a frame, {header}"),
            Self::Frame(header) => write!(f, "frame, {header}"),
            Self::Dropped(header) => write!(f, "dropped, {header}"),
            Self::Refused(refusal) => write!(f, "refused, {refusal}"),
        }
    }
}
