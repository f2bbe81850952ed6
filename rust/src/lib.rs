//! Both ends of Ceph's msgr2 wire protocol: builders of banners and frames, a
//! receiver that reads a stream which the network may cut anywhere, the switch to
//! secure mode and sealed frames, the bodies and steps of the handshake, and
//! sessions that outlive their connections. It speaks msgr2.0 and msgr2.1.
//!
//! The work is done by a library that is proved in Rattle; this crate lends
//! it slices and turns its numbers into types. No function has a
//! precondition: every buffer, length, header and state is answered, if need be
//! with a [`Refusal`]. Nothing is allocated.
//!
//! ```
//! use mahuixen::{build_banner, build_frame};
//! use mahuixen::{tag, Features, Header, Receiver, Report, Revision, Segment};
//!
//! // The sender: a banner, and behind it a message of two segments.
//! let own = Features::new(Features::REVISION_1, 0);
//! let header = Header::new(tag::MESSAGE, &[Segment::new(5, 8), Segment::new(3, 0)]);
//! let mut send = [0; 200];
//! let mut queued = build_banner(&mut send, 0, own)?;
//! queued += build_frame(&mut send, queued, Revision::Msgr21, &header, b"helloyou")?;
//!
//! // The receiver, which gets those bytes seven at a time.
//! let mut receiver = Receiver::start(own)?;
//! // Its store is allocated, since a longest one is 2 MiB.
//! let mut store = vec![0; mahuixen::STORE_LIMIT];
//! let mut reports = Vec::new();
//! for mut piece in send[..queued].chunks(7) {
//!     while !piece.is_empty() {
//!         let received = receiver.receive(piece, &mut store);
//!         piece = &piece[received.taken..];
//!         if received.report != Report::More {
//!             reports.push(received.report);
//!         }
//!     }
//! }
//!
//! // The banner, segment 1 as soon as it is there, and then the whole frame.
//! let banner = Report::Banner { peer: own, revision: Revision::Msgr21 };
//! assert_eq!(reports, [banner, Report::First(header), Report::Frame(header)]);
//! assert_eq!(header.first_segment_in(&store), Some(b"hello".as_slice()));
//! assert_eq!(header.segments_in(&store), Some([b"hello".as_slice(), b"you", b"", b""]));
//! # Ok::<(), mahuixen::Refusal>(())
//! ```
//!
//! # A desk's side
//!
//! Two connections of one session: the first in crc mode, and the second, which
//! resumes it, in secure mode. A program hands `take` what its socket reads and
//! writes `out.bytes` to it; here the peer's bytes are built in place of a
//! socket's.
//!
//! ```
//! use mahuixen::{build_banner, build_frame, read_body, tag, write_body};
//! use mahuixen::{Body, Effect, Features, Handshake, Header, Key, Nonce, RawSending, Receiver};
//! use mahuixen::{Refusal, Report, Revision, Segment, Sending, Session, Verdict};
//! use mahuixen::{BANNER_LENGTH, SEALED_OVERHEAD};
//!
//! const OWN: Features = Features::new(Features::REVISION_1, 0);
//! const CRC: u32 = 1;
//! const SECURE: u32 = 2;
//! // The connection's secret, which the authentication method agrees on.
//! const KEY: [u8; 16] = [7; 16];
//! const OUR_NONCE: [u8; 12] = [1; 12];
//! const THEIR_NONCE: [u8; 12] = [2; 12];
//!
//! /// What goes out: a banner and crc frames, and from a switch on sealed ones.
//! struct Out {
//!     bytes: Vec<u8>,
//!     sending: Option<Sending>,
//! }
//!
//! impl Out {
//!     fn new() -> Result<Self, Refusal> {
//!         let mut bytes = vec![0; BANNER_LENGTH];
//!         build_banner(&mut bytes, 0, OWN)?;
//!         Ok(Self { bytes, sending: None })
//!     }
//!
//!     fn frame(&mut self, tag: u8, segment: &[u8]) -> Result<(), Refusal> {
//!         let header = Header::new(tag, &[Segment::new(segment.len() as u32, 8)]);
//!         let queued = self.bytes.len();
//!         self.bytes.resize(queued + segment.len() + SEALED_OVERHEAD, 0);
//!         let written = match &mut self.sending {
//!             None => build_frame(&mut self.bytes, queued, Revision::Msgr21, &header, segment)?,
//!             Some(sending) => sending.build(&mut self.bytes, queued, &header, segment)?,
//!         };
//!         self.bytes.truncate(queued + written);
//!         Ok(())
//!     }
//!
//!     fn body(&mut self, tag: u8, body: &Body<&[u32]>) -> Result<(), Refusal> {
//!         let mut segment = [0; 256];
//!         let length = write_body(&mut segment, tag, body)?;
//!         self.frame(tag, &segment[..length])
//!     }
//! }
//!
//! /// One connection.
//! struct Desk {
//!     receiver: Receiver,
//!     store: Vec<u8>,
//!     state: Handshake,
//!     out: Out,
//!     freed: Vec<Option<u64>>,
//! }
//!
//! impl Desk {
//!     fn connect() -> Result<Self, Refusal> {
//!         Ok(Self {
//!             receiver: Receiver::start(OWN)?,
//!             // As long as the peer's longest frame needs.
//!             store: vec![0; 65_536],
//!             state: Handshake::Hello,
//!             out: Out::new()?,
//!             freed: Vec::new(),
//!         })
//!     }
//!
//!     /// A message is sent, and held until it is acknowledged.
//!     fn send(&mut self, session: &mut Session, handle: u64) -> Result<(), Refusal> {
//!         session.accept(handle)?;
//!         self.out.frame(tag::MESSAGE, &handle.to_le_bytes())
//!     }
//!
//!     /// Bytes came, as many as the socket gave.
//!     fn take(&mut self, mut piece: &[u8], session: &mut Session) -> Result<(), Refusal> {
//!         while !piece.is_empty() {
//!             let before = session.released();
//!             let (received, effect) = self.receiver.deliver(session, piece, &mut self.store);
//!             piece = &piece[received.taken..];
//!             match effect {
//!                 // What the peer has acknowledged may be freed, and nothing else.
//!                 Effect::Acked | Effect::Resend(_) => {
//!                     let released = before + 1..=session.released();
//!                     self.freed.extend(released.map(|number| session.handle(number)));
//!                 }
//!                 Effect::Refused(refusal) | Effect::Malformed(refusal) => return Err(refusal),
//!                 // What a reset drops is to be sent anew; here none comes.
//!                 Effect::Reset | Effect::Nothing => {}
//!             }
//!             match received.report {
//!                 Report::Refused(refusal) => return Err(refusal),
//!                 Report::Banner { .. } => {
//!                     let hello = Body::Hello { entity: 8, address: b"where the peer is" };
//!                     self.out.body(tag::HELLO, &hello)?;
//!                 }
//!                 Report::Frame(header) => self.frame(&header, session)?,
//!                 Report::More | Report::First(_) | Report::Dropped(_) => {}
//!             }
//!         }
//!         Ok(())
//!     }
//!
//!     fn frame(&mut self, header: &Header, session: &Session) -> Result<(), Refusal> {
//!         // Whether a signature is good is the caller's to find.
//!         let verdict = Verdict { signature: true, ..Verdict::default() };
//!         self.state = self.state.client_step(header.tag, &verdict)?;
//!         let segment = header.first_segment_in(&self.store).unwrap_or(&[]);
//!         match header.tag {
//!             tag::HELLO => self.out.body(
//!                 tag::AUTH_REQUEST,
//!                 &Body::AuthRequest { method: 2, modes: &[SECURE, CRC], payload: b"\0\0\0\0" },
//!             ),
//!             tag::AUTH_DONE => {
//!                 let done = read_body(header.tag, segment)?;
//!                 if matches!(done, Body::AuthDone { mode: SECURE, .. }) {
//!                     let sending = self.receiver.switch(&KEY, &THEIR_NONCE, &OUR_NONCE)?;
//!                     self.out.sending = Some(sending);
//!                 }
//!                 self.out.frame(tag::AUTH_SIGNATURE, &[9; 32])
//!             }
//!             tag::AUTH_SIGNATURE if session.is_empty() => self.out.body(tag::CLIENT_IDENT, &IDENT),
//!             tag::AUTH_SIGNATURE => self.out.body(tag::SESSION_RECONNECT, &RECONNECT),
//!             tag::SESSION_RECONNECT_OK => {
//!                 let mut place = 0;
//!                 while let Some(message) = session.held(place)? {
//!                     self.out.frame(tag::MESSAGE, &message.handle.to_le_bytes())?;
//!                     place += 1;
//!                 }
//!                 Ok(())
//!             }
//!             _ => Ok(()),
//!         }
//!     }
//! }
//!
//! const IDENT: Body<&[u32]> = Body::Ident {
//!     addresses: 0,
//!     block: b"",
//!     gid: 0,
//!     global_seq: 1,
//!     supported: 0,
//!     required: 0,
//!     flags: 0,
//!     cookie: 5,
//! };
//! const RECONNECT: Body<&[u32]> = Body::Reconnect {
//!     addresses: 0,
//!     block: b"",
//!     client_cookie: 5,
//!     server_cookie: 6,
//!     global_seq: 2,
//!     connect_seq: 1,
//!     msg_seq: 0,
//! };
//!
//! /// The peer's side up to its signature, which in secure mode is sealed.
//! fn peer(mode: u32) -> Result<Out, Refusal> {
//!     let mut out = Out::new()?;
//!     out.body(tag::HELLO, &Body::Hello { entity: 4, address: b"where the desk is" })?;
//!     out.body(tag::AUTH_DONE, &Body::AuthDone { global_id: 9, mode, payload: b"\0\0\0\0" })?;
//!     if mode == SECURE {
//!         let (key, nonce) = (Key(KEY), Nonce(THEIR_NONCE));
//!         let fresh = RawSending { key, nonce, ..RawSending::default() };
//!         out.sending = Some(Sending::from_raw(fresh));
//!     }
//!     out.frame(tag::AUTH_SIGNATURE, &[8; 32])?;
//!     Ok(out)
//! }
//!
//! let mut session = Session::start();
//!
//! // A new session; two messages are sent, and the first is acknowledged.
//! let mut desk = Desk::connect()?;
//! let mut from_peer = peer(CRC)?;
//! from_peer.body(tag::SERVER_IDENT, &IDENT)?;
//! desk.take(&from_peer.bytes, &mut session)?;
//! assert_eq!(desk.state, Handshake::Ready);
//! desk.send(&mut session, 700)?;
//! desk.send(&mut session, 701)?;
//! from_peer.bytes.clear();
//! from_peer.body(tag::ACK, &Body::Number(1))?;
//! for piece in from_peer.bytes.chunks(5) {
//!     desk.take(piece, &mut session)?;
//! }
//! assert_eq!((desk.freed, session.len()), (vec![Some(700)], 1));
//!
//! // The connection is lost. The next one resumes the session: what is held is sent
//! // again, here sealed, and acknowledged.
//! let mut desk = Desk::connect()?;
//! let mut from_peer = peer(SECURE)?;
//! from_peer.body(tag::SESSION_RECONNECT_OK, &Body::Number(1))?;
//! desk.take(&from_peer.bytes, &mut session)?;
//! assert_eq!((desk.state, session.len()), (Handshake::Ready, 1));
//! let built = desk.out.sending.take().map(Sending::into_raw);
//! // A signature, a reconnect and message 2 again, a part each.
//! assert_eq!(built.map(|sending| sending.spent), Some(3));
//! from_peer.bytes.clear();
//! from_peer.body(tag::ACK, &Body::Number(2))?;
//! desk.take(&from_peer.bytes, &mut session)?;
//! assert_eq!((desk.freed, session.is_empty()), (vec![Some(701)], true));
//! # Ok::<(), Refusal>(())
//! ```

#![no_std]
#![deny(missing_docs)]
#![deny(unsafe_code)]

#[cfg(test)]
extern crate std;

mod body;
mod builder;
mod features;
mod frame;
mod handshake;
mod receiver;
mod refusal;
mod sealing;
mod session;
#[doc(hidden)]
pub mod sys;
pub mod tag;

pub use body::{read_body, write_body, Body, List};
pub use builder::{abort_frame, build_banner, build_frame};
pub use features::Revision;
pub use frame::{Header, Segment};
pub use handshake::{pick_mode, AuthVerdict, Handshake, Verdict};
pub use receiver::{Received, Receiver, Report};
pub use refusal::{Missing, Numbers, Refusal};
pub use sealing::{open, seal, Sending, AUTH_TAG_LENGTH};
pub use session::{Effect, Message, Session, SESSION_PLACES};
pub use sys::{Block, CrcState, Features, FirstPart, Key, Nonce, SealedState, State};
pub use sys::{RawHeader, RawRefusal, RawReport, RawSegment, RawSending, RawSession, RawVerdict};
pub use tag::tag_text;

/// Bytes of a banner that we build.
pub const BANNER_LENGTH: usize = 26;

/// A store of this many bytes is long enough for every frame: 2 MiB of segments,
/// and, of a sealed frame, their padding and a tag. Allocate it, as with
/// `vec![0; STORE_LIMIT]`: it is too long for most stacks. Where the
/// peer's frames are known to be shorter, the length of the longest one will do,
/// and a longer one is refused with [`Refusal::StoreShort`].
pub const STORE_LIMIT: usize = 2_097_232;

/// At most so many bytes of a crc frame are not its segments'.
pub const FRAME_OVERHEAD: usize = 49;

/// At most so many bytes of a sealed frame are not its segments'.
pub const SEALED_OVERHEAD: usize = 173;

/// Bytes of the longest crc frame on the wire, which is a msgr2.0 one or a msgr2.1
/// one of several segments.
pub const LONGEST_FRAME: usize = 2_097_152 + FRAME_OVERHEAD;

/// The version of the proved library that is linked, as the C header numbers it:
/// 1,000,000 times the first number, 1,000 times the second, and the third. This
/// crate's is the same.
///
/// ```
/// let numbers = env!("CARGO_PKG_VERSION").split('.').map(|n| n.parse::<u64>().unwrap());
/// let version = numbers.fold(0, |sum, n| sum * 1_000 + n);
/// assert_eq!(mahuixen::version(), version);
/// ```
#[must_use]
pub fn version() -> u64 {
    sys::version()
}

/// The start value of a preamble's checksum.
pub const PREAMBLE_START: u32 = 0;

/// The start value of a segment's checksum, and so that of an empty segment.
pub const SEGMENT_START: u32 = 0xFFFF_FFFF;

/// The CRC32-C of the bytes from a start value, with no final complement.
///
/// A checksum can be taken up where another ended.
///
/// ```
/// use mahuixen::{checksum, SEGMENT_START};
///
/// assert_eq!(checksum(SEGMENT_START, b"123456789"), 0x1CF9_6D7C);
/// assert_eq!(checksum(checksum(SEGMENT_START, b"1234"), b"56789"), 0x1CF9_6D7C);
/// assert_eq!(checksum(SEGMENT_START, b""), SEGMENT_START);
/// ```
#[must_use]
pub fn checksum(start: u32, bytes: &[u8]) -> u32 {
    // A checksum has 32 bits.
    sys::checksum(start.into(), bytes) as u32
}
