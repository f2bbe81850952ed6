//! Secure mode: sealing and opening, and frames that are built sealed.

use crate::builder::written;
use crate::frame::Header;
use crate::refusal::Refusal;
use crate::sys::{self, RawSending};

/// Bytes that sealing adds: the authentication tag.
pub const AUTH_TAG_LENGTH: usize = 16;

/// Seals the text into the front of `out`, [`AUTH_TAG_LENGTH`] bytes longer than it
/// is, and answers how many bytes it wrote: AES-128-GCM with no associated data.
///
/// A nonce must never be used twice with one key. [`Sending`] counts them itself,
/// and says what that asks of its caller.
///
/// # Errors
///
/// [`Refusal::Limit`] for a text above 2^36 - 32 bytes, then [`Refusal::NoRoom`];
/// `out` is then as it was.
///
/// ```
/// use mahuixen::{open, seal, Refusal};
///
/// let (key, nonce) = ([7; 16], [1; 12]);
/// let mut sealed = [0; 21];
/// assert_eq!(seal(&key, &nonce, b"hello", &mut sealed), Ok(21));
/// let mut text = [0; 5];
/// assert_eq!(open(&key, &nonce, &sealed, &mut text), Ok(5));
/// assert_eq!(&text, b"hello");
///
/// sealed[3] ^= 1;
/// assert_eq!(open(&key, &nonce, &sealed, &mut text), Err(Refusal::AuthTag));
/// assert_eq!(text, [0; 5]);
/// ```
pub fn seal(
    key: &[u8; 16],
    nonce: &[u8; 12],
    text: &[u8],
    out: &mut [u8],
) -> Result<usize, Refusal> {
    written(sys::seal(key, nonce, text, out))
}

/// Opens sealed bytes into the front of `out`, and answers how many bytes it
/// wrote.
///
/// # Errors
///
/// [`Refusal::AuthTag`] for fewer than [`AUTH_TAG_LENGTH`] bytes, [`Refusal::Limit`]
/// and [`Refusal::NoRoom`], all of which leave `out` as it was; and last
/// [`Refusal::AuthTag`] for a tag that differs, which leaves zeros where the text
/// would stand.
///
/// ```
/// use mahuixen::{open, Refusal};
///
/// let short = open(&[7; 16], &[1; 12], &[0; 15], &mut [0; 8]);
/// assert_eq!(short, Err(Refusal::AuthTag));
/// ```
pub fn open(
    key: &[u8; 16],
    nonce: &[u8; 12],
    sealed: &[u8],
    out: &mut [u8],
) -> Result<usize, Refusal> {
    written(sys::open(key, nonce, sealed, out))
}

/// What builds sealed frames: a key, and the nonce of the next part. It cannot be
/// copied, and no build uses a nonce that an earlier one used.
///
/// Two that start from one nonce under one key do, and nothing here can see that.
/// So the caller owes: a state that was taken out with [`Sending::into_raw`] is put
/// back once, and no older copy of it; and of a [`Receiver`](crate::Receiver) and
/// its clones, or of receivers that are given the same key and nonces, one alone
/// switches. Its text for debugging does not show the key.
#[must_use = "a switch hands it out once"]
#[derive(Debug, PartialEq, Eq)]
pub struct Sending {
    state: RawSending,
}

impl Sending {
    /// The sending side in this state, wherever it was kept. Any state will do:
    /// one that contradicts itself is told so at the next build. A state that was
    /// used before must not be: its nonces are spent, and a second build with them
    /// gives away what the two have in common.
    ///
    /// ```
    /// use mahuixen::{Key, Nonce, RawSending};
    /// use mahuixen::{tag, Header, Refusal, Segment, Sending};
    ///
    /// let broken = RawSending { exhausted: 1, spent: 1, ..RawSending::default() };
    /// let header = Header::new(tag::ACK, &[Segment::new(8, 0)]);
    /// let built = Sending::from_raw(broken).build(&mut [0; 200], 0, &header, &[7; 8]);
    /// assert_eq!(built, Err(Refusal::StateContradicts));
    /// ```
    pub const fn from_raw(state: RawSending) -> Self {
        Self { state }
    }

    /// The state, to be kept and put back with [`Sending::from_raw`].
    #[must_use]
    pub fn into_raw(self) -> RawSending {
        self.state
    }

    /// Builds a frame, sealed, behind the first `queued` bytes of the buffer, and
    /// answers how many bytes it wrote. All other bytes stay. The source holds the
    /// segments one behind the other.
    ///
    /// # Errors
    ///
    /// [`Refusal::StateContradicts`], [`Refusal::SwitchRefused`], [`Refusal::Shape`],
    /// [`Refusal::Tag`], [`Refusal::Limit`], [`Refusal::SourceLength`],
    /// [`Refusal::NoRoom`] and [`Refusal::NoncesSpent`], in this order; the buffer is
    /// then as it was, and no nonce is spent.
    ///
    /// ```
    /// use mahuixen::{Key, Nonce, RawSending};
    /// use mahuixen::{open, tag, Header, Segment, Sending};
    ///
    /// let (key, nonce) = ([7; 16], [1; 12]);
    /// let fresh = RawSending { key: Key(key), nonce: Nonce(nonce), ..RawSending::default() };
    /// let mut sending = Sending::from_raw(fresh);
    ///
    /// let header = Header::new(tag::ACK, &[Segment::new(8, 0)]);
    /// let mut send = [0; 200];
    /// assert_eq!(sending.build(&mut send, 0, &header, &[7; 8]), Ok(96));
    ///
    /// // The preamble and the first 48 bytes of segment 1 are one sealed part.
    /// let mut text = [0; 80];
    /// assert_eq!(open(&key, &nonce, &send[..96], &mut text), Ok(80));
    /// assert_eq!((text[0], &text[32..40]), (tag::ACK, &[7; 8][..]));
    /// assert_eq!(sending.into_raw().spent, 1);
    /// ```
    pub fn build(
        &mut self,
        buf: &mut [u8],
        queued: usize,
        header: &Header,
        source: &[u8],
    ) -> Result<usize, Refusal> {
        let header = (*header).into();
        written(sys::build_sealed(
            buf,
            queued as u64,
            &mut self.state,
            &header,
            source,
        ))
    }

    /// Builds a sealed frame that its receiver will drop: with segment 1 as given,
    /// zeros for the others, and the mark that it is aborted.
    ///
    /// # Errors
    ///
    /// As [`Sending::build`], with [`Refusal::AbortOneSegment`] before [`Refusal::NoRoom`].
    ///
    /// ```
    /// use mahuixen::RawSending;
    /// use mahuixen::{tag, Header, Refusal, Segment, Sending};
    ///
    /// let mut sending = Sending::from_raw(RawSending::default());
    /// let one = Header::new(tag::MESSAGE, &[Segment::new(2, 0)]);
    /// assert_eq!(sending.abort(&mut [0; 200], 0, &one, b"12"), Err(Refusal::AbortOneSegment));
    /// ```
    pub fn abort(
        &mut self,
        buf: &mut [u8],
        queued: usize,
        header: &Header,
        source: &[u8],
    ) -> Result<usize, Refusal> {
        let header = (*header).into();
        written(sys::abort_sealed(
            buf,
            queued as u64,
            &mut self.state,
            &header,
            source,
        ))
    }
}
