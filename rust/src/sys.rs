//! The proved library as its C header declares it: structs of 64-bit numbers,
//! and each function behind a safe one that lends it slices. All of the crate's
//! `unsafe` is here.

#![allow(unsafe_code)]

mod handshake;
mod sealing;
mod session;

pub use handshake::{client_step, pick_mode, read_body, server_step, write_body};
pub use handshake::{RawBody, RawList, RawSpan, RawVerdict};
pub use sealing::{abort_sealed, build_sealed, open, seal, Key, Nonce, RawSending};
pub use session::{deliver, session_accept, session_ack, session_held};
pub use session::{session_reconnect, session_reset, session_start};
pub use session::{Message, RawAnswer, RawSession};

/// One side's feature bits: those that it supports, and those that it requires
/// of the other side.
#[repr(C)]
#[derive(Clone, Copy, Debug, Default, PartialEq, Eq)]
pub struct Features {
    /// The bits that this side supports.
    pub supported: u64,
    /// The bits that this side requires the other one to support.
    pub required: u64,
}

/// A [`Segment`](crate::Segment) in 64-bit numbers.
#[repr(C)]
#[derive(Clone, Copy, Debug, Default, PartialEq, Eq)]
pub struct RawSegment {
    /// Its length, 32 bits.
    pub len: u64,
    /// Its alignment, 16 bits.
    pub align: u64,
}

/// A [`Header`](crate::Header) in 64-bit numbers.
#[repr(C)]
#[derive(Clone, Copy, Debug, Default, PartialEq, Eq)]
pub struct RawHeader {
    /// The tag, 8 bits.
    pub tag: u64,
    /// How many segments are used, 8 bits.
    pub count: u64,
    /// All four segments.
    pub segments: [RawSegment; 4],
}

/// A refusal in 64-bit numbers: its number and its details, 0 where there are
/// fewer than three. Number 0 is no refusal.
#[repr(C)]
#[derive(Clone, Copy, Debug, Default, PartialEq, Eq)]
pub struct RawRefusal {
    /// The refusal's number, 8 bits.
    pub number: u64,
    /// The first detail.
    pub first: u64,
    /// The second detail.
    pub second: u64,
    /// The third detail.
    pub third: u64,
}

/// The part of a receiver that reads crc frames, and the banner before them.
#[repr(C)]
#[derive(Clone, Copy, Debug, Default, PartialEq, Eq)]
pub struct CrcState {
    /// What the next bytes are: 0 the banner's magic, 1 its payload length,
    /// 2 the peer's features, 3 payload to skip, 4 a preamble, 5 segment 1,
    /// 6 its checksum, 7 the other segments, 8 the epilogue; 9 refused.
    pub stage: u64,
    /// 0 for msgr2.0, 1 for msgr2.1; 0 inside of the banner.
    pub revision: u64,
    /// 1 behind segment 1's checksum, up to the frame's end, else 0.
    pub first: u64,
    /// The payload length that the peer's banner gave, 16 bits.
    pub payload: u64,
    /// The frame whose body is coming, all 0 where none is.
    pub header: RawHeader,
    /// The refusal that every later call repeats, once there is one; then only
    /// it and our own features are kept.
    pub refusal: RawRefusal,
    /// Bytes of the stage that have come; in stage 7, segment bytes that stand
    /// in the store.
    pub got: u64,
    /// Our own features.
    pub own: Features,
    /// The peer's features, once its banner told them.
    pub peer: Features,
    /// Bytes that are judged together, as far as they came, and zeros behind
    /// them.
    pub block: Block,
}

/// The part that reads sealed frames, from a switch on. It holds a key.
#[repr(C)]
#[derive(Clone, Copy, Debug, Default, PartialEq, Eq)]
pub struct SealedState {
    /// What the next bytes are: 0 a first part, 1 a second part, 2 a last part;
    /// 3 refused.
    pub stage: u64,
    /// 1 once all nonces are used, else 0.
    pub exhausted: u64,
    /// The frame whose later parts are coming, all 0 where none is.
    pub header: RawHeader,
    /// The refusal that every later call repeats, once there is one; then only
    /// it is kept.
    pub refusal: RawRefusal,
    /// Bytes of the part that have come.
    pub got: u64,
    /// How many parts were opened; 0 where all nonces are used.
    pub opened: u64,
    /// Bytes of a first part, as far as they came, and zeros behind them.
    pub first: FirstPart,
    /// The key.
    pub key: Key,
    /// The nonce of the next part.
    pub nonce: Nonce,
}

/// What a receiver is between two calls: numbers and bytes, which may be kept
/// anywhere and handed back.
///
/// Any state is answered. One whose fields contradict each other, in which
/// something is set that its stage does not use, or a field of which is beyond
/// the type that its line names, gets refusal 26; a state from a start or from a
/// call that was not handed such a one never does. The part that is not in use
/// is not looked at.
#[repr(C)]
#[derive(Clone, Copy, Debug, Default, PartialEq, Eq)]
pub struct State {
    /// Which frames come next: 0 crc, 1 secure.
    pub mode: u64,
    /// 1 behind a reported or dropped crc frame, before any byte of the next,
    /// else 0.
    pub ready: u64,
    /// The part for crc frames.
    pub crc: CrcState,
    /// The part for sealed frames.
    pub sealed: SealedState,
}

/// Thirty-two bytes, which the C header has as four 64-bit numbers.
#[repr(C, align(8))]
#[derive(Clone, Copy, Debug, Default, PartialEq, Eq)]
pub struct Block(pub [u8; 32]);

/// Ninety-six bytes, which the C header has as twelve 64-bit numbers.
#[repr(C, align(8))]
#[derive(Clone, Copy, Debug, PartialEq, Eq)]
pub struct FirstPart(pub [u8; 96]);

impl Default for FirstPart {
    fn default() -> Self {
        Self([0; 96])
    }
}

/// A report: 0 more, 1 banner, 2 frame, 3 dropped, 4 refused, 5 segment 1 of a
/// frame. Fields that a kind does not use are 0.
#[repr(C)]
#[derive(Clone, Copy, Debug, Default, PartialEq, Eq)]
pub struct RawReport {
    /// Which of the six it is.
    pub kind: u64,
    /// Bytes of the piece that were taken.
    pub taken: u64,
    /// The revision that a banner chose.
    pub revision: u64,
    /// The features that a banner told.
    pub peer: Features,
    /// The frame, the dropped frame, or the frame whose segment 1 came.
    pub header: RawHeader,
    /// The refusal.
    pub refusal: RawRefusal,
}

// SAFETY: as `include/mahuixen.h` declares them; `tests/layout.rs` compares
// the structs.
unsafe extern "C" {
    fn mahuixen_start_in(
        state: *mut State,
        crc: *mut CrcState,
        block: *mut Block,
        sealed: *mut SealedState,
        first: *mut FirstPart,
        key: *mut Key,
        nonce: *mut Nonce,
        supported: u64,
        required: u64,
    ) -> u64;

    fn mahuixen_receive_in(
        state: *mut State,
        crc: *mut CrcState,
        block: *mut Block,
        sealed: *mut SealedState,
        first: *mut FirstPart,
        key: *mut Key,
        nonce: *mut Nonce,
        report: *mut RawReport,
        piece: *const u8,
        piece_len: u64,
        store: *mut u8,
        store_len: u64,
    ) -> u64;

    fn mahuixen_switch_in(
        state: *mut State,
        crc: *const CrcState,
        block: *const Block,
        sealed: *mut SealedState,
        first: *mut FirstPart,
        key: *mut Key,
        nonce: *mut Nonce,
        with: *const [u8; 16],
        receiving_nonce: *const [u8; 12],
        sending_nonce: *const [u8; 12],
        sending: *mut RawSending,
        out_key: *mut Key,
        out_nonce: *mut Nonce,
    ) -> u64;

    fn mahuixen_build_banner(
        buf: *mut u8,
        buf_len: u64,
        queued: u64,
        supported: u64,
        required: u64,
        refusal: *mut RawRefusal,
    ) -> u64;

    fn mahuixen_build_frame(
        buf: *mut u8,
        buf_len: u64,
        queued: u64,
        revision: u64,
        header: *const RawHeader,
        source: *const u8,
        source_len: u64,
        refusal: *mut RawRefusal,
    ) -> u64;

    fn mahuixen_abort_frame(
        buf: *mut u8,
        buf_len: u64,
        queued: u64,
        revision: u64,
        header: *const RawHeader,
        source: *const u8,
        source_len: u64,
        refusal: *mut RawRefusal,
    ) -> u64;

    fn mahuixen_checksum(start: u64, bytes: *const u8, len: u64) -> u64;

    fn mahuixen_version() -> u64;
}

/// The library's version.
#[must_use]
pub fn version() -> u64 {
    // SAFETY: nothing is lent.
    unsafe { mahuixen_version() }
}

/// A state for a receiver with our own features, and 16 where they are refused,
/// else 0.
#[must_use]
pub fn start(own: Features) -> (State, u64) {
    let mut state = State::default();
    let whole = &raw mut state;
    // SAFETY: the state is lent to this call alone. The library writes each of
    // its parts by its own pointer, none beyond its part, and keeps none.
    let refused = unsafe {
        mahuixen_start_in(
            whole,
            &raw mut (*whole).crc,
            &raw mut (*whole).crc.block,
            &raw mut (*whole).sealed,
            &raw mut (*whole).sealed.first,
            &raw mut (*whole).sealed.key,
            &raw mut (*whole).sealed.nonce,
            own.supported,
            own.required,
        )
    };
    (state, refused)
}

/// Offers a piece of the stream to the receiver in this state.
pub fn receive(state: &mut State, piece: &[u8], store: &mut [u8]) -> RawReport {
    let mut report = RawReport::default();
    let whole: *mut State = state;
    // SAFETY: the state as in `start`; both pairs are slices; what is written is
    // lent to this call alone, and the library stays inside of it and keeps no
    // pointer.
    unsafe {
        mahuixen_receive_in(
            whole,
            &raw mut (*whole).crc,
            &raw mut (*whole).crc.block,
            &raw mut (*whole).sealed,
            &raw mut (*whole).sealed.first,
            &raw mut (*whole).sealed.key,
            &raw mut (*whole).sealed.nonce,
            &mut report,
            piece.as_ptr(),
            piece.len() as u64,
            store.as_mut_ptr(),
            store.len() as u64,
        )
    };
    report
}

/// Switches the receiver in this state to secure, with one key and the nonces of
/// the peer's first part and of ours: what sealed frames are built with, and 0,
/// 26 or 27.
pub fn switch(
    state: &mut State,
    key: &[u8; 16],
    receiving_nonce: &[u8; 12],
    sending_nonce: &[u8; 12],
) -> (RawSending, u64) {
    let mut sending = RawSending::default();
    let whole: *mut State = state;
    let handed = &raw mut sending;
    // SAFETY: the state as in `start`, and what is handed out likewise; the key
    // and the nonces are read alone.
    let refused = unsafe {
        mahuixen_switch_in(
            whole,
            &raw const (*whole).crc,
            &raw const (*whole).crc.block,
            &raw mut (*whole).sealed,
            &raw mut (*whole).sealed.first,
            &raw mut (*whole).sealed.key,
            &raw mut (*whole).sealed.nonce,
            key,
            receiving_nonce,
            sending_nonce,
            handed,
            &raw mut (*handed).key,
            &raw mut (*handed).nonce,
        )
    };
    (sending, refused)
}

/// Bytes written, 0 for a refused build, and the refusal, all 0 where there is
/// none.
pub type Built = (u64, RawRefusal);

/// Builds our banner behind the queued bytes.
pub fn build_banner(buf: &mut [u8], queued: u64, own: Features) -> Built {
    let mut refusal = RawRefusal::default();
    // SAFETY: as in `receive`.
    let written = unsafe {
        mahuixen_build_banner(
            buf.as_mut_ptr(),
            buf.len() as u64,
            queued,
            own.supported,
            own.required,
            &mut refusal,
        )
    };
    (written, refusal)
}

/// Builds a frame behind the queued bytes. Any revision but 0 is msgr2.1.
pub fn build_frame(
    buf: &mut [u8],
    queued: u64,
    revision: u64,
    header: &RawHeader,
    source: &[u8],
) -> Built {
    let mut refusal = RawRefusal::default();
    // SAFETY: as in `receive`.
    let written = unsafe {
        mahuixen_build_frame(
            buf.as_mut_ptr(),
            buf.len() as u64,
            queued,
            revision,
            header,
            source.as_ptr(),
            source.len() as u64,
            &mut refusal,
        )
    };
    (written, refusal)
}

/// Builds an aborted frame behind the queued bytes. Any revision but 0 is
/// msgr2.1.
pub fn abort_frame(
    buf: &mut [u8],
    queued: u64,
    revision: u64,
    header: &RawHeader,
    source: &[u8],
) -> Built {
    let mut refusal = RawRefusal::default();
    // SAFETY: as in `receive`.
    let written = unsafe {
        mahuixen_abort_frame(
            buf.as_mut_ptr(),
            buf.len() as u64,
            queued,
            revision,
            header,
            source.as_ptr(),
            source.len() as u64,
            &mut refusal,
        )
    };
    (written, refusal)
}

/// The CRC32-C of the bytes from the low 32 bits of the start value, with no
/// final complement.
#[must_use]
pub fn checksum(start: u64, bytes: &[u8]) -> u64 {
    // SAFETY: as in `receive`.
    unsafe { mahuixen_checksum(start, bytes.as_ptr(), bytes.len() as u64) }
}
