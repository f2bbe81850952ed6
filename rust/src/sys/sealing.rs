//! Sealing, opening and sealed builds.

use super::{Built, RawHeader, RawRefusal};
use core::fmt;

/// What the builder of sealed frames is between two builds, in 64-bit numbers
/// and bytes. A clone that is built with would use the same nonces again.
#[repr(C)]
#[derive(Clone, Debug, Default, PartialEq, Eq)]
pub struct RawSending {
    /// 1 where all 2^64 nonces are spent, else 0.
    pub exhausted: u64,
    /// 1 where a refused switch handed it out, else 0.
    pub refused: u64,
    /// Nonces spent, 0 where all are.
    pub spent: u64,
    /// The key.
    pub key: Key,
    /// The nonce of the next part.
    pub nonce: Nonce,
}

/// Sixteen bytes, which the C header has as two 64-bit numbers. The text for
/// debugging does not show them, and so no state's does.
///
/// ```
/// use mahuixen::{Key, RawSending};
///
/// let state = RawSending { key: Key([171; 16]), ..RawSending::default() };
/// assert!(format!("{state:?}").contains("key: Key(..)"));
/// ```
#[repr(C, align(8))]
#[derive(Clone, Copy, Default, PartialEq, Eq)]
pub struct Key(pub [u8; 16]);

impl fmt::Debug for Key {
    fn fmt(&self, f: &mut fmt::Formatter<'_>) -> fmt::Result {
        f.write_str("Key(..)")
    }
}

/// Twelve bytes, which the C header has as two 64-bit numbers with four bytes
/// that are not looked at.
#[repr(C, align(8))]
#[derive(Clone, Copy, Debug, Default, PartialEq, Eq)]
pub struct Nonce(pub [u8; 12]);

// SAFETY: as `include/mahuixen.h` declares them.
unsafe extern "C" {
    fn mahuixen_seal(
        key: *const [u8; 16],
        nonce: *const [u8; 12],
        text: *const u8,
        text_len: u64,
        out: *mut u8,
        out_len: u64,
        refusal: *mut RawRefusal,
    ) -> u64;

    fn mahuixen_open(
        key: *const [u8; 16],
        nonce: *const [u8; 12],
        sealed: *const u8,
        sealed_len: u64,
        out: *mut u8,
        out_len: u64,
        refusal: *mut RawRefusal,
    ) -> u64;

    fn mahuixen_build_sealed_in(
        buf: *mut u8,
        buf_len: u64,
        queued: u64,
        sending: *mut RawSending,
        key: *const Key,
        nonce: *mut Nonce,
        header: *const RawHeader,
        source: *const u8,
        source_len: u64,
        refusal: *mut RawRefusal,
    ) -> u64;

    fn mahuixen_abort_sealed_in(
        buf: *mut u8,
        buf_len: u64,
        queued: u64,
        sending: *mut RawSending,
        key: *const Key,
        nonce: *mut Nonce,
        header: *const RawHeader,
        source: *const u8,
        source_len: u64,
        refusal: *mut RawRefusal,
    ) -> u64;
}

/// Seals a text into the front of out.
pub fn seal(key: &[u8; 16], nonce: &[u8; 12], text: &[u8], out: &mut [u8]) -> Built {
    let mut refusal = RawRefusal::default();
    // SAFETY: as in `super::receive`.
    let written = unsafe {
        mahuixen_seal(
            key,
            nonce,
            text.as_ptr(),
            text.len() as u64,
            out.as_mut_ptr(),
            out.len() as u64,
            &mut refusal,
        )
    };
    (written, refusal)
}

/// Opens sealed bytes into the front of out.
pub fn open(key: &[u8; 16], nonce: &[u8; 12], sealed: &[u8], out: &mut [u8]) -> Built {
    let mut refusal = RawRefusal::default();
    // SAFETY: as in `super::receive`.
    let written = unsafe {
        mahuixen_open(
            key,
            nonce,
            sealed.as_ptr(),
            sealed.len() as u64,
            out.as_mut_ptr(),
            out.len() as u64,
            &mut refusal,
        )
    };
    (written, refusal)
}

/// Builds a sealed frame behind the queued bytes.
pub fn build_sealed(
    buf: &mut [u8],
    queued: u64,
    sending: &mut RawSending,
    header: &RawHeader,
    source: &[u8],
) -> Built {
    let mut refusal = RawRefusal::default();
    let whole: *mut RawSending = sending;
    // SAFETY: the sending state is lent to this call alone. The library writes its
    // nonce and what stands before its key, and reads its key, each by its own
    // pointer. The rest as in `super::receive`.
    let written = unsafe {
        mahuixen_build_sealed_in(
            buf.as_mut_ptr(),
            buf.len() as u64,
            queued,
            whole,
            &raw const (*whole).key,
            &raw mut (*whole).nonce,
            header,
            source.as_ptr(),
            source.len() as u64,
            &mut refusal,
        )
    };
    (written, refusal)
}

/// Builds an aborted sealed frame behind the queued bytes.
pub fn abort_sealed(
    buf: &mut [u8],
    queued: u64,
    sending: &mut RawSending,
    header: &RawHeader,
    source: &[u8],
) -> Built {
    let mut refusal = RawRefusal::default();
    let whole: *mut RawSending = sending;
    // SAFETY: as in `build_sealed`.
    let written = unsafe {
        mahuixen_abort_sealed_in(
            buf.as_mut_ptr(),
            buf.len() as u64,
            queued,
            whole,
            &raw const (*whole).key,
            &raw mut (*whole).nonce,
            header,
            source.as_ptr(),
            source.len() as u64,
            &mut refusal,
        )
    };
    (written, refusal)
}
