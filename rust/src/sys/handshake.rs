//! The handshake: its steps, the mode, and bodies of control frames.

use super::{Built, RawRefusal};

/// What the caller found of a frame, in 64-bit numbers.
#[repr(C)]
#[derive(Clone, Copy, Debug, Default, PartialEq, Eq)]
pub struct RawVerdict {
    /// Where an auth request leads a server: 0 stay, 1 more, 2 signature,
    /// 3 standby.
    pub auth: u64,
    /// 1 where the signature is good, else 0.
    pub signature: u64,
    /// 1 where the client's ident misses no feature, else 0.
    pub features: u64,
    /// 1 where the reconnect is accepted, else 0.
    pub reconnect: u64,
}

/// A list of 32-bit numbers in a segment.
#[repr(C)]
#[derive(Clone, Copy, Debug, Default, PartialEq, Eq)]
pub struct RawList {
    /// The place of its first number.
    pub at: u64,
    /// How many numbers there are.
    pub count: u64,
}

/// Bytes in a segment.
#[repr(C)]
#[derive(Clone, Copy, Debug, Default, PartialEq, Eq)]
pub struct RawSpan {
    /// Their place.
    pub at: u64,
    /// How many there are.
    pub len: u64,
}

/// What a body says; all that its kind does not use is 0.
#[repr(C)]
#[derive(Clone, Copy, Debug, Default, PartialEq, Eq)]
pub struct RawBody {
    /// 0 refused, 1 hello, 2 auth request, 3 bad method, 4 more, 5 auth done,
    /// 6 ident, 7 reconnect, 8 one number, 9 reset, 10 stamp.
    pub kind: u64,
    /// Its numbers, in the body's order.
    pub numbers: [u64; 7],
    /// Its first list.
    pub first: RawList,
    /// Its second list.
    pub second: RawList,
    /// Its address, block, payload or stamp.
    pub bytes: RawSpan,
    /// The refusal.
    pub refusal: RawRefusal,
}

// SAFETY: as `include/mahuixen.h` declares them.
unsafe extern "C" {
    fn mahuixen_client_step(
        state: u64,
        tag: u64,
        verdict: *const RawVerdict,
        refusal: *mut RawRefusal,
    ) -> u64;

    fn mahuixen_server_step(
        state: u64,
        tag: u64,
        verdict: *const RawVerdict,
        refusal: *mut RawRefusal,
    ) -> u64;

    fn mahuixen_pick_mode(
        preferred: *const u32,
        preferred_count: u64,
        allowed: *const u32,
        allowed_count: u64,
    ) -> u64;

    fn mahuixen_read_body(
        tag: u64,
        segment: *const u8,
        segment_len: u64,
        body: *mut RawBody,
    ) -> u64;

    fn mahuixen_write_body(
        out: *mut u8,
        out_len: u64,
        tag: u64,
        body: *const RawBody,
        first: *const u32,
        first_count: u64,
        second: *const u32,
        second_count: u64,
        bytes: *const u8,
        bytes_len: u64,
        refusal: *mut RawRefusal,
    ) -> u64;
}

/// The state that a client comes to by a tag, and a refusal.
#[must_use]
pub fn client_step(state: u64, tag: u64, verdict: &RawVerdict) -> (u64, RawRefusal) {
    let mut refusal = RawRefusal::default();
    // SAFETY: both are lent to this call alone.
    let state = unsafe { mahuixen_client_step(state, tag, verdict, &mut refusal) };
    (state, refusal)
}

/// The state that a server comes to by a tag, and a refusal.
#[must_use]
pub fn server_step(state: u64, tag: u64, verdict: &RawVerdict) -> (u64, RawRefusal) {
    let mut refusal = RawRefusal::default();
    // SAFETY: both are lent to this call alone.
    let state = unsafe { mahuixen_server_step(state, tag, verdict, &mut refusal) };
    (state, refusal)
}

/// The first of the preferred modes that is allowed, or a number beyond 32 bits.
#[must_use]
pub fn pick_mode(preferred: &[u32], allowed: &[u32]) -> u64 {
    // SAFETY: both pairs are slices, which are only read.
    unsafe {
        mahuixen_pick_mode(
            preferred.as_ptr(),
            preferred.len() as u64,
            allowed.as_ptr(),
            allowed.len() as u64,
        )
    }
}

/// The kind that is answered, and what a body says.
#[must_use]
pub fn read_body(tag: u64, segment: &[u8]) -> (u64, RawBody) {
    let mut body = RawBody::default();
    // SAFETY: the pair is a slice, which is only read; the body is lent to this call
    // alone.
    let kind =
        unsafe { mahuixen_read_body(tag, segment.as_ptr(), segment.len() as u64, &mut body) };
    (kind, body)
}

/// Writes a body at the front of out.
pub fn write_body(
    out: &mut [u8],
    tag: u64,
    body: &RawBody,
    first: &[u32],
    second: &[u32],
    bytes: &[u8],
) -> Built {
    let mut refusal = RawRefusal::default();
    // SAFETY: all pairs are slices; what is written is lent to this call alone.
    let written = unsafe {
        mahuixen_write_body(
            out.as_mut_ptr(),
            out.len() as u64,
            tag,
            body,
            first.as_ptr(),
            first.len() as u64,
            second.as_ptr(),
            second.len() as u64,
            bytes.as_ptr(),
            bytes.len() as u64,
            &mut refusal,
        )
    };
    (written, refusal)
}
