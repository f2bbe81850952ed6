//! Bodies of control frames: what their one segment holds, read and written.

use crate::builder::written;
use crate::refusal::{Numbers, Refusal};
use crate::sys::{self, RawBody, RawList, RawSpan};

/// What a body says, with its lists as `L`: a [`List`] in the segment that was
/// read, or numbers to be written.
#[derive(Clone, Copy, Debug, PartialEq, Eq)]
pub enum Body<'a, L> {
    /// hello
    Hello {
        /// The kind of entity that the peer is.
        entity: u8,
        /// Our address as the peer sees it.
        address: &'a [u8],
    },
    /// auth_request
    AuthRequest {
        /// The method.
        method: u32,
        /// The preferred connection modes.
        modes: L,
        /// What the method has to say.
        payload: &'a [u8],
    },
    /// auth_bad_method
    BadMethod {
        /// The method that was turned down.
        method: u32,
        /// Why, a number below zero.
        error: i32,
        /// The allowed methods.
        methods: L,
        /// The allowed modes.
        modes: L,
    },
    /// auth_reply_more and auth_request_more
    More {
        /// What the method has to say.
        payload: &'a [u8],
    },
    /// auth_done
    AuthDone {
        /// The client's global id.
        global_id: u64,
        /// The connection mode.
        mode: u32,
        /// What the method has to say.
        payload: &'a [u8],
    },
    /// client_ident and server_ident
    Ident {
        /// How many addresses there are: what stands in the body's first four
        /// bytes. Ceph's own programs put a byte 2 in front of their count, so
        /// that with them this is 258 for one address, and the block begins with
        /// the count's last byte.
        addresses: u32,
        /// The addresses; of a client also the one that it wanted.
        block: &'a [u8],
        /// The sender's id.
        gid: u64,
        /// The sender's global sequence number.
        global_seq: u64,
        /// The features that it supports.
        supported: u64,
        /// The features that it requires.
        required: u64,
        /// Flags.
        flags: u64,
        /// The sender's cookie.
        cookie: u64,
    },
    /// session_reconnect
    Reconnect {
        /// How many addresses there are, as in [`Body::Ident`]: with Ceph's own
        /// programs 258 for one.
        addresses: u32,
        /// The addresses.
        block: &'a [u8],
        /// The client's cookie.
        client_cookie: u64,
        /// The server's cookie.
        server_cookie: u64,
        /// The client's global sequence number.
        global_seq: u64,
        /// How often it connected.
        connect_seq: u64,
        /// The last message that it has.
        msg_seq: u64,
    },
    /// ident_missing_features, session_reconnect_ok and ack
    Number(u64),
    /// session_reset
    Reset {
        /// 1 for a full reset; any other byte keeps what is held.
        full: u8,
    },
    /// keepalive2 and its ack
    Stamp(&'a [u8]),
}

/// A list of numbers in the segment that was read.
#[derive(Clone, Copy, Debug, PartialEq, Eq)]
pub struct List<'a> {
    bytes: &'a [u8],
}

impl<'a> List<'a> {
    /// The numbers, in order.
    pub fn iter(&self) -> impl Iterator<Item = u32> + 'a {
        let words = self.bytes.chunks_exact(4);
        words.map(|word| u32::from_le_bytes([word[0], word[1], word[2], word[3]]))
    }
}

/// Bytes of the segment; a place that the library answers lies inside of it.
fn part(segment: &[u8], at: u64, len: u64) -> &[u8] {
    let from = usize::try_from(at).unwrap_or(usize::MAX);
    let len = usize::try_from(len).unwrap_or(usize::MAX);
    let rest = segment.get(from..).unwrap_or(&[]);
    rest.get(..len).unwrap_or(&[])
}

fn list(segment: &[u8], RawList { at, count }: RawList) -> List<'_> {
    let bytes = part(segment, at, count.saturating_mul(4));
    List { bytes }
}

/// Reads the body of a control frame by the frame's tag.
///
/// # Errors
///
/// [`Refusal::BodyMalformed`] for one that is not of its tag, or a tag that has
/// none: 0, 7, 13, 14, 16, 17 and all above 20.
///
/// ```
/// use mahuixen::{read_body, tag, Body, Refusal};
///
/// // Method 2, the modes 2 and 1, and a payload of three bytes.
/// let request = b"\x02\0\0\0\x02\0\0\0\x02\0\0\0\x01\0\0\0\x03\0\0\0abc";
/// let Body::AuthRequest { method, modes, payload } = read_body(tag::AUTH_REQUEST, request)? else {
///     panic!("an auth_request");
/// };
/// assert_eq!((method, payload), (2, &request[16..]));
/// assert!(modes.iter().eq([2, 1]));
///
/// assert_eq!(read_body(tag::ACK, b"\x05\0\0\0\0\0\0\0"), Ok(Body::Number(5)));
/// assert_eq!(read_body(tag::ACK, b"\x05"), Err(Refusal::BodyMalformed { at: 0 }));
/// # Ok::<(), Refusal>(())
/// ```
pub fn read_body(tag: u8, segment: &[u8]) -> Result<Body<'_, List<'_>>, Refusal> {
    let (_, raw) = sys::read_body(tag.into(), segment);
    let RawSpan { at, len } = raw.bytes;
    let bytes = part(segment, at, len);
    let [a, b, c, d, e, f, g] = raw.numbers;
    // Each number is one of its field's type, where the library wrote it.
    Ok(match raw.kind {
        1 => Body::Hello {
            entity: a as u8,
            address: bytes,
        },
        2 => Body::AuthRequest {
            method: a as u32,
            modes: list(segment, raw.first),
            payload: bytes,
        },
        3 => Body::BadMethod {
            method: a as u32,
            error: b as u32 as i32,
            methods: list(segment, raw.first),
            modes: list(segment, raw.second),
        },
        4 => Body::More { payload: bytes },
        5 => Body::AuthDone {
            global_id: a,
            mode: b as u32,
            payload: bytes,
        },
        6 => Body::Ident {
            addresses: a as u32,
            block: bytes,
            gid: b,
            global_seq: c,
            supported: d,
            required: e,
            flags: f,
            cookie: g,
        },
        7 => Body::Reconnect {
            addresses: a as u32,
            block: bytes,
            client_cookie: b,
            server_cookie: c,
            global_seq: d,
            connect_seq: e,
            msg_seq: f,
        },
        8 => Body::Number(a),
        9 => Body::Reset { full: a as u8 },
        10 => Body::Stamp(bytes),
        _ => return Err(Refusal::from(Numbers::from(raw.refusal))),
    })
}

/// What a body is made of: its kind and numbers, its lists, and its bytes.
type Parts<'a> = (u64, [u64; 7], [&'a [u32]; 2], &'a [u8]);

fn parts<'a>(body: &Body<'a, &'a [u32]>) -> Parts<'a> {
    let one = |n| [n, 0, 0, 0, 0, 0, 0];
    let two = |a, b| [a, b, 0, 0, 0, 0, 0];
    let none: &[u32] = &[];
    match *body {
        Body::Hello { entity, address } => (1, one(entity.into()), [none; 2], address),
        Body::AuthRequest {
            method,
            modes,
            payload,
        } => (2, one(method.into()), [modes, none], payload),
        Body::BadMethod {
            method,
            error,
            methods,
            modes,
        } => (
            3,
            two(method.into(), (error as u32).into()),
            [methods, modes],
            &[],
        ),
        Body::More { payload } => (4, one(0), [none; 2], payload),
        Body::AuthDone {
            global_id,
            mode,
            payload,
        } => (5, two(global_id, mode.into()), [none; 2], payload),
        Body::Ident {
            addresses,
            block,
            gid,
            global_seq,
            supported,
            required,
            flags,
            cookie,
        } => {
            let addresses = addresses.into();
            let numbers = [
                addresses, gid, global_seq, supported, required, flags, cookie,
            ];
            (6, numbers, [none; 2], block)
        }
        Body::Reconnect {
            addresses,
            block,
            client_cookie,
            server_cookie,
            global_seq,
            connect_seq,
            msg_seq,
        } => {
            let addresses = addresses.into();
            let numbers = [
                addresses,
                client_cookie,
                server_cookie,
                global_seq,
                connect_seq,
                msg_seq,
                0,
            ];
            (7, numbers, [none; 2], block)
        }
        Body::Number(n) => (8, one(n), [none; 2], &[]),
        Body::Reset { full } => (9, one(full.into()), [none; 2], &[]),
        Body::Stamp(stamp) => (10, one(0), [none; 2], stamp),
    }
}

/// Writes the body of a control frame with this tag at the front of `out`, and
/// answers its length.
///
/// # Errors
///
/// [`Refusal::BodyMalformed`] for one that is not the tag's or would not be read back,
/// then [`Refusal::NoRoom`]; `out` is then as it was.
///
/// ```
/// use mahuixen::{read_body, tag, write_body, Body, Refusal};
///
/// let done = Body::AuthDone { global_id: 7, mode: 1, payload: b"\x03\0\0\0abc" };
/// let mut out = [0; 30];
/// let length = write_body(&mut out, tag::AUTH_DONE, &done)?;
/// assert_eq!(length, 19);
/// let read = read_body(tag::AUTH_DONE, &out[..length])?;
/// assert!(matches!(read, Body::AuthDone { global_id: 7, mode: 1, .. }));
///
/// assert_eq!(write_body(&mut out, tag::ACK, &done), Err(Refusal::BodyMalformed { at: 0 }));
/// # Ok::<(), Refusal>(())
/// ```
pub fn write_body(out: &mut [u8], tag: u8, body: &Body<'_, &[u32]>) -> Result<usize, Refusal> {
    let (kind, numbers, [first, second], bytes) = parts(body);
    let raw = RawBody {
        kind,
        numbers,
        ..RawBody::default()
    };
    written(sys::write_body(out, tag.into(), &raw, first, second, bytes))
}
