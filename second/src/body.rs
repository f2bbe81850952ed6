//! Bodies of control frames: each is read field by field from its front, and
//! put together from its fields.

use crate::frame::SEGMENT_LIMIT;
use crate::refusal::Refusal;

/// A list holds at most so many numbers.
pub const LONGEST_LIST: usize = 32;

/// Bytes behind the blocks of an ident and of a reconnect.
const IDENT_CLOSING: usize = 48;
const RECONNECT_CLOSING: usize = 40;

/// The tags that have a body of their own.
pub const TAGS: [u8; 15] = [1, 2, 3, 4, 5, 6, 8, 9, 10, 11, 12, 15, 18, 19, 20];

#[derive(Clone, Debug, PartialEq, Eq)]
pub enum Body {
    Hello {
        entity: u8,
        address: Vec<u8>,
    },
    AuthRequest {
        method: u32,
        modes: Vec<u32>,
        payload: Vec<u8>,
    },
    BadMethod {
        method: u32,
        error: i32,
        methods: Vec<u32>,
        modes: Vec<u32>,
    },
    AuthMore {
        payload: Vec<u8>,
    },
    AuthDone {
        global_id: u64,
        mode: u32,
        payload: Vec<u8>,
    },
    /// gid, global_seq, supported, required, flags, cookie
    Ident {
        addresses: u32,
        block: Vec<u8>,
        closing: [u64; 6],
    },
    /// client cookie, server cookie, global_seq, connect_seq, msg_seq
    Reconnect {
        addresses: u32,
        block: Vec<u8>,
        closing: [u64; 5],
    },
    /// Missing features, or a message's number.
    Number(u64),
    Reset {
        full: u8,
    },
    Stamp([u8; 8]),
}

/// The place of the first fault.
type Place = usize;

/// What is left of a body, and how much was read.
struct Rest<'a> {
    left: &'a [u8],
    at: Place,
}

impl<'a> Rest<'a> {
    fn take(&mut self, length: usize) -> Result<&'a [u8], Place> {
        let (taken, left) = self.left.split_at_checked(length).ok_or(self.at)?;
        self.left = left;
        self.at += length;
        Ok(taken)
    }

    fn array<const N: usize>(&mut self) -> Result<[u8; N], Place> {
        let mut bytes = [0; N];
        bytes.copy_from_slice(self.take(N)?);
        Ok(bytes)
    }

    fn u8(&mut self) -> Result<u8, Place> {
        self.array().map(u8::from_le_bytes)
    }

    fn u32(&mut self) -> Result<u32, Place> {
        self.array().map(u32::from_le_bytes)
    }

    fn u64(&mut self) -> Result<u64, Place> {
        self.array().map(u64::from_le_bytes)
    }

    fn error(&mut self) -> Result<i32, Place> {
        let at = self.at;
        match self.array().map(i32::from_le_bytes)? {
            error if error < 0 => Ok(error),
            _ => Err(at),
        }
    }

    fn list(&mut self) -> Result<Vec<u32>, Place> {
        let at = self.at;
        let count = self.u32()? as usize;
        if count > LONGEST_LIST {
            return Err(at);
        }
        (0..count).map(|_| self.u32()).collect()
    }

    fn payload(&mut self) -> Result<Vec<u8>, Place> {
        let at = self.at;
        let length = self.u32()? as usize;
        Ok(self.take(length).map_err(|_| at)?.to_vec())
    }

    fn to_the_end(&mut self) -> Vec<u8> {
        let all = self.left.to_vec();
        self.at += all.len();
        self.left = &[];
        all
    }

    /// The address count, the blocks behind it, and so many closing numbers.
    fn addressed<const N: usize>(&mut self) -> Result<(u32, Vec<u8>, [u64; N]), Place> {
        let addresses = self.u32()?;
        let block = self.left.len().checked_sub(8 * N).ok_or(0usize)?;
        let block = self.take(block)?.to_vec();
        let mut closing = [0; N];
        for number in &mut closing {
            *number = self.u64()?;
        }
        Ok((addresses, block, closing))
    }
}

fn fields(tag: u8, rest: &mut Rest) -> Result<Body, Place> {
    Ok(match tag {
        1 => Body::Hello {
            entity: rest.u8()?,
            address: rest.to_the_end(),
        },
        2 => Body::AuthRequest {
            method: rest.u32()?,
            modes: rest.list()?,
            payload: rest.to_the_end(),
        },
        3 => Body::BadMethod {
            method: rest.u32()?,
            error: rest.error()?,
            methods: rest.list()?,
            modes: rest.list()?,
        },
        4 | 5 => Body::AuthMore {
            payload: rest.payload()?,
        },
        6 => Body::AuthDone {
            global_id: rest.u64()?,
            mode: rest.u32()?,
            payload: rest.to_the_end(),
        },
        8 | 9 => {
            let (addresses, block, closing) = rest.addressed()?;
            Body::Ident {
                addresses,
                block,
                closing,
            }
        }
        10 | 15 | 20 => Body::Number(rest.u64()?),
        11 => {
            let (addresses, block, closing) = rest.addressed()?;
            Body::Reconnect {
                addresses,
                block,
                closing,
            }
        }
        12 => Body::Reset { full: rest.u8()? },
        18 | 19 => Body::Stamp(rest.array()?),
        _ => return Err(0),
    })
}

/// A body by its tag, or the place of its fault.
pub fn read(tag: u8, bytes: &[u8]) -> Result<Body, Refusal> {
    if bytes.len() > SEGMENT_LIMIT as usize {
        return Err(Refusal::body_malformed(0));
    }
    let mut rest = Rest { left: bytes, at: 0 };
    let body = fields(tag, &mut rest).map_err(Refusal::body_malformed)?;
    if rest.left.is_empty() {
        Ok(body)
    } else {
        Err(Refusal::body_malformed(rest.at))
    }
}

fn put_list(numbers: &[u32], out: &mut Vec<u8>) {
    out.extend((numbers.len() as u32).to_le_bytes());
    numbers.iter().for_each(|n| out.extend(n.to_le_bytes()));
}

impl Body {
    /// The body's bytes, sound or not.
    pub fn bytes(&self) -> Vec<u8> {
        let mut out = Vec::new();
        match self {
            Body::Hello { entity, address } => {
                out.push(*entity);
                out.extend(address);
            }
            Body::AuthRequest {
                method,
                modes,
                payload,
            } => {
                out.extend(method.to_le_bytes());
                put_list(modes, &mut out);
                out.extend(payload);
            }
            Body::BadMethod {
                method,
                error,
                methods,
                modes,
            } => {
                out.extend(method.to_le_bytes());
                out.extend(error.to_le_bytes());
                put_list(methods, &mut out);
                put_list(modes, &mut out);
            }
            Body::AuthMore { payload } => {
                out.extend((payload.len() as u32).to_le_bytes());
                out.extend(payload);
            }
            Body::AuthDone {
                global_id,
                mode,
                payload,
            } => {
                out.extend(global_id.to_le_bytes());
                out.extend(mode.to_le_bytes());
                out.extend(payload);
            }
            Body::Ident {
                addresses,
                block,
                closing,
            } => put_addressed(*addresses, block, closing, &mut out),
            Body::Reconnect {
                addresses,
                block,
                closing,
            } => put_addressed(*addresses, block, closing, &mut out),
            Body::Number(number) => out.extend(number.to_le_bytes()),
            Body::Reset { full } => out.push(*full),
            Body::Stamp(stamp) => out.extend(stamp),
        }
        out
    }

    /// The place of the first field that may not be written.
    fn fault(&self) -> Option<Place> {
        match self {
            Body::AuthRequest { modes, .. } => (modes.len() > LONGEST_LIST).then_some(4),
            Body::BadMethod {
                error,
                methods,
                modes,
                ..
            } => {
                if *error >= 0 {
                    Some(4)
                } else if methods.len() > LONGEST_LIST {
                    Some(8)
                } else {
                    (modes.len() > LONGEST_LIST).then_some(12 + 4 * methods.len())
                }
            }
            _ => None,
        }
    }
}

fn put_addressed(addresses: u32, block: &[u8], closing: &[u64], out: &mut Vec<u8>) {
    out.extend(addresses.to_le_bytes());
    out.extend(block);
    closing.iter().for_each(|n| out.extend(n.to_le_bytes()));
}

/// Writes a body at the buffer's front, and says how many bytes it has. A tag
/// without a body has none to be written.
pub fn write(body: Option<&Body>, buffer: &mut [u8]) -> Result<u64, Refusal> {
    let Some(body) = body else {
        return Err(Refusal::body_malformed(0));
    };
    let bytes = body.bytes();
    if bytes.len() > SEGMENT_LIMIT as usize {
        return Err(Refusal::body_malformed(0));
    }
    if let Some(place) = body.fault() {
        return Err(Refusal::body_malformed(place));
    }
    let needed = bytes.len() as u64;
    let room = buffer
        .get_mut(..bytes.len())
        .ok_or_else(|| Refusal::no_room(needed))?;
    room.copy_from_slice(&bytes);
    Ok(needed)
}

/// The shortest bodies of idents and reconnects.
pub const fn shortest(tag: u8) -> usize {
    match tag {
        8 | 9 => 4 + IDENT_CLOSING,
        11 => 4 + RECONNECT_CLOSING,
        _ => 0,
    }
}

#[cfg(test)]
mod tests;
