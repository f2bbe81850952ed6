//! Records of bodies, handshake steps and modes.

use super::{counting, write_run};
use crate::body::Body;
use crate::handshake::{Side, Verdict};
use crate::input::{BadRecord, Input, MOST_CALLS};

/// The most numbers in a list of a body to be written, and of modes.
const MOST_WRITTEN: u8 = 64;
const MOST_MODES: u8 = 32;

/// A body to be read.
#[derive(Clone, Debug, PartialEq, Eq)]
pub struct BodyRecord {
    pub tag: u8,
    pub bytes: Vec<u8>,
}

/// A body to be written; a tag without one has no fields.
#[derive(Clone, Debug, PartialEq, Eq)]
pub struct WriteRecord {
    pub tag: u8,
    pub length: u32,
    pub fill: u8,
    pub body: Option<Body>,
}

/// The steps of one side, as far as they can be read.
#[derive(Clone, Debug, PartialEq, Eq)]
pub struct StepsRecord {
    pub side: Side,
    pub steps: Vec<(u8, Verdict)>,
    pub breaks_off: bool,
}

#[derive(Clone, Debug, PartialEq, Eq)]
pub struct ModeRecord {
    pub preferred: Vec<u32>,
    pub own: Vec<u32>,
}

impl BodyRecord {
    pub fn read(input: &mut Input) -> Result<Self, BadRecord> {
        Ok(Self {
            tag: input.u8()?,
            bytes: input.run()?,
        })
    }

    pub fn write(&self, out: &mut Vec<u8>) {
        out.push(self.tag);
        write_run(&self.bytes, out);
    }
}

fn read_list(input: &mut Input, most: u8) -> Result<Vec<u32>, BadRecord> {
    match input.u8()? {
        count if count <= most => (0..count).map(|_| input.u32()).collect(),
        _ => Err(BadRecord),
    }
}

fn write_list(numbers: &[u32], out: &mut Vec<u8>) {
    out.push(numbers.len() as u8);
    numbers.iter().for_each(|n| out.extend(n.to_le_bytes()));
}

fn read_closing<const N: usize>(input: &mut Input) -> Result<[u64; N], BadRecord> {
    let mut closing = [0; N];
    for number in &mut closing {
        *number = input.u64()?;
    }
    Ok(closing)
}

fn write_closing(closing: &[u64], out: &mut Vec<u8>) {
    closing.iter().for_each(|n| out.extend(n.to_le_bytes()));
}

fn read_fields(tag: u8, input: &mut Input) -> Result<Option<Body>, BadRecord> {
    Ok(Some(match tag {
        1 => Body::Hello {
            entity: input.u8()?,
            address: input.run()?,
        },
        2 => Body::AuthRequest {
            method: input.u32()?,
            modes: read_list(input, MOST_WRITTEN)?,
            payload: input.run()?,
        },
        3 => Body::BadMethod {
            method: input.u32()?,
            error: input.u32()? as i32,
            methods: read_list(input, MOST_WRITTEN)?,
            modes: read_list(input, MOST_WRITTEN)?,
        },
        4 | 5 => Body::AuthMore {
            payload: input.run()?,
        },
        6 => Body::AuthDone {
            global_id: input.u64()?,
            mode: input.u32()?,
            payload: input.run()?,
        },
        8 | 9 => Body::Ident {
            addresses: input.u32()?,
            block: input.run()?,
            closing: read_closing(input)?,
        },
        11 => Body::Reconnect {
            addresses: input.u32()?,
            block: input.run()?,
            closing: read_closing(input)?,
        },
        10 | 15 | 20 => Body::Number(input.u64()?),
        12 => Body::Reset { full: input.u8()? },
        18 | 19 => Body::Stamp(input.u64()?.to_le_bytes()),
        _ => return Ok(None),
    }))
}

fn write_fields(body: &Body, out: &mut Vec<u8>) {
    match body {
        Body::Hello { entity, address } => {
            out.push(*entity);
            write_run(address, out);
        }
        Body::AuthRequest {
            method,
            modes,
            payload,
        } => {
            out.extend(method.to_le_bytes());
            write_list(modes, out);
            write_run(payload, out);
        }
        Body::BadMethod {
            method,
            error,
            methods,
            modes,
        } => {
            out.extend(method.to_le_bytes());
            out.extend(error.to_le_bytes());
            write_list(methods, out);
            write_list(modes, out);
        }
        Body::AuthMore { payload } => write_run(payload, out),
        Body::AuthDone {
            global_id,
            mode,
            payload,
        } => {
            out.extend(global_id.to_le_bytes());
            out.extend(mode.to_le_bytes());
            write_run(payload, out);
        }
        Body::Ident {
            addresses,
            block,
            closing,
        } => {
            out.extend(addresses.to_le_bytes());
            write_run(block, out);
            write_closing(closing, out);
        }
        Body::Reconnect {
            addresses,
            block,
            closing,
        } => {
            out.extend(addresses.to_le_bytes());
            write_run(block, out);
            write_closing(closing, out);
        }
        Body::Number(number) => out.extend(number.to_le_bytes()),
        Body::Reset { full } => out.push(*full),
        Body::Stamp(stamp) => out.extend(stamp),
    }
}

impl WriteRecord {
    pub fn buffer(&self) -> Vec<u8> {
        counting(self.length, self.fill)
    }

    pub fn read(input: &mut Input) -> Result<Self, BadRecord> {
        let tag = input.u8()?;
        Ok(Self {
            tag,
            length: input.length()?,
            fill: input.u8()?,
            body: read_fields(tag, input)?,
        })
    }

    pub fn write(&self, out: &mut Vec<u8>) {
        out.push(self.tag);
        out.extend(self.length.to_le_bytes());
        out.push(self.fill);
        if let Some(body) = &self.body {
            write_fields(body, out);
        }
    }
}

fn read_step(input: &mut Input) -> Result<(u8, Verdict), BadRecord> {
    let tag = input.u8()?;
    match input.u8()? {
        verdict if verdict < 32 => Ok((tag, Verdict(verdict))),
        _ => Err(BadRecord),
    }
}

impl StepsRecord {
    pub fn read(input: &mut Input) -> Result<Self, BadRecord> {
        let side = if input.choice()? {
            Side::Server
        } else {
            Side::Client
        };
        let count = match input.u16()? {
            count if count <= MOST_CALLS => count,
            _ => return Err(BadRecord),
        };
        let mut steps = Vec::new();
        for _ in 0..count {
            match read_step(input) {
                Ok(step) => steps.push(step),
                Err(BadRecord) => {
                    return Ok(Self {
                        side,
                        steps,
                        breaks_off: true,
                    })
                }
            }
        }
        Ok(Self {
            side,
            steps,
            breaks_off: false,
        })
    }

    /// A record that breaks off has a step with a verdict that none can be.
    pub fn write(&self, out: &mut Vec<u8>) {
        let count = self.steps.len() + usize::from(self.breaks_off);
        out.push(u8::from(self.side == Side::Server));
        out.extend((count as u16).to_le_bytes());
        for (tag, Verdict(verdict)) in &self.steps {
            out.extend([*tag, *verdict]);
        }
        if self.breaks_off {
            out.extend([1, 0xE0]);
        }
    }
}

impl ModeRecord {
    pub fn read(input: &mut Input) -> Result<Self, BadRecord> {
        Ok(Self {
            preferred: read_list(input, MOST_MODES)?,
            own: read_list(input, MOST_MODES)?,
        })
    }

    pub fn write(&self, out: &mut Vec<u8>) {
        write_list(&self.preferred, out);
        write_list(&self.own, out);
    }
}

#[cfg(test)]
mod tests {
    use crate::input::Input;
    use crate::records::Record;

    fn again(bytes: &[u8]) {
        let mut input = Input::new(bytes);
        let record = Record::read(&mut input).expect("a record");
        assert!(input.has_ended());
        assert_eq!(record.to_bytes(), bytes);
        for cut in 1..bytes.len() {
            let read = Record::read(&mut Input::new(&bytes[..cut]));
            assert!(matches!(read, Err(_) | Ok(Record::Steps(_))));
        }
    }

    #[test]
    fn records_are_read_and_written() {
        again(b"H\x0C\x01\0\0\0\x07");
        again(b"W\x02\x10\0\0\0\x05\x01\0\0\0\x01\x02\0\0\0\x02\0\0\0\x08\x09");
        again(b"W\x07\x10\0\0\0\x05");
        again(b"W\x12\x10\0\0\0\x05\x01\x02\x03\x04\x05\x06\x07\x08");
        again(b"P\x01\x02\0\x01\x00\x02\x1F");
        again(b"M\x01\x02\0\0\0\x00");
    }

    #[test]
    fn limits() {
        let bad = |bytes: &[u8]| Record::read(&mut Input::new(bytes)).is_err();
        assert!(bad(b"P\x02\0\0") && bad(b"P\x01\x01\x10"));
        let mut modes = vec![b'M', 33];
        modes.extend([0; 33 * 4 + 1]);
        assert!(bad(&modes));
        let mut written = b"W\x02\0\0\0\0\0\0\0\0\0\x41".to_vec();
        written.extend([0; 65 * 4 + 4]);
        assert!(bad(&written));
    }
}
