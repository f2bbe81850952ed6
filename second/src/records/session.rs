//! The record of a session: its calls are run as they are read.

use crate::input::{BadRecord, Input};

#[derive(Clone, Copy, Debug, PartialEq, Eq)]
pub enum SessionCall {
    /// A message with this handle is sent.
    Accept(u64),
    Ack(u64),
    /// reconnect_ok with this msg_seq.
    Reconnect(u64),
    Reset {
        full: bool,
    },
    /// The held message at this place, from 0.
    Held(u64),
}

#[derive(Clone, Debug, PartialEq, Eq)]
pub struct SessionRecord {
    /// The last number before the calls; nothing is held.
    pub last: u64,
    pub calls: Vec<SessionCall>,
    /// A call that is no call or is cut off stands behind them.
    pub spoilt: bool,
}

impl SessionCall {
    fn read(input: &mut Input) -> Result<Self, BadRecord> {
        let call = input.u8()?;
        let value = input.u64()?;
        match (call, value) {
            (0, handle) => Ok(Self::Accept(handle)),
            (1, number) => Ok(Self::Ack(number)),
            (2, msg_seq) => Ok(Self::Reconnect(msg_seq)),
            (3, 0) => Ok(Self::Reset { full: false }),
            (3, 1) => Ok(Self::Reset { full: true }),
            (4, place) => Ok(Self::Held(place)),
            _ => Err(BadRecord),
        }
    }

    fn numbers(self) -> (u8, u64) {
        match self {
            Self::Accept(handle) => (0, handle),
            Self::Ack(number) => (1, number),
            Self::Reconnect(msg_seq) => (2, msg_seq),
            Self::Reset { full } => (3, u64::from(full)),
            Self::Held(place) => (4, place),
        }
    }
}

impl SessionRecord {
    pub fn good(last: u64, calls: Vec<SessionCall>) -> Self {
        Self {
            last,
            calls,
            spoilt: false,
        }
    }

    pub fn read(input: &mut Input) -> Result<Self, BadRecord> {
        let last = input.u64()?;
        let count = input.calls()?;
        let mut calls = Vec::new();
        for _ in 0..count {
            match SessionCall::read(input) {
                Ok(call) => calls.push(call),
                Err(BadRecord) => {
                    let spoilt = true;
                    return Ok(Self {
                        last,
                        calls,
                        spoilt,
                    });
                }
            }
        }
        Ok(Self::good(last, calls))
    }

    pub fn write(&self, out: &mut Vec<u8>) {
        out.extend(self.last.to_le_bytes());
        out.extend((self.calls.len() as u16).to_le_bytes());
        for call in &self.calls {
            let (call, value) = call.numbers();
            out.push(call);
            out.extend(value.to_le_bytes());
        }
    }
}

#[cfg(test)]
mod tests {
    use super::*;
    use crate::records::Record;

    fn record() -> SessionRecord {
        let calls = vec![
            SessionCall::Accept(0x0807_0605_0403_0201),
            SessionCall::Ack(7),
            SessionCall::Reconnect(8),
            SessionCall::Reset { full: true },
            SessionCall::Reset { full: false },
            SessionCall::Held(u64::MAX),
        ];
        SessionRecord::good(6, calls)
    }

    fn read(bytes: &[u8]) -> Result<Record, BadRecord> {
        Record::read(&mut Input::new(bytes))
    }

    #[test]
    fn read_as_it_was_written() {
        let bytes = Record::Session(record()).to_bytes();
        assert_eq!(bytes[..12], [b'N', 6, 0, 0, 0, 0, 0, 0, 0, 6, 0, 0]);
        assert_eq!(bytes[12..21], [1, 2, 3, 4, 5, 6, 7, 8, 1]);
        assert_eq!(read(&bytes), Ok(Record::Session(record())));
        assert_eq!(Record::Session(record()).lines(), 6);
    }

    #[test]
    fn calls_before_a_bad_one_count() {
        let bytes = Record::Session(record()).to_bytes();
        let calls = |bytes: &[u8]| match read(bytes) {
            Ok(Record::Session(record)) => Some((record.calls.len(), record.spoilt)),
            _ => None,
        };
        assert_eq!(calls(&bytes[..10]), None);
        assert_eq!(calls(&bytes[..11]), Some((0, true)));
        assert_eq!(calls(&bytes[..bytes.len() - 1]), Some((5, true)));
        assert_eq!(calls(&bytes), Some((6, false)));
        let with = |place: usize, byte: u8| {
            let mut bytes = bytes.clone();
            bytes[place] = byte;
            calls(&bytes)
        };
        assert_eq!(with(11, 5), Some((0, true)));
        assert_eq!(with(39, 2), Some((3, true)));
        assert_eq!(with(40, 1), Some((3, true)));
        assert_eq!(with(10, 0x11), None);
    }
}
