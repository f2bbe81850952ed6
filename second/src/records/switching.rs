//! The record of a receiver with tries to switch to secure mode among its calls.

use super::{read_features, write_features, write_run, FrameStore};
use crate::banner::Features;
use crate::gcm::{KEY_LENGTH, NONCE_LENGTH};
use crate::input::{BadRecord, Input, LARGEST_LENGTH};
use crate::secure::Secrets;

/// The most tries a record may name.
pub const MOST_TRIES: u8 = 8;

/// The number of a call that tries to switch with the first of them.
const FIRST_TRY: u32 = 0xFFFF_FF00;

/// Bytes of a try in a record.
pub const TRY_LENGTH: usize = KEY_LENGTH + 2 * NONCE_LENGTH + 8;

/// What a try to switch brings.
#[derive(Clone, Copy, Debug, PartialEq, Eq)]
pub struct Try {
    pub secrets: Secrets,
    /// Parts that the receiving direction counts as opened already, once the
    /// switch is made.
    pub opened: u64,
}

#[derive(Clone, Copy, Debug, PartialEq, Eq)]
pub enum Call {
    /// How many bytes the receiver is offered.
    Receive(u32),
    /// The try at this place, from 0.
    Switch(u8),
}

#[derive(Clone, Debug, PartialEq, Eq)]
pub struct SwitchingRecord {
    pub own: Features,
    pub store: FrameStore,
    pub tries: Vec<Try>,
    pub calls: Vec<Call>,
    pub stream: Vec<u8>,
}

impl Try {
    fn read(input: &mut Input) -> Result<Self, BadRecord> {
        Ok(Self {
            secrets: Secrets {
                key: input.array()?,
                receiving: input.array()?,
                sending: input.array()?,
            },
            opened: input.u64()?,
        })
    }

    fn write(&self, out: &mut Vec<u8>) {
        out.extend(self.secrets.key);
        out.extend(self.secrets.receiving);
        out.extend(self.secrets.sending);
        out.extend(self.opened.to_le_bytes());
    }
}

impl Call {
    /// Any number that names none of the tries is a length.
    pub fn read(input: &mut Input, tries: usize) -> Result<Self, BadRecord> {
        let number = input.u32()?;
        match number.checked_sub(FIRST_TRY) {
            Some(place) if (place as usize) < tries => Ok(Self::Switch(place as u8)),
            None if number <= LARGEST_LENGTH => Ok(Self::Receive(number)),
            _ => Err(BadRecord),
        }
    }

    pub fn write(self, out: &mut Vec<u8>) {
        let number = match self {
            Self::Receive(piece) => piece,
            Self::Switch(place) => FIRST_TRY + u32::from(place),
        };
        out.extend(number.to_le_bytes());
    }

    /// A try has a line of its own and one of the build behind it.
    pub fn lines(self) -> usize {
        match self {
            Self::Receive(_) => 1,
            Self::Switch(_) => 2,
        }
    }
}

pub fn read_tries(input: &mut Input) -> Result<Vec<Try>, BadRecord> {
    match input.u8()? {
        count if count <= MOST_TRIES => (0..count).map(|_| Try::read(input)).collect(),
        _ => Err(BadRecord),
    }
}

pub fn write_tries(tries: &[Try], out: &mut Vec<u8>) {
    out.push(tries.len() as u8);
    tries.iter().for_each(|one| one.write(out));
}

impl SwitchingRecord {
    pub fn read(input: &mut Input) -> Result<Self, BadRecord> {
        let own = read_features(input)?;
        let store = FrameStore {
            length: input.length()?,
            fill: input.u8()?,
        };
        let tries = read_tries(input)?;
        let count = input.calls()?;
        let calls = (0..count).map(|_| Call::read(input, tries.len()));
        Ok(Self {
            own,
            store,
            calls: calls.collect::<Result<_, _>>()?,
            tries,
            stream: input.stream()?,
        })
    }

    pub fn write(&self, out: &mut Vec<u8>) {
        write_features(&self.own, out);
        out.extend(self.store.length.to_le_bytes());
        out.push(self.store.fill);
        write_tries(&self.tries, out);
        out.extend((self.calls.len() as u16).to_le_bytes());
        self.calls.iter().for_each(|call| call.write(out));
        write_run(&self.stream, out);
    }

    pub fn lines(&self) -> usize {
        1 + self.calls.iter().map(|call| call.lines()).sum::<usize>()
    }
}

#[cfg(test)]
mod tests {
    use super::*;
    use crate::records::Record;

    /// Own features, a store, two tries, three calls, three bytes of a stream.
    fn bytes() -> Vec<u8> {
        let mut bytes = vec![b'X', 1, 0, 0, 0, 0, 0, 0, 0];
        bytes.extend([0; 8]);
        bytes.extend([0, 0, 1, 0, 0xFE, 2]);
        bytes.extend((0..40).chain(1..=8));
        bytes.extend((100..140).chain([0xFF; 8]));
        bytes.extend([3, 0]);
        bytes.extend([5, 1, 0, 0]);
        bytes.extend([1, 0xFF, 0xFF, 0xFF]);
        bytes.extend([0, 0, 1, 0]);
        bytes.extend([3, 0, 0, 0, b'c', b'e', b'p']);
        bytes
    }

    fn read(bytes: &[u8]) -> Result<Record, BadRecord> {
        Record::read(&mut Input::new(bytes))
    }

    #[test]
    fn read_field_by_field() {
        let Ok(Record::Switching(record)) = read(&bytes()) else {
            panic!("no switching record");
        };
        assert_eq!(record.own, Features::new(1, 0));
        assert_eq!((record.store.length, record.store.fill), (65_536, 0xFE));
        let [first, second] = record.tries.as_slice() else {
            panic!("not two tries");
        };
        fn counting<const N: usize>(from: u8) -> [u8; N] {
            std::array::from_fn(|place| from + place as u8)
        }
        assert_eq!(first.secrets.key, counting(0));
        assert_eq!(first.secrets.receiving, counting(16));
        assert_eq!(first.secrets.sending, counting(28));
        assert_eq!(first.opened, 0x0807_0605_0403_0201);
        assert_eq!(second.secrets.sending, counting(128));
        assert_eq!(second.opened, u64::MAX);
        let calls = [Call::Receive(261), Call::Switch(1), Call::Receive(65_536)];
        assert_eq!(record.calls, calls);
        assert_eq!(record.stream, b"cep");
        let record = Record::Switching(record);
        assert_eq!(record.lines(), 5);
        assert_eq!(record.to_bytes(), bytes());
    }

    #[test]
    fn every_cut_is_a_bad_record() {
        let bytes = bytes();
        for cut in 0..bytes.len() {
            assert_eq!(read(&bytes[..cut]), Err(BadRecord));
        }
    }

    #[test]
    fn limits() {
        let tries = |count: usize, call: u32| {
            let mut bytes = bytes()[..22].to_vec();
            bytes.push(count as u8);
            bytes.resize(bytes.len() + TRY_LENGTH * count, 7);
            bytes.extend([1, 0]);
            bytes.extend(call.to_le_bytes());
            bytes.extend([0; 4]);
            read(&bytes).is_ok()
        };
        assert!(tries(0, 65_536) && tries(8, 0) && !tries(9, 0) && !tries(255, 0));
        assert!(tries(8, 0xFFFF_FF07) && !tries(8, 0xFFFF_FF08));
        assert!(tries(1, 0xFFFF_FF00) && !tries(1, 0xFFFF_FF01));
        assert!(!tries(0, 0xFFFF_FF00) && !tries(8, 0xFFFF_FEFF));
        assert!(!tries(8, 65_537) && !tries(8, u32::MAX));
    }
}
