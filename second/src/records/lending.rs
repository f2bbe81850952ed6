//! The record of a receiver whose calls each lend a store of their own length;
//! there may be tries to switch among them.

use super::switching::{read_tries, write_tries, Call, Try};
use super::{read_features, write_features, write_run, FrameStore};
use crate::banner::Features;
use crate::input::{BadRecord, Input};

#[derive(Clone, Copy, Debug, PartialEq, Eq)]
pub struct LentCall {
    pub call: Call,
    /// How many bytes of the store it lends, from the front; a try to switch
    /// lends none.
    pub lent: u32,
}

#[derive(Clone, Debug, PartialEq, Eq)]
pub struct LendingRecord {
    pub own: Features,
    pub store: FrameStore,
    pub tries: Vec<Try>,
    pub calls: Vec<LentCall>,
    pub stream: Vec<u8>,
}

impl LentCall {
    /// A call that offers the receiver so many bytes.
    pub fn receive(piece: u32, lent: u32) -> Self {
        Self {
            call: Call::Receive(piece),
            lent,
        }
    }

    fn read(input: &mut Input, tries: usize) -> Result<Self, BadRecord> {
        Ok(Self {
            call: Call::read(input, tries)?,
            lent: input.length()?,
        })
    }
}

impl LendingRecord {
    pub fn read(input: &mut Input) -> Result<Self, BadRecord> {
        let own = read_features(input)?;
        let store = FrameStore {
            length: input.length()?,
            fill: input.u8()?,
        };
        let tries = read_tries(input)?;
        let count = input.calls()?;
        let calls = (0..count).map(|_| LentCall::read(input, tries.len()));
        Ok(Self {
            own,
            store,
            calls: calls.collect::<Result<_, _>>()?,
            tries,
            stream: input.stream()?,
        })
    }

    pub fn write(&self, out: &mut Vec<u8>) {
        write_features(&self.own, out);
        out.extend(self.store.length.to_le_bytes());
        out.push(self.store.fill);
        write_tries(&self.tries, out);
        out.extend((self.calls.len() as u16).to_le_bytes());
        for call in &self.calls {
            call.call.write(out);
            out.extend(call.lent.to_le_bytes());
        }
        write_run(&self.stream, out);
    }

    pub fn lines(&self) -> usize {
        let calls = self.calls.iter().map(|call| call.call.lines());
        1 + calls.sum::<usize>()
    }
}

#[cfg(test)]
mod tests {
    use super::*;
    use crate::records::Record;

    const BYTES: [u8; 48] = [
        b'T', // kind
        1, 0, 0, 0, 0, 0, 0, 0, // own supported
        0, 0, 0, 0, 0, 0, 0, 0, // own required
        0, 0, 1, 0,    // store length
        0xFE, // fill
        0,    // switches
        2, 0, // calls
        5, 1, 0, 0, 7, 0, 0, 0, // a piece, a store
        0, 0, 1, 0, 0, 0, 1, 0, // the largest of both
        3, 0, 0, 0, b'c', b'e', b'p', // stream
    ];

    fn read(bytes: &[u8]) -> Result<Record, BadRecord> {
        Record::read(&mut Input::new(bytes))
    }

    #[test]
    fn read_field_by_field() {
        let Ok(Record::Lending(record)) = read(&BYTES) else {
            panic!("no lending record");
        };
        let call = LentCall::receive;
        assert_eq!(record.own, Features::new(1, 0));
        assert_eq!((record.store.length, record.store.fill), (65_536, 0xFE));
        assert_eq!(record.calls, [call(261, 7), call(65_536, 65_536)]);
        assert_eq!(record.stream, b"cep");
        let record = Record::Lending(record);
        assert_eq!(record.lines(), 3);
        assert_eq!(record.to_bytes(), BYTES);
    }

    #[test]
    fn every_cut_is_a_bad_record() {
        for cut in 0..48 {
            assert_eq!(read(&BYTES[..cut]), Err(BadRecord));
        }
    }

    #[test]
    fn limits() {
        let with = |place: usize, byte: u8| {
            let mut bytes = BYTES;
            bytes[place] = byte;
            read(&bytes).is_ok()
        };
        assert!(with(21, 9) && with(25, 255) && with(29, 255));
        assert!(!with(17, 1) && !with(22, 9) && !with(22, 255) && !with(24, 255));
        assert!(!with(33, 1) && !with(37, 1) && !with(43, 1));
    }

    /// One try, and a call that makes it: it has a number for the store too.
    #[test]
    fn tries_among_the_calls() {
        let with = |call: u32, lent: u32| {
            let mut bytes = BYTES[..22].to_vec();
            bytes.push(1);
            bytes.extend([7; 48]);
            bytes.extend([1, 0]);
            bytes.extend(call.to_le_bytes());
            bytes.extend(lent.to_le_bytes());
            bytes.extend([0; 4]);
            bytes
        };
        let bytes = with(0xFFFF_FF00, 65_536);
        let Ok(Record::Lending(record)) = read(&bytes) else {
            panic!("no lending record");
        };
        assert_eq!(record.tries[0].opened, 0x0707_0707_0707_0707);
        let lent = 65_536;
        let call = Call::Switch(0);
        assert_eq!(record.calls, [LentCall { call, lent }]);
        let record = Record::Lending(record);
        assert_eq!((record.lines(), record.to_bytes()), (3, bytes));
        assert!(read(&with(0xFFFF_FF01, 0)).is_err());
        assert!(read(&with(0xFFFF_FF00, 65_537)).is_err());
    }
}
