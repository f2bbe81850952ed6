//! The record of a receiver: its start, its store and its calls.

use super::{counting, read_features, write_features, write_run};
use crate::banner::Features;
use crate::input::{BadRecord, Input};

/// The frame store, one for all calls of a record.
#[derive(Clone, Copy, Debug, PartialEq, Eq)]
pub struct FrameStore {
    pub length: u32,
    pub fill: u8,
}

#[derive(Clone, Debug, PartialEq, Eq)]
pub struct ReceiverRecord {
    pub own: Features,
    pub store: FrameStore,
    /// How many bytes each call is offered.
    pub pieces: Vec<u32>,
    pub stream: Vec<u8>,
}

impl FrameStore {
    pub fn bytes(&self) -> Vec<u8> {
        counting(self.length, self.fill)
    }
}

impl ReceiverRecord {
    pub fn read(input: &mut Input) -> Result<Self, BadRecord> {
        Ok(Self {
            own: read_features(input)?,
            store: FrameStore {
                length: input.length()?,
                fill: input.u8()?,
            },
            pieces: input.pieces()?,
            stream: input.stream()?,
        })
    }

    pub fn write(&self, out: &mut Vec<u8>) {
        write_features(&self.own, out);
        out.extend(self.store.length.to_le_bytes());
        out.push(self.store.fill);
        out.extend((self.pieces.len() as u16).to_le_bytes());
        for piece in &self.pieces {
            out.extend(piece.to_le_bytes());
        }
        write_run(&self.stream, out);
    }
}

#[cfg(test)]
mod tests {
    use super::*;
    use crate::records::Record;

    const BYTES: [u8; 43] = [
        b'R', // kind
        1, 2, 3, 4, 5, 6, 7, 8, // own supported
        9, 0, 0, 0, 0, 0, 0, 0x80, // own required
        0, 0, 1, 0,    // store length
        0xFE, // fill
        2, 0, // calls
        5, 1, 0, 0, // first piece
        0, 0, 1, 0, // second piece
        6, 0, 0, 0, b'c', b'e', b'p', b'h', b' ', b'v', // stream
        b'X', // the next byte
    ];

    fn read(bytes: &[u8]) -> Result<Record, BadRecord> {
        Record::read(&mut Input::new(bytes))
    }

    #[test]
    fn read_field_by_field() {
        let Ok(Record::Receiver(record)) = read(&BYTES) else {
            panic!("no receiver record");
        };
        assert_eq!(record.own.supported, 0x0807_0605_0403_0201);
        assert_eq!(record.own.required, 0x8000_0000_0000_0009);
        assert_eq!((record.store.length, record.store.fill), (65_536, 0xFE));
        assert_eq!(record.pieces, [261, 65_536]);
        assert_eq!(record.stream, b"ceph v");
        let record = Record::Receiver(record);
        assert_eq!(record.lines(), 3);
        assert_eq!(record.to_bytes(), BYTES[..42]);
    }

    #[test]
    fn every_cut_is_a_bad_record() {
        for cut in 0..42 {
            assert_eq!(read(&BYTES[..cut]), Err(BadRecord));
        }
    }

    #[test]
    fn limits() {
        let record = |store: u32, piece: u32, calls: u16, stream: u32| {
            let mut bytes = BYTES[..17].to_vec();
            bytes.extend(store.to_le_bytes());
            bytes.push(0);
            bytes.extend(calls.to_le_bytes());
            (0..calls).for_each(|_| bytes.extend(piece.to_le_bytes()));
            write_run(&vec![0; stream as usize], &mut bytes);
            read(&bytes).is_ok()
        };
        assert!(record(65_536, 65_536, 4_096, 131_072));
        assert!(!record(65_537, 1, 1, 1) && !record(1, 65_537, 1, 1));
        assert!(!record(1, 1, 4_097, 1) && !record(1, 1, 1, 131_073));
        assert!(record(0, 0, 0, 0));
    }
}
