//! The record of a sealing or an opening.

use super::{write_run, FrameStore};
use crate::gcm::{KEY_LENGTH, NONCE_LENGTH};
use crate::input::{BadRecord, Input};

#[derive(Clone, Debug, PartialEq, Eq)]
pub struct SealingRecord {
    pub key: [u8; KEY_LENGTH],
    pub nonce: [u8; NONCE_LENGTH],
    /// The buffer that is written to.
    pub store: FrameStore,
    /// The text, or the sealed bytes with their tag last.
    pub bytes: Vec<u8>,
}

impl SealingRecord {
    pub fn read(input: &mut Input) -> Result<Self, BadRecord> {
        Ok(Self {
            key: input.array()?,
            nonce: input.array()?,
            store: FrameStore {
                length: input.length()?,
                fill: input.u8()?,
            },
            bytes: input.run()?,
        })
    }

    pub fn write(&self, out: &mut Vec<u8>) {
        out.extend(self.key);
        out.extend(self.nonce);
        out.extend(self.store.length.to_le_bytes());
        out.push(self.store.fill);
        write_run(&self.bytes, out);
    }
}

#[cfg(test)]
mod tests {
    use super::*;
    use crate::records::Record;

    fn example() -> Vec<u8> {
        let mut bytes = b"S".to_vec();
        bytes.extend(0..28);
        bytes.extend([0, 0, 1, 0, 0xFE, 3, 0, 0, 0, 9, 8, 7]);
        bytes
    }

    #[test]
    fn sealing_record_is_read_field_by_field() {
        let bytes = example();
        let Ok(Record::Seal(record)) = Record::read(&mut Input::new(&bytes)) else {
            panic!("no sealing record");
        };
        assert_eq!((record.key[15], record.nonce[0]), (15, 16));
        assert_eq!((record.store.length, record.store.fill), (65_536, 0xFE));
        assert_eq!(record.bytes, [9, 8, 7]);
        assert_eq!(Record::Seal(record.clone()).to_bytes(), bytes);
        assert_eq!(Record::Open(record).to_bytes()[0], b'O');
    }

    #[test]
    fn every_cut_and_every_length_above_the_limit_is_a_bad_record() {
        let bytes = example();
        for cut in 0..bytes.len() {
            assert_eq!(Record::read(&mut Input::new(&bytes[..cut])), Err(BadRecord));
        }
        for place in [29, 34] {
            let mut long = bytes.clone();
            long[place..place + 4].copy_from_slice(&65_537u32.to_le_bytes());
            assert_eq!(Record::read(&mut Input::new(&long)), Err(BadRecord));
        }
    }
}
