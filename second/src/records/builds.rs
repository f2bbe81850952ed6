//! The record of sealed builds with one sending state: they are run as they are
//! read.

use super::{read_frame, write_frame, write_run, SendBuffer};
use crate::builder::FrameRequest;
use crate::frame::Frame;
use crate::gcm::KEY_LENGTH;
use crate::input::{BadRecord, Input};
use crate::secure::Nonce;
use crate::wire::Revision;

/// The most builds a record may ask for.
pub const MOST_BUILDS: u16 = 256;

/// What is built, and the buffer it is built into.
#[derive(Clone, Debug, PartialEq, Eq)]
pub struct Build {
    pub frame: Frame,
    pub abort: bool,
    pub buffer: SendBuffer,
    pub source: Vec<u8>,
}

#[derive(Clone, Debug, PartialEq, Eq)]
pub struct BuildsRecord {
    /// Whether the sending state is that of a switch refused with 27.
    pub refused: bool,
    pub key: [u8; KEY_LENGTH],
    pub nonce: Nonce,
    /// Parts that were sealed before.
    pub spent: u64,
    pub builds: Vec<Build>,
    /// A build that is none or is cut off stands behind them.
    pub spoilt: bool,
}

impl Build {
    /// The request; sealed frames are those of msgr2.1.
    pub fn request(&self) -> FrameRequest<'_> {
        FrameRequest {
            revision: Revision::Msgr21,
            frame: self.frame,
            abort: self.abort,
            source: &self.source,
        }
    }

    pub fn read(input: &mut Input) -> Result<Self, BadRecord> {
        Ok(Self {
            frame: read_frame(input)?,
            abort: input.choice()?,
            buffer: SendBuffer::read(input)?,
            source: input.run()?,
        })
    }

    pub fn write(&self, out: &mut Vec<u8>) {
        write_frame(&self.frame, out);
        out.push(u8::from(self.abort));
        self.buffer.write(out);
        write_run(&self.source, out);
    }
}

impl BuildsRecord {
    pub fn read(input: &mut Input) -> Result<Self, BadRecord> {
        let mut record = Self {
            refused: input.choice()?,
            key: input.array()?,
            nonce: input.array()?,
            spent: input.u64()?,
            builds: Vec::new(),
            spoilt: false,
        };
        let count = input.u16()?;
        if count > MOST_BUILDS {
            return Err(BadRecord);
        }
        for _ in 0..count {
            match Build::read(input) {
                Ok(build) => record.builds.push(build),
                Err(BadRecord) => {
                    record.spoilt = true;
                    break;
                }
            }
        }
        Ok(record)
    }

    pub fn write(&self, out: &mut Vec<u8>) {
        out.push(u8::from(self.refused));
        out.extend(self.key);
        out.extend(self.nonce);
        out.extend(self.spent.to_le_bytes());
        out.extend((self.builds.len() as u16).to_le_bytes());
        self.builds.iter().for_each(|build| build.write(out));
    }
}

#[cfg(test)]
mod tests {
    use super::*;
    use crate::records::Record;

    /// The length of the fields before the first build, and of each build.
    const BEFORE: usize = 40;
    const BUILD: usize = 44 + 3;

    fn bytes() -> Vec<u8> {
        let mut bytes = vec![b'Y', 1];
        bytes.extend((0..28).chain(1..=8).chain([2, 0]));
        for tag in [17, 0] {
            bytes.extend([tag, 2]);
            bytes.extend([1, 2, 3, 4, 5, 6]);
            bytes.extend([7, 8, 9, 10, 11, 12]);
            bytes.extend([0; 11]);
            bytes.extend([0x80, 1]);
            bytes.extend([0, 0, 1, 0, 0xFE]);
            bytes.extend([1, 2, 3, 4, 5, 6, 7, 8]);
            bytes.extend([3, 0, 0, 0, 9, 8, 7]);
        }
        bytes
    }

    fn read(bytes: &[u8]) -> Option<BuildsRecord> {
        match Record::read(&mut Input::new(bytes)) {
            Ok(Record::Builds(record)) => Some(record),
            _ => None,
        }
    }

    #[test]
    fn read_field_by_field() {
        let record = read(&bytes()).expect("a record of builds");
        assert!(record.refused && !record.spoilt);
        assert_eq!((record.key[15], record.nonce[0]), (15, 16));
        assert_eq!(record.spent, 0x0807_0605_0403_0201);
        let [first, second] = record.builds.as_slice() else {
            panic!("not two builds");
        };
        assert_eq!(
            (first.frame.tag, first.frame.count, first.abort),
            (17, 2, true)
        );
        assert_eq!(first.frame.segments[0].length, 0x0403_0201);
        assert_eq!(first.frame.segments[3].alignment, 0x8000);
        assert_eq!((first.buffer.length, first.buffer.fill), (65_536, 0xFE));
        assert_eq!(first.buffer.queued, 0x0807_0605_0403_0201);
        assert_eq!((second.frame.tag, &second.source[..]), (0, &[9, 8, 7][..]));
        let record = Record::Builds(record);
        assert_eq!((record.lines(), record.to_bytes()), (2, bytes()));
    }

    #[test]
    fn builds_before_a_bad_one_count() {
        let bytes = bytes();
        assert_eq!(bytes.len(), BEFORE + 2 * BUILD);
        for cut in 0..bytes.len() {
            let ran = read(&bytes[..cut]).map(|record| (record.builds.len(), record.spoilt));
            let expected = (cut >= BEFORE).then(|| ((cut - BEFORE) / BUILD, true));
            assert_eq!(ran, expected, "{cut}");
        }
        let with = |place: usize, byte: u8| {
            let mut bytes = bytes.clone();
            bytes[place] = byte;
            read(&bytes).map(|record| (record.builds.len(), record.spoilt))
        };
        let second = BEFORE + BUILD;
        assert_eq!((with(0, b'y'), with(1, 2)), (None, None));
        // 257 builds are too many; 256 are not, they only break off here.
        let count = |count: u16| {
            let mut bytes = bytes.clone();
            bytes[BEFORE - 2..BEFORE].copy_from_slice(&count.to_le_bytes());
            read(&bytes).map(|record| (record.builds.len(), record.spoilt))
        };
        assert_eq!((count(257), count(u16::MAX)), (None, None));
        assert_eq!((count(256), count(1)), (Some((2, true)), Some((1, false))));
        // Abort, buffer length, source length.
        assert_eq!(with(second + 26, 2), Some((1, true)));
        assert_eq!(with(second + 27, 1), Some((1, true)));
        assert_eq!(with(second + 42, 1), Some((1, true)));
        assert_eq!(with(BEFORE + 26, 0), Some((2, false)));
        assert_eq!(with(BEFORE + 29, 2), Some((0, true)));
    }
}
