//! Case records: how they are read and how they are written.

use crate::banner::Features;
use crate::builder::FrameRequest;
use crate::frame::{Frame, Segment, SEGMENTS};
use crate::input::{BadRecord, Input, LARGEST_LENGTH};
use crate::wire::Revision;

mod builds;
mod handshake;
mod lending;
mod receiver;
mod sealing;
mod session;
mod switching;

pub use builds::{Build, BuildsRecord, MOST_BUILDS};
pub use handshake::{BodyRecord, ModeRecord, StepsRecord, WriteRecord};
pub use lending::{LendingRecord, LentCall};
pub use receiver::{FrameStore, ReceiverRecord};
pub use sealing::SealingRecord;
pub use session::{SessionCall, SessionRecord};
pub use switching::{Call, SwitchingRecord, Try, MOST_TRIES, TRY_LENGTH};

const CHECKSUM_KIND: u8 = b'C';
const BANNER_KIND: u8 = b'B';
const FRAME_KIND: u8 = b'F';
const RECEIVER_KIND: u8 = b'R';
const BODY_KIND: u8 = b'H';
const WRITE_KIND: u8 = b'W';
const STEPS_KIND: u8 = b'P';
const MODE_KIND: u8 = b'M';
const LENDING_KIND: u8 = b'T';
const SESSION_KIND: u8 = b'N';
const SEAL_KIND: u8 = b'S';
const OPEN_KIND: u8 = b'O';
const SWITCHING_KIND: u8 = b'X';
const BUILDS_KIND: u8 = b'Y';

#[derive(Clone, Debug, PartialEq, Eq)]
pub enum Record {
    Checksum(ChecksumRecord),
    Banner(BannerRecord),
    Frame(FrameRecord),
    Receiver(ReceiverRecord),
    Body(BodyRecord),
    Write(WriteRecord),
    Steps(StepsRecord),
    Mode(ModeRecord),
    Lending(LendingRecord),
    Session(SessionRecord),
    Seal(SealingRecord),
    Open(SealingRecord),
    Switching(SwitchingRecord),
    Builds(BuildsRecord),
}

#[derive(Clone, Debug, PartialEq, Eq)]
pub struct ChecksumRecord {
    pub start: u32,
    pub bytes: Vec<u8>,
}

/// A send buffer and how many of its bytes are said to be queued.
#[derive(Clone, Copy, Debug, PartialEq, Eq)]
pub struct SendBuffer {
    pub length: u32,
    pub fill: u8,
    pub queued: u64,
}

#[derive(Clone, Debug, PartialEq, Eq)]
pub struct BannerRecord {
    pub features: Features,
    pub buffer: SendBuffer,
}

#[derive(Clone, Debug, PartialEq, Eq)]
pub struct FrameRecord {
    pub revision: Revision,
    pub frame: Frame,
    pub abort: bool,
    pub buffer: SendBuffer,
    pub source: Vec<u8>,
}

/// The bytes of a buffer or store before the calls: they count up from `fill`.
pub(crate) fn counting(length: u32, fill: u8) -> Vec<u8> {
    let counted = (0..length).map(|place| fill.wrapping_add(place as u8));
    counted.collect()
}

impl SendBuffer {
    /// A buffer with `needed` bytes of room between `queued` and `behind` more.
    pub fn around(needed: u64, queued: u32, behind: u32, fill: u8) -> Self {
        let wanted = needed + u64::from(queued) + u64::from(behind);
        Self {
            length: wanted.min(u64::from(LARGEST_LENGTH)) as u32,
            fill,
            queued: u64::from(queued),
        }
    }

    pub fn bytes(&self) -> Vec<u8> {
        counting(self.length, self.fill)
    }

    fn read(input: &mut Input) -> Result<Self, BadRecord> {
        Ok(Self {
            length: input.length()?,
            fill: input.u8()?,
            queued: input.u64()?,
        })
    }

    fn write(&self, out: &mut Vec<u8>) {
        out.extend(self.length.to_le_bytes());
        out.push(self.fill);
        out.extend(self.queued.to_le_bytes());
    }
}

fn read_features(input: &mut Input) -> Result<Features, BadRecord> {
    Ok(Features {
        supported: input.u64()?,
        required: input.u64()?,
    })
}

fn write_features(features: &Features, out: &mut Vec<u8>) {
    out.extend(features.supported.to_le_bytes());
    out.extend(features.required.to_le_bytes());
}

fn write_run(bytes: &[u8], out: &mut Vec<u8>) {
    out.extend((bytes.len() as u32).to_le_bytes());
    out.extend(bytes);
}

impl ChecksumRecord {
    fn read(input: &mut Input) -> Result<Self, BadRecord> {
        Ok(Self {
            start: input.u32()?,
            bytes: input.run()?,
        })
    }

    fn write(&self, out: &mut Vec<u8>) {
        out.extend(self.start.to_le_bytes());
        write_run(&self.bytes, out);
    }
}

impl BannerRecord {
    fn read(input: &mut Input) -> Result<Self, BadRecord> {
        Ok(Self {
            features: read_features(input)?,
            buffer: SendBuffer::read(input)?,
        })
    }

    fn write(&self, out: &mut Vec<u8>) {
        write_features(&self.features, out);
        self.buffer.write(out);
    }
}

impl FrameRecord {
    pub fn request(&self) -> FrameRequest<'_> {
        FrameRequest {
            revision: self.revision,
            frame: self.frame,
            abort: self.abort,
            source: &self.source,
        }
    }

    fn read(input: &mut Input) -> Result<Self, BadRecord> {
        let revision = if input.choice()? {
            Revision::Msgr21
        } else {
            Revision::Msgr20
        };
        Ok(Self {
            revision,
            frame: read_frame(input)?,
            abort: input.choice()?,
            buffer: SendBuffer::read(input)?,
            source: input.run()?,
        })
    }

    fn write(&self, out: &mut Vec<u8>) {
        out.push(u8::from(self.revision == Revision::Msgr21));
        write_frame(&self.frame, out);
        out.push(u8::from(self.abort));
        self.buffer.write(out);
        write_run(&self.source, out);
    }
}

/// Tag, count and the four places; here the numbers are free.
fn read_frame(input: &mut Input) -> Result<Frame, BadRecord> {
    let tag = input.u8()?;
    let count = input.u8()?;
    let mut segments = [Segment::default(); SEGMENTS];
    for segment in &mut segments {
        segment.length = input.u32()?;
        segment.alignment = input.u16()?;
    }
    Ok(Frame {
        tag,
        count,
        segments,
    })
}

fn write_frame(frame: &Frame, out: &mut Vec<u8>) {
    out.extend([frame.tag, frame.count]);
    for segment in &frame.segments {
        out.extend(segment.length.to_le_bytes());
        out.extend(segment.alignment.to_le_bytes());
    }
}

impl Record {
    pub fn read(input: &mut Input) -> Result<Self, BadRecord> {
        match input.u8()? {
            CHECKSUM_KIND => ChecksumRecord::read(input).map(Record::Checksum),
            BANNER_KIND => BannerRecord::read(input).map(Record::Banner),
            FRAME_KIND => FrameRecord::read(input).map(Record::Frame),
            RECEIVER_KIND => ReceiverRecord::read(input).map(Record::Receiver),
            BODY_KIND => BodyRecord::read(input).map(Record::Body),
            WRITE_KIND => WriteRecord::read(input).map(Record::Write),
            STEPS_KIND => StepsRecord::read(input).map(Record::Steps),
            MODE_KIND => ModeRecord::read(input).map(Record::Mode),
            LENDING_KIND => LendingRecord::read(input).map(Record::Lending),
            SESSION_KIND => SessionRecord::read(input).map(Record::Session),
            SEAL_KIND => SealingRecord::read(input).map(Record::Seal),
            OPEN_KIND => SealingRecord::read(input).map(Record::Open),
            SWITCHING_KIND => SwitchingRecord::read(input).map(Record::Switching),
            BUILDS_KIND => BuildsRecord::read(input).map(Record::Builds),
            _ => Err(BadRecord),
        }
    }

    pub fn write(&self, out: &mut Vec<u8>) {
        match self {
            Record::Checksum(record) => {
                out.push(CHECKSUM_KIND);
                record.write(out);
            }
            Record::Banner(record) => {
                out.push(BANNER_KIND);
                record.write(out);
            }
            Record::Frame(record) => {
                out.push(FRAME_KIND);
                record.write(out);
            }
            Record::Receiver(record) => {
                out.push(RECEIVER_KIND);
                record.write(out);
            }
            Record::Body(record) => {
                out.push(BODY_KIND);
                record.write(out);
            }
            Record::Write(record) => {
                out.push(WRITE_KIND);
                record.write(out);
            }
            Record::Steps(record) => {
                out.push(STEPS_KIND);
                record.write(out);
            }
            Record::Mode(record) => {
                out.push(MODE_KIND);
                record.write(out);
            }
            Record::Lending(record) => {
                out.push(LENDING_KIND);
                record.write(out);
            }
            Record::Session(record) => {
                out.push(SESSION_KIND);
                record.write(out);
            }
            Record::Seal(record) => {
                out.push(SEAL_KIND);
                record.write(out);
            }
            Record::Open(record) => {
                out.push(OPEN_KIND);
                record.write(out);
            }
            Record::Switching(record) => {
                out.push(SWITCHING_KIND);
                record.write(out);
            }
            Record::Builds(record) => {
                out.push(BUILDS_KIND);
                record.write(out);
            }
        }
    }

    /// How many lines its run must print.
    pub fn lines(&self) -> usize {
        match self {
            Record::Checksum(_) | Record::Banner(_) | Record::Frame(_) => 1,
            Record::Body(_) | Record::Write(_) | Record::Mode(_) => 1,
            // A step that cannot be read has a line too.
            Record::Steps(record) => record.steps.len() + usize::from(record.breaks_off),
            Record::Seal(_) | Record::Open(_) => 1,
            // The start has a line of its own.
            Record::Receiver(record) => 1 + record.pieces.len(),
            Record::Lending(record) => record.lines(),
            Record::Switching(record) => record.lines(),
            Record::Builds(record) => record.builds.len() + usize::from(record.spoilt),
            Record::Session(record) => record.calls.len(),
        }
    }

    /// The record's bytes by themselves.
    pub fn to_bytes(&self) -> Vec<u8> {
        let mut bytes = Vec::new();
        self.write(&mut bytes);
        bytes
    }
}

#[cfg(test)]
mod tests {
    use super::*;

    const FRAME_BYTES: [u8; 50] = [
        b'F', 1, 17, 2, // kind, revision, tag, count
        1, 2, 3, 4, 5, 6, // segment 1
        7, 8, 9, 10, 11, 12, // segment 2
        0, 0, 0, 0, 0, 0, // segment 3
        0, 0, 0, 0, 0, 0x80, // segment 4
        1,    // abort
        0, 0, 1, 0,    // buffer length
        0xFE, // fill
        1, 2, 3, 4, 5, 6, 7, 8, // queued
        3, 0, 0, 0, 9, 8, 7, // source
        0, // the next byte
    ];

    #[test]
    fn frame_record_is_read_field_by_field() {
        let mut input = Input::new(&FRAME_BYTES);
        let Ok(Record::Frame(record)) = Record::read(&mut input) else {
            panic!("no frame record");
        };
        let segment = |length, alignment| Segment { length, alignment };
        assert_eq!((record.revision, record.abort), (Revision::Msgr21, true));
        assert_eq!((record.frame.tag, record.frame.count), (17, 2));
        assert_eq!(record.frame.segments[0], segment(0x0403_0201, 0x0605));
        assert_eq!(record.frame.segments[1], segment(0x0A09_0807, 0x0C0B));
        assert_eq!(record.frame.segments[3], segment(0, 0x8000));
        assert_eq!((record.buffer.length, record.buffer.fill), (65_536, 0xFE));
        assert_eq!(record.buffer.queued, 0x0807_0605_0403_0201);
        assert_eq!(record.source, [9, 8, 7]);
        assert_eq!(input.u8(), Ok(0));
        assert!(input.has_ended());
        assert_eq!(Record::Frame(record).to_bytes(), FRAME_BYTES[..49]);
    }

    #[test]
    fn every_cut_is_a_bad_record() {
        for cut in 0..49 {
            let read = Record::read(&mut Input::new(&FRAME_BYTES[..cut]));
            assert_eq!(read, Err(BadRecord));
        }
    }

    #[test]
    fn free_and_limited_fields() {
        let with = |place: usize, byte: u8| {
            let mut bytes = FRAME_BYTES;
            bytes[place] = byte;
            Record::read(&mut Input::new(&bytes)).is_ok()
        };
        assert!(with(2, 0) && with(3, 255) && with(7, 255) && with(41, 255));
        assert!(!with(0, b'f') && !with(1, 2) && !with(28, 2));
        assert!(!with(29, 1) && !with(31, 2) && !with(42, 5) && !with(44, 1));
    }

    #[test]
    fn buffer_counts_up_from_its_fill() {
        let buffer = SendBuffer {
            length: 4,
            fill: 0xFE,
            queued: 0,
        };
        assert_eq!(buffer.bytes(), [0xFE, 0xFF, 0x00, 0x01]);
    }
}
