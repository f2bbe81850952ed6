//! Runs the records one after the other and prints their answers.

use crate::banner::Features;
use crate::builder::{build_banner, build_frame};
use crate::checksum::{checksum, SEGMENT_START};
use crate::frame::Frame;
use crate::gcm;
use crate::input::{BadRecord, Input};
use crate::receiver::Receiver;
use crate::records::{
    BannerRecord, ChecksumRecord, FrameRecord, ReceiverRecord, Record, SealingRecord,
};
use crate::refusal::Refusal;
use crate::report::Report;
use crate::wire::Revision;
use session::session_lines;
use std::io::{self, Write};
use switching::{build_lines, lending_lines, switching_lines};

mod handshake;
mod session;
mod switching;

fn checksum_line(record: &ChecksumRecord, out: &mut impl Write) -> io::Result<()> {
    writeln!(out, "crc {:08x}", checksum(record.start, &record.bytes))
}

/// What is printed of a buffer: the checksum of all its bytes.
fn buffer_checksum(buffer: &[u8]) -> u32 {
    checksum(SEGMENT_START, buffer)
}

/// A builder's answer, with the checksum of the send buffer as it then is.
fn built_line(answer: Result<u64, Refusal>, buffer: &[u8], out: &mut impl Write) -> io::Result<()> {
    let crc = buffer_checksum(buffer);
    match answer {
        Ok(written) => writeln!(out, "wrote {written} crc {crc:08x}"),
        Err(Refusal { number, detail }) => {
            let [a, b, c] = detail;
            writeln!(out, "refused {number} detail {a} {b} {c} crc {crc:08x}")
        }
    }
}

fn banner_line(record: &BannerRecord, out: &mut impl Write) -> io::Result<()> {
    let mut buffer = record.buffer.bytes();
    let answer = build_banner(record.features, &mut buffer, record.buffer.queued);
    built_line(answer, &buffer, out)
}

fn frame_line(record: &FrameRecord, out: &mut impl Write) -> io::Result<()> {
    let mut buffer = record.buffer.bytes();
    let answer = build_frame(&record.request(), &mut buffer, record.buffer.queued);
    built_line(answer, &buffer, out)
}

fn seal_line(record: &SealingRecord, out: &mut impl Write) -> io::Result<()> {
    let mut buffer = record.store.bytes();
    let answer = gcm::seal(&record.key, &record.nonce, &record.bytes, &mut buffer);
    built_line(answer, &buffer, out)
}

fn open_line(record: &SealingRecord, out: &mut impl Write) -> io::Result<()> {
    let mut buffer = record.store.bytes();
    let answer = gcm::open(&record.key, &record.nonce, &record.bytes, &mut buffer);
    built_line(answer, &buffer, out)
}

fn start_line(started: Result<(), Refusal>, out: &mut impl Write) -> io::Result<()> {
    match started {
        Ok(()) => writeln!(out, "start ok"),
        Err(Refusal { number, detail }) => {
            let [a, b, c] = detail;
            writeln!(out, "start refused {number} detail {a} {b} {c}")
        }
    }
}

fn frame_fields(frame: &Frame) -> String {
    let Frame { tag, count, .. } = frame;
    let [a, b, c, d] = frame.segments.map(|segment| segment.length);
    let [e, f, g, h] = frame.segments.map(|segment| segment.alignment);
    format!("tag {tag} segments {count} lengths {a} {b} {c} {d} alignments {e} {f} {g} {h}")
}

/// A call's report, with the checksum of the store as it then is.
fn report_line(
    taken: usize,
    report: &Report,
    store: &[u8],
    out: &mut impl Write,
) -> io::Result<()> {
    match report {
        Report::More => write!(out, "more taken {taken}"),
        Report::Banner { peer, revision } => {
            let Features {
                supported,
                required,
            } = peer;
            let revision = u8::from(*revision == Revision::Msgr21);
            write!(out, "banner taken {taken} ")?;
            write!(
                out,
                "supported {supported} required {required} revision {revision}"
            )
        }
        Report::First(frame) => write!(out, "first taken {taken} {}", frame_fields(frame)),
        Report::Frame(frame) => write!(out, "frame taken {taken} {}", frame_fields(frame)),
        Report::Dropped(frame) => write!(out, "dropped taken {taken} {}", frame_fields(frame)),
        Report::Refused(Refusal { number, detail }) => {
            let [a, b, c] = detail;
            write!(
                out,
                "refused taken {taken} number {number} detail {a} {b} {c}"
            )
        }
    }?;
    writeln!(out, " crc {:08x}", buffer_checksum(store))
}

/// Starts a receiver and makes the calls, each from the first byte not taken.
fn receiver_lines(record: &ReceiverRecord, out: &mut impl Write) -> io::Result<()> {
    let (mut receiver, started) = Receiver::start(record.own);
    start_line(started, out)?;
    let mut store = record.store.bytes();
    let mut left = record.stream.as_slice();
    for &length in &record.pieces {
        let piece = &left[..left.len().min(length as usize)];
        let (taken, report) = receiver.receive(piece, &mut store);
        left = &left[taken..];
        report_line(taken, &report, &store, out)?;
    }
    Ok(())
}

const BAD_RECORD: &str = "bad record";

pub fn run(bytes: &[u8], out: &mut impl Write) -> io::Result<()> {
    let mut input = Input::new(bytes);
    while !input.has_ended() {
        match Record::read(&mut input) {
            Ok(Record::Checksum(record)) => checksum_line(&record, out)?,
            Ok(Record::Banner(record)) => banner_line(&record, out)?,
            Ok(Record::Frame(record)) => frame_line(&record, out)?,
            Ok(Record::Receiver(record)) => receiver_lines(&record, out)?,
            Ok(Record::Body(record)) => handshake::body_line(&record, out)?,
            Ok(Record::Write(record)) => handshake::write_line(&record, out)?,
            Ok(Record::Mode(record)) => handshake::mode_line(&record, out)?,
            Ok(Record::Steps(record)) => {
                handshake::step_lines(&record, out)?;
                if record.breaks_off {
                    return writeln!(out, "{BAD_RECORD}");
                }
            }
            Ok(Record::Seal(record)) => seal_line(&record, out)?,
            Ok(Record::Open(record)) => open_line(&record, out)?,
            Ok(Record::Lending(record)) => lending_lines(&record, out)?,
            Ok(Record::Session(record)) => {
                session_lines(&record, out)?;
                if record.spoilt {
                    return writeln!(out, "{BAD_RECORD}");
                }
            }
            Ok(Record::Switching(record)) => switching_lines(&record, out)?,
            Ok(Record::Builds(record)) => {
                build_lines(&record, out)?;
                if record.spoilt {
                    return writeln!(out, "{BAD_RECORD}");
                }
            }
            Err(BadRecord) => return writeln!(out, "{BAD_RECORD}"),
        }
    }
    Ok(())
}

#[cfg(test)]
mod receiver_tests;
#[cfg(test)]
mod switching_tests;

#[cfg(test)]
pub(crate) mod tests {
    use super::*;

    pub fn printed(bytes: &[u8]) -> String {
        let mut out = Vec::new();
        run(bytes, &mut out).expect("writing to memory");
        String::from_utf8(out).expect("plain text")
    }

    #[test]
    fn no_input_prints_nothing() {
        assert_eq!(printed(&[]), "");
    }

    #[test]
    fn checksum_record() {
        let bytes = b"C\xFF\xFF\xFF\xFF\x09\x00\x00\x00123456789";
        assert_eq!(printed(bytes), "crc 1cf96d7c\n");
    }

    #[test]
    fn refused_banner_leaves_the_buffer() {
        // A buffer of 32 bytes that count up from 0 has a published checksum.
        let mut bytes = b"B\x01\0\0\0\0\0\0\0\0\0\0\0\0\0\0\0".to_vec();
        bytes.extend(b"\x20\0\0\0\0\x07\0\0\0\0\0\0\0");
        assert_eq!(printed(&bytes), "refused 14 detail 26 0 0 crc b92286b1\n");
    }

    #[test]
    fn empty_frame_fills_its_buffer() {
        // From FFFFFFFF a good preamble ends where 32 zero bytes end.
        let mut bytes = b"F\x01\x10\x01".to_vec();
        bytes.extend([0; 24]);
        bytes.extend(b"\0\x20\0\0\0\x55\0\0\0\0\0\0\0\0\0\0\0\0");
        assert_eq!(printed(&bytes), "wrote 32 crc 756ec955\n");
    }

    #[test]
    fn a_bad_record_ends_the_run() {
        let good = b"C\0\0\0\0\0\0\0\0";
        let bytes = [good.as_slice(), b"x", good].concat();
        assert_eq!(printed(&bytes), "crc 00000000\nbad record\n");
    }
}
