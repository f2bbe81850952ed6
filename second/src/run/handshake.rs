//! Lines of bodies, handshake steps and modes.

use super::{buffer_checksum, built_line};
use crate::body::{self, Body};
use crate::handshake::{pick, step, State};
use crate::records::{BodyRecord, ModeRecord, StepsRecord, WriteRecord};
use crate::refusal::Refusal;
use std::io::{self, Write};

/// A run of opaque bytes: its length and checksum.
fn run_of(bytes: &[u8]) -> String {
    format!("{} crc {:08x}", bytes.len(), buffer_checksum(bytes))
}

/// A list: its count and its numbers.
fn list_of(numbers: &[u32]) -> String {
    let numbers = numbers.iter().map(|number| format!(" {number}"));
    format!("{}{}", numbers.len(), numbers.collect::<String>())
}

fn named(names: &[&str], numbers: &[u64]) -> String {
    let pairs = names.iter().zip(numbers);
    pairs
        .map(|(name, number)| format!(" {name} {number}"))
        .collect()
}

const IDENT: [&str; 6] = ["gid", "global", "supported", "required", "flags", "cookie"];
const RECONNECT: [&str; 5] = ["client", "server", "global", "connect", "message"];

fn fields_of(tag: u8, body: &Body) -> String {
    match body {
        Body::Hello { entity, address } => format!("type {entity} address {}", run_of(address)),
        Body::AuthRequest {
            method,
            modes,
            payload,
        } => format!(
            "method {method} modes {} payload {}",
            list_of(modes),
            run_of(payload)
        ),
        Body::BadMethod {
            method,
            error,
            methods,
            modes,
        } => format!(
            "method {method} error {error} methods {} modes {}",
            list_of(methods),
            list_of(modes)
        ),
        Body::AuthMore { payload } => format!("payload {}", run_of(payload)),
        Body::AuthDone {
            global_id,
            mode,
            payload,
        } => format!("id {global_id} mode {mode} payload {}", run_of(payload)),
        Body::Ident {
            addresses,
            block,
            closing,
        } => format!(
            "addresses {addresses} block {}{}",
            run_of(block),
            named(&IDENT, closing)
        ),
        Body::Reconnect {
            addresses,
            block,
            closing,
        } => format!(
            "addresses {addresses} block {}{}",
            run_of(block),
            named(&RECONNECT, closing)
        ),
        Body::Number(number) if tag == 10 => format!("features {number}"),
        Body::Number(number) => format!("message {number}"),
        Body::Reset { full } => format!("full {full}"),
        Body::Stamp(stamp) => {
            let digits = stamp.iter().map(|byte| format!("{byte:02x}"));
            format!("stamp {}", digits.collect::<String>())
        }
    }
}

pub fn body_line(record: &BodyRecord, out: &mut impl Write) -> io::Result<()> {
    match body::read(record.tag, &record.bytes) {
        Ok(body) => writeln!(out, "body {} {}", record.tag, fields_of(record.tag, &body)),
        Err(Refusal { number, detail }) => {
            let [a, b, c] = detail;
            writeln!(out, "refused {number} detail {a} {b} {c}")
        }
    }
}

pub fn write_line(record: &WriteRecord, out: &mut impl Write) -> io::Result<()> {
    let mut buffer = record.buffer();
    let answer = body::write(record.body.as_ref(), &mut buffer);
    built_line(answer, &buffer, out)
}

pub fn step_lines(record: &StepsRecord, out: &mut impl Write) -> io::Result<()> {
    let mut state = State::Hello;
    for &(tag, verdict) in &record.steps {
        match step(record.side, state, tag, verdict) {
            Ok(next) => {
                state = next;
                writeln!(out, "state {}", state.name())?;
            }
            Err(Refusal { number, detail }) => {
                state = State::Closed;
                let [a, b, c] = detail;
                let name = state.name();
                writeln!(out, "refused {number} detail {a} {b} {c} state {name}")?;
            }
        }
    }
    Ok(())
}

pub fn mode_line(record: &ModeRecord, out: &mut impl Write) -> io::Result<()> {
    match pick(&record.preferred, &record.own) {
        Some(mode) => writeln!(out, "mode {mode}"),
        None => writeln!(out, "mode none"),
    }
}

#[cfg(test)]
mod tests {
    use crate::run::tests::printed;

    #[test]
    fn lines() {
        assert_eq!(
            printed(b"H\x12\x08\0\0\0\xd0\xc9\xf9\x6a\xa9\xee\x95\x0b"),
            "body 18 stamp d0c9f96aa9ee950b\n"
        );
        assert_eq!(
            printed(b"H\x03\x18\0\0\0\x01\0\0\0\xa1\xff\xff\xff\x01\0\0\0\x02\0\0\0\x01\0\0\0\x05\0\0\0"),
            "body 3 method 1 error -95 methods 1 2 modes 1 5\n"
        );
        assert_eq!(printed(b"H\x07\0\0\0\0"), "refused 20 detail 0 0 0\n");
        assert_eq!(printed(b"M\x01\x02\0\0\0\x01\x02\0\0\0"), "mode 2\n");
        assert_eq!(printed(b"M\0\0"), "mode none\n");
        assert_eq!(
            printed(b"P\x00\x02\0\x01\0\x09\0"),
            "state auth\nrefused 21 detail 9 0 0 state closed\n"
        );
        assert_eq!(
            printed(b"P\x00\x02\0\x01\0\x09\x20"),
            "state auth\nbad record\n"
        );
    }

    #[test]
    fn a_written_body() {
        // 32 bytes that count up from 0 have a published checksum.
        let mut bytes = b"W\x01\x20\0\0\0\x07\x00\x1f\0\0\0".to_vec();
        bytes.extend(1..32);
        assert_eq!(printed(&bytes), "wrote 32 crc b92286b1\n");
    }
}
