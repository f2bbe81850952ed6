//! The lines of a session's calls.

use crate::records::{SessionCall, SessionRecord};
use crate::refusal::Refusal;
use crate::session::{Message, Session};
use std::io::{self, Write};

fn refused_line(refusal: &Refusal, out: &mut impl Write) -> io::Result<()> {
    let [a, b, c] = refusal.detail;
    writeln!(out, "refused {} detail {a} {b} {c}", refusal.number)
}

fn resend_line(messages: &[Message], out: &mut impl Write) -> io::Result<()> {
    write!(out, "resend {}", messages.len())?;
    for message in messages {
        write!(out, " {} {}", message.number, message.handle)?;
    }
    writeln!(out)
}

fn held_line(message: Option<&Message>, out: &mut impl Write) -> io::Result<()> {
    match message {
        Some(message) => writeln!(out, "held {} {}", message.number, message.handle),
        None => writeln!(out, "held none"),
    }
}

fn call_line(session: &mut Session, call: SessionCall, out: &mut impl Write) -> io::Result<()> {
    match call {
        SessionCall::Accept(handle) => match session.accept(handle) {
            Ok(number) => writeln!(out, "number {number}"),
            Err(refusal) => refused_line(&refusal, out),
        },
        SessionCall::Ack(number) => match session.ack(number) {
            Ok(()) => writeln!(out, "ack held {}", session.held().len()),
            Err(refusal) => refused_line(&refusal, out),
        },
        SessionCall::Reconnect(msg_seq) => match session.reconnect(msg_seq) {
            Ok(messages) => resend_line(&messages, out),
            Err(refusal) => refused_line(&refusal, out),
        },
        SessionCall::Reset { full } => {
            session.reset(full);
            writeln!(out, "reset held {}", session.held().len())
        }
        SessionCall::Held(place) => {
            let held = session.held();
            let place = usize::try_from(place).ok();
            held_line(place.and_then(|place| held.get(place)), out)
        }
    }
}

pub fn session_lines(record: &SessionRecord, out: &mut impl Write) -> io::Result<()> {
    let mut session = Session::after(record.last);
    for call in &record.calls {
        call_line(&mut session, *call, out)?;
    }
    Ok(())
}
