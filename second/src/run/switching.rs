//! The lines of a receiver's calls with tries to switch among them, and of
//! sealed builds.

use super::{built_line, report_line, start_line};
use crate::builder::FrameRequest;
use crate::frame::{Frame, Segment, SEGMENTS};
use crate::receiver::Receiver;
use crate::records::{BuildsRecord, Call, LendingRecord, SwitchingRecord, Try};
use crate::refusal::Refusal;
use crate::secure::{Direction, Sending, FIRST_PART_LENGTH};
use crate::wire::Revision;
use std::io::{self, Write};

/// The tag of the frame that is built behind a try.
const WAIT_TAG: u8 = 16;

fn switch_line(switched: Result<(), Refusal>, out: &mut impl Write) -> io::Result<()> {
    match switched {
        Ok(()) => writeln!(out, "switch ok"),
        Err(Refusal { number, detail }) => {
            let [a, b, c] = detail;
            writeln!(out, "switch refused {number} detail {a} {b} {c}")
        }
    }
}

/// An empty frame built with the state that a try handed back.
fn empty_line(mut sending: Sending, out: &mut impl Write) -> io::Result<()> {
    let frame = Frame {
        tag: WAIT_TAG,
        count: 1,
        segments: [Segment::default(); SEGMENTS],
    };
    let request = FrameRequest {
        revision: Revision::Msgr21,
        frame,
        abort: false,
        source: &[],
    };
    let mut buffer: [u8; FIRST_PART_LENGTH] = std::array::from_fn(|place| place as u8);
    let answer = sending.build(&request, &mut buffer, 0);
    built_line(answer, &buffer, out)
}

/// A receiver under way: its store, and what of the stream isn't taken.
struct Calls<'a> {
    receiver: Receiver,
    store: Vec<u8>,
    tries: &'a [Try],
    left: &'a [u8],
}

impl Calls<'_> {
    /// Makes a call that lends so much of the store, from the front.
    fn call(&mut self, call: Call, lent: usize, out: &mut impl Write) -> io::Result<()> {
        match call {
            Call::Receive(length) => {
                let piece = &self.left[..self.left.len().min(length as usize)];
                let lent = self.store.len().min(lent);
                let (taken, report) = self.receiver.receive(piece, &mut self.store[..lent]);
                self.left = &self.left[taken..];
                report_line(taken, &report, &self.store, out)
            }
            Call::Switch(place) => {
                let Try { secrets, opened } = &self.tries[usize::from(place)];
                let (sending, switched) = self.receiver.switch_after(secrets, *opened);
                switch_line(switched, out)?;
                empty_line(sending, out)
            }
        }
    }
}

pub fn switching_lines(record: &SwitchingRecord, out: &mut impl Write) -> io::Result<()> {
    let (receiver, started) = Receiver::start(record.own);
    start_line(started, out)?;
    let mut calls = Calls {
        receiver,
        store: record.store.bytes(),
        tries: &record.tries,
        left: &record.stream,
    };
    let all = calls.store.len();
    let mut each = record.calls.iter();
    each.try_for_each(|&call| calls.call(call, all, out))
}

/// The same, but each call lends as much of the store as it says.
pub fn lending_lines(record: &LendingRecord, out: &mut impl Write) -> io::Result<()> {
    let (receiver, started) = Receiver::start(record.own);
    start_line(started, out)?;
    let mut calls = Calls {
        receiver,
        store: record.store.bytes(),
        tries: &record.tries,
        left: &record.stream,
    };
    let mut each = record.calls.iter();
    each.try_for_each(|call| calls.call(call.call, call.lent as usize, out))
}

pub fn build_lines(record: &BuildsRecord, out: &mut impl Write) -> io::Result<()> {
    let mut sending = if record.refused {
        Sending::Refused
    } else {
        Sending::Sealing(Direction::new(record.key, record.nonce, record.spent))
    };
    for build in &record.builds {
        let mut buffer = build.buffer.bytes();
        let answer = sending.build(&build.request(), &mut buffer, build.buffer.queued);
        built_line(answer, &buffer, out)?;
    }
    Ok(())
}
