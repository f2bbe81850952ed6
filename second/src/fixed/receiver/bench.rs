//! The bench cases as a receiver meets them. The store counts from 0 to 31
//! wherever it must stay as it is: the checksum of those bytes is published.

use crate::banner::Features;
use crate::fixed::examples::EXAMPLES;
use crate::fixed::receiver::case::{peer, Case};
use crate::fixed::request::{frame, source, REVISIONS};
use crate::frame::PREAMBLE_LENGTH;
use crate::input::LARGEST_LENGTH;
use crate::records::{FrameStore, Record};
use crate::spoil::WireFrame;
use crate::wire::Revision;

/// A banner and a frame for each record: two calls show them, one the end.
fn record(banner: Vec<u8>, frame: &WireFrame, store_length: u32) -> Record {
    let store = FrameStore {
        length: store_length,
        fill: 0,
    };
    let stream = [banner, frame.bytes.clone()].concat();
    let case = Case {
        store,
        ..Case::stream(stream)
    };
    case.calls(vec![LARGEST_LENGTH; 3])
}

fn sent(frame: &WireFrame, store_length: u32) -> Record {
    record(peer(frame.revision).banner(), frame, store_length)
}

fn whole(revision: Revision, lengths: &[u32]) -> WireFrame {
    let frame = frame(lengths);
    WireFrame::new(revision, frame, false, &source(frame.sum()))
}

/// Cases 4 and 5.
fn wire_lengths() -> Vec<Record> {
    let all = REVISIONS.map(|revision| {
        EXAMPLES.map(|lengths| {
            let frame = whole(revision, lengths);
            sent(&frame, frame.frame.sum() as u32)
        })
    });
    all.concat()
}

/// Case 6.
fn zero_preamble(revision: Revision) -> Vec<Record> {
    let mut frame = whole(revision, &[0]);
    frame.bytes[..PREAMBLE_LENGTH].fill(0);
    vec![sent(&frame, 32)]
}

/// Cases 7, 8 and 12: a preamble alone. At the limits of case 8 it is refused
/// for the store, above them for a length.
fn preambles(revision: Revision) -> Vec<Record> {
    let refused = |lengths: &[u32]| {
        let frame = WireFrame::preamble_only(revision, frame(lengths));
        sent(&frame, 32)
    };
    vec![
        refused(&[5, 0]),
        sent(&whole(revision, &[0]), 32),
        refused(&[1_048_576]),
        refused(&[1_048_577]),
        refused(&[1_048_576, 1_048_576]),
        refused(&[1_048_576, 1_048_576, 1]),
        refused(&[0x4000_0000; 4]),
    ]
}

/// Case 9.
fn required_by_the_peer() -> Record {
    let banner = Features::new(1, 0x14).banner();
    record(banner, &whole(Revision::Msgr21, &[0]), 32)
}

/// Case 10. The store is exactly the segment: 32 bytes FF, or zeros.
fn late_statuses() -> Vec<Record> {
    let made = |late: u8| {
        let frame = frame(&[0, 32]);
        let mut frame = WireFrame::new(Revision::Msgr21, frame, false, &[0xFF; 32]);
        *frame.late_byte_mut().expect("an epilogue") = late;
        sent(&frame, 32)
    };
    [0x0E, 0x01, 0x00, 0x0F, 0x1E].map(made).to_vec()
}

/// Case 11.
fn payload_lengths() -> Vec<Record> {
    let made = |length: u16| {
        let mut banner = Features::new(1, 0).banner();
        banner[8..10].copy_from_slice(&length.to_le_bytes());
        banner.resize(10 + usize::from(length), 0xEE);
        record(banner, &whole(Revision::Msgr21, &[0]), 32)
    };
    [15, 16, 1_024, 1_025].map(made).to_vec()
}

pub fn bench() -> Vec<Record> {
    let mut records = wire_lengths();
    records.extend(REVISIONS.into_iter().flat_map(zero_preamble));
    records.extend(REVISIONS.into_iter().flat_map(preambles));
    records.push(required_by_the_peer());
    records.extend(late_statuses());
    records.extend(payload_lengths());
    records
}
