//! The stored links are recorded ones, sealed by our own builder, and read back
//! as what was recorded.

use super::*;
use crate::banner::Features;
use crate::builder::FrameRequest;
use crate::fixed::switching::frames::{build, SHAPES};
use crate::receiver::Receiver;
use crate::recordings::sealed::seal_behind;
use crate::report::Report;
use crate::secure::{Direction, Sending};
use crate::wire::{frame_bytes, Revision};
use std::fs;
use std::path::Path;

/// The recording that a stored link was made of; the last was made of examples.
fn recording(stored: &Stored) -> Option<Vec<u8>> {
    let name = match stored.name {
        "secure_cx_c2s" => "cx_badmethod_then_ok_c2s",
        "secure_cx_s2c" => "cx_badmethod_then_ok_s2c",
        "secure_put16000_c2s" => "none_put16000_osd_c2s",
        "secure_put16000_s2c" => "none_put16000_osd_s2c",
        _ => return None,
    };
    let folder = Path::new(env!("CARGO_MANIFEST_DIR")).join("../recordings");
    Some(fs::read(folder.join(format!("{name}.bin"))).expect("a recording"))
}

fn sending(stored: &Stored) -> Sending {
    let (_, secrets) = stored.switch();
    Sending::Sealing(Direction::new(secrets.key, secrets.receiving, 0))
}

/// A banner, an empty frame, and each example behind the switch.
fn shapes(mut sending: Sending) -> Vec<u8> {
    let empty = build(&[0], false);
    let mut link = Features::new(1, 0).banner();
    link.extend(frame_bytes(Revision::Msgr21, &empty.frame, false, &[]));
    for (lengths, abort) in SHAPES {
        let build = build(lengths, abort);
        let request: FrameRequest = build.request();
        let mut buffer = build.buffer.bytes();
        let built = sending.build(&request, &mut buffer, 0);
        assert_eq!(built, Ok(buffer.len() as u64));
        link.extend(buffer);
    }
    link
}

#[test]
fn stored_links_are_what_our_builder_makes() {
    for stored in &LINKS {
        let (after, _) = stored.switch();
        let made = match recording(stored) {
            Some(link) => seal_behind(&link, after, sending(stored)).expect("a link"),
            None => shapes(sending(stored)),
        };
        assert!(made == stored.link().stream, "{}", stored.name);
    }
}

/// Frames and drops with their segments.
fn read(stream: &[u8], switch: Option<(usize, Secrets)>) -> Vec<(Report, Vec<u8>)> {
    let (mut receiver, _) = Receiver::start(OWN);
    let mut store = STORE.bytes();
    let mut left = stream;
    let mut frames = Vec::new();
    loop {
        let (taken, report) = receiver.receive(left, &mut store);
        left = &left[taken..];
        match report {
            Report::Frame(frame) | Report::Dropped(frame) => {
                let segments = store[..frame.sum() as usize].to_vec();
                frames.push((report, segments));
                if let Some((_, secrets)) = switch.filter(|(after, _)| *after == frames.len()) {
                    assert_eq!(receiver.switch(&secrets).1, Ok(()));
                }
            }
            Report::More => {
                assert!(left.is_empty());
                return frames;
            }
            Report::Refused(refusal) => panic!("{refusal:?}"),
            _ => {}
        }
    }
}

#[test]
fn sealed_links_read_as_what_was_recorded() {
    for stored in &LINKS {
        let read_back = read(&stored.link().stream, Some(stored.switch()));
        match recording(stored) {
            Some(link) => assert_eq!(read_back, read(&link, None), "{}", stored.name),
            None => assert_eq!(read_back.len(), 1 + SHAPES.len()),
        }
    }
}

/// The two directions of a connection have one key and different nonces.
#[test]
fn two_directions_share_a_key_and_no_nonce() {
    for pair in LINKS[..4].chunks(2) {
        let ((_, ours), (_, theirs)) = (pair[0].switch(), pair[1].switch());
        assert_eq!(ours.key, theirs.key);
        assert_eq!(
            (ours.receiving, ours.sending),
            (theirs.sending, theirs.receiving)
        );
        assert_ne!(ours.receiving[..4], ours.sending[..4]);
    }
}
