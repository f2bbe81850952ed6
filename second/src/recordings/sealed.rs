//! A recorded link as it would have been with a switch: the frames behind it
//! sealed by our own builder.

use super::{malformed, OWN, STORE};
use crate::builder::FrameRequest;
use crate::receiver::Receiver;
use crate::report::Report;
use crate::secure::{wire_length, Sending};
use crate::wire::Revision;
use std::io;
use std::path::Path;

/// The link's bytes with the frames behind the one of this number sealed.
pub fn seal_behind(link: &[u8], after: usize, mut sending: Sending) -> io::Result<Vec<u8>> {
    let (mut receiver, _) = Receiver::start(OWN);
    let mut store = STORE.bytes();
    let mut sealed = Vec::new();
    let (mut place, mut begins, mut frames) = (0, 0, 0);
    loop {
        let (taken, report) = receiver.receive(&link[place..], &mut store);
        place += taken;
        let (frame, abort) = match report {
            Report::First(_) => continue,
            Report::Banner { .. } => {
                sealed.extend(&link[begins..place]);
                begins = place;
                continue;
            }
            Report::Frame(frame) => (frame, false),
            Report::Dropped(frame) => (frame, true),
            Report::More if taken == 0 => return Ok(sealed),
            _ => return Err(malformed(Path::new("link"), "no whole link")),
        };
        frames += 1;
        if frames <= after {
            sealed.extend(&link[begins..place]);
        } else {
            let request = FrameRequest {
                revision: Revision::Msgr21,
                frame,
                abort,
                source: &store[..frame.sum() as usize],
            };
            let mut bytes = vec![0; wire_length(&frame) as usize];
            let built = sending.build(&request, &mut bytes, 0);
            built.map_err(|_| malformed(Path::new("link"), "a frame that isn't built"))?;
            sealed.extend(bytes);
        }
        begins = place;
    }
}
