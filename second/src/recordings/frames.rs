//! The control frames of recorded links: their bodies, and the steps that
//! their tags are of the side that gets them.

use super::{malformed, names, Link, OWN, STORE};
use crate::body::{self, TAGS};
use crate::handshake::{Side, Verdict};
use crate::receiver::Receiver;
use crate::records::{BodyRecord, Record, StepsRecord, WriteRecord};
use crate::report::Report;
use std::io;
use std::path::Path;

/// A frame's tag and its first segment.
pub struct ControlFrame {
    pub tag: u8,
    pub body: Vec<u8>,
}

/// What one direction of a link carries, as far as the receiver takes it.
pub struct Frames {
    pub name: String,
    pub side: Side,
    pub frames: Vec<ControlFrame>,
}

impl Frames {
    fn of(name: &str, stream: &[u8]) -> Self {
        let (mut receiver, _) = Receiver::start(OWN);
        let mut store = STORE.bytes();
        let mut left = stream;
        let mut frames = Vec::new();
        loop {
            let (taken, report) = receiver.receive(left, &mut store);
            left = &left[taken..];
            match report {
                Report::Frame(frame) => frames.push(ControlFrame {
                    tag: frame.tag,
                    body: store[..frame.segments[0].length as usize].to_vec(),
                }),
                Report::More | Report::Refused(_) => break,
                _ => {}
            }
        }
        // What a client sends, a server gets.
        let side = if name.ends_with("_c2s") {
            Side::Server
        } else {
            Side::Client
        };
        Self {
            name: name.to_string(),
            side,
            frames,
        }
    }

    /// What the peer's next tag shows that the caller said of this one.
    fn verdict(&self, place: usize) -> Verdict {
        let next = self.frames.get(place + 1).map(|frame| frame.tag);
        let auth = match next {
            Some(2) => 0,
            Some(5) => 1,
            _ => 2,
        };
        let resumed = u8::from(matches!(next, Some(17..=20)));
        Verdict(auth | 0b1100 | resumed << 4)
    }

    pub fn steps(&self) -> StepsRecord {
        let steps = self.frames.iter().enumerate();
        StepsRecord {
            side: self.side,
            steps: steps
                .map(|(place, frame)| (frame.tag, self.verdict(place)))
                .collect(),
            breaks_off: false,
        }
    }

    /// Each body read, and what it says written again.
    fn records(&self) -> io::Result<Vec<Record>> {
        let mut records = Vec::new();
        for frame in &self.frames {
            if !TAGS.contains(&frame.tag) {
                continue;
            }
            let body = body::read(frame.tag, &frame.body)
                .map_err(|_| malformed(Path::new(&self.name), "a body that is not read"))?;
            records.push(Record::Body(BodyRecord {
                tag: frame.tag,
                bytes: frame.body.clone(),
            }));
            records.push(Record::Write(WriteRecord {
                tag: frame.tag,
                length: frame.body.len() as u32,
                fill: 0,
                body: Some(body),
            }));
        }
        records.push(Record::Steps(self.steps()));
        Ok(records)
    }
}

/// The links of a folder, frame by frame.
pub fn all(folder: &Path) -> io::Result<Vec<Frames>> {
    let names = names(folder)?;
    let links = names.iter().map(|name| {
        let link = Link::read(&folder.join(format!("{name}.bin")))?;
        Ok(Frames::of(name, &link.stream))
    });
    links.collect()
}

/// Bodies and steps of every link in a folder.
pub fn handshake_records(folder: &Path) -> io::Result<Vec<Record>> {
    let mut records = Vec::new();
    for frames in all(folder)? {
        records.extend(frames.records()?);
    }
    Ok(records)
}

#[cfg(test)]
mod tests {
    use super::*;
    use crate::handshake::{step, State};

    fn folder() -> &'static Path {
        Path::new(concat!(env!("CARGO_MANIFEST_DIR"), "/../recordings"))
    }

    /// Every control frame's body reads to its end and is written back byte
    /// for byte.
    #[test]
    fn bodies_read_and_are_written_back() {
        let mut seen = [0; 21];
        for link in all(folder()).expect("links") {
            for frame in &link.frames {
                if !TAGS.contains(&frame.tag) {
                    continue;
                }
                let body = body::read(frame.tag, &frame.body).expect("a body");
                let mut buffer = vec![0; frame.body.len()];
                let written = body::write(Some(&body), &mut buffer);
                assert_eq!(written, Ok(frame.body.len() as u64));
                assert_eq!(buffer, frame.body);
                seen[usize::from(frame.tag)] += 1;
            }
        }
        let never: Vec<u8> = TAGS
            .into_iter()
            .filter(|tag| seen[usize::from(*tag)] == 0)
            .collect();
        // No recorded link has missing features, a reset, or a keepalive's ack.
        assert_eq!(never, [10, 12, 19]);
    }

    /// Every link's tags are a walk of the side that gets them, and end in
    /// ready, but for the two that are told to wait.
    #[test]
    fn tags_are_walks() {
        for link in all(folder()).expect("links") {
            let mut state = State::Hello;
            for (tag, verdict) in link.steps().steps {
                state = step(link.side, state, tag, verdict).expect("a step of the walk");
            }
            let end = match link.name.as_str() {
                // The reconnect was answered with 16.
                "none_wait_osd_osd_c2s" => State::Session,
                "none_wait_osd_osd_s2c" => State::Wait,
                _ => State::Ready,
            };
            assert_eq!(state, end, "{}", link.name);
        }
    }
}
