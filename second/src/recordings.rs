//! Receiver records of recorded links, each cut in several ways.

use crate::banner::Features;
use crate::cutting::Course;
use crate::input::{LARGEST_LENGTH, LARGEST_STREAM, MOST_CALLS};
use crate::records::{FrameStore, ReceiverRecord, Record};
use std::fs;
use std::io;
use std::path::Path;

pub const OWN: Features = Features::new(1, 0);

pub const STORE: FrameStore = FrameStore {
    length: 32_768,
    fill: 0,
};

/// Bytes at the front and at the end of a long link that come byte by byte:
/// there are not calls enough in a record for all of it.
const EDGE: usize = 1_000;

/// Calls for what lies between the two edges, entries aside.
const CALLS_BETWEEN: usize = 1_900;

/// The calls behind the end of a link.
const AFTERWARDS: [u32; 2] = [0, LARGEST_LENGTH];

/// One direction of a recorded connection.
pub struct Link {
    pub stream: Vec<u8>,
    /// Where it was cut when it crossed the wire.
    pub cuts: Vec<usize>,
}

fn malformed(path: &Path, what: &str) -> io::Error {
    io::Error::other(format!("{}: {what}", path.display()))
}

/// The sizes in a cuts file, one to a line.
fn read_sizes(path: &Path) -> io::Result<Vec<usize>> {
    let text = fs::read_to_string(path)?;
    let size = |line: &str| line.parse().map_err(|_| malformed(path, "not a size"));
    text.lines().map(size).collect()
}

impl Link {
    /// A link and the sizes in which it arrived; nothing where they do not make it
    /// up.
    pub fn new(stream: Vec<u8>, sizes: impl IntoIterator<Item = usize>) -> Option<Self> {
        let mut place = 0;
        let mut cuts = Vec::new();
        for size in sizes {
            place += size;
            cuts.push(place);
        }
        (cuts.last() == Some(&stream.len())).then_some(Self { stream, cuts })
    }

    fn read(path: &Path) -> io::Result<Self> {
        let stream = fs::read(path)?;
        let cuts_path = path.with_extension("cuts");
        let sizes = read_sizes(&cuts_path)?;
        if stream.len() > LARGEST_STREAM as usize {
            return Err(malformed(path, "too long for a record"));
        }
        let link = Self::new(stream, sizes);
        link.ok_or_else(|| malformed(&cuts_path, "its sizes do not make up the link"))
    }

    fn record(&self, mut pieces: Vec<u32>) -> Record {
        pieces.extend(AFTERWARDS);
        assert!(pieces.len() <= usize::from(MOST_CALLS), "too many calls");
        Record::Receiver(ReceiverRecord {
            own: OWN,
            store: STORE,
            pieces,
            stream: self.stream.clone(),
        })
    }

    /// Byte by byte where that needs few enough calls; else at both edges,
    /// and in pieces of some bytes between them.
    pub fn finely(&self, course: &Course) -> Vec<u32> {
        let bytes = course.byte_by_byte();
        if bytes.len() + AFTERWARDS.len() <= usize::from(MOST_CALLS) {
            return bytes;
        }
        let last_edge = self.stream.len() - EDGE;
        let step = (last_edge - EDGE).div_ceil(CALLS_BETWEEN);
        let between = (EDGE..last_edge).step_by(step);
        course.pieces((1..EDGE).chain(between).chain(last_edge..self.stream.len()))
    }

    fn records(&self) -> [Record; 3] {
        let course = Course::of(OWN, STORE, &self.stream);
        [
            self.record(course.whole()),
            self.record(course.pieces(self.cuts.iter().copied())),
            self.record(self.finely(&course)),
        ]
    }
}

/// The names of the links in a folder, in order.
fn names(folder: &Path) -> io::Result<Vec<String>> {
    let mut names = Vec::new();
    for entry in fs::read_dir(folder)? {
        let path = entry?.path();
        if path.extension().is_some_and(|extension| extension == "bin") {
            let name = path.file_stem().and_then(|stem| stem.to_str());
            names.push(name.ok_or_else(|| malformed(&path, "no name"))?.to_string());
        }
    }
    names.sort();
    Ok(names)
}

mod frames;
pub mod sealed;

pub use frames::{handshake_records, Frames};

/// For each link: whole, by its recorded cuts, and byte by byte.
pub fn records(folder: &Path) -> io::Result<Vec<Record>> {
    let mut records = Vec::new();
    for name in names(folder)? {
        let link = Link::read(&folder.join(format!("{name}.bin")))?;
        records.extend(link.records());
    }
    if records.is_empty() {
        return Err(malformed(folder, "no links"));
    }
    Ok(records)
}

#[cfg(test)]
mod tests;
