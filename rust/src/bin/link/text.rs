//! The lines that are printed of a link.

use crate::fault::Fault;
use crate::hints::Seen;
use crate::layout::{number, Frame};
use crate::walk::{End, Event, Part, Unfinished, Walk};
use mahuixen::{tag, tag_text, Header};
use std::collections::BTreeMap;
use std::io::{self, Write};

/// A number of things, by the name of one.
pub fn counted(number: impl Into<u64>, thing: &str) -> String {
    match number.into() {
        1 => format!("1 {thing}"),
        number => format!("{number} {thing}s"),
    }
}

/// What there was of a tag.
#[derive(Clone, Copy, Debug, Default)]
struct Tally {
    frames: u64,
    dropped: u64,
    /// Bytes of segments, and bytes on the wire.
    segments: u64,
    wire: u64,
}

/// Prints a link's parts as they come, or counts them for a summary.
pub struct Printer<W> {
    out: W,
    summary: bool,
    frames: u64,
    dropped: u64,
    tags: BTreeMap<u8, Tally>,
    seen: Seen,
}

impl<W: Write> Printer<W> {
    pub fn new(out: W, summary: bool) -> Self {
        Self {
            out,
            summary,
            frames: 0,
            dropped: 0,
            tags: BTreeMap::new(),
            seen: Seen::default(),
        }
    }

    /// A part of the link.
    pub fn part(&mut self, part: Part) -> io::Result<()> {
        match part.what {
            Event::Banner { peer, revision } => {
                self.seen.revision = Some(revision);
                self.line(&part, format_args!("banner, {peer}: {revision}"))
            }
            Event::Frame(header) => {
                self.frames += 1;
                self.observe(&header, part.store);
                self.frame(&part, &header, "")
            }
            Event::Dropped(header) => {
                self.dropped += 1;
                self.frame(&part, &header, " dropped")
            }
        }
    }

    /// Notes what a hint may come from.
    fn observe(&mut self, header: &Header, store: &[u8]) {
        self.seen.last_tag = Some(header.tag);
        // The body is a 64-bit global id, then the 32-bit mode.
        if header.tag == tag::AUTH_DONE && header.segments[0].len >= 12 {
            let frame = self.frames + self.dropped;
            self.seen.mode = Some((number(store, 8..12), frame));
        }
    }

    fn frame(&mut self, part: &Part, header: &Header, dropped: &str) -> io::Result<()> {
        let tally = self.tags.entry(header.tag).or_default();
        tally.frames += u64::from(dropped.is_empty());
        tally.dropped += u64::from(!dropped.is_empty());
        tally.segments += header.total();
        tally.wire += part.last - part.first + 1;
        if self.summary {
            return Ok(());
        }
        let count = self.frames + self.dropped;
        self.line(part, format_args!("frame {count}{dropped}, {header}"))
    }

    fn line(&mut self, part: &Part, words: std::fmt::Arguments) -> io::Result<()> {
        let Part { first, last, .. } = part;
        writeln!(self.out, "bytes {first} to {last}: {words}")
    }

    /// The link's end; answers whether it is ok, and what was seen.
    pub fn end(mut self, walk: &Walk) -> io::Result<(bool, Seen)> {
        if self.summary {
            self.tallies()?;
        }
        let (frames, dropped, taken) = (self.frames, self.dropped, walk.taken());
        write!(self.out, "frames {frames}, dropped {dropped}; ")?;
        let end = walk.end();
        match end {
            End::Ok if taken == 0 => writeln!(self.out, "empty")?,
            End::Ok => writeln!(self.out, "complete at byte {taken}")?,
            End::Cut(unfinished) => {
                let bytes = counted(unfinished.bytes.len() as u64, "byte");
                writeln!(
                    self.out,
                    "cut at byte {taken}, {bytes} of an unfinished part"
                )?;
                writeln!(self.out, "{}", rest_of(&unfinished))?;
            }
            End::Refused(refusal, unfinished) => {
                let number = refusal.number();
                writeln!(
                    self.out,
                    "refused at byte {taken} with number {number}: {refusal}"
                )?;
                let fault = Fault::find(&refusal, &unfinished);
                for line in fault.iter().flat_map(|fault| fault.lines(&unfinished)) {
                    writeln!(self.out, "{line}")?;
                }
            }
        }
        Ok((matches!(end, End::Ok), self.seen))
    }

    fn tallies(&mut self) -> io::Result<()> {
        for (tag, tally) in &self.tags {
            let text = tag_text(*tag).unwrap_or("unknown");
            let Tally {
                frames,
                dropped,
                segments,
                wire,
            } = tally;
            writeln!(
                self.out,
                "tag {tag} {text}: frames {frames}, dropped {dropped}, bytes of segments {segments}, bytes on the wire {wire}"
            )?;
        }
        Ok(())
    }
}

/// What is known of a part that is cut.
fn rest_of(unfinished: &Unfinished) -> String {
    let first = unfinished.first;
    let frame = unfinished
        .revision
        .map(|revision| Frame::read(revision, unfinished.bytes));
    match frame {
        None => format!("the banner, from byte {first} on, is not complete"),
        Some(None) => format!("the frame from byte {first} on ends inside of its preamble"),
        Some(Some(frame)) => {
            let (header, length) = (frame.header, frame.length_on_the_wire());
            let missing = length.saturating_sub(unfinished.bytes.len());
            format!(
                "the frame from byte {first} on, {header}, has {length} bytes and lacks {missing}"
            )
        }
    }
}
