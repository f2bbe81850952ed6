//! The link checker, by 02's words alone: a file of pieces is walked piece by
//! piece, and each banner, frame and drop printed, and how it ends.

use crate::banner::Features;
use crate::frame::Frame;
use crate::receiver::Receiver;
use crate::report::Report;
use crate::wire::Revision;
use std::io::{self, Write};

const OWN: Features = Features::new(1, 0);
const STORE: usize = 32_768;
const MOST_PIECES: usize = 512;

/// The pieces that a file's table names, as far as they are there, and whether
/// the file is bad: it has too many, or ends before the last one does.
pub struct Pieces<'a> {
    pub pieces: Vec<&'a [u8]>,
    pub bad: bool,
}

impl<'a> Pieces<'a> {
    pub fn read(file: &'a [u8]) -> Self {
        let bad = Self {
            pieces: Vec::new(),
            bad: true,
        };
        let Some((count, behind)) = file.split_first_chunk() else {
            return bad;
        };
        let count = usize::from(u16::from_le_bytes(*count));
        if count > MOST_PIECES || behind.len() < 4 * count {
            return bad;
        }
        let (table, mut rest) = behind.split_at(4 * count);
        let mut pieces = Vec::new();
        for field in table.chunks_exact(4) {
            let length = u32::from_le_bytes([field[0], field[1], field[2], field[3]]) as usize;
            if rest.len() < length {
                pieces.push(rest);
                return Self { pieces, bad: true };
            }
            let (piece, later) = rest.split_at(length);
            pieces.push(piece);
            rest = later;
        }
        Self { pieces, bad: false }
    }
}

/// What the lines need to know of the bytes so far.
struct Walk<'a, W: Write> {
    out: &'a mut W,
    frames: usize,
    taken: usize,
    /// Bytes up to the last banner, frame or drop.
    finished: usize,
}

impl<W: Write> Walk<'_, W> {
    fn frame(&mut self, word: &str, frame: &Frame) -> io::Result<()> {
        self.frames += 1;
        self.finished = self.taken;
        let (number, tag, segments) = (self.frames, frame.tag, frame.count);
        let bytes = frame.sum();
        writeln!(
            self.out,
            "{word} {number} tag {tag} segments {segments} bytes {bytes}"
        )
    }

    /// Prints a report; answers the number of a refusal.
    fn report(&mut self, report: Report) -> io::Result<Option<u8>> {
        match report {
            Report::More | Report::First(_) => {}
            Report::Banner { peer, revision } => {
                self.finished = self.taken;
                let (supported, required) = (peer.supported, peer.required);
                let revision = match revision {
                    Revision::Msgr20 => 0,
                    Revision::Msgr21 => 1,
                };
                writeln!(
                    self.out,
                    "banner supported {supported} required {required} revision {revision}"
                )?;
            }
            Report::Frame(frame) => self.frame("frame", &frame)?,
            Report::Dropped(frame) => self.frame("drop", &frame)?,
            Report::Refused(refusal) => return Ok(Some(refusal.number)),
        }
        Ok(None)
    }
}

/// Prints what a file comes to.
pub fn check(file: &[u8], out: &mut impl Write) -> io::Result<()> {
    let Pieces { pieces, bad } = Pieces::read(file);
    let (mut receiver, started) = Receiver::start(OWN);
    started.map_err(|_| io::Error::other("our own features are refused"))?;
    let mut store = vec![0; STORE];
    let mut walk = Walk {
        out,
        frames: 0,
        taken: 0,
        finished: 0,
    };
    for mut piece in pieces {
        while !piece.is_empty() {
            let (taken, report) = receiver.receive(piece, &mut store);
            piece = &piece[taken..];
            walk.taken += taken;
            if let Some(number) = walk.report(report)? {
                return writeln!(walk.out, "end refused {number} at {}", walk.taken);
            }
        }
    }
    let unfinished = walk.taken - walk.finished;
    match (bad, unfinished) {
        (true, _) => writeln!(walk.out, "end bad file"),
        (false, 0) => writeln!(walk.out, "end ok {}", walk.taken),
        (false, n) => writeln!(walk.out, "end cut {n}"),
    }
}

/// A file of these pieces.
pub fn file(pieces: &[&[u8]]) -> Vec<u8> {
    let count = u16::try_from(pieces.len()).expect("few pieces");
    let mut bytes = count.to_le_bytes().to_vec();
    for piece in pieces {
        let length = u32::try_from(piece.len()).expect("a short piece");
        bytes.extend(length.to_le_bytes());
    }
    bytes.extend(pieces.concat());
    bytes
}

#[cfg(test)]
mod tests {
    use super::*;

    fn printed(file: &[u8]) -> String {
        let mut out = Vec::new();
        check(file, &mut out).unwrap();
        String::from_utf8(out).unwrap()
    }

    fn empty_frame() -> Vec<u8> {
        let frame = Frame {
            tag: 16,
            count: 1,
            segments: Default::default(),
        };
        frame.preamble().to_vec()
    }

    const LINES: &str = "banner supported 1 required 0 revision 1\n";

    #[test]
    fn the_request_s_own_lines() {
        let link = [OWN.banner(), empty_frame()].concat();
        let all = format!("{LINES}frame 1 tag 16 segments 1 bytes 0\nend ok 58\n");
        assert_eq!(printed(&file(&[&link])), all);
        assert_eq!(printed(&file(&[&link[..7], &[], &link[7..]])), all);
        let mut behind = file(&[&link]);
        behind.extend(b"more");
        assert_eq!(printed(&behind), all);
    }

    #[test]
    fn other_ends() {
        let link = [OWN.banner(), empty_frame()].concat();
        assert_eq!(printed(&file(&[&link[..25]])), "end cut 25\n");
        assert_eq!(
            printed(&file(&[&link[..30]])),
            format!("{LINES}end cut 4\n")
        );
        assert_eq!(printed(&file(&[&[0; 9]])), "end refused 1 at 8\n");
        assert_eq!(printed(&file(&[])), "end ok 0\n");
        assert_eq!(printed(&file(&[&[], &[]])), "end ok 0\n");
    }

    #[test]
    fn bad_files() {
        for bad in [&[][..], &[1], &[1, 0, 4], &[1, 2], &[1, 0, 1, 0, 0, 0]] {
            assert_eq!(printed(bad), "end bad file\n");
        }
        let link = OWN.banner();
        let mut short = file(&[&link]);
        short[5] = 0xFF;
        assert_eq!(printed(&short), format!("{LINES}end bad file\n"));
        short[6] = 0;
        assert_eq!(printed(&short), "end refused 1 at 8\n");
        assert_eq!(printed(&[vec![0, 2], vec![0; 2048]].concat()), "end ok 0\n");
    }
}
