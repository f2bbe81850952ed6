//! What there is to be read: its first bytes tell what it is.

use crate::capture;
use crate::failure::Failure;
use crate::link_file;
use crate::options::Source;
use crate::progress::Progress;
use std::fs::File;
use std::io::{self, Cursor, ErrorKind, Read};
use std::path::Path;

/// Bytes that are read at a time.
const PIECE: usize = 65_536;

/// What an input is.
#[derive(Clone, Copy, Debug, PartialEq, Eq)]
pub enum Kind {
    /// The bytes of one direction.
    Bytes,
    Capture,
    /// A link file, whose pieces have this length together.
    LinkFile(u64),
}

/// An open input.
pub struct Input {
    pub kind: Kind,
    /// What it is called where something is said of it.
    pub name: String,
    reader: Box<dyn Read>,
    length: Option<u64>,
}

impl Input {
    pub fn open(source: &Source) -> Result<Self, Failure> {
        match source {
            Source::Standard => Self::new("standard input", Box::new(io::stdin()), None),
            Source::File(path) => {
                let name = path.to_string_lossy();
                let failure = |error| Failure::of(&name, error);
                let file = File::open(path).map_err(failure)?;
                let data = file.metadata().map_err(failure)?;
                let length = data.is_file().then_some(data.len());
                Self::new(&name, Box::new(file), length)
            }
        }
    }

    /// An input of this name and, if it is known, this length.
    pub fn new(
        name: &str,
        mut reader: Box<dyn Read>,
        length: Option<u64>,
    ) -> Result<Self, Failure> {
        let mut front = Vec::new();
        let mut beginning = reader.by_ref().take(link_file::LONGEST_FRONT as u64);
        let read = beginning.read_to_end(&mut front);
        read.map_err(|error| Failure::of(name, error))?;
        let (kind, table, most) = match link_file::table(&front) {
            _ if capture::recognised(&front) => (Kind::Capture, 0, u64::MAX),
            Some((table, pieces)) => (Kind::LinkFile(pieces), table, pieces),
            None => (Kind::Bytes, 0, u64::MAX),
        };
        // Nothing but a link file's pieces is its link.
        front.drain(..table);
        let reader = Box::new(Cursor::new(front).chain(reader).take(most));
        Ok(Self {
            kind,
            name: name.to_string(),
            reader,
            length,
        })
    }

    /// The name of its file without folders and ending.
    pub fn stem(&self) -> String {
        let stem = Path::new(&self.name).file_stem().unwrap_or_default();
        stem.to_string_lossy().into_owned()
    }

    /// Reads the input piece by piece, as long as more is wanted. `quiet` says
    /// that nothing is printed meanwhile.
    pub fn pieces(
        mut self,
        quiet: bool,
        mut take: impl FnMut(&[u8]) -> Result<bool, Failure>,
    ) -> Result<(), Failure> {
        let mut progress = Progress::new(self.length, quiet);
        let mut piece = vec![0; PIECE];
        let mut read = 0;
        loop {
            match self.reader.read(&mut piece) {
                Ok(0) => return Ok(()),
                Ok(length) => {
                    read += length as u64;
                    progress.at(read);
                    if !take(&piece[..length])? {
                        return Ok(());
                    }
                }
                Err(error) if error.kind() == ErrorKind::Interrupted => {}
                Err(error) => return Err(Failure::of(self.name, error)),
            }
        }
    }

    /// Reads all of the input.
    pub fn whole(self) -> Result<Vec<u8>, Failure> {
        let length = self.length.and_then(|length| usize::try_from(length).ok());
        let mut whole = Vec::with_capacity(length.unwrap_or(0));
        self.pieces(true, |piece| {
            whole.extend(piece);
            Ok(true)
        })?;
        Ok(whole)
    }
}

#[cfg(test)]
mod tests {
    use super::*;

    /// What some bytes are, and what is read of them.
    fn read(bytes: &[u8]) -> (Kind, Vec<u8>) {
        let reader = Box::new(Cursor::new(bytes.to_vec()));
        let input = Input::new("memory", reader, None).expect("memory can be read");
        (input.kind, input.whole().expect("memory can be read"))
    }

    fn kind(bytes: &[u8]) -> Kind {
        let (kind, whole) = read(bytes);
        assert_eq!(whole, bytes);
        kind
    }

    #[test]
    fn kinds_by_the_first_bytes() {
        assert_eq!(kind(b""), Kind::Bytes);
        assert_eq!(kind(b"ceph v2\n\x10\0"), Kind::Bytes);
        assert_eq!(kind(&[0; 5_000]), Kind::Bytes);
        let magics: [&[u8]; 5] = [
            b"\xd4\xc3\xb2\xa1",
            b"\xa1\xb2\xc3\xd4",
            b"\x4d\x3c\xb2\xa1\0",
            b"\xa1\xb2\x3c\x4d\0",
            b"\x0a\x0d\x0d\x0a\0",
        ];
        for magic in magics {
            assert_eq!(kind(magic), Kind::Capture);
        }
        assert_eq!(kind(b"\xd4\xc3\xb2"), Kind::Bytes);
    }

    #[test]
    fn pieces_of_a_link_file() {
        let link = b"ceph v2\n\x10";
        let (kind, whole) = read(b"\x01\0\x09\0\0\0ceph v2\n\x10 and more");
        assert_eq!((kind, &whole[..]), (Kind::LinkFile(9), &link[..]));
        let (kind, whole) = read(b"\x01\0\x0a\0\0\0ceph v2\n\x10");
        assert_eq!((kind, &whole[..]), (Kind::LinkFile(10), &link[..]));
    }
}
