//! The link file: a 16-bit count of pieces, a 32-bit length for each, then the
//! pieces, little-endian.

use crate::failure::Failure;
use crate::layout::MAGIC;
use std::fs::{self, File};
use std::io::{self, BufWriter, Write};
use std::path::Path;

/// The most pieces that a link file has.
pub const MOST: usize = 512;

/// Bytes of the longest table, and of the beginning of a banner behind it.
pub const LONGEST_FRONT: usize = 2 + 4 * MOST + MAGIC.len();

/// Bytes in a piece of a link that has no pieces of its own.
const PIECE: usize = 16_384;

/// The lengths of the pieces, at most [`MOST`], into which neighbours are
/// joined; and how many neighbours each is.
pub fn join(lengths: &[usize]) -> (Vec<usize>, usize) {
    let each = lengths.len().div_ceil(MOST).max(1);
    let joined = lengths.chunks(each).map(|run| run.iter().sum());
    (joined.collect(), each)
}

/// The lengths of equal pieces of a link without pieces of its own.
pub fn equal(length: usize) -> Vec<usize> {
    let each = length.div_ceil(MOST).max(PIECE);
    let whole = vec![each; length / each];
    let rest = length % each;
    whole
        .into_iter()
        .chain((rest > 0).then_some(rest))
        .collect()
}

/// Writes the table of a link file; the pieces follow it.
pub fn write_table(lengths: &[usize], out: &mut impl Write) -> io::Result<()> {
    let long = |_| io::Error::new(io::ErrorKind::InvalidInput, "a piece is 4 GiB or longer");
    let count = u16::try_from(lengths.len()).map_err(io::Error::other)?;
    out.write_all(&count.to_le_bytes())?;
    for length in lengths {
        let length = u32::try_from(*length).map_err(long)?;
        out.write_all(&length.to_le_bytes())?;
    }
    Ok(())
}

/// Writes a link file of this name, without its ending, into a folder; answers
/// its path. A file that is there already stays.
pub fn write(
    folder: &Path,
    name: &str,
    lengths: &[usize],
    pieces: &[&[u8]],
) -> Result<String, Failure> {
    fs::create_dir_all(folder).map_err(|error| Failure::of(folder.display(), error))?;
    let path = folder.join(format!("{name}.link"));
    let write = || {
        let mut out = BufWriter::new(File::create_new(&path)?);
        write_table(lengths, &mut out)?;
        pieces.iter().try_for_each(|piece| out.write_all(piece))?;
        out.flush()
    };
    write().map_err(|error| Failure::of(path.display(), error))?;
    Ok(path.display().to_string())
}

/// The table that a link file begins with: its own length, and the length of
/// all pieces together. None where the bytes are no link file whose pieces
/// begin with a banner.
pub fn table(front: &[u8]) -> Option<(usize, u64)> {
    let (count, rest) = front.split_first_chunk()?;
    let count = usize::from(u16::from_le_bytes(*count));
    let lengths = rest.get(..4 * count).filter(|_| count <= MOST)?;
    let sum = lengths
        .chunks_exact(4)
        .map(|length| {
            length
                .iter()
                .rev()
                .fold(0, |n, byte| n << 8 | u64::from(*byte))
        })
        .sum();
    let pieces = &rest[4 * count..];
    let begins = !pieces.is_empty() && (pieces.starts_with(MAGIC) || MAGIC.starts_with(pieces));
    begins.then_some((2 + 4 * count, sum))
}

#[cfg(test)]
mod tests {
    use super::*;

    fn file(lengths: &[usize], pieces: &[u8]) -> Vec<u8> {
        let mut out = Vec::new();
        write_table(lengths, &mut out).expect("lengths that fit");
        out.extend(pieces);
        out
    }

    #[test]
    fn a_table() {
        let lengths = [26, 0, 65_538];
        assert_eq!(
            file(&lengths, b"ab"),
            b"\x03\0\x1a\0\0\0\0\0\0\0\x02\0\x01\0ab"
        );
        let read = table(&file(&lengths, b"ceph v2\n\x10"));
        assert_eq!(read, Some((14, 65_564)));
        assert_eq!(table(&file(&lengths, b"ce")), Some((14, 65_564)));
    }

    #[test]
    fn what_is_no_link_file() {
        assert_eq!(table(b""), None);
        assert_eq!(table(b"\x01"), None);
        assert_eq!(table(b"\x01\0\x01\0\0"), None);
        assert_eq!(table(b"\x01\0\x01\0\0\0"), None);
        assert_eq!(table(b"\x01\0\x01\0\0\0ceph v1\n"), None);
        assert_eq!(table(b"ceph v2\nceph v2\nceph v2\n"), None);
        let many = file(&[1; 512], b"c");
        assert_eq!(table(&many), Some((2 + 4 * 512, 512)));
        let mut more = file(&[1; 513], b"c");
        assert_eq!(table(&more), None);
        more[0] = 0;
        assert_eq!(table(&more), None);
    }

    #[test]
    fn neighbours_are_joined() {
        assert_eq!(join(&[]), (vec![], 1));
        assert_eq!(join(&[1; 512]), (vec![1; 512], 1));
        assert_eq!(join(&[1; 513]).1, 2);
        let lengths: Vec<usize> = (0..1_300).collect();
        let (joined, each) = join(&lengths);
        assert_eq!((joined.len(), each), (434, 3));
        assert_eq!(joined[..2], [3, 12]);
        assert_eq!(joined.iter().sum::<usize>(), lengths.iter().sum());
    }

    #[test]
    fn equal_pieces() {
        assert_eq!(equal(0), []);
        assert_eq!(equal(16_385), [16_384, 1]);
        for length in [16_384 * 512, 16_384 * 512 + 1, 50_000_000] {
            let pieces = equal(length);
            assert!(pieces.len() <= MOST);
            assert_eq!(pieces.iter().sum::<usize>(), length);
        }
    }

    #[test]
    fn a_piece_that_is_too_long() {
        let long = usize::try_from(u64::from(u32::MAX) + 1).expect("64 bits");
        assert!(write_table(&[long], &mut Vec::new()).is_err());
        assert!(write_table(&[long - 1], &mut Vec::new()).is_ok());
        assert!(write_table(&[0; 65_536], &mut Vec::new()).is_err());
    }
}
