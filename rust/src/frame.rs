//! What a frame is made of, and where its segments stand in a store.

use crate::sys::{RawHeader, RawSegment};
use crate::tag::tag_text;
use core::fmt;

/// The length and the alignment of one segment.
#[derive(Clone, Copy, Debug, Default, PartialEq, Eq, Hash)]
pub struct Segment {
    /// Bytes of the segment, at most 1,048,576.
    pub len: u32,
    /// The alignment that its sender asks for; any number, and only handed on.
    pub align: u16,
}

/// What a preamble tells of its frame: the tag, and the segments.
#[derive(Clone, Copy, Debug, Default, PartialEq, Eq, Hash)]
pub struct Header {
    /// What the frame is for, 1 to 20.
    pub tag: u8,
    /// How many segments are used, 1 to 4.
    pub count: u8,
    /// All four segments; those behind the used ones are 0.
    pub segments: [Segment; 4],
}

impl From<Header> for RawHeader {
    fn from(header: Header) -> Self {
        Self {
            tag: header.tag.into(),
            count: header.count.into(),
            segments: header.segments.map(|s| RawSegment {
                len: s.len.into(),
                align: s.align.into(),
            }),
        }
    }
}

impl From<RawHeader> for Header {
    /// Each number is one of its type, where the library wrote it; of others the
    /// low bits are kept.
    fn from(raw: RawHeader) -> Self {
        Self {
            tag: raw.tag as u8,
            count: raw.count as u8,
            segments: raw
                .segments
                .map(|s| Segment::new(s.len as u32, s.align as u16)),
        }
    }
}

impl Segment {
    /// A segment of this length and alignment.
    ///
    /// ```
    /// use mahuixen::Segment;
    ///
    /// assert_eq!(Segment::new(70, 8), Segment { len: 70, align: 8 });
    /// ```
    #[must_use]
    pub const fn new(len: u32, align: u16) -> Self {
        Self { len, align }
    }
}

impl Header {
    /// The header of a frame with this tag and these segments. More than four
    /// do not fit; the count still tells of them, and a build refuses it.
    ///
    /// ```
    /// use mahuixen::{build_frame, tag, Header, Refusal, Revision, Segment};
    ///
    /// let header = Header::new(tag::MESSAGE, &[Segment::new(20, 8), Segment::new(70, 0)]);
    /// assert_eq!((header.tag, header.count, header.total()), (17, 2, 90));
    ///
    /// let five = Header::new(tag::MESSAGE, &[Segment::new(1, 0); 5]);
    /// let built = build_frame(&mut [0; 100], 0, Revision::Msgr21, &five, b"12345");
    /// assert_eq!(built, Err(Refusal::Shape { at: 1 }));
    /// ```
    #[must_use]
    pub fn new(tag: u8, used: &[Segment]) -> Self {
        let mut segments = [Segment::default(); 4];
        segments.iter_mut().zip(used).for_each(|(s, u)| *s = *u);
        Self {
            tag,
            count: u8::try_from(used.len()).unwrap_or(u8::MAX),
            segments,
        }
    }

    /// The sum of all four lengths: the bytes of a frame's source, and those
    /// that it takes at the store's front.
    ///
    /// ```
    /// use mahuixen::{Header, Segment};
    ///
    /// let header = Header::new(1, &[Segment::new(u32::MAX, 0), Segment::new(1, 0)]);
    /// assert_eq!(header.total(), 1 << 32);
    /// ```
    #[must_use]
    pub fn total(&self) -> u64 {
        self.segments.iter().map(|s| u64::from(s.len)).sum()
    }

    /// The segments that are used, as many as the count says, at most four.
    ///
    /// ```
    /// use mahuixen::{Header, Segment};
    ///
    /// let header = Header::new(1, &[Segment::new(20, 8), Segment::new(70, 0)]);
    /// assert_eq!(header.used(), [Segment::new(20, 8), Segment::new(70, 0)]);
    /// ```
    #[must_use]
    pub fn used(&self) -> &[Segment] {
        let count = usize::from(self.count).min(self.segments.len());
        &self.segments[..count]
    }

    /// Segment 1 of a frame that was just reported, early or whole, out of the
    /// store's front. None where the store is too short.
    ///
    /// ```
    /// use mahuixen::{Header, Segment};
    ///
    /// let header = Header::new(1, &[Segment::new(2, 0), Segment::new(3, 0)]);
    /// assert_eq!(header.first_segment_in(b"12345678"), Some(b"12".as_slice()));
    /// assert_eq!(header.first_segment_in(b"1"), None);
    /// ```
    #[must_use]
    pub fn first_segment_in<'a>(&self, store: &'a [u8]) -> Option<&'a [u8]> {
        store.get(..usize::try_from(self.segments[0].len).ok()?)
    }

    /// The four segments of a frame that was just reported whole, out of the store
    /// in which they stand one behind the other. None where the store is too
    /// short, and so not the one that the frame was received into.
    ///
    /// ```
    /// use mahuixen::{Header, Segment};
    ///
    /// let header = Header::new(1, &[Segment::new(2, 0), Segment::new(3, 0)]);
    /// assert_eq!(header.segments_in(b"12345678"), Some([b"12".as_slice(), b"345", b"", b""]));
    /// assert_eq!(header.segments_in(b"1234"), None);
    /// ```
    #[must_use]
    pub fn segments_in<'a>(&self, store: &'a [u8]) -> Option<[&'a [u8]; 4]> {
        let mut left = store;
        let mut segments = [&[][..]; 4];
        for (bytes, segment) in segments.iter_mut().zip(&self.segments) {
            let len = usize::try_from(segment.len).ok()?;
            (*bytes, left) = left.split_at_checked(len)?;
        }
        Some(segments)
    }
}

/// Numbers one behind the other, each with a space in front.
fn list(numbers: impl Iterator<Item = u32>, f: &mut fmt::Formatter<'_>) -> fmt::Result {
    let mut numbers = numbers;
    numbers.try_for_each(|number| write!(f, " {number}"))
}

impl fmt::Display for Header {
    fn fmt(&self, f: &mut fmt::Formatter<'_>) -> fmt::Result {
        let text = tag_text(self.tag).unwrap_or("unknown");
        write!(f, "tag {} {text}, lengths", self.tag)?;
        list(self.used().iter().map(|s| s.len), f)?;
        write!(f, ", alignments")?;
        list(self.used().iter().map(|s| u32::from(s.align)), f)
    }
}
