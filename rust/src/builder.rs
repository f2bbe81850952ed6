//! Building banners and frames behind what a send buffer already holds.

use crate::features::Revision;
use crate::frame::Header;
use crate::refusal::Refusal;
use crate::sys::{self, Built, Features};

/// What was written is never longer than the buffer, and so a `usize`.
pub(crate) fn written((written, refusal): Built) -> Result<usize, Refusal> {
    Refusal::given(refusal).map_or(Ok(written as usize), Err)
}

/// Builds our banner behind the first `queued` bytes of the buffer, and
/// answers how many bytes it wrote. All other bytes stay.
///
/// # Errors
///
/// [`Refusal::OwnFeatures`], then [`Refusal::NoRoom`]; the buffer is then as it
/// was.
///
/// ```
/// use mahuixen::{build_banner, Features, Refusal, BANNER_LENGTH};
///
/// let mut send = [0xAA; 30];
/// assert_eq!(build_banner(&mut send, 4, Features::new(1, 0)), Ok(BANNER_LENGTH));
/// assert_eq!(&send[..15], b"\xAA\xAA\xAA\xAAceph v2\n\x10\0\x01");
///
/// let none_left = build_banner(&mut send, 5, Features::new(1, 0));
/// assert_eq!(none_left, Err(Refusal::NoRoom { needed: 26 }));
/// let unknown_bit = build_banner(&mut send, 0, Features::new(2, 0));
/// assert_eq!(unknown_bit, Err(Refusal::OwnFeatures));
/// ```
pub fn build_banner(buf: &mut [u8], queued: usize, own: Features) -> Result<usize, Refusal> {
    written(sys::build_banner(buf, queued as u64, own))
}

/// Builds a frame behind the first `queued` bytes of the buffer, and answers
/// how many bytes it wrote. All other bytes stay. The source holds the
/// segments one behind the other.
///
/// # Errors
///
/// [`Refusal::Shape`], [`Refusal::Tag`], [`Refusal::Limit`],
/// [`Refusal::SourceLength`] and [`Refusal::NoRoom`], in this order; the buffer
/// is then as it was.
///
/// ```
/// use mahuixen::{build_frame, tag, Header, Refusal, Revision, Segment};
///
/// let header = Header::new(tag::ACK, &[Segment::new(8, 0)]);
/// let mut send = [0; 100];
/// assert_eq!(build_frame(&mut send, 0, Revision::Msgr21, &header, &[7; 8]), Ok(44));
/// assert_eq!(send[32..40], [7; 8]);
///
/// let short = build_frame(&mut send, 44, Revision::Msgr21, &header, &[7; 5]);
/// assert_eq!(short, Err(Refusal::SourceLength));
/// let no_room = build_frame(&mut send, 60, Revision::Msgr21, &header, &[7; 8]);
/// assert_eq!(no_room, Err(Refusal::NoRoom { needed: 44 }));
/// ```
pub fn build_frame(
    buf: &mut [u8],
    queued: usize,
    revision: Revision,
    header: &Header,
    source: &[u8],
) -> Result<usize, Refusal> {
    let revision = revision.number().into();
    let header = (*header).into();
    written(sys::build_frame(
        buf,
        queued as u64,
        revision,
        &header,
        source,
    ))
}

/// Builds a frame that its receiver will drop: with segment 1 as given, zeros
/// for the others, and the mark that it is aborted. The source still has the
/// bytes of all segments.
///
/// # Errors
///
/// As [`build_frame`], with [`Refusal::AbortOneSegment`] before [`Refusal::NoRoom`].
///
/// ```
/// use mahuixen::{abort_frame, tag, Header, Refusal, Revision, Segment};
///
/// let two = Header::new(tag::MESSAGE, &[Segment::new(2, 0), Segment::new(3, 0)]);
/// let mut send = [0xAA; 100];
/// assert_eq!(abort_frame(&mut send, 0, Revision::Msgr21, &two, b"12345"), Ok(54));
/// assert_eq!(&send[32..34], b"12");
/// assert_eq!(&send[38..41], [0; 3]);
///
/// // With one segment msgr2.1 has no place to say that a frame is aborted.
/// let one = Header::new(tag::MESSAGE, &[Segment::new(2, 0)]);
/// let refused = abort_frame(&mut send, 0, Revision::Msgr21, &one, b"12");
/// assert_eq!(refused, Err(Refusal::AbortOneSegment));
/// ```
pub fn abort_frame(
    buf: &mut [u8],
    queued: usize,
    revision: Revision,
    header: &Header,
    source: &[u8],
) -> Result<usize, Refusal> {
    let revision = revision.number().into();
    let header = (*header).into();
    written(sys::abort_frame(
        buf,
        queued as u64,
        revision,
        &header,
        source,
    ))
}
