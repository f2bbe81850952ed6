//! What is judged of a body: its segments' checksums, its late byte, and how its
//! epilogue is spelled. `segments` always stands for the frame's segments one
//! after the other, as they lie at the store's front.

use crate::checksum::{checksum, SEGMENT_START};
use crate::frame::{Frame, SEGMENTS};
use crate::refusal::Refusal;
use crate::wire::{Revision, CHECKSUM_LENGTH};

/// How a body that isn't refused ends.
#[derive(Clone, Copy, Debug, PartialEq, Eq)]
pub enum Ending {
    Complete,
    Aborted,
}

const STATUS_BITS: u8 = 0x0F;
const STATUS_COMPLETE: u8 = 0x0E;
const STATUS_ABORTED: u8 = 0x01;
const FLAG_ABORTED: u8 = 0x01;

/// The place of the first segment whose checksum stands in the epilogue: msgr2.1
/// has segment 1's behind that segment.
fn first_listed(revision: Revision) -> usize {
    usize::from(revision == Revision::Msgr21)
}

/// Judges what a frame's meaning leaves open, so that it has one spelling: the
/// fields of unused segments, the lowest first, and then late flags beyond the
/// bit for aborted.
fn judge_spelling(
    revision: Revision,
    frame: &Frame,
    late: u8,
    fields: &[u8],
) -> Result<(), Refusal> {
    let listed = first_listed(revision)..SEGMENTS;
    let mut fields = listed.zip(fields.chunks_exact(CHECKSUM_LENGTH));
    let is_filled = |(place, field): &(usize, &[u8])| !frame.uses(*place) && *field != [0; 4];
    if let Some((place, _)) = fields.find(is_filled) {
        return Err(Refusal::non_canonical_checksum(place));
    }
    if revision == Revision::Msgr20 && late & !FLAG_ABORTED != 0 {
        return Err(Refusal::non_canonical_flags());
    }
    Ok(())
}

/// Reads the byte at the front of an epilogue. Late flags can't be wrong here:
/// their spelling was judged before. Of a late status only the low four bits are
/// looked at.
pub fn judge_late_byte(revision: Revision, late: u8) -> Result<Ending, Refusal> {
    match revision {
        Revision::Msgr20 if late & FLAG_ABORTED != 0 => Ok(Ending::Aborted),
        Revision::Msgr20 => Ok(Ending::Complete),
        Revision::Msgr21 => match late & STATUS_BITS {
            STATUS_COMPLETE => Ok(Ending::Complete),
            STATUS_ABORTED => Ok(Ending::Aborted),
            _ => Err(Refusal::late_status(late)),
        },
    }
}

fn judge_checksum(
    frame: &Frame,
    place: usize,
    field: &[u8],
    segments: &[u8],
) -> Result<(), Refusal> {
    let sum = checksum(SEGMENT_START, frame.segment(place, segments));
    if sum.to_le_bytes() == field {
        Ok(())
    } else {
        Err(Refusal::segment_checksum(place))
    }
}

/// Judges the checksum that msgr2.1 has right behind segment 1.
pub fn judge_first_checksum(frame: &Frame, field: &[u8], segments: &[u8]) -> Result<(), Refusal> {
    judge_checksum(frame, 0, field, segments)
}

/// Judges a whole epilogue: its spelling, of an aborted frame too, then the late
/// byte, and then the checksums, which are not compared where it says aborted.
pub fn judge_epilogue(
    revision: Revision,
    frame: &Frame,
    epilogue: &[u8],
    segments: &[u8],
) -> Result<Ending, Refusal> {
    let (late, fields) = epilogue.split_first().expect("an epilogue has bytes");
    judge_spelling(revision, frame, *late, fields)?;
    let ending = judge_late_byte(revision, *late)?;
    if ending == Ending::Aborted {
        return Ok(ending);
    }
    let used = first_listed(revision)..usize::from(frame.count);
    for (place, field) in used.zip(fields.chunks_exact(CHECKSUM_LENGTH)) {
        judge_checksum(frame, place, field, segments)?;
    }
    Ok(ending)
}
