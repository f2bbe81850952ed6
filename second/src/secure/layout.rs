//! How a frame is cut into parts that are sealed each by itself: the preamble
//! with the first bytes of segment 1, the rest of segment 1, and the other
//! segments with the epilogue.

use crate::frame::{Frame, PREAMBLE_LENGTH, SEGMENTS};
use crate::gcm::AUTH_TAG_LENGTH;
use crate::refusal::Refusal;
use crate::wire::{late_byte, payloads, Revision};

/// What a segment and the epilogue are padded to a multiple of.
const PADDED_TO: usize = 16;

/// Bytes behind the preamble for the front of segment 1.
pub const INLINE_LENGTH: usize = 48;

/// Bytes of the first part's text.
const FIRST_TEXT_LENGTH: usize = PREAMBLE_LENGTH + INLINE_LENGTH;

/// Bytes of the first part on the wire: every frame has it.
pub const FIRST_PART_LENGTH: usize = FIRST_TEXT_LENGTH + AUTH_TAG_LENGTH;

/// Bytes of an epilogue: the late status and padding.
pub const EPILOGUE_LENGTH: usize = 16;

/// What a frame needs of the store beside its padded segments: room for an
/// epilogue and a tag, of a frame without an epilogue too.
const STORE_BESIDE: usize = EPILOGUE_LENGTH + AUTH_TAG_LENGTH;

/// The length rounded up to a multiple of 16.
pub fn padded(length: usize) -> usize {
    length.next_multiple_of(PADDED_TO)
}

/// The padded lengths of the segments from the place on, counted from 0.
fn padded_from(frame: &Frame, place: usize) -> usize {
    let segments = frame.segments[place..].iter();
    segments
        .map(|segment| padded(segment.length as usize))
        .sum()
}

/// Bytes on the wire of the rest of segment 1, where not all of it fits behind
/// the preamble.
pub fn rest_length(frame: &Frame) -> Option<usize> {
    let length = frame.segments[0].length as usize;
    (length > INLINE_LENGTH).then(|| padded(length - INLINE_LENGTH) + AUTH_TAG_LENGTH)
}

/// Bytes on the wire of the other segments and the epilogue, where there is more
/// than one segment.
pub fn last_length(frame: &Frame) -> Option<usize> {
    (frame.count > 1).then(|| padded_from(frame, 1) + EPILOGUE_LENGTH + AUTH_TAG_LENGTH)
}

/// The bytes of each part on the wire.
pub fn part_lengths(frame: &Frame) -> Vec<usize> {
    let lengths = [
        Some(FIRST_PART_LENGTH),
        rest_length(frame),
        last_length(frame),
    ];
    lengths.into_iter().flatten().collect()
}

/// Bytes of the whole frame on the wire.
pub fn wire_length(frame: &Frame) -> u64 {
    part_lengths(frame).iter().sum::<usize>() as u64
}

/// Bytes at the store's front that a sealed frame needs, and that a refused or
/// dropped one leaves zeroed.
pub fn store_needed(frame: &Frame) -> usize {
    padded_from(frame, 0) + STORE_BESIDE
}

/// Judges the length of the store lent for this frame.
pub fn judge_store(frame: &Frame, length: usize) -> Result<(), Refusal> {
    let needed = store_needed(frame);
    if needed <= length {
        Ok(())
    } else {
        Err(Refusal::store_short(needed as u64))
    }
}

/// Zeros what the frame used of the store.
pub fn wipe(frame: &Frame, store: &mut [u8]) {
    store[..store_needed(frame)].fill(0);
}

fn with_padding(bytes: &[u8]) -> Vec<u8> {
    let mut text = bytes.to_vec();
    text.resize(padded(bytes.len()), 0);
    text
}

/// The texts of the frame's parts, before they are sealed. The request must
/// have been judged good.
pub fn texts(frame: &Frame, abort: bool, source: &[u8]) -> Vec<Vec<u8>> {
    let payloads: [Vec<u8>; SEGMENTS] = payloads(frame, abort, source);
    let (inline, rest) = payloads[0].split_at(payloads[0].len().min(INLINE_LENGTH));
    let mut first = frame.preamble().to_vec();
    first.extend(inline);
    first.resize(FIRST_TEXT_LENGTH, 0);
    let mut texts = vec![first];
    if !rest.is_empty() {
        texts.push(with_padding(rest));
    }
    if frame.count > 1 {
        let others = payloads[1..].iter().flat_map(|bytes| with_padding(bytes));
        let epilogue = with_padding(&[late_byte(Revision::Msgr21, abort)]);
        texts.push(others.chain(epilogue).collect());
    }
    texts
}
