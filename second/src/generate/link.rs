//! Generated streams: a banner and frames, as they should be or with a fault.

use super::{alignment, feature_bits, payload, sum_passed};
use crate::banner::Features;
use crate::frame::{Frame, Segment, PREAMBLE_LENGTH, SEGMENTS};
use crate::input::CARRIED_SEGMENT;
use crate::random::Random;
use crate::spoil::WireFrame;
use crate::wire::{can_abort, Revision};

/// How long segments get.
#[derive(Clone, Copy, PartialEq, Eq)]
pub enum Size {
    /// A few bytes, for streams that are cut at every byte.
    Small,
    /// Mostly a few bytes, now and then some thousand.
    Any,
}

/// A stream and our own features, its parts apart while faults are put in.
pub struct Link {
    pub own: Features,
    pub banner: Vec<u8>,
    pub frames: Vec<WireFrame>,
}

impl Link {
    pub fn bytes(&self) -> Vec<u8> {
        let mut bytes = self.banner.clone();
        bytes.extend(self.frames.iter().flat_map(|frame| &frame.bytes));
        bytes
    }
}

fn own_features(random: &mut Random) -> Features {
    if random.once_in(12) {
        return Features::new(feature_bits(random), feature_bits(random));
    }
    let (supported, required) = random.pick(&[(0, 0), (1, 0), (1, 0), (1, 1)]);
    Features::new(supported, required)
}

/// Mostly features that go with ours.
fn peer_features(random: &mut Random, own: Features) -> Features {
    let others = feature_bits(random);
    if random.once_in(10) {
        return Features::new(others, feature_bits(random));
    }
    let bit = u64::from(random.between(0, 1));
    let supported = random.pick(&[1, 1, bit, others]) | own.required;
    let required = random.pick(&[0, 0, 0, bit]) & own.supported;
    Features::new(supported, required)
}

/// The banner, mostly with the shortest payload.
fn banner(random: &mut Random, peer: Features, size: Size) -> Vec<u8> {
    let mut banner = peer.banner();
    let most = match random.between(1, 20) {
        1 | 2 => 20,
        3 if size == Size::Any => 1_008,
        _ => 0,
    };
    // 17 and 1,024 bytes more often than others.
    let more = match random.between(1, 40) {
        1 => 1,
        2 if size == Size::Any => 1_008,
        _ => random.between(0, most),
    };
    banner.extend(random.bytes(more));
    let length = 16 + more as u16;
    banner[8..10].copy_from_slice(&length.to_le_bytes());
    banner
}

fn segment_length(random: &mut Random, size: Size) -> u32 {
    match random.between(1, 1_000) {
        1..=250 => 0,
        251..=700 => random.between(1, 6),
        _ if size == Size::Small => random.between(1, 12),
        701..=950 => random.between(1, 40),
        951..=985 => random.between(1, 300),
        986..=997 => random.between(1, 2_048),
        _ => random.between(1, CARRIED_SEGMENT / 2),
    }
}

fn good_frame(random: &mut Random, size: Size) -> Frame {
    let count = random.between(1, 4) as usize;
    let mut segments = [Segment::default(); SEGMENTS];
    for segment in &mut segments[..count] {
        segment.length = segment_length(random, size);
        segment.alignment = alignment(random);
    }
    let last = &mut segments[count - 1];
    if count > 1 && last.length == 0 {
        last.length = random.between(1, 6);
    }
    Frame {
        tag: random.between(1, 20) as u8,
        count: count as u8,
        segments,
    }
}

fn wire_frame(random: &mut Random, revision: Revision, size: Size) -> WireFrame {
    let frame = good_frame(random, size);
    let abort = can_abort(revision, &frame) && random.once_in(4);
    let source = payload(random, frame.sum() as u32);
    WireFrame::new(revision, frame, abort, &source)
}

/// A stream without faults, but for features that may not go together.
pub fn link(random: &mut Random, size: Size) -> Link {
    let own = own_features(random);
    let peer = peer_features(random, own);
    // Behind a refused banner any frame will do.
    let revision = own.judge_peer(&peer).unwrap_or(Revision::Msgr21);
    let most = if size == Size::Small { 3 } else { 6 };
    let count = random.between(0, most);
    let frames = (0..count).map(|_| wire_frame(random, revision, size));
    let frames = frames.collect();
    Link {
        own,
        banner: banner(random, peer, size),
        frames,
    }
}

/// Puts a fault into one frame; later ones are then mostly not reached.
pub fn spoil_frame(random: &mut Random, link: &mut Link) {
    if link.frames.is_empty() {
        return;
    }
    let place = random.between(0, link.frames.len() as u32 - 1) as usize;
    let frame = &mut link.frames[place];
    match random.between(1, 40) {
        1 => frame.bytes[..PREAMBLE_LENGTH].fill(0),
        2 => put_lengths(frame, sum_passed(random)),
        3..=5 => {
            // The checksum's own rule last: the others put it right again.
            let later = random.between(1, 4);
            break_rule(random, frame, later);
            break_rule(random, frame, later - 1);
        }
        6..=16 => {
            let count = random.pick(&[1, 1, 1, 2, 3]);
            let tag = frame.frame.tag;
            let changes = (0..count).map(|_| preamble_change(random, tag)).collect();
            change_preamble(frame, changes);
        }
        17..=23 => spoil_late_byte(random, frame),
        24..=29 => spoil_checksums(random, frame),
        30..=32 => {
            spoil_late_byte(random, frame);
            spoil_checksums(random, frame);
        }
        33..=35 => fill_unused_fields(random, frame),
        // The first of the faults at a frame's end, with one behind it.
        36 | 37 => {
            fill_unused_fields(random, frame);
            spoil_late_byte(random, frame);
        }
        _ => {
            fill_unused_fields(random, frame);
            spoil_checksums(random, frame);
        }
    }
}

/// A byte of the preamble and what is put over it bit by bit.
pub type Change = (usize, u8);

/// Mostly bits by which a refusal of its own is given, else any byte.
pub fn preamble_change(random: &mut Random, tag: u8) -> Change {
    // The first places are used more often.
    let segment = 2 + 6 * random.pick(&[0, 0, 0, 1, 1, 2, 3]);
    let any = random.u8();
    let bit = 1 << random.between(0, 7);
    match random.between(1, 12) {
        1..=3 => (0, tag ^ random.pick(&[0, 21, 255, any])),
        4 => (1, random.between(1, 7) as u8),
        5 => (segment, random.between(1, 3) as u8),
        6 | 7 => (segment + 1, random.pick(&[64, 65, 128, bit])),
        8 => (segment + random.pick(&[2, 3]), bit),
        9 => (segment + random.pick(&[4, 5]), bit),
        10 | 11 => (random.pick(&[26, 27]), bit),
        _ => (random.between(0, PREAMBLE_LENGTH as u32 - 5) as usize, any),
    }
}

/// Breaks the rule at that place of the order 5, 6, 7, 8, 9; a length above its
/// limit is mostly above the store's length too.
pub fn break_rule(random: &mut Random, frame: &mut WireFrame, rule: u32) {
    let bit = 1 << random.between(0, 7);
    if rule == 0 {
        frame.bytes[31] ^= bit;
        return;
    }
    let (place, byte) = match rule {
        1 => (1, random.pick(&[0, 5])),
        2 => (random.pick(&[26, 27]), bit),
        3 => (0, random.pick(&[0, 21])),
        _ => (5, bit),
    };
    frame.change_preamble(|preamble| preamble[place] = byte);
}

/// Four segments of these lengths in the preamble; the body stays.
pub fn put_lengths(frame: &mut WireFrame, lengths: [u32; SEGMENTS]) {
    frame.change_preamble(|preamble| {
        preamble[1] = SEGMENTS as u8;
        for (place, length) in lengths.into_iter().enumerate() {
            let field = 2 + 6 * place;
            preamble[field..field + 4].copy_from_slice(&length.to_le_bytes());
        }
    });
}

pub fn change_preamble(frame: &mut WireFrame, changes: Vec<Change>) {
    frame.change_preamble(|preamble| {
        for (place, bits) in changes {
            preamble[place] ^= bits;
        }
    });
}

fn spoil_late_byte(random: &mut Random, frame: &mut WireFrame) {
    let any = random.u8();
    let bit = 1 << random.between(0, 7);
    let known = match frame.revision {
        Revision::Msgr20 => [0x00, 0x01, 0x02, 0x03, 0xFE, 0xFF],
        Revision::Msgr21 => [0x00, 0x01, 0x0E, 0x0F, 0x1E, 0xE1],
    };
    if let Some(late) = frame.late_byte_mut() {
        let known = random.pick(&known);
        *late = random.pick(&[known, known, known, any, *late ^ bit]);
    }
}

/// One bit in up to three places: checksums, or segment bytes.
fn spoil_checksums(random: &mut Random, frame: &mut WireFrame) {
    for _ in 0..random.between(1, 3) {
        let place = random.between(0, u32::from(frame.frame.count) - 1) as usize;
        let field = match frame.checksum_mut(place) {
            Some(field) if random.once_in(2) => field,
            _ => frame.segment_mut(place),
        };
        flip_a_bit(random, field);
    }
}

/// Fields of unused segments that are not 0: all of them, or a single one, which
/// is mostly not the lowest; with any number, one bit, or the checksum that an
/// empty segment has.
fn fill_unused_fields(random: &mut Random, frame: &mut WireFrame) {
    let unused = u32::from(frame.frame.count)..SEGMENTS as u32;
    if unused.is_empty() {
        return;
    }
    let only = random.between(unused.start, unused.end - 1);
    let filled = match random.between(1, 3) {
        1 => unused,
        _ => only..only + 1,
    };
    for place in filled {
        let (any, bit) = (random.u32(), 1 << random.between(0, 31));
        let number = random.pick(&[any, bit, u32::MAX]);
        if let Some(field) = frame.checksum_mut(place as usize) {
            field.copy_from_slice(&number.to_le_bytes());
        }
    }
}

/// Another payload length, mostly near those we take, or another fixed byte, or
/// both; at times with a feature required that we don't have.
pub fn spoil_banner(random: &mut Random, link: &mut Link) {
    let any = random.u16();
    let near_least = random.between(12, 20) as u16;
    let near_most = random.between(1_020, 1_028) as u16;
    let near_first = random.between(0, 24) as u16;
    let lengths = [near_least, near_least, near_most, near_first, any];
    let length = random.pick(&lengths);
    if random.once_in(4) {
        flip_a_bit(random, &mut link.banner[..8]);
        if random.once_in(2) {
            return;
        }
    }
    if random.once_in(8) {
        link.banner[18] |= 2;
    }
    link.banner[8..10].copy_from_slice(&length.to_le_bytes());
    if random.once_in(2) {
        // As many bytes as it says, but for lengths that are far too long.
        let told = 10 + usize::from(length.min(1_100));
        link.banner.resize(told, 0xA7);
    }
}

pub fn flip_a_bit(random: &mut Random, bytes: &mut [u8]) {
    if !bytes.is_empty() {
        let place = random.between(0, bytes.len() as u32 - 1) as usize;
        bytes[place] ^= 1 << random.between(0, 7);
    }
}
