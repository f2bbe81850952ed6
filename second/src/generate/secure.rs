//! Generated streams that go over to secure mode: a banner, frames in crc mode,
//! then sealed ones, as they should be or with a fault.

use super::link::{break_rule, change_preamble, flip_a_bit, preamble_change, put_lengths};
use super::link::{link, spoil_banner, spoil_frame, Link, Size};
use super::{alignment, payload, sum_passed};
use crate::definition::entries;
use crate::frame::{Frame, Segment, SEGMENTS};
use crate::random::Random;
use crate::records::Try;
use crate::report::Report;
use crate::secure::{part_lengths, Nonce, Secrets};
use crate::spoil::sealed::{SealedFrame, Sealer};
use crate::spoil::WireFrame;
use crate::wire::Revision;

/// The most nonces that are left where there are few.
const MOST_LEFT: u32 = 9;

/// How long a stream is before the switch, for the most part.
const MOST_CLEAR: usize = 400;

/// A stream and what its reader switches with.
pub struct SecureLink {
    /// What comes before the switch.
    pub clear: Link,
    pub frames: Vec<SealedFrame>,
    pub switch: Try,
}

impl SecureLink {
    pub fn bytes(&self) -> Vec<u8> {
        let mut sealer = Sealer {
            key: self.switch.secrets.key,
            start: self.switch.secrets.receiving,
            sealed: self.switch.opened,
        };
        let mut bytes = self.clear.bytes();
        for frame in &self.frames {
            bytes.extend(frame.bytes(&mut sealer));
        }
        bytes
    }
}

/// Lengths around what fits behind the preamble and around whole blocks.
fn segment_length(random: &mut Random, place: usize, size: Size) -> u32 {
    let around = 16 * random.between(1, 7) + random.between(0, 2) - 1;
    match random.between(1, 400) {
        1..=90 => 0,
        91..=150 => random.between(1, 15),
        151..=230 if place == 0 => random.pick(&[47, 48, 49, 63, 64, 65, 105]),
        151..=330 => around,
        331..=370 => random.between(1, 130),
        _ if size == Size::Small => random.between(1, 50),
        371..=396 => random.between(1, 400),
        397..=399 => random.between(1, 3_000),
        _ => random.between(1, 16_384),
    }
}

fn good_frame(random: &mut Random, size: Size) -> Frame {
    let count = random.pick(&[1, 1, 2, 2, 3, 4]);
    let mut segments = [Segment::default(); SEGMENTS];
    for (place, segment) in segments.iter_mut().enumerate().take(count) {
        segment.length = segment_length(random, place, size);
        segment.alignment = alignment(random);
    }
    let last = &mut segments[count - 1];
    if count > 1 && last.length == 0 {
        last.length = random.between(1, 33);
    }
    Frame {
        tag: random.between(1, 20) as u8,
        count: count as u8,
        segments,
    }
}

pub fn sealed_frame(random: &mut Random, size: Size) -> SealedFrame {
    let frame = good_frame(random, size);
    let abort = frame.count > 1 && random.once_in(4);
    let source = payload(random, frame.sum() as u32);
    SealedFrame::new(frame, abort, &source)
}

/// A nonce, often one whose counter soon wraps.
pub fn nonce(random: &mut Random) -> Nonce {
    let mut nonce: Nonce = std::array::from_fn(|_| random.u8());
    let few = u64::from(random.between(0, 6));
    let any = random.u64();
    let counter = random.pick(&[any, any, few, u64::MAX - few, u64::MAX]);
    nonce[4..].copy_from_slice(&counter.to_le_bytes());
    nonce
}

pub fn any_try(random: &mut Random) -> Try {
    let any = random.u64();
    Try {
        secrets: Secrets {
            key: std::array::from_fn(|_| random.u8()),
            receiving: nonce(random),
            sending: nonce(random),
        },
        opened: random.pick(&[0, 0, 0, any]),
    }
}

/// How many parts count as opened: mostly none, now and then so many that the
/// frames' parts are about what is left, or more.
fn opened(random: &mut Random, frames: &[SealedFrame]) -> u64 {
    let parts: usize = frames.iter().map(|f| part_lengths(&f.frame).len()).sum();
    let about = (parts as u64 + 1).saturating_sub(u64::from(random.between(0, 4)));
    let few = u64::from(random.between(1, MOST_LEFT));
    match random.between(1, 12) {
        1 => u64::MAX - few.min(about),
        2 => u64::MAX - few,
        3 => u64::MAX,
        4 => random.u64(),
        _ => 0,
    }
}

/// Whether the stream is msgr2.1, not long, and ends with a frame or a drop.
fn leads_to_a_switch(clear: &Link) -> bool {
    let bytes = clear.bytes();
    let needed = clear.frames.iter().map(|frame| frame.frame.sum());
    let store = vec![0; needed.max().unwrap_or(0) as usize];
    let entries = entries(clear.own, &bytes, &store).entries;
    let revision = entries.first().map(|entry| entry.report);
    let is_21 = matches!(
        revision,
        Some(Report::Banner {
            revision: Revision::Msgr21,
            ..
        })
    );
    let ends = entries
        .last()
        .is_some_and(|entry| entry.byte == bytes.len());
    is_21 && ends && entries.len() > 1 && bytes.len() < MOST_CLEAR
}

/// A stream with frames of both modes, mostly without faults before the switch.
pub fn secure_link(random: &mut Random, size: Size) -> SecureLink {
    let mut clear = link(random, size);
    while !leads_to_a_switch(&clear) && !random.once_in(25) {
        clear = link(random, Size::Small);
    }
    let most = if size == Size::Small { 2 } else { 4 };
    let count = random.between(1, most);
    let frames: Vec<SealedFrame> = (0..count).map(|_| sealed_frame(random, size)).collect();
    let switch = Try {
        opened: opened(random, &frames),
        ..any_try(random)
    };
    SecureLink {
        clear,
        frames,
        switch,
    }
}

/// Faults of a stream with a switch: mostly of a sealed frame.
pub fn spoil(random: &mut Random, link: &mut SecureLink) {
    match random.between(1, 40) {
        1 => spoil_frame(random, &mut link.clear),
        2 => spoil_banner(random, &mut link.clear),
        _ => {
            let place = random.between(0, link.frames.len() as u32 - 1) as usize;
            spoil_sealed(random, &mut link.frames[place]);
        }
    }
}

fn spoil_sealed(random: &mut Random, frame: &mut SealedFrame) {
    match random.between(1, 40) {
        1..=8 => damage(random, frame),
        9..=18 => fill_padding(random, frame),
        19..=24 => spoil_late_status(random, frame),
        // The late status comes before the padding, and that before a drop.
        25..=28 => {
            spoil_late_status(random, frame);
            fill_padding(random, frame);
        }
        29..=30 => seal_wrongly(random, frame),
        31..=32 => {
            // The tag comes before all that the text says.
            spoil_preamble(random, frame);
            damage(random, frame);
        }
        33..=34 => {
            spoil_preamble(random, frame);
            fill_padding(random, frame);
        }
        _ => spoil_preamble(random, frame),
    }
}

/// A bit of a part as it is on the wire, in the text or in the tag, often at an
/// end of either.
fn damage(random: &mut Random, frame: &mut SealedFrame) {
    let part = random.between(0, frame.texts.len() as u32 - 1) as usize;
    let text = frame.texts[part].len() as u32;
    let any = random.between(0, text + 15);
    let place = random.pick(&[0, any, any, text - 1, text, text + 15]);
    let bit = 1 << random.between(0, 7);
    frame.damage.push((part, place as usize, bit));
}

/// Padding that is not zero, behind a good tag: one bit of one byte, which is
/// often at an end, or all of a padding.
fn fill_padding(random: &mut Random, frame: &mut SealedFrame) {
    let paddings = frame.paddings();
    if paddings.is_empty() {
        return;
    }
    let which = random.between(0, paddings.len() as u32 - 1) as usize;
    let (part, bytes) = paddings[which].clone();
    let padding = &mut frame.texts[part][bytes];
    let last = padding.len() - 1;
    match random.between(1, 5) {
        1 => padding[0] = 1 << random.between(0, 7),
        2 => padding[last] = 1 << random.between(0, 7),
        3 => padding.fill(random.u8()),
        _ => flip_a_bit(random, padding),
    }
}

fn spoil_late_status(random: &mut Random, frame: &mut SealedFrame) {
    let any = random.u8();
    let known = random.pick(&[0x00, 0x01, 0x0E, 0x0F, 0x1E, 0xE1, 0xFE, 0xF1]);
    if let Some(late) = frame.late_status_mut() {
        *late = random.pick(&[known, known, any]);
    }
}

/// A part, or all from one on, under another nonce or another key.
fn seal_wrongly(random: &mut Random, frame: &mut SealedFrame) {
    let parts = frame.texts.len();
    let from = random.between(0, parts as u32 - 1) as usize;
    let to = random.pick(&[from + 1, parts]);
    let off = random.pick(&[1, u64::MAX, 1 << 32, 1 << 63]);
    let bit = 1 << random.between(0, 7);
    if random.once_in(2) {
        frame.nonces_off[from..to].fill(off);
    } else {
        frame.keys_off[from..to].fill(bit);
    }
}

/// The faults of preambles in crc mode, here behind a good tag.
fn spoil_preamble(random: &mut Random, frame: &mut SealedFrame) {
    let mut preamble = WireFrame::preamble_only(Revision::Msgr21, frame.frame);
    match random.between(1, 12) {
        1 => preamble.bytes.fill(0),
        2 | 3 => put_lengths(&mut preamble, sum_passed(random)),
        4 => break_rule(random, &mut preamble, 4),
        5..=7 => {
            let later = random.between(1, 4);
            break_rule(random, &mut preamble, later);
            break_rule(random, &mut preamble, later - 1);
        }
        8 => break_rule(random, &mut preamble, 0),
        _ => {
            let count = random.pick(&[1, 1, 2]);
            let tag = frame.frame.tag;
            let changes = (0..count).map(|_| preamble_change(random, tag)).collect();
            change_preamble(&mut preamble, changes);
        }
    }
    frame.preamble_mut().copy_from_slice(&preamble.bytes);
}
