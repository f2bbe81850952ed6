//! The layout and the builder, by frames sealed elsewhere and by the rules one by
//! one.

use super::*;
use crate::builder::FrameRequest;
use crate::fixed::request::{frame, source};
use crate::fixed::switching::case::{counting_from, SECRETS};
use crate::fixed::switching::frames::{build, SHAPES};
use crate::frame::{Frame, SEGMENT_LIMIT};
use crate::gcm;
use crate::random::Random;
use crate::refusal::Refusal;
use crate::wire::Revision;
use std::collections::BTreeSet;

/// The frames of the fixed file, sealed by another program; one to a line.
const DERIVED: &str = include_str!("../../../tests/known/switch/sealed-frames.hex");

fn bytes(hex: &str) -> Vec<u8> {
    let digits = |place: usize| u8::from_str_radix(&hex[place..place + 2], 16).expect("hex");
    (0..hex.len()).step_by(2).map(digits).collect()
}

fn sealing(spent: u64) -> Sending {
    Sending::Sealing(Direction::new(SECRETS.key, SECRETS.sending, spent))
}

fn request<'a>(frame: Frame, abort: bool, source: &'a [u8]) -> FrameRequest<'a> {
    FrameRequest {
        revision: Revision::Msgr21,
        frame,
        abort,
        source,
    }
}

/// A build into a buffer that it fills.
fn built(sending: &mut Sending, lengths: &[u32], abort: bool) -> Result<Vec<u8>, Refusal> {
    let frame = frame(lengths);
    let mut buffer = vec![0xEE; wire_length(&frame) as usize];
    let source = source(frame.sum());
    sending.build(&request(frame, abort, &source), &mut buffer, 0)?;
    Ok(buffer)
}

/// 02's two lengths, and those of the other examples of 000.
#[test]
fn wire_lengths() {
    let length = |lengths: &[u32]| wire_length(&frame(lengths));
    assert_eq!(length(&[0]), 96);
    assert_eq!(length(&[105, 70, 0, 350]), 640);
    assert_eq!(length(&[20]), 96);
    assert_eq!(length(&[0, 70]), 96 + 80 + 16 + 16);
    assert_eq!(length(&[20, 70, 0, 350]), 96 + 80 + 352 + 16 + 16);
    assert_eq!(length(&[105]), 96 + 64 + 16);
    assert_eq!((length(&[48]), length(&[49])), (96, 128));
    assert_eq!((length(&[64]), length(&[65])), (128, 144));
}

/// Three parts at the most: the second where segment 1 is longer than 48, the
/// last where there is more than one segment.
#[test]
fn parts() {
    let parts = |lengths: &[u32]| part_lengths(&frame(lengths));
    assert_eq!(parts(&[48]), [96]);
    assert_eq!(parts(&[49]), [96, 32]);
    assert_eq!(parts(&[48, 1]), [96, 48]);
    assert_eq!(parts(&[105, 70, 0, 350]), [96, 80, 464]);
    assert_eq!(parts(&[0, 0, 0, 1]), [96, 48]);
}

/// The lengths rounded up, plus 32, for an empty frame too.
#[test]
fn what_a_frame_needs_of_the_store() {
    let needed = |lengths: &[u32]| store_needed(&frame(lengths));
    assert_eq!(needed(&[0]), 32);
    assert_eq!((needed(&[16]), needed(&[17])), (48, 64));
    assert_eq!(needed(&[105, 70, 0, 350]), 112 + 80 + 352 + 32);
    let frame = frame(&[5, 3]);
    assert_eq!(judge_store(&frame, 63), Err(Refusal::store_short(64)));
    assert_eq!(judge_store(&frame, 64), Ok(()));
}

/// What is sealed, byte by byte: segment 1 as far as 48 bytes behind the preamble,
/// its rest padded, the others padded and the epilogue.
#[test]
fn texts_written_out() {
    let frame = frame(&[50, 3, 0, 17]);
    let source: Vec<u8> = (1..=70).collect();
    let zeros = |count: usize| vec![0; count];
    let whole = texts(&frame, false, &source);
    assert_eq!(
        whole[0],
        [frame.preamble().as_slice(), &source[..48]].concat()
    );
    assert_eq!(whole[1], [[49, 50].as_slice(), &zeros(14)].concat());
    let last = [
        [51, 52, 53].to_vec(),
        zeros(13),
        (54..=70).collect(),
        zeros(15),
        vec![0x0E],
        zeros(15),
    ];
    assert_eq!((whole.len(), &whole[2]), (3, &last.concat()));
    // An aborted one has segment 1 as it is and zeros for the others.
    let aborted = texts(&frame, true, &source);
    assert_eq!(aborted[..2], whole[..2]);
    assert_eq!(aborted[2], [zeros(48), vec![0x01], zeros(15)].concat());
    // The unused portion of the inline buffer is zero.
    let short = crate::fixed::request::frame(&[20]);
    let text = &texts(&short, false, &source[..20])[0];
    assert_eq!(text[32..], [&source[..20], &zeros(28)].concat());
}

/// Every example is, bit by bit, what a stock library seals.
#[test]
fn frames_sealed_elsewhere() {
    let mut sending = sealing(0);
    let frames: Vec<Vec<u8>> = DERIVED.lines().map(bytes).collect();
    assert_eq!(frames.len(), SHAPES.len());
    for ((lengths, abort), expected) in SHAPES.into_iter().zip(frames) {
        assert!(
            built(&mut sending, lengths, abort) == Ok(expected),
            "{lengths:?}"
        );
    }
}

/// Four fixed bytes, then a little-endian counter that goes up by one for each
/// part and wraps.
#[test]
fn nonces_count_up_and_wrap() {
    let counters = [u64::MAX - 1, u64::MAX, 0, 1];
    let start = counting_from(counters[0]);
    let mut sending = Sending::Sealing(Direction::new(SECRETS.key, start, 0));
    let whole = built(&mut sending, &[49, 1], false).expect("three parts");
    let next = built(&mut sending, &[0], false).expect("one part");
    let parts = [&whole[..96], &whole[96..128], &whole[128..], &next];
    for (part, counter) in parts.into_iter().zip(counters) {
        let nonce = counting_from(counter);
        assert_eq!(nonce[..4], start[..4]);
        let mut text = vec![0; part.len() - 16];
        assert!(gcm::open(&SECRETS.key, &nonce, part, &mut text).is_ok());
    }
}

/// The rules behind 27 in their order.
const RULES: [u8; 7] = [6, 8, 9, 13, 15, 14, 18];

/// Builds a frame of one segment and two parts that breaks exactly these rules,
/// with two nonces left or with one; answers the refusal's number.
fn refused_with(broken: &[u8], refused_switch: bool) -> Option<u8> {
    let breaks = |rule: u8| broken.contains(&rule);
    let length = if breaks(9) { SEGMENT_LIMIT + 1 } else { 60 };
    let mut frame = frame(&[length]);
    frame.segments[3].alignment = u16::from(breaks(6));
    if breaks(8) {
        frame.tag = 0;
    }
    let source = vec![0xA5; length as usize - usize::from(breaks(13))];
    let room = wire_length(&frame) as usize - usize::from(breaks(14));
    let mut buffer = vec![0x33; 2 + room];
    let before = buffer.clone();
    let mut sending = if refused_switch {
        Sending::Refused
    } else {
        sealing(u64::MAX - u64::from(!breaks(18)))
    };
    let state = sending.clone();
    let answer = sending.build(&request(frame, breaks(15), &source), &mut buffer, 2);
    // A refused build changes no byte and uses no nonce.
    assert!(answer.is_ok() || (buffer == before && sending == state));
    answer.err().map(|refusal| refusal.number)
}

#[test]
fn the_first_broken_rule_gives_the_number() {
    for broken in 0u32..1 << RULES.len() {
        let rules: Vec<u8> = RULES
            .iter()
            .zip(0..)
            .filter(|(_, bit)| broken >> bit & 1 == 1)
            .map(|(rule, _)| *rule)
            .collect();
        assert_eq!(refused_with(&rules, false), rules.first().copied());
        assert_eq!(refused_with(&rules, true), Some(27));
    }
}

#[test]
fn details() {
    assert_eq!(Refusal::nonces_spent().detail, [0; 3]);
    assert_eq!(Refusal::padding().detail, [0; 3]);
    assert_eq!(Refusal::switch_refused().detail, [0; 3]);
    let mut short = [0; 639];
    let build = build(&[105, 70, 0, 350], true);
    let answer = sealing(0).build(&build.request(), &mut short, 0);
    assert_eq!(answer, Err(Refusal::no_room(640)));
}

#[test]
fn queued_and_later_bytes_stay() {
    for (lengths, abort) in SHAPES {
        let build = build(lengths, abort);
        let length = build.buffer.length as usize;
        let mut alone = vec![0; length];
        let mut between = vec![0xEE; 4 + length + 7];
        let wrote = sealing(9).build(&build.request(), &mut alone, 0);
        assert_eq!(wrote, Ok(length as u64));
        let wrote = sealing(9).build(&build.request(), &mut between, 4);
        assert_eq!(wrote, Ok(length as u64));
        assert_eq!(between[..4], [0xEE; 4]);
        assert!(between[4..4 + length] == alone);
        assert_eq!(between[4 + length..], [0xEE; 7]);
    }
}

/// 18 depends on how many nonces are used, and not on where the counter stands.
#[test]
fn a_frame_short_of_nonces_is_refused_whole() {
    let shapes: [(&[u32], u64); 4] = [(&[48], 1), (&[49], 2), (&[48, 1], 2), (&[49, 1], 3)];
    for counter in [0, 1, u64::MAX - 1, u64::MAX] {
        for (lengths, needs) in shapes {
            for left in 1..=4 {
                let spent = u64::MAX - (left - 1);
                let start = counting_from(counter);
                let mut sending = Sending::Sealing(Direction::new(SECRETS.key, start, spent));
                let before = sending.clone();
                let answer = built(&mut sending, lengths, false);
                if needs <= left {
                    let Sending::Sealing(direction) = sending else {
                        panic!("a live state");
                    };
                    assert!(answer.is_ok());
                    assert_eq!(direction.left(), u128::from(left - needs));
                } else {
                    assert_eq!(answer, Err(Refusal::nonces_spent()));
                    assert_eq!(sending, before);
                }
            }
        }
    }
}

/// The counter of the nonce under which sealed bytes open, of some that come into
/// question.
fn counter_of(part: &[u8], candidates: &[u64]) -> u64 {
    let mut text = vec![0; part.len() - 16];
    let opens = |counter: &&u64| {
        let nonce = counting_from(**counter);
        gcm::open(&SECRETS.key, &nonce, part, &mut text).is_ok()
    };
    *candidates
        .iter()
        .find(opens)
        .expect("a nonce that opens it")
}

/// Over any builds, refused ones among them, no nonce is used twice, and each part
/// has the next one.
#[test]
fn no_nonce_twice() {
    let mut random = Random::new(11);
    for left in [3, 8, 20] {
        let start = u64::MAX - 5;
        let spent = u64::MAX - (left - 1);
        let first = start.wrapping_add(spent);
        let candidates: Vec<u64> = (0..30).map(|step| first.wrapping_add(step)).collect();
        let direction = Direction::new(SECRETS.key, counting_from(start), spent);
        let mut sending = Sending::Sealing(direction);
        let mut used = Vec::new();
        for _ in 0..60 {
            let lengths: &[u32] = random.pick(&[&[0], &[49], &[2, 1], &[70, 0, 3]]);
            let frame = frame(lengths);
            let mut build = build(lengths, random.once_in(3));
            if random.once_in(3) {
                build.frame.tag = random.pick(&[0, 17, 21]);
                build.buffer.queued = u64::from(random.between(0, 1));
            }
            let mut buffer = build.buffer.bytes();
            let answer = sending.build(&build.request(), &mut buffer, build.buffer.queued);
            if answer.is_ok() {
                let mut parts = buffer.as_slice();
                for length in part_lengths(&frame) {
                    let (part, behind) = parts.split_at(length);
                    used.push(counter_of(part, &candidates));
                    parts = behind;
                }
            }
        }
        let different: BTreeSet<u64> = used.iter().copied().collect();
        assert_eq!(different.len(), used.len());
        // All that were left but for what no frame fitted into, in their order.
        assert_eq!(used.len() as u64, left);
        assert_eq!(used, candidates[..used.len()]);
    }
}
