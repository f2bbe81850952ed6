use super::*;
use crate::frame::{Segment, SEGMENT_LIMIT};

const LONG: usize = SEGMENT_LIMIT as usize + 1;

/// The rules a request can break, in the order of judgement.
const RULES: [u8; 6] = [6, 8, 9, 13, 15, 14];

/// Builds a one-segment msgr2.1 frame that breaks exactly the rules given,
/// and hands back the number of the refusal.
fn refused_with(broken: &[u8]) -> Option<u8> {
    let breaks = |rule: u8| broken.contains(&rule);
    let length = if breaks(9) { LONG } else { 5 };
    let mut segments = [Segment::default(); 4];
    segments[0].length = length as u32;
    segments[3].alignment = u16::from(breaks(6));
    let tag = if breaks(8) { 21 } else { 17 };
    let source = vec![0xA5; length - usize::from(breaks(13))];
    let request = FrameRequest {
        revision: Revision::Msgr21,
        frame: Frame {
            tag,
            count: 1,
            segments,
        },
        abort: breaks(15),
        source: &source,
    };
    let room = 32 + length + 4 - usize::from(breaks(14));
    let mut buffer = vec![0x33; 2 + room];
    let before = buffer.clone();
    let answer = build_frame(&request, &mut buffer, 2);
    assert!(answer.is_ok() || buffer == before);
    answer.err().map(|refusal| refusal.number)
}

#[test]
fn the_first_broken_rule_gives_the_number() {
    for broken in 0u32..64 {
        let rules: Vec<u8> = RULES
            .iter()
            .zip(0..)
            .filter(|(_, bit)| broken >> bit & 1 == 1)
            .map(|(rule, _)| *rule)
            .collect();
        assert_eq!(refused_with(&rules), rules.first().copied());
    }
}

#[test]
fn queued_and_later_bytes_stay() {
    let source = [1, 2, 3];
    let mut segments = [Segment::default(); 4];
    segments[0].length = 3;
    let request = FrameRequest {
        revision: Revision::Msgr21,
        frame: Frame {
            tag: 1,
            count: 1,
            segments,
        },
        abort: false,
        source: &source,
    };
    let mut buffer = [0xEE; 50];
    assert_eq!(build_frame(&request, &mut buffer, 4), Ok(39));
    assert_eq!(buffer[..4], [0xEE; 4]);
    assert_eq!(buffer[4..6], [1, 1]);
    assert_eq!(buffer[36..39], [1, 2, 3]);
    assert_eq!(buffer[43..], [0xEE; 7]);
}

#[test]
fn banner_room() {
    let features = Features {
        supported: 1,
        required: 0,
    };
    let mut buffer = [0x77; 30];
    assert_eq!(build_banner(features, &mut buffer, 4), Ok(26));
    assert_eq!(buffer[..6], [0x77, 0x77, 0x77, 0x77, 0x63, 0x65]);
    for queued in [5, 30, 31, 1 << 32, u64::MAX, u64::MAX - 25] {
        let mut buffer = [0x77; 30];
        let answer = build_banner(features, &mut buffer, queued);
        assert_eq!(answer, Err(Refusal::no_room(26)));
        assert_eq!(buffer, [0x77; 30]);
    }
}

#[test]
fn own_features_are_judged_before_the_room() {
    let features = Features {
        supported: 0,
        required: 1,
    };
    let answer = build_banner(features, &mut [], 1);
    assert_eq!(answer, Err(Refusal::own_features()));
}

#[test]
fn details() {
    assert_eq!(Refusal::tag(255).detail, [255, 0, 0]);
    assert_eq!(Refusal::no_room(489).detail, [489, 0, 0]);
    for bare in [
        Refusal::source_length(),
        Refusal::abort_one_segment(),
        Refusal::own_features(),
    ] {
        assert_eq!(bare.detail, [0, 0, 0]);
    }
}
