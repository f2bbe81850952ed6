//! Builds the frames that are written out by hand, and their lengths.

use super::*;
use crate::vectors::{
    empty, empty_frame, frame, single_frame, single_of_msgr21, three_aborted, three_frame,
    three_source, three_whole, DIGITS,
};

const REVISIONS: [Revision; 2] = [Revision::Msgr20, Revision::Msgr21];

#[test]
fn empty_frames() {
    for revision in REVISIONS {
        let made = frame_bytes(revision, &empty_frame(), false, &[]);
        assert_eq!(made, empty(revision));
    }
}

#[test]
fn single_segment_of_msgr21_has_no_epilogue() {
    let made = frame_bytes(Revision::Msgr21, &single_frame(), false, DIGITS);
    assert_eq!(made, single_of_msgr21());
}

#[test]
fn whole_frames() {
    for revision in REVISIONS {
        let made = frame_bytes(revision, &three_frame(), false, &three_source());
        assert_eq!(made, three_whole(revision));
    }
}

#[test]
fn aborted_frames() {
    for revision in REVISIONS {
        let made = frame_bytes(revision, &three_frame(), true, &three_source());
        assert_eq!(made, three_aborted(revision));
    }
}

#[test]
fn lengths_of_the_example_frames() {
    let examples = [
        (frame(17, 1, [(0, 0); 4]), 49, 32),
        (frame(17, 1, [(20, 0), (0, 0), (0, 0), (0, 0)]), 69, 56),
        (frame(17, 2, [(0, 0), (70, 0), (0, 0), (0, 0)]), 119, 115),
        (frame(17, 4, [(20, 0), (70, 0), (0, 0), (350, 0)]), 489, 489),
    ];
    for (frame, msgr20, msgr21) in examples {
        assert_eq!(wire_length(Revision::Msgr20, &frame), msgr20);
        assert_eq!(wire_length(Revision::Msgr21, &frame), msgr21);
        let source = vec![0x5A; frame.sum() as usize];
        let length = |revision| frame_bytes(revision, &frame, false, &source).len() as u64;
        assert_eq!(length(Revision::Msgr20), msgr20);
        assert_eq!(length(Revision::Msgr21), msgr21);
    }
}

#[test]
fn only_an_epilogue_can_abort() {
    let single = frame(17, 1, [(20, 0), (0, 0), (0, 0), (0, 0)]);
    let double = frame(17, 2, [(0, 0), (1, 0), (0, 0), (0, 0)]);
    assert!(can_abort(Revision::Msgr20, &single));
    assert!(!can_abort(Revision::Msgr21, &single));
    assert!(can_abort(Revision::Msgr20, &double));
    assert!(can_abort(Revision::Msgr21, &double));
}
