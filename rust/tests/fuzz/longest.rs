//! Frames at the limits, which are longer than any that is generated.

use mahuixen::LONGEST_FRAME;
use second::banner::Features;
use second::cutting::Course;
use second::frame::{Frame, Segment, FRAME_LIMIT, SEGMENT_LIMIT};
use second::random::Random;
use second::records::{FrameRecord, FrameStore, ReceiverRecord, Record, SendBuffer};
use second::wire::{frame_bytes, Revision};

/// Segments that are as long as they may be, and those of which one or the sum
/// is a byte too long.
const GOOD: [&[u32]; 3] = [
    &[SEGMENT_LIMIT],
    &[SEGMENT_LIMIT, SEGMENT_LIMIT],
    &[5, SEGMENT_LIMIT, SEGMENT_LIMIT - 6, 1],
];
const BAD: [&[u32]; 3] = [
    &[SEGMENT_LIMIT + 1],
    &[1, 0, SEGMENT_LIMIT + 1],
    &[SEGMENT_LIMIT, SEGMENT_LIMIT, 1],
];

const REVISIONS: [Revision; 2] = [Revision::Msgr20, Revision::Msgr21];

fn frame(lengths: &[u32]) -> Frame {
    let mut segments = [Segment::default(); 4];
    for (segment, length) in segments.iter_mut().zip(lengths) {
        segment.length = *length;
    }
    Frame {
        tag: 17,
        count: lengths.len() as u8,
        segments,
    }
}

/// Builds in both revisions, into a buffer that fits the longest one.
pub fn builds(random: &mut Random) -> Vec<Record> {
    assert_eq!(LONGEST_FRAME as u64, 32 + FRAME_LIMIT + 17);
    let mut records = Vec::new();
    for lengths in GOOD.iter().chain(&BAD) {
        let source = random.bytes(frame(lengths).sum() as u32);
        for revision in REVISIONS {
            let record = FrameRecord {
                revision,
                frame: frame(lengths),
                abort: lengths.len() == 2,
                buffer: SendBuffer {
                    length: LONGEST_FRAME as u32,
                    fill: 9,
                    queued: 0,
                },
                source: source.clone(),
            };
            records.push(Record::Frame(record));
        }
    }
    records
}

/// A stream of one such frame, with a store of this length, in long pieces.
fn stream(random: &mut Random, revision: Revision, lengths: &[u32], store: u32) -> ReceiverRecord {
    let own = Features::new(u64::from(revision == Revision::Msgr21), 0);
    let frame = frame(lengths);
    let source = random.bytes(frame.sum() as u32);
    let wire = frame_bytes(revision, &frame, false, &source);
    let stream = [own.banner(), wire].concat();
    let store = FrameStore {
        length: store,
        fill: 9,
    };
    let course = Course::of(own, store, &stream);
    let pieces = random.pick(&[Course::whole, Course::around])(&course);
    ReceiverRecord {
        own,
        store,
        pieces,
        stream,
    }
}

/// Received into a store that just fits, into one a byte longer and into one a
/// byte shorter.
pub fn streams(random: &mut Random) -> Vec<ReceiverRecord> {
    let mut records = Vec::new();
    for lengths in GOOD.iter().chain(&BAD) {
        for revision in REVISIONS {
            let needed = frame(lengths).sum() as u32;
            for store in [needed - 1, needed, needed + 1] {
                records.push(stream(random, revision, lengths, store));
            }
        }
    }
    records
}
