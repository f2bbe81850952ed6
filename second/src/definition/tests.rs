//! The definition by itself, and the receiver held to it over many cuttings.

use super::*;
use crate::generate::receiver::records;
use crate::random::Random;
use crate::receiver::Receiver;
use crate::records::{FrameStore, ReceiverRecord};
use crate::secure::{Direction, Secrets, Sending};
use crate::vectors::{banner, empty, single_of_msgr21};
use crate::vectors::{three_aborted, three_frame, three_source, three_whole};

#[test]
fn entries_of_a_stream() {
    let revision = Revision::Msgr21;
    let mut last = three_whole(revision);
    last[32] ^= 1;
    let stream = [
        banner(revision),
        three_whole(revision),
        three_aborted(revision),
        empty(revision),
        last,
    ];
    let list = entries(Features::new(1, 0), &stream.concat(), &[9; 43]);
    let bytes: Vec<usize> = list.entries.iter().map(|entry| entry.byte).collect();
    assert_eq!(bytes, [26, 71, 116, 161, 206, 238, 283]);
    let first = Report::First(three_frame());
    assert_eq!(list.entries[1].report, first);
    let only_first = [b"123456789".as_slice(), &[9; 34]].concat();
    assert_eq!(list.entries[1].store, only_first);
    let whole = [three_source().as_slice(), &[9, 9]].concat();
    assert_eq!(list.entries[2].report, Report::Frame(three_frame()));
    assert_eq!(list.entries[2].store, whole);
    let zeroed = [[0; 41].as_slice(), &[9, 9]].concat();
    assert_eq!(list.entries[3].report, first);
    assert_eq!(list.entries[3].store, whole);
    assert_eq!(list.entries[4].report, Report::Dropped(three_frame()));
    assert_eq!(list.entries[4].store, zeroed);
    let refusal = Report::Refused(Refusal::segment_checksum(0));
    assert_eq!(list.entries[6].report, refusal);
    assert_eq!(list.store, zeroed);
}

/// At the frame's last byte, as other faults of an epilogue, the store zeroed;
/// the frame behind it is not read.
#[test]
fn a_second_spelling_is_refused_at_the_frames_end() {
    for (revision, late, early) in [(Revision::Msgr20, 73, 0), (Revision::Msgr21, 77, 1)] {
        for frame in [three_whole(revision), three_aborted(revision)] {
            let mut filled = frame.clone();
            filled[87] = 0x10;
            let mut flags = frame.clone();
            flags[late] |= 0x10;
            let told = |frame: Vec<u8>| {
                let stream = [banner(revision), frame, empty(revision)].concat();
                let list = entries(Features::new(1, 0), &stream, &[9; 43]);
                list.entries[1 + early..].to_vec()
            };
            let zeroed = [[0; 41].as_slice(), &[9, 9]].concat();
            let refused = |refusal| Entry {
                report: Report::Refused(refusal),
                byte: 116,
                store: zeroed.clone(),
            };
            let unused = refused(Refusal::non_canonical_checksum(3));
            assert_eq!(told(filled), [unused]);
            match revision {
                Revision::Msgr20 => {
                    assert_eq!(told(flags), [refused(Refusal::non_canonical_flags())])
                }
                // The high four bits of a late status are not looked at.
                Revision::Msgr21 => {
                    let spelled = told(frame.clone());
                    assert_eq!(spelled.len(), 2);
                    assert_eq!(told(flags), spelled);
                }
            }
        }
    }
}

#[test]
fn no_early_report_without_a_checksum_and_more_segments() {
    let reports = |revision, frame: Vec<u8>| {
        let stream = [banner(revision), frame].concat();
        entries(Features::new(1, 0), &stream, &[9; 43])
            .entries
            .len()
    };
    assert_eq!(reports(Revision::Msgr20, three_whole(Revision::Msgr20)), 2);
    assert_eq!(reports(Revision::Msgr21, single_of_msgr21()), 2);
    assert_eq!(reports(Revision::Msgr21, empty(Revision::Msgr21)), 2);
    assert_eq!(reports(Revision::Msgr21, three_whole(Revision::Msgr21)), 3);
}

#[test]
fn judgements_past_the_end_are_not_made() {
    for revision in [Revision::Msgr20, Revision::Msgr21] {
        let stream = [banner(revision), three_whole(revision)].concat();
        let early = usize::from(revision == Revision::Msgr21);
        let counts = [
            (7, 0),
            (25, 0),
            (26, 1),
            (57, 1),
            (70, 1),
            (71, 1 + early),
            (115, 1 + early),
            (116, 2 + early),
        ];
        for (length, count) in counts {
            let list = entries(Features::new(1, 0), &stream[..length], &[9; 43]);
            assert_eq!(list.entries.len(), count, "{length} bytes");
        }
        let list = entries(Features::new(1, 0), &stream[..60], &[9; 43]);
        assert_eq!(list.store, [b"12".as_slice(), &[9; 41]].concat());
    }
}

#[test]
fn a_refused_start_has_no_entries() {
    let list = entries(Features::new(0, 1), &banner(Revision::Msgr21), &[7]);
    assert_eq!(list.entries, []);
    assert_eq!(list.store, [7]);
}

/// A stream under way: what the calls so far have left.
pub struct Calls<'a> {
    own: Features,
    stream: &'a [u8],
    first_store: Vec<u8>,
    /// The switch that was made.
    switch: Option<Switch>,
    list: List,
    pub receiver: Receiver,
    pub store: Vec<u8>,
    pub taken: usize,
    pub reported: Vec<Entry>,
}

impl<'a> Calls<'a> {
    pub fn new(own: Features, store: FrameStore, stream: &'a [u8]) -> Self {
        let store = store.bytes();
        Self {
            own,
            stream,
            first_store: store.clone(),
            switch: None,
            list: entries(own, stream, &store),
            receiver: Receiver::start(own).0,
            store,
            taken: 0,
            reported: Vec::new(),
        }
    }

    fn start(record: &'a ReceiverRecord) -> Self {
        Self::new(record.own, record.store, &record.stream)
    }

    fn is_refused(&self) -> bool {
        let last = self.reported.last();
        let refused = last.is_some_and(|entry| matches!(entry.report, Report::Refused(_)));
        refused || self.own.judge_own().is_err()
    }

    pub fn has_ended(&self) -> bool {
        self.is_refused() || self.taken == self.stream.len()
    }

    /// Frames and drops reported.
    pub fn frames(&self) -> usize {
        let reports = self.reported.iter().map(|entry| entry.report);
        let is_frame = |report: &Report| matches!(report, Report::Frame(_) | Report::Dropped(_));
        reports.filter(is_frame).count()
    }

    /// Whether a switch may be made, by what was reported and taken so far.
    pub fn may_switch(&self) -> bool {
        let Some(last) = self.reported.last() else {
            return false;
        };
        let is_frame = matches!(last.report, Report::Frame(_) | Report::Dropped(_));
        let is_21 = matches!(
            self.reported[0].report,
            Report::Banner {
                revision: Revision::Msgr21,
                ..
            }
        );
        is_frame && is_21 && last.byte == self.taken && self.switch.is_none()
    }

    /// One try: it is refused unless it may be made, changes no byte of the store,
    /// and from then on the list is that of the stream with the switch.
    pub fn switch(&mut self, secrets: &Secrets, opened: u64) {
        let due = self.may_switch();
        let before = self.receiver.clone();
        let (sending, switched) = self.receiver.switch_after(secrets, opened);
        if !due {
            assert_eq!(
                (sending, switched),
                (Sending::Refused, Err(Refusal::switch_refused()))
            );
            assert_eq!(self.receiver, before);
            return;
        }
        let direction = Direction::new(secrets.key, secrets.sending, 0);
        assert_eq!((sending, switched), (Sending::Sealing(direction), Ok(())));
        self.switch = Some(Switch {
            after: self.frames(),
            key: secrets.key,
            nonce: secrets.receiving,
            opened,
        });
        self.list = self.defined(self.stream);
        assert_eq!(self.reported, self.list.entries[..self.reported.len()]);
    }

    /// The definition's list of the bytes given.
    fn defined(&self, bytes: &[u8]) -> List {
        entries_switched(self.own, bytes, &self.first_store, self.switch.as_ref())
    }

    /// One call: it must take the piece up to the next entry, or whole.
    pub fn call(&mut self, length: usize) {
        let left = &self.stream[self.taken..];
        let piece = &left[..left.len().min(length)];
        let refused = self.is_refused();
        let next = self.list.entries.get(self.reported.len());
        let offered = self.taken + piece.len();
        let (taken, report) = self.receiver.receive(piece, &mut self.store);
        self.taken += taken;
        match next {
            _ if refused => assert!(taken == 0 && matches!(report, Report::Refused(_))),
            Some(entry) if entry.byte <= offered && entry.byte > offered - piece.len() => {
                let store = self.store.clone();
                let byte = self.taken;
                self.reported.push(Entry {
                    report,
                    byte,
                    store,
                });
                assert_eq!(self.reported.last(), Some(entry));
            }
            _ => assert_eq!((self.taken, report), (offered, Report::More)),
        }
    }

    /// The store must be the one defined for the bytes taken.
    pub fn judge_store(&self) {
        let defined = self.defined(&self.stream[..self.taken]);
        assert_eq!(self.store, defined.store);
        assert_eq!(self.reported, defined.entries);
    }

    pub fn judge_end(&self) {
        assert!(self.has_ended());
        assert_eq!(self.reported, self.list.entries);
        assert_eq!(self.store, self.list.store);
    }
}

/// Pieces of up to `most` bytes, some of them empty, and calls behind the end.
fn cut_at_random<'a>(record: &'a ReceiverRecord, random: &mut Random, most: u32) -> Calls<'a> {
    let mut calls = Calls::start(record);
    while !calls.has_ended() {
        calls.call(random.between(0, most) as usize);
    }
    for length in [0, 3, 70_000] {
        calls.call(length);
    }
    calls.judge_end();
    calls
}

#[test]
fn reports_do_not_depend_on_the_cuts() {
    let mut random = Random::new(5);
    for record in records(11, 2_500) {
        let whole = cut_at_random(&record, &mut random, 140_000);
        for most in [1, 3, 17, 60, 400] {
            let cut = cut_at_random(&record, &mut random, most);
            assert_eq!(cut.receiver, whole.receiver);
        }
    }
}

#[test]
fn generated_calls_leave_the_defined_store_each_time() {
    for record in records(12, 2_500) {
        let mut calls = Calls::start(&record);
        for &piece in &record.pieces {
            calls.call(piece as usize);
            calls.judge_store();
        }
        calls.judge_end();
    }
}

#[test]
fn two_pieces_with_the_same_bytes_leave_the_same_state() {
    for record in records(13, 400) {
        let mut bytewise = Calls::start(&record);
        for length in 0..record.stream.len().min(200) {
            let mut once = Calls::start(&record);
            while once.taken < length && !once.has_ended() {
                once.call(length - once.taken);
            }
            assert_eq!(once.receiver, bytewise.receiver);
            assert_eq!(once.store, bytewise.store);
            bytewise.call(1);
        }
    }
}
