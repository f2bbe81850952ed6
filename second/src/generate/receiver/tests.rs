use super::*;
use crate::definition::{entries, Entry};
use crate::frame::Frame;
use crate::records::Record;
use crate::report::Report;
use crate::run::run;
use crate::wire::{epilogue_length, Revision};
use std::collections::BTreeMap;

fn made_records(seed: u64, count: u64) -> impl Iterator<Item = Record> {
    records(seed, count).map(Record::Receiver)
}

fn made(seed: u64, count: u64) -> Vec<u8> {
    let records = made_records(seed, count);
    records.flat_map(|record| record.to_bytes()).collect()
}

fn answers(seed: u64, count: u64) -> Vec<String> {
    let mut printed = Vec::new();
    run(&made(seed, count), &mut printed).expect("writing to memory");
    let text = String::from_utf8(printed).expect("plain text");
    text.lines().map(String::from).collect()
}

#[test]
fn every_record_has_its_lines() {
    for seed in [0, 1, 2, u64::MAX] {
        let lines = answers(seed, 1_000);
        let expected: usize = made_records(seed, 1_000).map(|record| record.lines()).sum();
        assert_eq!(lines.len(), expected);
        let starts = lines.iter().filter(|line| line.starts_with("start"));
        assert_eq!(starts.count(), 1_000);
        assert!(!lines.iter().any(|line| line == "bad record"));
    }
}

/// The line without the numbers that differ from stream to stream.
fn kind(line: &str) -> String {
    let words: Vec<&str> = line.split(' ').collect();
    match words[0] {
        "refused" => format!("refused {}", words[4]),
        "banner" => format!("banner {}", words[8]),
        "start" => words[..2].join(" "),
        other => other.to_string(),
    }
}

#[test]
fn every_kind_of_answer_comes_up_often() {
    let lines = answers(1, 5_000);
    let refusals = [1, 2, 3, 4, 5, 6, 7, 8, 9, 10, 11, 12, 16, 24];
    let mut kinds: Vec<String> = refusals.map(|n| format!("refused {n}")).to_vec();
    let others = ["more", "first", "frame", "dropped", "banner 0", "banner 1"];
    kinds.extend(others.map(String::from));
    kinds.extend(["start ok", "start refused"].map(String::from));
    for wanted in kinds {
        let seen = lines.iter().filter(|line| kind(line) == wanted).count();
        assert!(seen >= 40, "{wanted}: {seen}");
    }
}

fn list(record: &ReceiverRecord) -> Vec<Entry> {
    entries(record.own, &record.stream, &record.store.bytes()).entries
}

/// What a refusal 24 came instead of: the entry at its byte once the epilogue is
/// spelled as we write it. Answers the revision and the refusal's detail too.
fn hidden_by_24(mut record: ReceiverRecord) -> Option<(Revision, u64, String)> {
    let before = list(&record);
    let [Entry { report: banner, .. }, frames @ .., last] = before.as_slice() else {
        return None;
    };
    let (Report::Banner { revision, .. }, Report::Refused(refusal)) = (banner, last.report) else {
        return None;
    };
    if refusal.number != 24 {
        return None;
    }
    let frames = frames.iter().rev();
    let mut whole = frames.filter(|entry| !matches!(entry.report, Report::First(_)));
    let begins = whole.next().map_or(before[0].byte, |entry| entry.byte);
    let preamble = record.stream[begins..].first_chunk().expect("a preamble");
    let frame = Frame::read(preamble).expect("a good preamble");
    let epilogue = last.byte - epilogue_length(*revision, &frame);
    if *revision == Revision::Msgr20 {
        record.stream[epilogue] &= 1;
    }
    let unused = 4 * (4 - usize::from(frame.count));
    record.stream[last.byte - unused..last.byte].fill(0);
    let after = list(&record);
    let spelled = after.iter().find(|entry| entry.byte == last.byte);
    let hidden = match spelled.expect("an entry at the same byte").report {
        Report::Frame(_) => "frame".to_string(),
        Report::Dropped(_) => "dropped".to_string(),
        Report::Refused(other) => format!("refused {}", other.number),
        other => panic!("{other:?}"),
    };
    Some((*revision, refusal.detail[0], hidden))
}

/// 24 comes up for each field and for the flags, and before each of what it is
/// judged before.
#[test]
fn second_spellings_hide_every_other_end() {
    let mut details = BTreeMap::new();
    let mut hidden = BTreeMap::new();
    for (revision, detail, other) in records(1, 20_000).filter_map(hidden_by_24) {
        let revision = u8::from(revision == Revision::Msgr21);
        *details.entry((revision, detail)).or_insert(0) += 1;
        *hidden.entry((revision, other)).or_insert(0) += 1;
    }
    let wanted = [(0, 0), (0, 2), (0, 3), (0, 4), (1, 3), (1, 4)];
    assert!(details.keys().eq(&wanted), "{details:?}");
    let ends = ["dropped", "frame", "refused 11"];
    let mut wanted: Vec<(u8, String)> = Vec::new();
    for revision in [0, 1] {
        wanted.extend(ends.map(|end| (revision, end.to_string())));
    }
    wanted.push((1, "refused 12".to_string()));
    assert!(hidden.keys().eq(&wanted), "{hidden:?}");
    let least = details.values().chain(hidden.values()).min();
    assert!(least >= Some(&20), "{details:?} {hidden:?}");
}

#[test]
fn the_seed_decides_the_records() {
    assert_eq!(made(7, 50), made(7, 50));
    assert_ne!(made(7, 50), made(8, 50));
}

#[test]
fn the_size_stays_modest() {
    let records: Vec<Record> = made_records(3, 2_000).collect();
    let bytes: usize = records.iter().map(|record| record.to_bytes().len()).sum();
    let lines: usize = records.iter().map(Record::lines).sum();
    assert!(bytes < 6_000_000, "{bytes} bytes");
    assert!(lines < 40_000, "{lines} lines");
}
