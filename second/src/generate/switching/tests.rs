use super::*;
use crate::run::run;
use std::collections::BTreeMap;

fn made(seed: u64, count: u64) -> Vec<u8> {
    let records = records(seed, count);
    records.flat_map(|record| record.to_bytes()).collect()
}

fn answers(seed: u64, count: u64) -> Vec<String> {
    let mut printed = Vec::new();
    run(&made(seed, count), &mut printed).expect("writing to memory");
    let text = String::from_utf8(printed).expect("plain text");
    text.lines().map(String::from).collect()
}

#[test]
fn every_record_has_its_lines() {
    for seed in [0, 1, 2, u64::MAX] {
        let lines = answers(seed, 1_000);
        let expected: usize = records(seed, 1_000).map(|record| record.lines()).sum();
        assert_eq!(lines.len(), expected);
        let starts = lines.iter().filter(|line| line.starts_with("start"));
        assert_eq!(starts.count(), 1_000);
        assert!(!lines.iter().any(|line| line == "bad record"));
    }
}

/// How often each kind of answer comes up, before and behind a switch, calls that
/// repeat a refusal left out.
fn kinds(lines: &[String]) -> BTreeMap<String, usize> {
    let mut kinds = BTreeMap::new();
    let mut mode = "clear";
    let mut refused = false;
    for line in lines {
        let words: Vec<&str> = line.split(' ').collect();
        match words[..] {
            ["start", ..] => (mode, refused) = ("clear", false),
            ["switch", "ok"] => mode = "sealed",
            _ => {}
        }
        let kind = match words[..] {
            ["refused", "taken", _, "number", ..] if refused => continue,
            // A store that became short.
            ["refused", "taken", "0", "number", number, ..] => format!("refused {number} at once"),
            ["refused", "taken", _, "number", number, ..] => format!("refused {number}"),
            ["refused", number, ..] => format!("build refused {number}"),
            ["wrote", ..] => "build wrote".to_string(),
            ["switch", answer, ..] => format!("switch {answer}"),
            _ => words[0].to_string(),
        };
        refused |= kind.starts_with("refused");
        *kinds.entry(format!("{mode} {kind}")).or_insert(0) += 1;
    }
    kinds
}

#[test]
fn every_kind_of_answer_comes_up_often() {
    let kinds = kinds(&answers(1, 8_000));
    let mut wanted: Vec<String> = Vec::new();
    for number in [5, 6, 7, 8, 9, 10, 12, 17, 18, 19] {
        wanted.push(format!("sealed refused {number}"));
    }
    for kind in [
        "frame",
        "dropped",
        "more",
        "refused 10 at once",
        "switch refused",
    ] {
        wanted.push(format!("sealed {kind}"));
    }
    for kind in ["build wrote", "build refused 27", "switch ok"] {
        wanted.push(format!("sealed {kind}"));
    }
    for kind in [
        "first",
        "frame",
        "dropped",
        "switch refused",
        "refused 5",
        "refused 10",
    ] {
        wanted.push(format!("clear {kind}"));
    }
    for kind in wanted {
        let seen = kinds.get(&kind).copied().unwrap_or(0);
        assert!(seen >= 40, "{kind}: {seen}");
    }
    assert!(kinds["sealed frame"] > 3_000);
    assert!(!kinds.contains_key("sealed first"));
}

/// Where a refusal behind a switch stands: at the end of which part.
#[test]
fn every_part_is_refused_for_every_reason() {
    let mut seen = BTreeMap::new();
    for record in records(2, 8_000) {
        let Record::Switching(record) = record else {
            continue;
        };
        let mut receiver = Receiver::start(record.own).0;
        let mut store = record.store.bytes();
        let mut left = record.stream.as_slice();
        let mut of_frame = 0;
        let mut sealed = false;
        for call in &record.calls {
            match call {
                Call::Switch(place) => {
                    let Try { secrets, opened } = &record.tries[usize::from(*place)];
                    sealed |= receiver.switch_after(secrets, *opened).1.is_ok();
                }
                Call::Receive(length) => {
                    let piece = &left[..left.len().min(*length as usize)];
                    let (taken, report) = receiver.receive(piece, &mut store);
                    left = &left[taken..];
                    of_frame += taken;
                    match report {
                        Report::Refused(refusal) if sealed && taken > 0 => {
                            let is_first = of_frame == 96;
                            *seen.entry((is_first, refusal.number)).or_insert(0) += 1;
                        }
                        Report::Frame(_) | Report::Dropped(_) => of_frame = 0,
                        Report::Banner { .. } => of_frame = 0,
                        _ => {}
                    }
                }
            }
        }
    }
    let first = [5, 6, 7, 8, 9, 10, 17, 18, 19].map(|number| (true, number));
    let later = [12, 17, 18, 19].map(|number| (false, number));
    let wanted: Vec<(bool, u8)> = later.into_iter().chain(first).collect();
    assert!(seen.keys().eq(&wanted), "{seen:?}");
    assert!(seen.values().all(|times| *times >= 25), "{seen:?}");
}

#[test]
fn the_seed_decides_the_records() {
    assert_eq!(made(7, 50), made(7, 50));
    assert_ne!(made(7, 50), made(8, 50));
}

#[test]
fn the_size_stays_modest() {
    let records: Vec<Record> = records(3, 2_000).collect();
    let bytes: usize = records.iter().map(|record| record.to_bytes().len()).sum();
    let lines: usize = records.iter().map(Record::lines).sum();
    assert!(bytes < 4_000_000, "{bytes} bytes");
    assert!(lines < 50_000, "{lines} lines");
}
