//! The links of this repository end as the table beside them says.

use super::*;
use crate::frame::FRAME_LIMIT;
use crate::receiver::Receiver;
use crate::report::Report;
use crate::wire::Revision;
use std::path::PathBuf;

fn folder() -> PathBuf {
    Path::new(env!("CARGO_MANIFEST_DIR")).join("../recordings")
}

/// A row of the table: the link's name, revision, length and end.
struct Row {
    name: String,
    revision: String,
    bytes: usize,
    end: String,
}

fn table() -> Vec<Row> {
    let readme = fs::read_to_string(folder().join("README.md")).expect("a README");
    let rows = readme.lines().filter(|line| line.starts_with("| "));
    rows.skip(1)
        .map(|line| {
            let cells: Vec<&str> = line.split('|').map(str::trim).collect();
            Row {
                name: cells[1].to_string(),
                revision: cells[3].to_string(),
                bytes: cells[4].parse().expect("a length"),
                end: cells[5].to_string(),
            }
        })
        .collect()
}

/// The revision and the end that a record's calls tell.
fn told(record: &ReceiverRecord) -> (String, String) {
    let mut receiver = Receiver::start(record.own).0;
    let mut store = record.store.bytes();
    let (mut revision, mut place, mut last_entry) = (None, 0, 0);
    let mut end = None;
    for &length in &record.pieces {
        let left = &record.stream[place..];
        let piece = &left[..left.len().min(length as usize)];
        let (taken, report) = receiver.receive(piece, &mut store);
        place += taken;
        match report {
            Report::More | Report::First(_) => continue,
            Report::Banner { revision: told, .. } => revision = Some(told),
            Report::Refused(refusal) => {
                let refused = format!("refused {} at {place}", refusal.number);
                end.get_or_insert(refused);
            }
            Report::Frame(_) | Report::Dropped(_) => {}
        }
        last_entry = place;
    }
    let end = end.unwrap_or_else(|| {
        assert_eq!(place, record.stream.len(), "all bytes are taken");
        match place - last_entry {
            0 => "ok".to_string(),
            unfinished => format!("cut {unfinished}"),
        }
    });
    let revision = u8::from(revision == Some(Revision::Msgr21));
    (revision.to_string(), end)
}

#[test]
fn every_link_has_its_row() {
    let rows: Vec<String> = table().into_iter().map(|row| row.name).collect();
    assert_eq!(names(&folder()).expect("a folder"), rows);
    assert_eq!(rows.len(), 15);
}

#[test]
fn links_end_as_the_table_says() {
    let records = records(&folder()).expect("links");
    let rows = table();
    assert_eq!(records.len(), 3 * rows.len());
    for (records, row) in records.chunks(3).zip(&rows) {
        for record in records {
            let Record::Receiver(record) = record else {
                panic!("{}: not a receiver record", row.name);
            };
            assert_eq!(record.stream.len(), row.bytes, "{}", row.name);
            let (revision, end) = told(record);
            assert_eq!((&revision, &end), (&row.revision, &row.end), "{}", row.name);
        }
    }
}

/// With a store that no frame is too long for, the rest of those links is read.
#[test]
fn links_that_need_a_longer_store() {
    let mut longer = 0;
    for record in records(&folder()).expect("links") {
        let Record::Receiver(mut record) = record else {
            panic!("not a receiver record");
        };
        if !told(&record).1.starts_with("refused 10 ") {
            continue;
        }
        longer += 1;
        record.store.length = FRAME_LIMIT as u32;
        // The calls of a record stop at what its own store refuses.
        record.pieces = vec![LARGEST_LENGTH; 64];
        assert_eq!(told(&record), ("1".to_string(), "ok".to_string()));
    }
    assert_eq!(longer, 3);
}

/// A folder of its own for one test.
fn scratch(name: &str, bytes: &[u8], cuts: &str) -> PathBuf {
    let folder = std::env::temp_dir().join(format!("{name}-{}", std::process::id()));
    fs::create_dir_all(&folder).expect("a folder");
    fs::write(folder.join("a.bin"), bytes).expect("a link");
    fs::write(folder.join("a.cuts"), cuts).expect("its cuts");
    folder
}

#[test]
fn cuts_must_make_up_the_link() {
    for (name, cuts, good) in [
        ("links-good", "2\n3\n", true),
        ("links-short", "2\n2\n", false),
        ("links-long", "2\n4\n", false),
        ("links-word", "2\nx\n", false),
    ] {
        let folder = scratch(name, b"ceph ", cuts);
        assert_eq!(super::records(&folder).is_ok(), good, "{name}");
        fs::remove_dir_all(&folder).expect("to clean up");
    }
    assert!(super::records(Path::new("no such folder")).is_err());
}
