//! The fixed case files, each under its name.

mod bad;
mod bench;
mod boundaries;
mod examples;
mod lending;
mod published;
mod receiver;
pub(crate) mod request;
mod sealing;
mod session;
pub(crate) mod switching;

use crate::records::Record;

/// A case file and how many lines its run must print.
pub struct CaseFile {
    pub bytes: Vec<u8>,
    pub lines: usize,
}

impl CaseFile {
    fn of(records: &[Record]) -> Self {
        Self {
            bytes: records.iter().flat_map(Record::to_bytes).collect(),
            lines: records.iter().map(Record::lines).sum(),
        }
    }
}

type Maker = fn() -> Vec<Record>;

/// Good files under their names, and bad ones that are numbered.
struct Family {
    good: &'static [(&'static str, Maker)],
    bad_name: &'static str,
    bad: fn() -> Vec<CaseFile>,
}

/// Checksums and builders.
const BUILDER: Family = Family {
    good: &[
        ("rfc3720", published::rfc3720),
        ("checksums", published::checksums),
        ("examples", examples::examples),
        ("bench", bench::bench),
        ("boundaries", boundaries::boundaries),
    ],
    bad_name: "bad",
    bad: bad::files,
};

const RECEIVER: Family = Family {
    good: &[
        ("receiver-bench", receiver::bench::bench),
        ("receiver-boundaries", receiver::boundaries::boundaries),
        ("receiver-cuts", receiver::cuts::cuts),
        ("receiver-first", receiver::first::first),
        ("receiver-spelling", receiver::spelling::spelling),
    ],
    bad_name: "receiver-bad",
    bad: receiver::bad::files,
};

const LENDING: Family = Family {
    good: &[("lending-boundaries", lending::boundaries)],
    bad_name: "lending-bad",
    bad: lending::bad,
};

const SESSION: Family = Family {
    good: &[
        ("session-shown", session::shown),
        ("session-boundaries", session::boundaries),
    ],
    bad_name: "session-bad",
    bad: session::bad,
};

const SEALING: Family = Family {
    good: &[
        ("gcm-published", sealing::published),
        ("gcm-derived", sealing::derived),
        ("gcm-boundaries", sealing::boundaries),
        ("gcm-every-bit", sealing::every_bit),
    ],
    bad_name: "gcm-bad",
    bad: sealing::bad_files,
};

const SWITCHING: Family = Family {
    good: &[
        ("sealed-frames", switching::frames::frames),
        ("sealed-builds", switching::builds::builds),
        ("switch-shown", switching::shown::shown),
        ("switch-moments", switching::moments::moments),
        ("switch-orders", switching::orders::orders),
        ("switch-cuts", switching::cuts::cuts),
        ("switch-lengths", switching::lengths::lengths),
        ("switch-faults", switching::faults::faults),
        ("switch-nonces", switching::nonces::nonces),
        ("switch-stores", switching::stores::stores),
        ("secure-links", switching::links::links),
        ("secure-links-cut", switching::links::finely),
    ],
    bad_name: "switch-bad",
    bad: switching::bad::files,
};

impl Family {
    fn names(&self) -> Vec<String> {
        let good = self.good.iter().map(|(name, _)| (*name).to_string());
        let numbers = 1..=(self.bad)().len();
        let bad = numbers.map(|number| format!("{}{number}", self.bad_name));
        good.chain(bad).collect()
    }

    fn case_file(&self, name: &str) -> Option<CaseFile> {
        if let Some((_, make)) = self.good.iter().find(|(good, _)| *good == name) {
            return Some(CaseFile::of(&make()));
        }
        let place = self.names().iter().position(|known| known == name)?;
        (self.bad)().into_iter().nth(place - self.good.len())
    }
}

/// The files without receiver records.
pub fn names() -> Vec<String> {
    BUILDER.names()
}

pub fn receiver_names() -> Vec<String> {
    RECEIVER.names()
}

pub fn lending_names() -> Vec<String> {
    LENDING.names()
}

pub fn session_names() -> Vec<String> {
    SESSION.names()
}

pub fn sealing_names() -> Vec<String> {
    SEALING.names()
}

/// Sealed frames, and the switch to them.
pub fn switching_names() -> Vec<String> {
    SWITCHING.names()
}

pub fn case_file(name: &str) -> Option<CaseFile> {
    let families = [BUILDER, RECEIVER, LENDING, SESSION, SEALING, SWITCHING];
    families.iter().find_map(|family| family.case_file(name))
}

#[cfg(test)]
mod tests {
    use super::*;
    use crate::run::run;

    #[test]
    fn each_file_prints_its_lines() {
        let names = [
            names(),
            receiver_names(),
            lending_names(),
            session_names(),
            sealing_names(),
            switching_names(),
        ];
        for name in names.concat() {
            let file = case_file(&name).expect("a listed name");
            let mut printed = Vec::new();
            run(&file.bytes, &mut printed).expect("writing to memory");
            let text = String::from_utf8(printed).expect("plain text");
            let bad = text.lines().position(|line| line == "bad record");
            assert_eq!(text.lines().count(), file.lines, "{name}");
            let expected = name.contains("bad").then(|| file.lines - 1);
            assert_eq!(bad, expected, "{name}");
        }
    }

    #[test]
    fn unknown_names() {
        for name in [
            "",
            "bad0",
            "bad999",
            "list",
            "bad",
            "receiver-bad",
            "list-r",
            "lending-bad",
            "session-bad",
            "list-s",
            "gcm-bad",
        ] {
            assert!(case_file(name).is_none());
        }
    }
}
