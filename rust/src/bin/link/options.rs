//! The words of the command line.

use mahuixen::Features;
use std::ffi::OsString;
use std::path::PathBuf;

/// The store's length where none is named: enough for every frame.
const STORE: usize = 2_097_152;

/// Longer stores are refused, since no frame needs one.
const LONGEST_STORE: usize = 1 << 30;

/// Where the link is read from.
#[derive(Clone, Debug, PartialEq, Eq)]
pub enum Source {
    /// Standard input.
    Standard,
    /// A file.
    File(PathBuf),
}

/// What is wanted.
#[derive(Clone, Debug, PartialEq, Eq)]
pub struct Options {
    pub source: Source,
    /// Our own features, where they are chosen.
    pub own: Option<Features>,
    pub store: usize,
    pub summary: bool,
    /// The folder for link files.
    pub pieces: Option<PathBuf>,
}

/// What the words ask for.
#[derive(Clone, Debug, PartialEq, Eq)]
pub enum Command {
    Help,
    Print(Options),
}

impl Options {
    /// Reads the words behind the program's name; the error is a line about
    /// the first one that is wrong.
    pub fn parse(words: impl Iterator<Item = OsString>) -> Result<Command, String> {
        let mut options = Self {
            source: Source::Standard,
            own: None,
            store: STORE,
            summary: false,
            pieces: None,
        };
        let mut sources = Vec::new();
        let mut only_files = false;
        for word in words {
            match word.to_str() {
                Some("--") if !only_files => only_files = true,
                Some("-") => sources.push(Source::Standard),
                Some("-h" | "--help") if !only_files => return Ok(Command::Help),
                Some(option) if option.starts_with('-') && !only_files => options.set(option)?,
                _ => sources.push(Source::File(word.into())),
            }
        }
        match sources.len() {
            0 => Err("no file is named".to_string()),
            1 => {
                options.source = sources.remove(0);
                Ok(Command::Print(options))
            }
            more => Err(format!("{more} files are named, and one is read")),
        }
    }

    /// Takes an option and its value.
    fn set(&mut self, option: &str) -> Result<(), String> {
        let (name, value) = match option.split_once('=') {
            Some((name, value)) => (name, Some(value)),
            None => (option, None),
        };
        match (name, value) {
            ("--summary", None) => self.summary = true,
            ("--summary", Some(_)) => return Err("--summary takes no value".to_string()),
            ("--own", Some(value)) => self.own = Some(features(value)?),
            ("--store", Some(value)) => self.store = store(value)?,
            ("--pieces", Some("")) => return Err("--pieces= names no folder".to_string()),
            ("--pieces", Some(value)) => self.pieces = Some(value.into()),
            ("--own", None) => return Err("--own needs a value, as in --own=1,0".to_string()),
            ("--store", None) => {
                return Err("--store needs a value, as in --store=32768".to_string());
            }
            ("--pieces", None) => {
                return Err("--pieces needs a value, as in --pieces=FOLDER".to_string());
            }
            _ => return Err(format!("{name} is not an option")),
        }
        Ok(())
    }
}

/// A number, in decimal or, behind 0x, in hexadecimal digits.
fn number(word: &str) -> Option<u64> {
    let digits = |word: &str, radix| {
        let plain = word.chars().all(|digit| digit.is_digit(radix));
        plain.then(|| u64::from_str_radix(word, radix).ok())?
    };
    match word.strip_prefix("0x") {
        Some(word) => digits(word, 16),
        None => digits(word, 10),
    }
}

fn features(value: &str) -> Result<Features, String> {
    let (supported, required) = value.split_once(',').unwrap_or((value, "0"));
    match (number(supported), number(required)) {
        (Some(supported), Some(required)) => Ok(Features::new(supported, required)),
        _ => Err(format!("--own={value}: not one or two numbers")),
    }
}

fn store(value: &str) -> Result<usize, String> {
    let length = number(value).and_then(|length| usize::try_from(length).ok());
    match length {
        Some(length) if length <= LONGEST_STORE => Ok(length),
        _ => Err(format!(
            "--store={value}: not a number from 0 to {LONGEST_STORE}"
        )),
    }
}

#[cfg(test)]
mod tests {
    use super::*;

    fn parse(words: &[&str]) -> Result<Command, String> {
        Options::parse(words.iter().map(OsString::from))
    }

    fn print(words: &[&str]) -> Options {
        match parse(words) {
            Ok(Command::Print(options)) => options,
            other => panic!("{words:?}: {other:?}"),
        }
    }

    #[test]
    fn a_file_and_nothing_else() {
        let options = print(&["a"]);
        assert_eq!(options.source, Source::File("a".into()));
        assert_eq!((options.own, options.store), (None, 2_097_152));
        assert_eq!((options.summary, options.pieces), (false, None));
    }

    #[test]
    fn every_option() {
        let words = [
            "--own=0x1,1",
            "--store=100",
            "-",
            "--summary",
            "--pieces=b c",
        ];
        let options = print(&words);
        assert_eq!(options.source, Source::Standard);
        assert_eq!(options.own, Some(Features::new(1, 1)));
        assert_eq!((options.store, options.summary), (100, true));
        assert_eq!(options.pieces, Some("b c".into()));
        assert_eq!(print(&["--own=0", "a"]).own, Some(Features::new(0, 0)));
    }

    #[test]
    fn help_wins() {
        assert_eq!(parse(&["a", "b", "--help"]), Ok(Command::Help));
        assert_eq!(parse(&["-h"]), Ok(Command::Help));
    }

    #[test]
    fn files_behind_two_dashes() {
        let named = |name: &str| Source::File(name.into());
        assert_eq!(print(&["--", "--help"]).source, named("--help"));
        assert_eq!(print(&["--", "-"]).source, Source::Standard);
    }

    #[test]
    fn bad_words() {
        let bad = |words: &[&str]| parse(words).expect_err("bad usage");
        assert_eq!(bad(&[]), "no file is named");
        assert_eq!(bad(&["a", "b"]), "2 files are named, and one is read");
        assert_eq!(bad(&["--sumary", "a"]), "--sumary is not an option");
        assert_eq!(bad(&["-x=1", "a"]), "-x is not an option");
        assert_eq!(bad(&["--summary=1", "a"]), "--summary takes no value");
        for option in ["--own", "--store", "--pieces"] {
            assert!(bad(&[option, "1"]).contains("needs a value"));
        }
        assert_eq!(bad(&["--pieces="]), "--pieces= names no folder");
        for own in [
            "",
            "x",
            "1,",
            ",1",
            "1,2,3",
            "-1",
            "+1",
            "0x",
            "18446744073709551616",
        ] {
            assert!(bad(&[&format!("--own={own}")]).contains("not one or two numbers"));
        }
        for store in ["", "x", "1e3", "-1", "1073741825"] {
            assert!(bad(&[&format!("--store={store}")]).contains("not a number"));
        }
    }
}
