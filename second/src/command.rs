//! The program's commands, each named by its words.

use crate::records::Record;
use crate::{fixed, generate, link, recordings, run, session};
use std::fs;
use std::io::{self, Read, Write};
use std::path::Path;

const USAGE: &str = "usage: second run
       second link
       second link-file FILE
       second generate-l SEED
       second generate SEED COUNT
       second generate-r SEED COUNT
       second generate-h SEED COUNT
       second generate-t SEED COUNT
       second generate-n SEED COUNT
       second generate-s SEED COUNT
       second generate-x SEED COUNT
       second generate-y SEED COUNT
       second recordings FOLDER
       second handshakes FOLDER
       second fixed list
       second fixed list-r
       second fixed list-t
       second fixed list-n
       second fixed list-s
       second fixed list-x
       second fixed NAME
       second lines generate-r SEED COUNT
       second lines generate-h SEED COUNT
       second lines generate-t SEED COUNT
       second lines generate-n SEED COUNT
       second lines generate-x SEED COUNT
       second lines generate-y SEED COUNT
       second lines recordings FOLDER
       second lines handshakes FOLDER
       second lines NAME
       second histories";

fn run_standard_input(out: &mut impl Write) -> io::Result<()> {
    let mut bytes = Vec::new();
    io::stdin().lock().read_to_end(&mut bytes)?;
    run::run(&bytes, out)
}

fn check_standard_input(out: &mut impl Write) -> io::Result<()> {
    let mut bytes = Vec::new();
    io::stdin().lock().read_to_end(&mut bytes)?;
    link::check(&bytes, out)
}

/// The named fixed case file, or an error that says the name is unknown.
fn fixed_file(name: &str) -> io::Result<fixed::CaseFile> {
    fixed::case_file(name).ok_or_else(|| io::Error::other(format!("no case file {name}")))
}

fn number(text: &str) -> io::Result<u64> {
    text.parse()
        .map_err(|_| io::Error::other(format!("not a number: {text}")))
}

/// The records of receivers, sessions or handshakes that a command names.
fn named_records(words: &[&str]) -> io::Result<Box<dyn Iterator<Item = Record>>> {
    match words {
        ["generate-r", seed, count] => {
            let records = generate::receiver::records(number(seed)?, number(count)?);
            Ok(Box::new(records.map(Record::Receiver)))
        }
        ["generate-t", seed, count] => {
            let records = generate::lending::records(number(seed)?, number(count)?);
            Ok(Box::new(records.map(Record::Lending)))
        }
        ["generate-n", seed, count] => {
            let records = generate::session::records(number(seed)?, number(count)?);
            Ok(Box::new(records.map(Record::Session)))
        }
        ["generate-x", seed, count] => {
            let records = generate::switching::records(number(seed)?, number(count)?);
            Ok(Box::new(records))
        }
        ["generate-y", seed, count] => {
            let records = generate::builds::records(number(seed)?, number(count)?);
            Ok(Box::new(records.map(Record::Builds)))
        }
        ["recordings", folder] => {
            let records = recordings::records(Path::new(folder))?;
            Ok(Box::new(records.into_iter()))
        }
        ["generate-h", seed, count] => Ok(Box::new(generate::handshake::records(
            number(seed)?,
            number(count)?,
        ))),
        ["handshakes", folder] => {
            let records = recordings::handshake_records(Path::new(folder))?;
            Ok(Box::new(records.into_iter()))
        }
        _ => Err(io::Error::other(USAGE)),
    }
}

fn print_names(names: &[String], out: &mut impl Write) -> io::Result<()> {
    names.iter().try_for_each(|name| writeln!(out, "{name}"))
}

fn write_records(
    mut records: impl Iterator<Item = Record>,
    out: &mut impl Write,
) -> io::Result<()> {
    records.try_for_each(|record| out.write_all(&record.to_bytes()))
}

/// Runs the command and writes what it prints.
pub fn command(words: &[&str], out: &mut impl Write) -> io::Result<()> {
    match words {
        ["run"] => run_standard_input(out),
        ["link"] => check_standard_input(out),
        ["link-file", file] => out.write_all(&link::file(&[&fs::read(file)?])),
        ["generate-l", seed] => out.write_all(&generate::checker::link_file(number(seed)?)),
        ["generate", seed, count] => {
            write_records(generate::records(number(seed)?, number(count)?), out)
        }
        ["generate-s", seed, count] => write_records(
            generate::sealing::records(number(seed)?, number(count)?),
            out,
        ),
        ["fixed", "list"] => print_names(&fixed::names(), out),
        ["fixed", "list-r"] => print_names(&fixed::receiver_names(), out),
        ["fixed", "list-t"] => print_names(&fixed::lending_names(), out),
        ["fixed", "list-n"] => print_names(&fixed::session_names(), out),
        ["fixed", "list-s"] => print_names(&fixed::sealing_names(), out),
        ["fixed", "list-x"] => print_names(&fixed::switching_names(), out),
        ["fixed", name] => out.write_all(&fixed_file(name)?.bytes),
        ["histories"] => print_names(&session::worked::table(), out),
        ["lines", name] => writeln!(out, "{}", fixed_file(name)?.lines),
        ["lines", of @ ..] => {
            let lines: usize = named_records(of)?.map(|record| record.lines()).sum();
            writeln!(out, "{lines}")
        }
        _ => write_records(named_records(words)?, out),
    }
}
