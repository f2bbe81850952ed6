//! Prints a recorded link, one direction of a connection, or those of a
//! capture, in readable lines. `help.txt` says what it takes.

mod capture;
mod directions;
mod failure;
mod fault;
mod hints;
mod input;
mod layout;
mod link_file;
mod options;
mod progress;
mod text;
mod walk;

use capture::Capture;
use failure::Failure;
use hints::hints;
use input::{Input, Kind};
use mahuixen::Features;
use options::{Command, Options};
use std::io::{self, BufWriter, Write};
use std::process::ExitCode;
use text::{counted, Printer};
use walk::{End, Walk};

/// Where nothing else is chosen, we speak both revisions and require nothing.
const OWN: Features = Features::new(Features::REVISION_1, 0);

/// The status of a run that printed nothing of a link.
const NO_LINK: u8 = 2;

/// Prints an input; answers whether every link in it ends ok.
fn print(input: Input, options: &Options, out: &mut impl Write) -> Result<bool, Failure> {
    if input.kind != Kind::Capture {
        return print_link(input, options, out);
    }
    let name = input.name.clone();
    let file = input.whole()?;
    let capture = Capture::read(&file).map_err(|error| Failure::of(name, error))?;
    directions::print(&capture, options, out)
}

/// Prints the link in an input.
fn print_link(input: Input, options: &Options, out: &mut impl Write) -> Result<bool, Failure> {
    let mut walk = Walk::start(options.own.unwrap_or(OWN), options.store)?;
    let mut printer = Printer::new(&mut *out, options.summary);
    let (kind, stem) = (input.kind, input.stem());
    // What is written as a link file has to be kept until its length is known.
    let mut kept = options.pieces.as_ref().map(|_| Vec::new());
    input.pieces(options.summary, |piece| {
        walk.offer(piece, |part| printer.part(part))?;
        kept.iter_mut().for_each(|kept| kept.extend(piece));
        Ok(kept.is_some() || !walk.is_over())
    })?;
    let (mut ok, seen) = printer.end(&walk)?;
    for hint in hints(&seen, &walk.end(), None) {
        writeln!(out, "hint: {hint}")?;
    }
    match (kind, walk.end()) {
        (Kind::LinkFile(length), End::Ok | End::Cut(_)) if length > walk.taken() => {
            let missing = counted(length - walk.taken(), "byte");
            writeln!(out, "the link file lacks {missing} of its pieces")?;
            ok = false;
        }
        _ => {}
    }
    if let (Some(folder), Some(kept)) = (&options.pieces, kept) {
        let lengths = link_file::equal(kept.len());
        let path = link_file::write(folder, &stem, &lengths, &[&kept])?;
        let pieces = counted(lengths.len() as u64, "piece");
        writeln!(out, "written to {path}: {pieces}")?;
    }
    Ok(ok)
}

/// Does what the words ask for; answers whether every link ends ok.
fn run(command: Command, out: &mut impl Write) -> Result<bool, Failure> {
    match command {
        Command::Help => out.write_all(include_bytes!("help.txt"))?,
        Command::Print(options) => {
            // Features that we cannot have are refused before anything is read.
            Walk::start(options.own.unwrap_or(OWN), 0)?;
            return print(Input::open(&options.source)?, &options, out);
        }
    }
    Ok(true)
}

fn main() -> ExitCode {
    let command = match Options::parse(std::env::args_os().skip(1)) {
        Ok(command) => command,
        Err(line) => {
            eprintln!("run: {line} (run --help says more)");
            return ExitCode::from(NO_LINK);
        }
    };
    let mut out = BufWriter::new(io::stdout().lock());
    let ended = run(command, &mut out).and_then(|ok| Ok(out.flush().map(|()| ok)?));
    match ended {
        Ok(true) => ExitCode::SUCCESS,
        // Where the lines are not read to the end, neither is the link.
        Ok(false) | Err(Failure::Closed) => ExitCode::FAILURE,
        Err(failure) => {
            eprintln!("run: {failure}");
            ExitCode::from(NO_LINK)
        }
    }
}

#[cfg(test)]
mod tests;
