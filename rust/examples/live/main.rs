//! A desk's side against a real Ceph monitor: the handshake, keepalives, and a
//! session that outlives its connections. Messages are sent, the connection is cut
//! while some are held, and after a reconnect what is held is sent again, until
//! the monitor has acknowledged every message. At the end the monitor is told
//! another cookie, and its reset drops what is held.
//!
//!     live PORT REVISION [CUTS]
//!
//! PORT is that of a monitor on 127.0.0.1 which asks for no authentication;
//! `tests/live` starts one. REVISION is 0 for msgr2.0 or 1 for msgr2.1. CUTS is how
//! often the session goes on after a cut, 2 where it is not given. Prints a line a
//! step; the exit status is 0 only where every message was acknowledged, or dropped
//! by the reset, and every answer that is due came once.

mod desk;
mod layouts;
mod link;

use mahuixen::Features;
use std::env;
use std::error::Error;
use std::process::ExitCode;

type Outcome<T> = Result<T, Box<dyn Error>>;

/// The number, 0 to `most`, that a word is.
fn number(word: &str, most: u64) -> Option<u64> {
    word.parse().ok().filter(|number| *number <= most)
}

/// The port, the features that we support, and how often to cut.
fn asked() -> Option<(u16, Features, u64)> {
    let words: Vec<String> = env::args().skip(1).collect();
    let (port, revision, cuts) = match words.as_slice() {
        [port, revision] => (port, revision, "2"),
        [port, revision, cuts] => (port, revision, cuts.as_str()),
        _ => return None,
    };
    let own = Features::new(number(revision, 1)?, 0);
    Some((port.parse().ok()?, own, number(cuts, 99)?))
}

fn main() -> ExitCode {
    let Some((port, own, cuts)) = asked() else {
        eprintln!("usage: live PORT REVISION [CUTS]");
        return ExitCode::from(2);
    };
    match desk::Desk::new(port, own).run(cuts) {
        Ok(()) => ExitCode::SUCCESS,
        Err(error) => {
            eprintln!("live: {error}");
            ExitCode::FAILURE
        }
    }
}
