//! How far a large input is read, on a terminal.

use std::io::{self, IsTerminal, Write};
use std::time::{Duration, Instant};

/// Nothing is shown before this time, nor more often.
const PAUSE: Duration = Duration::from_millis(300);

/// Shows how many bytes are read, where that can be seen and is in nobody's
/// way.
pub struct Progress {
    total: Option<u64>,
    /// When something is to be shown next; never, where it is no use.
    next: Option<Instant>,
    shown: bool,
}

impl Progress {
    /// For an input of this length, if it is known. `quiet` says that nothing
    /// else is printed while it is read.
    pub fn new(total: Option<u64>, quiet: bool) -> Self {
        let alone = quiet || !io::stdout().is_terminal();
        let useful = alone && io::stderr().is_terminal();
        Self {
            total,
            next: useful.then(|| Instant::now() + PAUSE),
            shown: false,
        }
    }

    /// So many bytes are read.
    pub fn at(&mut self, read: u64) {
        let now = Instant::now();
        if self.next.is_some_and(|next| next <= now) {
            self.next = Some(now + PAUSE);
            self.shown = true;
            // Progress that cannot be shown is no reason to stop.
            let _ = write!(io::stderr(), "\r{}\x1b[K", words(read, self.total));
        }
    }
}

impl Drop for Progress {
    fn drop(&mut self) {
        if self.shown {
            let _ = write!(io::stderr(), "\r\x1b[K");
        }
    }
}

fn words(read: u64, total: Option<u64>) -> String {
    let mega = |bytes: u64| format!("{}.{}", bytes / 1_000_000, bytes / 100_000 % 10);
    match total {
        Some(total) => format!("read {} of {} MB", mega(read), mega(total)),
        None => format!("read {} MB", mega(read)),
    }
}

#[cfg(test)]
mod tests {
    use super::*;

    #[test]
    fn what_is_shown() {
        assert_eq!(words(1_234_567, None), "read 1.2 MB");
        let total = Some(2_000_000_000);
        assert_eq!(words(99_999, total), "read 0.0 of 2000.0 MB");
    }
}
