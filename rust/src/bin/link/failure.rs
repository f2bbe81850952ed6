//! Why a run ends without its lines.

use mahuixen::Refusal;
use std::fmt;
use std::io::{self, ErrorKind};

#[derive(Debug)]
pub enum Failure {
    /// Whoever read the lines has seen enough.
    Closed,
    /// Something could not be read or written: its name, and why.
    Named(String, String),
    /// The features that were chosen as our own.
    Own(Refusal),
}

impl Failure {
    /// What went wrong with something that has a name.
    pub fn of(name: impl fmt::Display, error: impl fmt::Display) -> Self {
        Self::Named(name.to_string(), error.to_string())
    }
}

/// Errors without a name are those of standard output.
impl From<io::Error> for Failure {
    fn from(error: io::Error) -> Self {
        match error.kind() {
            ErrorKind::BrokenPipe => Self::Closed,
            _ => Self::of("standard output", error),
        }
    }
}

impl From<Refusal> for Failure {
    fn from(refusal: Refusal) -> Self {
        Self::Own(refusal)
    }
}

impl fmt::Display for Failure {
    fn fmt(&self, f: &mut fmt::Formatter<'_>) -> fmt::Result {
        match self {
            Self::Closed => write!(f, "standard output is closed"),
            Self::Named(name, error) => write!(f, "{name}: {error}"),
            Self::Own(refusal) => write!(f, "--own: {refusal}"),
        }
    }
}
