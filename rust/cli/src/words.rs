//! How the command ends.

use std::fmt;
use std::io::{self, Write};

/// The exit status.
#[derive(Debug, Clone, Copy, PartialEq, Eq, PartialOrd, Ord)]
pub enum Status {
    Accepted = 0,
    Refused = 1,
    UsageOrFile = 2,
}

/// Why it ends early.
#[derive(Debug)]
pub enum Failure {
    /// What was given is refused.
    Refused(String),
    /// A file is not as it has to be.
    File(String),
    /// Nobody reads what is written; there is nobody to tell, either.
    CutPipe,
}

impl Failure {
    /// A failed file, by its name.
    pub fn of_file(name: impl fmt::Display, error: impl fmt::Display) -> Self {
        Self::File(format!("{name}: {error}"))
    }

    /// Says it on standard error; where that can't be written either, the status is all.
    pub fn tell(&self) {
        if let Self::Refused(words) | Self::File(words) = self {
            let _ = writeln!(io::stderr(), "skiff: {words}");
        }
    }

    pub fn status(&self) -> Status {
        match self {
            Self::Refused(_) => Status::Refused,
            Self::File(_) | Self::CutPipe => Status::UsageOrFile,
        }
    }
}

/// A failure to write what the command says.
pub fn output_failed(error: io::Error) -> Failure {
    match error.kind() {
        io::ErrorKind::BrokenPipe => Failure::CutPipe,
        _ => Failure::of_file("the output", error),
    }
}
