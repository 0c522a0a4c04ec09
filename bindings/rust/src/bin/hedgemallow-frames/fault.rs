//! Why the tool ends before its time.

use std::fmt::Display;
use std::io::{self, ErrorKind};

#[derive(Debug, PartialEq, Eq)]
pub enum Fault {
    /// The command line is none, as this line says.
    Usage(String),
    /// What it names is refused, or cannot be read or written, as this line says.
    Told(String),
    /// Nobody reads the pictures any more, and nobody has to be told.
    Quiet,
}

impl Fault {
    /// The fault of what has this name.
    pub fn of(name: impl Display, why: impl Display) -> Fault {
        Fault::Told(format!("{name}: {why}"))
    }

    /// The fault of what has this name and could not be read or written.
    pub fn io(name: impl Display, error: &io::Error) -> Fault {
        if error.kind() == ErrorKind::BrokenPipe {
            return Fault::Quiet;
        }
        Fault::of(name, words(error))
    }

    pub fn status(&self) -> u8 {
        match self {
            Fault::Usage(_) => 2,
            Fault::Told(_) | Fault::Quiet => 1,
        }
    }
}

/// The system's words for an error, as the other programs print them: without the number that Rust puts behind them.
pub fn words(error: &io::Error) -> String {
    let text = error.to_string();
    match text.rfind(" (os error ") {
        Some(end) => text[..end].to_string(),
        None => text,
    }
}
