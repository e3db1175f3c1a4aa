//! Why a command gives no answer, and the exit status that says so.

use std::fmt;
use std::io;
use std::path::Path;

use crate::diagnostics::Finding;

/// Exit statuses. clap answers a wrong command line by `WRONG` too.
pub const COMPLETED: u8 = 0;
pub const NOT_COMPLETED: u8 = 1;
pub const WRONG: u8 = 2;
pub const NO_FILE: u8 = 3;

#[derive(Debug)]
pub enum Failure {
    /// A command line or a text that cannot be used, and what to do.
    Wrong(String),
    /// A saved state where a graph is needed, by its label.
    SavedState(String),
    /// A text with faults.
    Faulty(Faults),
    /// What the engine refuses, by number and word, and why.
    Refused(String),
    /// A file that cannot be read or written.
    File(String, io::Error),
    /// What the engine gave and what was made of it do not fit together.
    Inconsistent(String),
}

/// The faults of a text.
#[derive(Debug)]
pub struct Faults {
    /// How messages call the text.
    pub label: String,
    pub text: String,
    pub findings: Vec<Finding>,
}

impl Failure {
    pub fn faulty(label: &str, text: impl Into<String>, findings: Vec<Finding>) -> Failure {
        Failure::Faulty(Faults {
            label: label.to_string(),
            text: text.into(),
            findings,
        })
    }

    pub fn file(path: &Path, error: io::Error) -> Failure {
        Failure::File(path.display().to_string(), error)
    }

    pub fn status(&self) -> u8 {
        match self {
            Failure::Wrong(_) | Failure::SavedState(_) | Failure::Faulty(..) => WRONG,
            Failure::File(..) => NO_FILE,
            Failure::Refused(_) | Failure::Inconsistent(_) => NOT_COMPLETED,
        }
    }
}

impl fmt::Display for Failure {
    fn fmt(&self, f: &mut fmt::Formatter<'_>) -> fmt::Result {
        match self {
            Failure::Wrong(text) | Failure::Refused(text) => write!(f, "error: {text}"),
            Failure::SavedState(label) => write!(f, "error: {label} is a saved state"),
            Failure::Faulty(faults) => {
                let titles: Vec<&str> = faults.findings.iter().map(|f| f.title.as_str()).collect();
                write!(f, "error: {}", titles.join("; "))
            }
            Failure::File(path, error) => write!(f, "error: {path}: {error}"),
            Failure::Inconsistent(text) => write!(
                f,
                "error: {text}\n  this is a fault of dayomlak and not of your graph: please report it with the graph"
            ),
        }
    }
}
