//! The files that a command has read. What it writes must be none of them.

use std::fs::{self, File, Metadata};
use std::io;
use std::os::fd::AsFd;
use std::os::unix::fs::MetadataExt;
use std::path::Path;

/// A file that was read, known by its device and its number there, under whatever name.
#[derive(Clone, Debug, PartialEq, Eq)]
pub struct Source {
    /// What it is, for a message.
    pub words: String,
    device: u64,
    number: u64,
}

impl Source {
    /// `None` for what cannot be overwritten, such as a pipe.
    fn of(words: String, known: &Metadata) -> Option<Source> {
        let (device, number) = (known.dev(), known.ino());
        known.is_file().then_some(Source {
            words,
            device,
            number,
        })
    }

    /// A file that is read by its name.
    pub fn named(words: &str, path: &Path) -> Option<Source> {
        let known = fs::metadata(path).ok()?;
        Source::of(words.to_string(), &known)
    }

    /// The file that standard input comes from, if it is one.
    pub fn standard_input() -> Option<Source> {
        let input = io::stdin().as_fd().try_clone_to_owned().ok()?;
        let known = File::from(input).metadata().ok()?;
        Source::of(
            "the file that standard input comes from".to_string(),
            &known,
        )
    }

    /// Whether a name, links followed, leads to this file.
    pub fn is_at(&self, path: &Path) -> bool {
        let known = fs::metadata(path);
        known.is_ok_and(|known| (known.dev(), known.ino()) == (self.device, self.number))
    }
}
