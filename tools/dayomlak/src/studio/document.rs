//! The file that is open: read, looked at again, and written. No other file is.

use std::fs;
use std::io::ErrorKind;
use std::path::PathBuf;
use std::sync::{Mutex, PoisonError};

use plotter::Fingerprint;

use super::http::MOST_BODY;
use crate::failure::Failure;
use crate::log_file;
use crate::output::Target;
use crate::program;
use crate::saved;

/// A text and the line before it make a request.
const MOST_TEXT: usize = MOST_BODY - (64 << 10);
/// The fingerprint of a file that is not there.
const NONE: &str = "none";

pub struct Document {
    pub label: String,
    path: PathBuf,
    target: Target,
    /// One at a time looks at the file and writes it.
    writing: Mutex<()>,
}

/// What the file has, or had.
#[derive(Clone, Debug, PartialEq, Eq)]
pub struct Version {
    /// Tells two versions apart.
    pub known: String,
    /// With line ends of Unix, as a browser has them; `None` where there is no file.
    pub text: Option<String>,
    /// Whether its lines end as on Windows.
    is_dos: bool,
}

/// What came of saving.
pub enum Saved {
    Written(Version),
    /// Another program has written the file meanwhile, and nothing is written here.
    Changed(Version),
}

impl Document {
    /// Opens a typed graph, which need not be there yet.
    pub fn open(file: &str) -> Result<Document, Failure> {
        let path = PathBuf::from(file);
        if file == "-" || path.is_dir() {
            let words = "the studio opens a file with a typed graph, and writes it on Save";
            let advice = "`dayomlak disasm FOLDER` prints the text of a folder's files";
            return Err(Failure::Wrong(format!("{file}: {words}\n  {advice}")));
        }
        let target = Target::new(&path, &[])?;
        if !matches!(target, Target::File { .. }) {
            return Err(Failure::Wrong(format!("{file} is no file")));
        }
        let document = Document {
            label: file.to_string(),
            path,
            target,
            writing: Mutex::new(()),
        };
        document.now()?;
        Ok(document)
    }

    /// What the file has now.
    pub fn now(&self) -> Result<Version, Failure> {
        match fs::read(&self.path) {
            Err(error) if error.kind() == ErrorKind::NotFound => Ok(Version {
                known: NONE.to_string(),
                text: None,
                is_dos: false,
            }),
            Err(error) => Err(Failure::file(&self.path, error)),
            Ok(bytes) => Version::of(&self.label, bytes),
        }
    }

    /// Writes the file, if it has what the page last knew of it.
    pub fn save(&self, known: &str, text: &str) -> Result<Saved, Failure> {
        let _turn = self.writing.lock().unwrap_or_else(PoisonError::into_inner);
        let now = self.now()?;
        if now.known != known {
            return Ok(Saved::Changed(now));
        }
        let bytes = match now.is_dos {
            true => text.replace('\n', "\r\n"),
            false => text.to_string(),
        };
        // What could not be opened again is not written.
        let version = Version::of(&self.label, bytes.clone().into_bytes())?;
        self.target.write(bytes.as_bytes())?;
        Ok(Saved::Written(version))
    }

    pub fn is_there(&self) -> bool {
        self.path.exists()
    }
}

impl Version {
    fn of(label: &str, bytes: Vec<u8>) -> Result<Version, Failure> {
        if bytes.len() > MOST_TEXT {
            let most = MOST_TEXT >> 10;
            let words = format!("{label} is longer than {most} KiB, and the studio takes no more");
            return Err(Failure::Wrong(words));
        }
        if bytes.starts_with(log_file::START.as_bytes()) || saved::is_saved(&bytes) {
            let words = format!("{label} is a log or a saved state, and no typed graph");
            return Err(Failure::Wrong(words));
        }
        let known = Fingerprint::of(&bytes).digits();
        let text = program::text(label, bytes)?;
        let ends = text.matches('\n').count();
        Ok(Version {
            known,
            is_dos: ends > 0 && text.matches("\r\n").count() == ends,
            text: Some(text.replace("\r\n", "\n")),
        })
    }
}

#[cfg(test)]
mod tests {
    use super::*;

    fn version(bytes: &[u8]) -> Result<Version, Failure> {
        Version::of("x", bytes.to_vec())
    }

    #[test]
    fn line_ends() {
        let dos = version(b"a\r\nb\r\n").unwrap();
        assert_eq!((dos.text.as_deref(), dos.is_dos), (Some("a\nb\n"), true));
        let mixed = version(b"a\r\nb\n").unwrap();
        assert_eq!(
            (mixed.text.as_deref(), mixed.is_dos),
            (Some("a\nb\n"), false)
        );
        let none = version(b"a").unwrap();
        assert_eq!((none.text.as_deref(), none.is_dos), (Some("a"), false));
        assert_ne!(version(b"a").unwrap().known, version(b"b").unwrap().known);
    }

    #[test]
    fn what_is_no_text() {
        assert!(version(&[0xff]).is_err());
        assert!(version(&vec![b' '; MOST_TEXT + 1]).is_err());
        assert!(version(&vec![b' '; MOST_TEXT]).is_ok());
        assert!(version(log_file::START.as_bytes()).is_err());
    }
}
