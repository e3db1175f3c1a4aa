//! Writing: all of an output or nothing, and never over what was read.

use std::fs::{self, File, OpenOptions};
use std::io::{self, Write};
use std::path::{Path, PathBuf};

use crate::failure::Failure;
use crate::sources::Source;

/// The name of standard output.
const STANDARD: &str = "-";
/// As many links as Linux itself follows.
const MOST_LINKS: usize = 40;

/// Writes to standard output. A reader that has seen enough is no failure.
pub fn print(bytes: &[u8]) -> Result<(), Failure> {
    let mut out = io::stdout().lock();
    match out.write_all(bytes).and_then(|()| out.flush()) {
        Err(error) if error.kind() != io::ErrorKind::BrokenPipe => {
            Err(Failure::File("standard output".to_string(), plain(error)))
        }
        _ => Ok(()),
    }
}

/// Where a command writes what it makes.
pub enum Target {
    Standard,
    /// A device, a pipe or an open file, which is written as it is.
    Device(PathBuf),
    /// A file by its name, and by the one that links lead to.
    File {
        name: PathBuf,
        file: PathBuf,
    },
}

impl Target {
    /// Refuses a name that cannot be written, and one of a file that the command has read.
    pub fn new(path: &Path, sources: &[Source]) -> Result<Target, Failure> {
        if path == Path::new(STANDARD) || path == Path::new("/dev/stdout") {
            return Ok(Target::Standard);
        }
        if let Some(source) = sources.iter().find(|source| source.is_at(path)) {
            let (path, words) = (path.display(), &source.words);
            let text =
                format!("{path} is {words}, which would be overwritten\n  name another file");
            return Err(Failure::Wrong(text));
        }
        let name = path.to_path_buf();
        if is_device(path) {
            return Ok(Target::Device(name));
        }
        let file = followed(path).and_then(without_obstacle);
        let file = file.map_err(|error| Failure::file(path, error))?;
        Ok(Target::File { name, file })
    }

    pub fn write(&self, bytes: &[u8]) -> Result<(), Failure> {
        let (name, written) = match self {
            Target::Standard => return print(bytes),
            Target::Device(name) => (name, fs::write(name, bytes)),
            Target::File { name, file } => (name, replace(file, bytes)),
        };
        written.map_err(|error| Failure::file(name, plain(error)))
    }

    /// Says something beside what is written: on standard output, or on standard error where that is taken.
    pub fn say(&self, text: &str) -> Result<(), Failure> {
        if !matches!(self, Target::Standard) {
            return print(text.as_bytes());
        }
        // Where nobody listens, nothing is to be said.
        let _ = io::stderr().write_all(text.as_bytes());
        Ok(())
    }
}

/// Open files have names in these folders too.
fn is_device(path: &Path) -> bool {
    let known = fs::metadata(path);
    let is_other = known.is_ok_and(|known| !known.is_file() && !known.is_dir());
    is_other || path.starts_with("/dev") || path.starts_with("/proc")
}

/// A file, or why there can be none.
fn without_obstacle(file: PathBuf) -> io::Result<PathBuf> {
    let is_folders_name = file.as_os_str().as_encoded_bytes().ends_with(b"/");
    let folder = if is_folders_name {
        &file
    } else {
        folder_of(&file)
    };
    let shown = folder.display();
    let words = match (file.is_dir(), folder.is_dir()) {
        (true, _) => "it is a folder: name a file in it".to_string(),
        (false, true) => return Ok(file),
        (false, false) if folder.exists() => format!("{shown} is no folder"),
        (false, false) => format!("there is no folder {shown}"),
    };
    Err(io::Error::other(words))
}

fn folder_of(file: &Path) -> &Path {
    let folder = file
        .parent()
        .filter(|folder| !folder.as_os_str().is_empty());
    folder.unwrap_or(Path::new("."))
}

/// The file that a name stands for. Links are followed, also to a file that is not there yet.
fn followed(path: &Path) -> io::Result<PathBuf> {
    let mut file = path.to_path_buf();
    for _ in 0..MOST_LINKS {
        match fs::read_link(&file) {
            Ok(next) => file = file.parent().unwrap_or(Path::new("")).join(next),
            Err(_) => return Ok(file),
        }
    }
    Err(io::Error::other("its links lead round in a circle"))
}

/// Writes a file by way of another one beside it, so that nobody finds half of it.
fn replace(file: &Path, bytes: &[u8]) -> io::Result<()> {
    let known = match OpenOptions::new().write(true).open(file) {
        Ok(known) => Some(known.metadata()?.permissions()),
        Err(error) if error.kind() == io::ErrorKind::NotFound => None,
        Err(error) => return Err(error),
    };
    let (part, mut new) = new_file_in(folder_of(file))?;
    let rights = known.map_or(Ok(()), |known| new.set_permissions(known));
    let written = rights
        .and_then(|()| new.write_all(bytes))
        // A disk may say only now that it is full.
        .and_then(|()| new.sync_all())
        .and_then(|()| fs::rename(&part, file));
    if written.is_err() {
        // What is left of it is of no use; the failure itself is reported.
        let _ = fs::remove_file(&part);
    }
    written
}

/// A file under a name that nothing has yet, such as one that was left when the computer stopped.
fn new_file_in(folder: &Path) -> io::Result<(PathBuf, File)> {
    let mut number = std::process::id();
    loop {
        let part = folder.join(format!(".dayomlak-{number}.part"));
        match File::create_new(&part) {
            Err(error) if error.kind() == io::ErrorKind::AlreadyExists => number += 1,
            created => return created.map(|file| (part, file)),
        }
    }
}

/// The errors that a user meets most, in plain words; they are known by Linux's numbers.
fn plain(error: io::Error) -> io::Error {
    let words = match error.raw_os_error() {
        Some(1 | 13) => "you may not write there",
        Some(28) => "the disk is full",
        Some(30) => "this disk can only be read",
        Some(122) => "you may use no more of this disk (its quota is reached)",
        _ => return error,
    };
    io::Error::new(error.kind(), words)
}
