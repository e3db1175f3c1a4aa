//! Running the program and comparing what it prints with stored files.

// Each test program uses a part of this.
#![allow(dead_code)]

use std::fs;
use std::io::Write;
use std::path::{Path, PathBuf};
use std::process::{Command, Output, Stdio};
use std::sync::atomic::{AtomicUsize, Ordering};

/// The project's root, where the program is run, so that the paths in its messages are the same everywhere.
pub const ROOT: &str = concat!(env!("CARGO_MANIFEST_DIR"), "/../..");
pub const VECTOR_SUM: &str = "examples/vector_sum/vector_sum.ttda";
pub const READ: &str = "examples/deferred_read/deferred_read.ttda";
pub const LATE: &str = "examples/late_entry/late_entry.ttda";
/// The moment that pictures are drawn at.
pub const MOMENT: &str = "1794807612";

/// What a command printed, and its exit status.
#[derive(Debug)]
pub struct Done {
    pub out: String,
    pub err: String,
    pub status: i32,
}

impl Done {
    fn of(output: Output) -> Done {
        Done {
            out: String::from_utf8_lossy(&output.stdout).into_owned(),
            err: String::from_utf8_lossy(&output.stderr).into_owned(),
            status: output.status.code().unwrap(),
        }
    }

    /// That these words are on standard output.
    #[track_caller]
    pub fn says(&self, words: &str) {
        assert!(self.out.contains(words), "{words}\n{self:?}");
    }

    /// That these words are on standard error.
    #[track_caller]
    pub fn complains(&self, words: &str) {
        assert!(self.err.contains(words), "{words}\n{self:?}");
    }

    /// That it ended with this status, and printed nothing on standard output.
    #[track_caller]
    pub fn fails(&self, status: i32) {
        assert_eq!((self.status, &self.out[..]), (status, ""), "{self:?}");
    }
}

/// A folder that goes with the test.
pub struct Folder(PathBuf);

impl Folder {
    pub fn new() -> Folder {
        static COUNT: AtomicUsize = AtomicUsize::new(0);
        let number = COUNT.fetch_add(1, Ordering::Relaxed);
        let name = format!("dayomlak-test-{}-{number}", std::process::id());
        let path = std::env::temp_dir().join(name);
        fs::create_dir_all(&path).unwrap();
        Folder(path)
    }

    pub fn path(&self, name: &str) -> String {
        self.0.join(name).display().to_string()
    }

    pub fn exists(&self, name: &str) -> bool {
        self.0.join(name).exists()
    }

    /// Writes a file and answers its path.
    pub fn write(&self, name: &str, bytes: impl AsRef<[u8]>) -> String {
        fs::write(self.0.join(name), bytes).unwrap();
        self.path(name)
    }
}

impl Drop for Folder {
    fn drop(&mut self) {
        let _ = fs::remove_dir_all(&self.0);
    }
}

/// A command in the project's root at a fixed moment, for which nothing is kept.
pub fn command(cache: &Folder, arguments: &[&str]) -> Command {
    let mut command = kept_command(cache, arguments);
    command.env("SOURCE_DATE_EPOCH", MOMENT);
    command
}

/// A command in the project's root, with a cache of its own, by the clock.
pub fn kept_command(cache: &Folder, arguments: &[&str]) -> Command {
    let mut command = Command::new(env!("CARGO_BIN_EXE_dayomlak"));
    command.current_dir(ROOT).args(arguments);
    command.env("XDG_CACHE_HOME", cache.path("cache"));
    command.env_remove("SOURCE_DATE_EPOCH");
    command
}

pub fn done(command: &mut Command) -> Done {
    Done::of(command.output().unwrap())
}

pub fn dayomlak(arguments: &[&str]) -> Done {
    done(&mut command(&Folder::new(), arguments))
}

/// Runs a command with a text on standard input, which is given as the file `-`.
pub fn typed(text: &str, arguments: &[&str]) -> Done {
    let folder = Folder::new();
    let mut child = command(&folder, arguments)
        .stdin(Stdio::piped())
        .stdout(Stdio::piped())
        .stderr(Stdio::piped())
        .spawn()
        .unwrap();
    child
        .stdin
        .take()
        .unwrap()
        .write_all(text.as_bytes())
        .unwrap();
    Done::of(child.wait_with_output().unwrap())
}

/// Compares what was printed with a stored file. UPDATE_EXPECTED=1 stores it instead.
pub fn expect(name: &str, done: &Done) {
    let path = Path::new(env!("CARGO_MANIFEST_DIR"))
        .join("tests/expected")
        .join(name);
    let text = match done.err.is_empty() {
        true => format!("{}exit status {}\n", done.out, done.status),
        false => format!(
            "{}--- standard error\n{}exit status {}\n",
            done.out, done.err, done.status
        ),
    };
    if std::env::var_os("UPDATE_EXPECTED").is_some() {
        fs::create_dir_all(path.parent().unwrap()).unwrap();
        fs::write(&path, &text).unwrap();
    }
    let stored = fs::read_to_string(&path).unwrap_or_default();
    assert!(
        stored == text,
        "{name} is stored as\n{stored}\nand came as\n{text}\nUPDATE_EXPECTED=1 stores what came"
    );
}
