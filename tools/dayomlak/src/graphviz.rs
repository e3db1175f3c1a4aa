//! Graphviz, a program that lays graphs out.

use std::env;
use std::io::{self, ErrorKind, Write};
use std::path::{Path, PathBuf};
use std::process::{Child, Command, Stdio};

use crate::failure::Failure;

const MISSING: &str =
    "Graphviz is not installed (on Debian: apt-get install graphviz); `draw --dot` prints its text";

/// The picture of a text.
pub fn svg(text: &str) -> Result<Vec<u8>, Failure> {
    laid_out(text).map_err(|error| Failure::File("dot".to_string(), error))
}

fn laid_out(text: &str) -> io::Result<Vec<u8>> {
    let mut child = start()?;
    let mut stdin = child.stdin.take().expect("it is piped");
    let text = text.as_bytes().to_vec();
    // It may begin to write before it has read all.
    let writer = std::thread::spawn(move || stdin.write_all(&text));
    let output = child.wait_with_output()?;
    writer.join().expect("writing does not panic")?;
    match output.status.success() {
        true => Ok(output.stdout),
        false => Err(io::Error::other(format!("ended with {}", output.status))),
    }
}

/// The system's Graphviz, or else that of a release.
fn start() -> io::Result<Child> {
    let started = spawn(Command::new("dot")).or_else(|error| match error.kind() {
        ErrorKind::NotFound => spawn(bundled(&release_folder()?)),
        _ => Err(error),
    });
    started.map_err(|error| match error.kind() {
        ErrorKind::NotFound => io::Error::new(ErrorKind::NotFound, MISSING),
        _ => error,
    })
}

fn spawn(mut dot: Command) -> io::Result<Child> {
    dot.arg("-Tsvg")
        .stdin(Stdio::piped())
        .stdout(Stdio::piped())
        .spawn()
}

/// `dot` with a loader and libraries of its own, since the system may have none. It runs in its folder because a list of
/// folders cannot name one that has a colon in its path.
fn bundled(folder: &Path) -> Command {
    let mut dot = Command::new(folder.join("ld-linux-x86-64.so.2"));
    dot.args(["--library-path", ".", "./dot"])
        .env("GVBINDIR", ".")
        .current_dir(folder);
    dot
}

/// Where a release has Graphviz: beside the folder of the program.
fn release_folder() -> io::Result<PathBuf> {
    // Without /proc a program knows itself only by the name that it was called by.
    let program = env::current_exe().or_else(|_| called_as().canonicalize())?;
    Ok(program.with_file_name("../lib/graphviz"))
}

fn called_as() -> PathBuf {
    env::args_os().next().unwrap_or_default().into()
}
