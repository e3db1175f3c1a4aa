//! `asm FILE FOLDER` writes the files graph, arrays, inputs and picks of a text into
//! a folder; `asm --back FOLDER` prints the text of such files.

use std::fs;
use std::io::ErrorKind;
use std::path::Path;
use std::process::ExitCode;

use asm::{assemble, disassemble, Files};

const USAGE: &str = "usage: asm FILE FOLDER\n       asm --back FOLDER";

fn main() -> ExitCode {
    let arguments: Vec<String> = std::env::args().skip(1).collect();
    let result = match arguments.iter().map(String::as_str).collect::<Vec<_>>()[..] {
        ["--back", folder] => to_text(Path::new(folder)),
        [file, folder] if !file.starts_with("--") => to_files(file, Path::new(folder)),
        _ => Err(USAGE.to_string()),
    };
    match result {
        Ok(()) => ExitCode::SUCCESS,
        Err(message) => {
            eprintln!("{message}");
            ExitCode::FAILURE
        }
    }
}

fn to_files(file: &str, folder: &Path) -> Result<(), String> {
    let text = fs::read_to_string(file).map_err(|error| format!("{file}: {error}"))?;
    let files = assemble(&text).map_err(|errors| {
        let lines: Vec<String> = errors.0.iter().map(|e| format!("{file}: {e}")).collect();
        lines.join("\n")
    })?;
    fs::create_dir_all(folder)
        .and_then(|()| fs::write(folder.join("graph"), &files.graph))
        .and_then(|()| fs::write(folder.join("arrays"), &files.arrays))
        .and_then(|()| fs::write(folder.join("inputs"), &files.inputs))
        .and_then(|()| fs::write(folder.join("picks"), &files.picks))
        .map_err(|error| format!("{}: {error}", folder.display()))
}

fn to_text(folder: &Path) -> Result<(), String> {
    let files = Files {
        graph: read(&folder.join("graph"))?,
        arrays: read(&folder.join("arrays"))?,
        inputs: read(&folder.join("inputs"))?,
        picks: read(&folder.join("picks"))?,
    };
    print!("{}", disassemble(&files)?);
    Ok(())
}

/// A missing file counts as empty, as it does for the printing program.
fn read(path: &Path) -> Result<Vec<u8>, String> {
    match fs::read(path) {
        Err(error) if error.kind() == ErrorKind::NotFound => Ok(Vec::new()),
        result => result.map_err(|error| format!("{}: {error}", path.display())),
    }
}
