//! Assembles every example graph, runs it through the engine under many orders
//! and compares what it leaves with what the second emulator leaves, and what that
//! one prints with the file `expected` beside the graph. What the graph needs is
//! compared too: its bounds with the file `expected_bounds` if it is loop-free, else
//! its profile with the file `expected_profile`. Then it is run under loop bounds.
//!
//! Usage: run_examples [FOLDER], by default the folder `examples` of the project; or
//! run_examples --expected FILE.ttda, which prints what the second emulator prints, and
//! run_examples --needs FILE.ttda, which prints its bounds or its profile.
//! The last line is "N passed, M failed".

mod needs;
mod runs;

use std::fs;
use std::path::Path;
use std::process::ExitCode;

use asm::Files;
use layout::widths::{MOST_CELLS, MOST_RECORDS};

use needs::Needs;

const RECORDS: usize = MOST_RECORDS;
const CELLS: usize = MOST_CELLS;
const DEFAULT_FOLDER: &str = concat!(env!("CARGO_MANIFEST_DIR"), "/../../examples");

fn main() -> ExitCode {
    let arguments: Vec<String> = std::env::args().skip(1).collect();
    match arguments.iter().map(String::as_str).collect::<Vec<_>>()[..] {
        ["--expected", file] => print(file, |files| runs::second_run(files).text()),
        ["--needs", file] => print(file, |files| Needs::of(files).text().into_bytes()),
        [folder] => check_all(Path::new(folder)),
        [] => check_all(Path::new(DEFAULT_FOLDER)),
        _ => {
            let usage = "usage: run_examples [FOLDER]\n       run_examples --expected FILE.ttda";
            eprintln!("{usage}\n       run_examples --needs FILE.ttda");
            ExitCode::FAILURE
        }
    }
}

fn print(file: &str, text: fn(&Files) -> Vec<u8>) -> ExitCode {
    match assembled(Path::new(file)) {
        Ok(files) => {
            print!("{}", String::from_utf8_lossy(&text(&files)));
            ExitCode::SUCCESS
        }
        Err(message) => {
            eprintln!("{message}");
            ExitCode::FAILURE
        }
    }
}

fn check_all(folder: &Path) -> ExitCode {
    let (mut passed, mut failed) = (0, 0);
    for name in names(folder) {
        match check(&folder.join(&name), &name) {
            Ok(what) => {
                passed += 1;
                println!("{name}: as expected {what}");
            }
            Err(message) => {
                failed += 1;
                println!("{name}: {message}");
            }
        }
    }
    if passed + failed == 0 {
        failed = 1;
        println!("no example in {}", folder.display());
    }
    println!("{passed} passed, {failed} failed");
    ExitCode::from(u8::from(failed > 0))
}

/// The folders that have a text of their own name, sorted.
fn names(folder: &Path) -> Vec<String> {
    let entries = fs::read_dir(folder).into_iter().flatten().flatten();
    let mut names: Vec<String> = entries
        .filter(|entry| entry.path().is_dir())
        .map(|entry| entry.file_name().to_string_lossy().into_owned())
        .collect();
    names.sort();
    names
}

fn assembled(file: &Path) -> Result<Files, String> {
    let text = fs::read_to_string(file).map_err(|error| format!("{}: {error}", file.display()))?;
    asm::assemble(&text).map_err(|error| format!("{}: {error}", file.display()))
}

fn stored(folder: &Path, file: &str) -> Result<Vec<u8>, String> {
    let path = folder.join(file);
    fs::read(&path).map_err(|error| format!("{}: {error}", path.display()))
}

/// Checks one example; answers in words what was compared.
fn check(folder: &Path, name: &str) -> Result<String, String> {
    let files = assembled(&folder.join(format!("{name}.ttda")))?;
    let again = asm::disassemble(&files)?;
    if asm::assemble(&again).as_ref() != Ok(&files) {
        return Err("the disassembled text gives other files".to_string());
    }
    let first = runs::typed_order(&files, &stored(folder, "expected")?)?;
    let orders = runs::other_orders(&files, &first)?;
    let held = match runs::bounded_orders(&files, &first)? {
        0 => String::new(),
        held => format!("; with bounds {held} runs hang on held activities"),
    };
    let needs = Needs::of(&files);
    if needs.text().into_bytes() != stored(folder, needs.file())? {
        let file = needs.file();
        return Err(format!("the second emulator gives another {file}"));
    }
    if folder.join(needs.other_file()).exists() {
        return Err(format!("{} is of no use here", needs.other_file()));
    }
    needs.engine_agrees(&files, &first)?;
    Ok(format!("in {orders} orders, with {}{held}", needs.file()))
}
