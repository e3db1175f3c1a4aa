//! The whole job of the printing program: a run, its listing and its text, in
//! buffers of zeros as the program has them. Both emulators do it in this process;
//! then the program itself is started on the same files, and on an empty folder,
//! whose answer is `refused 1`: that is what starting it costs.

use std::fs;
use std::ops::Range;
use std::path::{Path, PathBuf};
use std::process::Command;
use std::time::Duration;

use crate::calls::{self, Calls};
use crate::printing::longest;
use crate::work::Work;
use crate::{microseconds, middle, ratio, time, Kind, Lent, BUDGET, CELLS, KINDS};
use layout::fields::{cell, token};
use layout::widths::{self, MOST_RECORDS};
use second::Schedule;

const RECORDS: usize = MOST_RECORDS;
const RUNS: usize = 200;

pub fn print() {
    let folder = std::env::temp_dir().join(format!("ttda-bench-{}", std::process::id()));
    write_folders(&folder);
    println!("The whole job of the program, median of {RUNS} runs of each.");
    println!();
    println!("| work | engine | second | engine / second | the program |");
    println!("|---|---:|---:|---:|---:|");
    for (name, work, _) in KINDS.into_iter().filter(|(_, _, newest)| !newest) {
        print_job(name, &work(RECORDS), &folder.join(file_name(name)));
    }
    let started = folder.join("empty");
    println!("| nothing | | | | {} |", microseconds(programs(&started)));
    fs::remove_dir_all(&folder).expect("the folder is there");
}

fn print_job(name: &str, work: &Work, folder: &Path) {
    let (text, same) = (engine_job(work), second_job(work));
    assert!(text == same, "the engine prints otherwise");
    assert!(text == printed(folder), "the program prints otherwise");
    let (mut engine, mut second) = (Vec::new(), Vec::new());
    for _ in 0..RUNS {
        engine.push(time(|| engine_job(work)));
        second.push(time(|| second_job(work)));
    }
    let (engine, second) = (middle(&engine), middle(&second));
    println!(
        "| {name} | {} | {} | {} | {} |",
        microseconds(engine),
        microseconds(second),
        ratio(engine, second),
        microseconds(programs(folder)),
    );
}

fn engine_job(work: &Work) -> Vec<u8> {
    let mut ledger = vec![0; widths::TOKEN * RECORDS];
    let mut cells = vec![0; widths::CELL * CELLS];
    let answer = engine::run(
        work.program(),
        &work.inputs,
        Schedule::new(&[], BUDGET),
        &mut ledger,
        &mut cells,
    );
    let used = widths::TOKEN * engine::unpacked(answer).2 as usize;
    let mut listing = vec![0; used];
    engine::list(&ledger[..used], &mut listing);
    let mut text = vec![0; longest(RECORDS)];
    let bytes = engine::print(answer, &listing, &cells, &mut text);
    text.truncate(bytes as usize);
    text
}

fn second_job(work: &Work) -> Vec<u8> {
    let mut ledger = vec![0; widths::TOKEN * RECORDS];
    let mut cells = vec![0; widths::CELL * CELLS];
    let answer = second::run(
        work.program(),
        &work.inputs,
        Schedule::new(&[], BUDGET),
        &mut ledger,
        &mut cells,
    );
    let used = widths::TOKEN * answer.tokens;
    let mut listing = vec![0; used];
    second::list(&ledger[..used], &mut listing);
    second::print(&answer, &listing, &cells)
}

/// The program, that of this project unless TTDA names another.
fn program() -> PathBuf {
    match std::env::var_os("TTDA") {
        Some(program) => program.into(),
        None => Path::new(env!("CARGO_MANIFEST_DIR")).join("../crates/ttda/out/ttda"),
    }
}

fn printed(folder: &Path) -> Vec<u8> {
    let output = Command::new(program()).arg(folder).output();
    output.expect("the program runs").stdout
}

fn programs(folder: &Path) -> Duration {
    let times: Vec<Duration> = (0..RUNS).map(|_| time(|| printed(folder))).collect();
    middle(&times)
}

/// The name of a work as that of a folder.
fn file_name(name: &str) -> String {
    name.replace(' ', "_")
}

/// Writes the files of each work of 2,048 tokens for the program, each to a folder
/// of its own, and an empty folder.
pub fn write_folders(folder: &Path) {
    fs::create_dir_all(folder.join("empty")).expect("a folder can be made");
    for (name, work, _) in KINDS.into_iter().filter(|(_, _, newest)| !newest) {
        let (place, work) = (folder.join(file_name(name)), work(RECORDS));
        fs::create_dir_all(&place).expect("a folder can be made");
        fs::write(place.join("graph"), &work.graph).expect("a file can be written");
        fs::write(place.join("inputs"), &work.inputs).expect("a file can be written");
    }
}

/// One job of the engine on a work, for a count of its instructions.
pub fn once(name: &str) {
    let (_, work, _) = kind_of(name);
    println!("{}", engine_job(&work(RECORDS)).len());
}

/// One run of a work under a full table of named arrays, for the same.
pub fn table_once(name: &str) {
    let (_, work, newest) = kind_of(name);
    let mut lent = Lent::new(work(RECORDS), RECORDS, newest);
    println!(
        "{}",
        calls::run_under_table(&mut lent, &mut calls::full_table())
    );
}

/// One run of a work with a loop bound, for the same.
pub fn bounded_once(name: &str, bound: u16) {
    let (_, work, newest) = kind_of(name);
    let mut lent = Lent::new(work(RECORDS), RECORDS, newest);
    println!("{}", calls::run_bounded(&mut lent, bound));
}

/// One range run of a work with single values, and the plain run of its lows, for the same. Each token and cell is the
/// plain one with its value again at its end.
pub fn ranges_once(name: &str) {
    let (_, work, _) = kind_of(name);
    let work = work(RECORDS);
    let wide = |records: &[u8], width: usize, value: Range<usize>| -> Vec<u8> {
        let records = records.chunks_exact(width);
        records
            .flat_map(|record| [record, &record[value.clone()]].concat())
            .collect()
    };
    let mut ledger = vec![0; widths::TOKEN * RECORDS];
    let mut cells = vec![0; widths::CELL * CELLS];
    let mut range_ledger = vec![0; widths::RANGE_TOKEN * RECORDS];
    let mut range_cells = vec![0; widths::RANGE_CELL * CELLS];
    let schedule = Schedule::new(&[], BUDGET);
    let answer = engine::run(
        work.program(),
        &work.inputs,
        schedule,
        &mut ledger,
        &mut cells,
    );
    let inputs = wide(&work.inputs, widths::TOKEN, token::VALUE);
    let ranged = engine::run_ranges(
        work.program(),
        &inputs,
        schedule,
        &mut range_ledger,
        &mut range_cells,
    );
    assert_eq!(engine::unpacked(ranged), engine::unpacked(answer));
    let used = engine::unpacked(answer).2 as usize;
    let tokens = wide(&ledger[..widths::TOKEN * used], widths::TOKEN, token::VALUE);
    assert!(
        range_ledger[..tokens.len()] == tokens,
        "other tokens than the plain run's"
    );
    assert!(
        range_cells == wide(&cells, widths::CELL, cell::VALUE),
        "other cells than the plain run's"
    );
    println!("{used}");
}

/// One call of each kind beside a plain run on a work, for the same.
pub fn calls_once(name: &str) {
    Calls::new(kind_of(name), RECORDS);
}

fn kind_of(name: &str) -> Kind {
    let kind = KINDS.into_iter().find(|kind| file_name(kind.0) == name);
    kind.expect("the name of a work, with _ for a space")
}
