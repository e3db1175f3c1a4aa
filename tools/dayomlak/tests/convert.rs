//! `dayomlak convert`: what it takes a file for, what it makes of it, and when it writes nothing.

mod common;

use std::fs;
use std::path::Path;

use common::{dayomlak, Done, Folder};
use ttda::layout::{input, instruction, ADD, OUT};
use ttda::widths::{LOGGED, MOST_RECORDS, OLD_LOGGED, OLD_TOKEN, TOKEN};

/// An input of instruction 0.
fn new_input(port: u8, value: i32) -> Vec<u8> {
    input(0, port, value).to_vec()
}

/// The same with a path of four levels.
fn old_input(port: u8, value: i32) -> Vec<u8> {
    new_input(port, value).split_off(TOKEN - OLD_TOKEN)
}

/// A sum of two inputs, in the files of before.
fn sum(folder: &Folder) -> String {
    fs::create_dir(folder.path("old")).unwrap();
    folder.write("old/graph", add_and_out());
    folder.write("old/inputs", [old_input(0, 7), old_input(1, -9)].concat());
    folder.path("old")
}

fn add_and_out() -> Vec<u8> {
    [instruction(ADD, &[(1, 0)], 0), instruction(OUT, &[], 0)].concat()
}

fn convert(folder: &Folder, old: &str, options: &[&str]) -> Done {
    let (old, new) = (folder.path(old), folder.path("new"));
    dayomlak(&[&["convert", &old, &new], options].concat())
}

fn read(folder: &Folder, name: &str) -> Vec<u8> {
    fs::read(folder.path(name)).unwrap()
}

/// What is said, with the folder's name left out.
fn said(folder: &Folder, done: &Done) -> String {
    format!("{}{}", done.out, done.err).replace(&folder.path(""), "")
}

#[track_caller]
fn expect(folder: &Folder, done: &Done, status: i32, words: &str) {
    assert_eq!((done.status, &said(folder, done)[..]), (status, words));
    if status != 0 {
        assert_eq!(done.out, "");
    }
}

/// That nothing was written where nothing was there.
#[track_caller]
fn expect_none(folder: &Folder, done: &Done, status: i32, words: &str) {
    expect(folder, done, status, words);
    assert!(!Path::new(&folder.path("new")).exists());
}

#[test]
fn a_folder() {
    let folder = Folder::new();
    let old = sum(&folder);
    folder.write("old/picks", [1, 0, 2, 0]);
    let done = dayomlak(&["run", &old]);
    assert_eq!(done.status, 1);
    let advice = "look at the inputs: they are 2 token records of 20 bytes, with paths of four levels: `dayomlak convert` widens them";
    done.says(advice);
    let words = "old/graph: copied to new/graph\n\
        old/inputs: 2 token records of 20 bytes, by its length\n\
        new/inputs: 2 token records of 28 bytes\n\
        old/picks: copied to new/picks\n";
    expect(&folder, &convert(&folder, "old", &[]), 0, words);
    assert_eq!(read(&folder, "new/graph"), add_and_out());
    assert_eq!(read(&folder, "new/picks"), [1, 0, 2, 0]);
    let inputs = [new_input(0, 7), new_input(1, -9)].concat();
    assert_eq!(read(&folder, "new/inputs"), inputs);
    let done = dayomlak(&["run", &folder.path("new"), "--listing"]);
    let listing = "completed 1 3 0\n0 0 0 0 7 spent\n0 0 0 1 -9 spent\n0 0 1 0 -2 live\n";
    assert_eq!(done.out, listing);
}

/// A file that is not there is not made, and counts as empty before and after.
#[test]
fn a_folder_without_inputs() {
    let folder = Folder::new();
    fs::create_dir(folder.path("old")).unwrap();
    folder.write("old/graph", add_and_out());
    let words = "old/graph: copied to new/graph\n";
    expect(&folder, &convert(&folder, "old", &[]), 0, words);
    let names: Vec<_> = fs::read_dir(folder.path("new")).unwrap().collect();
    assert_eq!(names.len(), 1);
}

#[test]
fn a_folder_without_files() {
    let folder = Folder::new();
    fs::create_dir(folder.path("old")).unwrap();
    folder.write("old/log", [0; OLD_LOGGED]);
    let words = "error: old has no file `graph`, `arrays`, `inputs` or `picks`\n  \
        a listing or a log is converted by its own name\n";
    expect_none(&folder, &convert(&folder, "old", &[]), 2, words);
}

#[test]
fn nothing_is_overwritten_unasked() {
    let folder = Folder::new();
    sum(&folder);
    fs::create_dir(folder.path("new")).unwrap();
    folder.write("new/inputs", "mine");
    let words = "error: new/inputs: it is there already; --force overwrites it\n";
    expect(&folder, &convert(&folder, "old", &[]), 3, words);
    assert_eq!(read(&folder, "new/inputs"), b"mine");
    assert!(!Path::new(&folder.path("new/graph")).exists());
    assert_eq!(convert(&folder, "old", &["--force"]).status, 0);
    assert_eq!(read(&folder, "new/inputs").len(), 56);
}

/// A file may take its own place, and then it is no old one any more.
#[test]
fn in_place() {
    let folder = Folder::new();
    let file = folder.write("inputs", old_input(0, 5).repeat(2));
    let done = dayomlak(&["convert", &file, &file]);
    let words = "error: inputs: it is there already; --force overwrites it\n";
    expect(&folder, &done, 3, words);
    assert_eq!(dayomlak(&["convert", &file, &file, "--force"]).status, 0);
    assert_eq!(read(&folder, "inputs"), new_input(0, 5).repeat(2));
    let done = dayomlak(&["convert", &file, &file, "--force"]);
    let words = "error: inputs has 2 token records of 28 bytes already, by its length\n  \
        there is nothing to convert\n";
    expect(&folder, &done, 2, words);
    assert_eq!(read(&folder, "inputs"), new_input(0, 5).repeat(2));
}

/// 140 bytes are 7 old token records, 5 new ones or 7 new records of a log.
#[test]
fn lengths_that_leave_doubt() {
    let folder = Folder::new();
    folder.write("old", old_input(0, 5).repeat(7));
    let words = "old: 7 token records of 20 bytes, by its bytes: \
        in length it could be 5 token records of 28 bytes or 7 log records of 20 bytes too\n\
        new: 7 token records of 28 bytes\n";
    expect(&folder, &convert(&folder, "old", &[]), 0, words);
    assert_eq!(read(&folder, "new"), new_input(0, 5).repeat(7));
    folder.write("old", new_input(0, 5).repeat(5));
    let words = "error: old has 5 token records of 28 bytes already, by its bytes: \
        in length it could be 7 token records of 20 bytes or 7 log records of 20 bytes too\n  \
        there is nothing to convert\n";
    expect(&folder, &convert(&folder, "old", &["--force"]), 2, words);
    assert_eq!(read(&folder, "new"), new_input(0, 5).repeat(7));
}

#[test]
fn bytes_that_leave_doubt() {
    let folder = Folder::new();
    let all =
        "7 token records of 20 bytes or 5 token records of 28 bytes or 7 log records of 20 bytes";
    let tell = "--as inputs, --as listing or --as log says what it was";
    folder.write("old", [0; 140]);
    let words =
        format!("error: old: in doubt: its length and its bytes would do for {all}\n  {tell}\n");
    expect_none(&folder, &convert(&folder, "old", &[]), 2, &words);
    folder.write("old", [255; 140]);
    let words = format!(
        "error: old: in doubt: in length it could be {all}, but its bytes are none of them\n  {tell}\n"
    );
    expect_none(&folder, &convert(&folder, "old", &[]), 2, &words);
    let words = "old: 7 token records of 20 bytes\nnew: 7 token records of 28 bytes\n";
    expect(
        &folder,
        &convert(&folder, "old", &["--as", "listing"]),
        0,
        words,
    );
    let record = [&[255; 8][..], &[0; 8], &[255; 12]].concat();
    assert_eq!(read(&folder, "new"), record.repeat(7));
}

#[test]
fn refused_by_7() {
    let folder = Folder::new();
    folder.write("old", [0; 13]);
    let words = "error: refused by 7, bad store: old: its 13 bytes are not whole records\n  \
        tokens had 20 bytes each, and records of a log 12\n";
    expect_none(&folder, &convert(&folder, "old", &[]), 1, words);
    let words = "error: refused by 7, bad store: old: its 13 bytes are not whole records of 20\n";
    let done = convert(&folder, "old", &["--as", "inputs"]);
    expect_none(&folder, &done, 1, words);
    folder.write("old", old_input(0, 5).repeat(2049));
    let words = "error: refused by 7, bad store: old: it has 2049 token records of 20 bytes, and 2,048 are the most\n";
    expect_none(&folder, &convert(&folder, "old", &[]), 1, words);
    folder.write("old", old_input(0, 5).repeat(MOST_RECORDS));
    assert_eq!(convert(&folder, "old", &[]).status, 0);
    assert_eq!(read(&folder, "new"), new_input(0, 5).repeat(MOST_RECORDS));
}

/// A log in 12 bytes a record, of an engine of before, is replayed once it is widened.
#[test]
fn a_log() {
    let folder = Folder::new();
    sum(&folder);
    assert_eq!(convert(&folder, "old", &[]).status, 0);
    let (graph, new) = (folder.path("new"), folder.path("log.new"));
    let log = folder.write("log", [0; OLD_LOGGED]);
    let done = dayomlak(&["replay", &graph, &log]);
    let advice = "look at the log's records: they are 1 log record of 12 bytes, with paths of four levels: `dayomlak convert` widens them";
    done.says(advice);
    let done = dayomlak(&["convert", &log, &new]);
    let words = "log: 1 log record of 12 bytes, by its length\nlog.new: 1 log record of 20 bytes\n";
    expect(&folder, &done, 0, words);
    assert_eq!(read(&folder, "log.new"), [0; LOGGED]);
    let done = dayomlak(&["replay", &graph, &new]);
    assert!(
        done.out
            .starts_with("completed: 1 firing, 3 tokens, as logged"),
        "{done:?}"
    );
}

#[test]
fn what_a_log_says() {
    let folder = Folder::new();
    // Site 3 from iteration 2, iteration 9, instruction 5; three of them are as long as an old token and more.
    let old = [2, 3, 0, 0, 0, 0, 0, 0, 9, 0, 5, 0];
    folder.write("old", old.repeat(5));
    let words = "old: 5 log records of 12 bytes, by its bytes: \
        in length it could be 3 token records of 20 bytes or 3 log records of 20 bytes too\n\
        new: 5 log records of 20 bytes\n";
    expect(&folder, &convert(&folder, "old", &[]), 0, words);
    let new = [&old[..8], &[0; 8], &old[8..]].concat();
    assert_eq!(read(&folder, "new"), new.repeat(5));
    folder.write("old", new.repeat(4));
    let words = "error: old has 4 log records of 20 bytes already, by its bytes: \
        in length it could be 4 token records of 20 bytes too\n  there is nothing to convert\n";
    expect(&folder, &convert(&folder, "old", &["--force"]), 2, words);
    folder.write("old", [0; 13]);
    let words = "error: refused by 7, bad store: old: its 13 bytes are not whole records of 12\n";
    let done = convert(&folder, "old", &["--as", "log", "--force"]);
    expect(&folder, &done, 1, words);
    folder.write("old", old.repeat(2049));
    let words = "error: refused by 7, bad store: old: it has 2049 log records of 12 bytes, and 2,048 are the most\n";
    expect(
        &folder,
        &convert(&folder, "old", &["--as", "log", "--force"]),
        1,
        words,
    );
    assert_eq!(read(&folder, "new"), new.repeat(5));
}

#[test]
fn files_without_old_records() {
    let folder = Folder::new();
    dayomlak(&["log", "examples/call/call.ttda", "-o", &folder.path("old")]);
    let words = "error: old is a log that names its run: its records are new ones\n  \
        there is nothing to convert\n";
    expect_none(&folder, &convert(&folder, "old", &[]), 2, words);
    expect_none(
        &folder,
        &convert(&folder, "old", &["--as", "log"]),
        2,
        words,
    );
    folder.write("old.ttda", "a: OUT\n");
    let words = "error: old.ttda is a typed graph: it has no records\n  \
        there is nothing to convert\n";
    expect_none(&folder, &convert(&folder, "old.ttda", &[]), 2, words);
}

#[test]
fn inputs_are_no_log() {
    let folder = Folder::new();
    sum(&folder);
    let words = "error: old/inputs is a graph's inputs, and not a log\n  \
        a log is converted by its own name\n";
    expect_none(
        &folder,
        &convert(&folder, "old", &["--as", "log"]),
        2,
        words,
    );
}

#[test]
fn files_and_folders_that_do_not_fit() {
    let folder = Folder::new();
    let done = convert(&folder, "absent", &[]);
    expect_none(
        &folder,
        &done,
        3,
        "error: absent: No such file or directory (os error 2)\n",
    );
    sum(&folder);
    folder.write("new", "mine");
    let words = "error: new: it is a file, and the folder of a graph's files is needed\n";
    expect(&folder, &convert(&folder, "old", &["--force"]), 3, words);
    assert_eq!(read(&folder, "new"), b"mine");
    folder.write("file", old_input(0, 5));
    let done = dayomlak(&[
        "convert",
        &folder.path("file"),
        &folder.path("old"),
        "--force",
    ]);
    done.fails(3);
    assert_eq!(read(&folder, "old/graph"), add_and_out());
    assert_eq!(convert(&folder, "file", &["--as", "frob"]).status, 2);
}

/// An empty file has no record, whichever they were.
#[test]
fn an_empty_file() {
    let folder = Folder::new();
    folder.write("old", []);
    let words =
        "old: 0 token records of 20 bytes, by its length\nnew: 0 token records of 28 bytes\n";
    expect(&folder, &convert(&folder, "old", &[]), 0, words);
    assert_eq!(read(&folder, "new"), []);
}
