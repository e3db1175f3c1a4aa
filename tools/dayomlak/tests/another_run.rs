//! Nothing is shown under another run's name: what a user tried, step by step, and what was shown then. A graph that is not
//! overwritten by its own picture is in outputs.rs.

mod common;

use std::fs;

use common::{dayomlak, done, kept_command, Done, Folder};
use ttda::widths::{LOGGED, MOST_RECORDS};

/// A read that is deferred oldest first, and a cell that is loaded.
const SUM: &str =
    "read: FETCH -> plus\nplus: ADD 1 -> out\nout: OUT\ninput read = 3\ncell 3 = 40\n";

/// A folder with the files of a graph.
fn folder_of(folder: &Folder, text: &str) -> String {
    let (typed, files) = (folder.write("typed.ttda", text), folder.path("files"));
    assert_eq!(dayomlak(&["asm", &typed, &files]).status, 0);
    files
}

/// Picks as lines of a text, by their number.
fn picks(count: usize) -> String {
    "picks 0\n".repeat(count)
}

fn plot(folder: &Folder, file: &str) -> (Done, String) {
    let picture = folder.path("picture.svg");
    let plotted = done(&mut kept_command(
        folder,
        &["profile", file, "-o", &picture],
    ));
    (plotted, fs::read_to_string(picture).unwrap())
}

/// A plot is kept, and then the picks are spoilt: by a byte too many in their file.
#[test]
fn picks_with_a_byte_too_many_have_no_completed_plot() {
    let folder = Folder::new();
    let files = folder_of(&folder, SUM);
    let (first, picture) = plot(&folder, &files);
    assert!(first.out.starts_with("completed: 3 firings"), "{first:?}");
    assert!(picture.contains("[0] = 41\n"));
    folder.write("files/picks", [0]);
    assert_eq!(dayomlak(&["run", &files]).status, 1);
    let (second, picture) = plot(&folder, &files);
    assert_eq!(second.status, 1);
    second.says("refused by 7, bad store");
    second.says("the picks have 1 byte");
    let words = "in the order of its picks; the picks have 1 byte, no";
    assert!(picture.contains("UTC: refused by 7, bad store") && picture.contains(words));
    assert!(!picture.contains("UTC: completed") && !picture.contains("[0] = 41\n"));
}

/// The same by one pick more than a run takes.
#[test]
fn picks_that_are_too_many_have_no_completed_plot() {
    let folder = Folder::new();
    let file = folder.write("sum.ttda", SUM.to_string() + &picks(MOST_RECORDS));
    assert!(plot(&folder, &file).0.out.starts_with("completed"));
    folder.write("sum.ttda", SUM.to_string() + &picks(2049));
    let (second, picture) = plot(&folder, &file);
    assert_eq!(second.status, 1);
    second.says("refused by 7, bad store");
    second.says("there are 2049 picks");
    assert!(!picture.contains("UTC: completed"));
}

/// The same picks, compared: they are named as what they are, and the other orders agree.
#[test]
fn picks_that_no_run_takes_are_left_out_of_a_comparison() {
    let folder = Folder::new();
    let files = folder_of(&folder, SUM);
    folder.write("files/picks", [0]);
    let typed = folder.write("sum.ttda", SUM.to_string() + &picks(2049));
    for (file, words) in [
        (
            &files,
            "the picks have 1 byte, no whole number of picks, which have 2 each",
        ),
        (&typed, "there are 2049 picks, and 2048 is the most"),
    ] {
        let done = dayomlak(&["compare", file, "--orders", "5"]);
        assert_eq!((&done.err[..], done.status), ("", 1), "{done:?}");
        assert!(!done.out.contains("please report"), "{done:?}");
        let lines: Vec<&str> = done.out.lines().collect();
        assert_eq!(
            lines[0],
            "    7 orders (oldest, newest, random:1, ...): completed: 3 firings, 5 tokens"
        );
        let left_out = format!("    1 order (typed) is left out: refused by 7, bad store: {words}");
        assert_eq!(lines[1], left_out);
        assert_eq!(
            lines[2],
            "all other orders leave the same listing, equal in every byte"
        );
    }
}

/// A log is made, then a cell and an input are edited.
#[test]
fn a_log_of_an_edited_graph_is_refused() {
    let folder = Folder::new();
    let (file, log) = (folder.write("L.ttda", SUM), folder.path("L.log"));
    assert_eq!(dayomlak(&["log", &file, "-o", &log]).status, 0);
    let replayed = dayomlak(&["replay", &file, &log]);
    assert_eq!((&replayed.err[..], replayed.status), ("", 0));
    assert!(replayed
        .out
        .starts_with("completed: 3 firings, 5 tokens, as logged\nout[0] = 41\n"));
    for edited in [SUM.replace("= 40", "= 50"), SUM.replace("ADD 1", "ADD 2")] {
        folder.write("L.ttda", &edited);
        let refused = dayomlak(&["replay", &file, &log]);
        refused.fails(2);
        let named = fingerprints(&refused.err);
        assert!(named.len() == 2 && named[0] != named[1], "{refused:?}");
        let anyway = dayomlak(&["replay", &file, &log, "--anyway"]);
        assert_eq!(anyway.status, 0);
        assert_eq!(fingerprints(&anyway.err), named);
        assert!(anyway
            .out
            .starts_with("completed: 3 firings, 5 tokens, by the log of another run\n"));
    }
    // A read that is no longer made: the log names what is not enabled there.
    folder.write("L.ttda", SUM.replace("input read = 3", "input out = 3"));
    let anyway = dayomlak(&["replay", &file, &log, "--anyway"]);
    assert_eq!(anyway.status, 1);
    anyway.says("refused by 20, not enabled");
    anyway.says("fired by the log of another run\n");
    // Names and comments are no part of a graph.
    folder.write("L.ttda", SUM.replace("plus", "sum") + "# a sum\n");
    assert_eq!(dayomlak(&["replay", &file, &log]).status, 0);
}

/// The fingerprints that a message names.
fn fingerprints(text: &str) -> Vec<&str> {
    let parts = text.split("graph and inputs ").skip(1);
    parts.map(|part| &part[..16]).collect()
}

/// Capacity and cell count are part of a run too.
#[test]
fn a_log_of_other_buffers_is_refused() {
    let folder = Folder::new();
    let (file, log) = (folder.write("L.ttda", SUM), folder.path("L.log"));
    let sizes = ["--capacity", "20", "--cells", "4"];
    let made = dayomlak(&[&["log", &file, "-o", &log], &sizes[..]].concat());
    assert_eq!(made.status, 0);
    let refused = dayomlak(&["replay", &file, &log]);
    refused.fails(2);
    let words = "lend what it was made with: --capacity 20 --cells 4\n";
    refused.complains(words);
    for other in [
        ["--capacity", "21", "--cells", "4"],
        ["--capacity", "20", "--cells", "5"],
    ] {
        let refused = dayomlak(&[&["replay", &file, &log], &other[..]].concat());
        assert_eq!(refused.status, 2, "{other:?}");
    }
    let replayed = dayomlak(&[&["replay", &file, &log], &sizes[..]].concat());
    assert_eq!((&replayed.err[..], replayed.status), ("", 0));
}

/// Bare records are 20 bytes for each firing, as the library takes them; a replay says that they name no run.
#[test]
fn bare_records_name_no_run() {
    let folder = Folder::new();
    let file = folder.write("L.ttda", SUM);
    let (log, bare) = (folder.path("L.log"), folder.path("bare"));
    dayomlak(&["log", &file, "-o", &log]);
    dayomlak(&["log", &file, "-o", &bare, "--records"]);
    let (log, records) = (fs::read(log).unwrap(), fs::read(&bare).unwrap());
    assert_eq!(records.len(), 3 * LOGGED);
    assert!(log.starts_with(b"dayomlak log 1\n") && log.ends_with(&records));
    let replayed = dayomlak(&["replay", &file, &bare]);
    assert_eq!(replayed.status, 0);
    assert!(replayed
        .out
        .starts_with("completed: 3 firings, 5 tokens, as logged\n"));
    assert!(
        replayed
            .err
            .contains("has records alone, which do not say what graph"),
        "{replayed:?}"
    );
}

/// Half a log is not replayed, and neither a log nor a run that did not begin is taken for something else.
#[test]
fn what_is_no_log() {
    let folder = Folder::new();
    let (file, log) = (folder.write("L.ttda", SUM), folder.path("L.log"));
    dayomlak(&["log", &file, "-o", &log]);
    let whole = fs::read(&log).unwrap();
    let cut = folder.write("cut.log", &whole[..whole.len() - 1]);
    let refused = dayomlak(&["replay", &file, &cut]);
    refused.fails(2);
    assert!(refused
        .err
        .contains("its head says 3 firings of 20 bytes, and it has 59 bytes"));
    let refused = dayomlak(&["run", &log]);
    refused.fails(2);
    refused.complains("L.log is a log\n");
    let file = folder.write("twice.ttda", "a: OUT\ninput a = 1\ninput a = 2\n");
    let none = folder.path("none.log");
    let made = dayomlak(&["log", &file, "-o", &none]);
    assert_eq!(made.status, 1);
    assert!(
        made.out
            .ends_with("no log is written: the run did not begin\n"),
        "{made:?}"
    );
    assert!(!folder.exists("none.log"));
}
