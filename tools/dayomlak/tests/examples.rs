//! Each command on some examples, against a stored output; what needs none, on every example.

mod common;

use common::{command, dayomlak, done, expect, Folder, ROOT};
use std::fs;

/// The examples with stored outputs: loops, calls, deferred reads, a run that hangs and one that is refused. The gallery's
/// other graphs would bring no new kind of line; their listings, bounds, profiles and pictures have tests of their own.
const STORED: [&str; 10] = [
    "call",
    "conditional",
    "deferred_read",
    "factorial_alone",
    "inner_product",
    "inner_product_280",
    "one_too_far",
    "past_next",
    "recursion",
    "vector_sum",
];

/// The folders of examples, sorted.
fn examples() -> Vec<String> {
    let entries = fs::read_dir(format!("{ROOT}/examples")).unwrap();
    let mut names: Vec<String> = entries
        .map(|entry| entry.unwrap())
        .filter(|entry| entry.path().is_dir())
        .map(|entry| entry.file_name().into_string().unwrap())
        .collect();
    names.sort();
    assert!(STORED.iter().all(|name| names.iter().any(|n| n == name)));
    names
}

fn file(example: &str) -> String {
    format!("examples/{example}/{example}.ttda")
}

/// Every example with stored outputs, with the words of a command in which `FILE` stands for it.
fn on_every_example(name: &str, words: &[&str]) {
    for example in STORED {
        let file = file(example);
        let words: Vec<&str> = words
            .iter()
            .map(|word| if *word == "FILE" { &file } else { *word })
            .collect();
        expect(&format!("{example}/{name}"), &dayomlak(&words));
    }
}

#[test]
fn run() {
    on_every_example("run", &["run", "FILE"]);
    on_every_example("newest", &["run", "FILE", "--order", "newest"]);
    on_every_example(
        "small",
        &[
            "run",
            "FILE",
            "--capacity",
            "20",
            "--cells",
            "3",
            "--budget",
            "5",
        ],
    );
}

#[test]
fn listing() {
    on_every_example("listing", &["run", "FILE", "--listing"]);
}

#[test]
fn check() {
    on_every_example("check", &["check", "FILE"]);
}

#[test]
fn compare() {
    on_every_example("compare", &["compare", "FILE", "--orders", "50"]);
}

#[test]
fn trace() {
    on_every_example("trace", &["trace", "FILE"]);
    on_every_example(
        "trace-some",
        &[
            "trace", "FILE", "--from", "3", "--count", "2", "--order", "newest",
        ],
    );
}

#[test]
fn profile() {
    on_every_example("profile", &["profile", "FILE"]);
}

#[test]
fn dot() {
    on_every_example("dot", &["draw", "FILE", "--dot"]);
}

/// The pictures themselves depend on the versions of their libraries; what they carry does not.
#[test]
fn pictures_carry_what_they_are_of() {
    for example in &examples() {
        let folder = Folder::new();
        let (file, curves, graph) = (
            file(example),
            folder.path("curves.svg"),
            folder.path("graph.svg"),
        );
        let plotted = done(&mut command(&folder, &["profile", &file, "-o", &curves]));
        assert!(plotted.status <= 1, "{plotted:?}");
        let drawn = done(&mut command(&folder, &["draw", &file, "-o", &graph]));
        assert!(drawn.out.is_empty() && drawn.status == 0, "{drawn:?}");
        let curves = fs::read_to_string(curves).unwrap();
        // Graphviz writes a hyphen by its number.
        let graph = fs::read_to_string(graph).unwrap().replace("&#45;", "-");
        for words in [&file[..], "graph and inputs ", "2026-11-16 05:40:12 UTC"] {
            assert!(curves.contains(words), "{example}: {words}");
            assert!(graph.contains(words), "{example}: {words}");
        }
        assert!(
            curves.contains(" first") || curves.contains("in the order of its picks"),
            "{example}"
        );
        assert!(
            graph.starts_with("<?xml") && curves.starts_with("<svg"),
            "{example}"
        );
    }
}

/// The files of an example give what its text gives.
#[test]
fn asm_and_back() {
    for example in &examples() {
        let folder = Folder::new();
        let (file, files) = (file(example), folder.path("files"));
        let made = dayomlak(&["asm", &file, &files]);
        made.fails(0);
        let text = dayomlak(&["disasm", &files]);
        if STORED.contains(&&example[..]) {
            expect(&format!("{example}/disasm"), &text);
        }
        let typed = folder.write("again.ttda", &text.out);
        let listing = |file: &str| dayomlak(&["run", file, "--listing"]).out;
        assert_eq!(listing(&files), listing(&file));
        assert_eq!(listing(&typed), listing(&file));
    }
}

/// A log replayed leaves what its run left.
#[test]
fn log_and_replay() {
    for example in &examples() {
        let folder = Folder::new();
        let (file, log) = (file(example), folder.path("log"));
        for order in ["oldest", "newest", "random:7"] {
            let made = dayomlak(&["log", &file, "-o", &log, "--order", order]);
            assert!(made.status <= 1, "{made:?}");
            let run = dayomlak(&["run", &file, "--order", order, "--listing"]);
            let replayed = dayomlak(&["replay", &file, &log, "--listing"]);
            // The answer to a replay of a refused run is spent: the log ends before the refused firing.
            let behind = |text: &str| text.split_once('\n').unwrap().1.to_string();
            assert_eq!(
                behind(&replayed.out),
                behind(&run.out),
                "{example}, {order}"
            );
            if !run.out.starts_with("refused") {
                assert_eq!(replayed.out, run.out);
            }
        }
        if STORED.contains(&&example[..]) {
            let replayed = dayomlak(&["replay", &file, &log]);
            expect(&format!("{example}/replay"), &replayed);
        }
    }
}

/// Up to 16 loaded cells stand below each other, more of them in columns that are as long as each other.
#[test]
fn loaded_cells_in_columns() {
    let rows = |cells: usize| -> Vec<usize> {
        let lines: String = (0..cells)
            .map(|cell| format!("cell {cell} = 7\n"))
            .collect();
        let dot = common::typed(&lines, &["draw", "-", "--dot"]).out;
        let columns = dot.split("<td>cell</td><td>loaded</td>").skip(1);
        columns
            .map(|column| column.matches("<tr><td align").count())
            .collect()
    };
    assert_eq!(rows(0), []);
    assert_eq!(rows(1), [1]);
    assert_eq!(rows(16), [16]);
    assert_eq!(rows(17), [9, 8]);
    assert_eq!(rows(64), [16; 4]);
}
