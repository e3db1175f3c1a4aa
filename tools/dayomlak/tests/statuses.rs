//! Exit statuses, help and versions; nothing is printed where there is no answer.

mod common;

use std::fs;
use std::process::Stdio;

use common::{command, dayomlak, done, typed, Folder};
use ttda::widths::LOGGED;

const COMMANDS: [&str; 20] = [
    "run",
    "ranges",
    "carry-on",
    "show",
    "check",
    "compare",
    "trace",
    "profile",
    "report",
    "draw",
    "log",
    "replay",
    "asm",
    "disasm",
    "expression",
    "convert",
    "explain",
    "bounds",
    "completion",
    "manual",
];

#[test]
fn help_and_version_everywhere() {
    for arguments in [&["--help"][..], &["--version"], &["help"]] {
        let done = dayomlak(arguments);
        assert_eq!((done.status, &done.err[..]), (0, ""));
    }
    let help = dayomlak(&["--help"]).out;
    for name in COMMANDS {
        assert!(help.contains(&format!("\n  {name} ")), "{name}");
        let done = dayomlak(&[name, "--help"]);
        assert_eq!((done.status, &done.err[..]), (0, ""), "{name}");
        assert!(done.out.contains("Usage:"));
        let done = dayomlak(&[name, "--version"]);
        assert_eq!((done.status, &done.err[..]), (0, ""), "{name}");
        assert!(done.out.contains(env!("CARGO_PKG_VERSION")));
    }
}

#[test]
fn answers() {
    let status =
        |text: &str, options: &[&str]| typed(text, &[&["run", "-"], options].concat()).status;
    let sum = "a: ADD 1 -> b\nb: OUT\ninput a = 1\n";
    assert_eq!(status(sum, &[]), 0);
    assert_eq!(status(sum, &["--budget", "0"]), 1);
    assert_eq!(status("a: ADD -> a\ninput a.0 = 1\n", &[]), 1);
    assert_eq!(status("a: COPY -> a\ninput a = 1\n", &[]), 1);
    assert_eq!(status("a: FROB\n", &[]), 2);
}

#[test]
fn wrong_command_lines() {
    let wrong = [
        &[][..],
        &["frob"],
        &["run"],
        &["run", "-", "--order", "frob"],
        &["run", "-", "--order", "random:x"],
        &["run", "-", "--capacity", "2049"],
        &["run", "-", "--cells", "1025"],
        &["run", "-", "--budget", "65536"],
        &["log", "-"],
        &["ranges", "-", "--seed", "3"],
        &["ranges", "-", "--sample", "0"],
        &["ranges", "-", "--sample", "100001"],
        &["ranges", "-", "-o", "x.svg"],
        &["ranges", "-", "--bound", "1"],
        &["carry-on"],
        &["carry-on", "x", "--capacity", "3"],
        &["show", "x", "--json", "--text"],
        &["explain", "x"],
    ];
    for arguments in wrong {
        let done = dayomlak(arguments);
        assert_eq!((done.status, &done.out[..]), (2, ""), "{arguments:?}");
        assert!(!done.err.is_empty());
    }
}

#[test]
fn files_that_cannot_be_read() {
    for name in [
        "run", "carry-on", "show", "check", "compare", "trace", "profile", "draw", "disasm",
    ] {
        let done = dayomlak(&[name, "no/such/file"]);
        assert_eq!((done.status, &done.out[..]), (3, ""), "{name}");
        assert!(done.err.starts_with("error: no/such/file: "), "{done:?}");
    }
    let done = dayomlak(&["replay", "examples/call/call.ttda", "no/such/log"]);
    done.fails(3);
    let folder = Folder::new();
    fs::create_dir(folder.path("graph")).unwrap();
    assert_eq!(dayomlak(&["run", &folder.path("")]).status, 3);
}

#[test]
fn files_that_cannot_be_written() {
    let file = "examples/call/call.ttda";
    for name in ["profile", "report", "draw", "log"] {
        let done = dayomlak(&[name, file, "-o", "no/such/folder/x"]);
        assert_eq!((done.status, &done.out[..]), (3, ""), "{name}");
        let words = "error: no/such/folder/x: there is no folder no/such/folder\n";
        assert_eq!(done.err, words, "{name}");
    }
    assert_eq!(
        dayomlak(&["asm", file, "examples/call/call.ttda/x"]).status,
        3
    );
    let asm = dayomlak(&["asm", file, file]);
    assert_eq!(asm.status, 3);
    asm.complains("it is a file, and the folder");
    if fs::metadata("/dev/full").is_ok() {
        let full = fs::File::create("/dev/full").unwrap();
        let done = done(command(&Folder::new(), &["run", file, "--listing"]).stdout(full));
        assert_eq!(done.status, 3, "{done:?}");
        assert!(done.err.contains("standard output"));
    }
}

/// A name that promises another form than SVG would mislead; the text for Graphviz may have any name.
#[test]
fn pictures_of_another_form() {
    let folder = Folder::new();
    let picture = folder.path("x.JPG");
    let file = "examples/call/call.ttda";
    for name in ["draw", "profile"] {
        let done = dayomlak(&[name, file, "-o", &picture]);
        assert_eq!((done.status, &done.out[..]), (2, ""), "{name}");
        let words = "pictures are drawn as SVG, PNG or PDF\n  name it ";
        assert!(
            done.err.contains(words) && done.err.ends_with("x.svg\n"),
            "{done:?}"
        );
    }
    assert!(!std::path::Path::new(&picture).exists());
    assert_eq!(dayomlak(&["draw", file, "--dot", "-o", &picture]).status, 0);
}

/// A folder has the files of a graph; the text beside them, or without them, is given by its own name.
#[test]
fn a_folder_without_files() {
    let done = dayomlak(&["run", "examples/call"]);
    assert_eq!(done.status, 1);
    let words =
        "the folder has no file `graph`, or an empty one; did you mean examples/call/call.ttda?";
    done.says(words);
    let done = dayomlak(&["run", "examples"]);
    done.says("or an empty one\n");
    let done = dayomlak(&["disasm", "examples/call/call.ttda"]);
    assert_eq!(done.status, 3);
    done.complains("it is a file, and the folder");
}

/// As `dayomlak trace ... | head -1`: more is printed than a pipe holds, and its reader is gone.
#[test]
fn a_reader_that_has_seen_enough() {
    let arguments = ["trace", "examples/matrix_multiply/matrix_multiply.ttda"];
    assert!(dayomlak(&arguments).out.len() > 65_536);
    let folder = Folder::new();
    let mut command = command(&folder, &arguments);
    let mut child = command
        .stdout(Stdio::piped())
        .stderr(Stdio::piped())
        .spawn()
        .unwrap();
    drop(child.stdout.take());
    let output = child.wait_with_output().unwrap();
    assert_eq!((output.status.code(), output.stderr), (Some(0), Vec::new()));
}

#[test]
fn no_text() {
    let folder = Folder::new();
    let file = folder.write("x.ttda", [0xff, 0xfe, 0x00]);
    let done = dayomlak(&["run", &file]);
    done.fails(2);
    assert!(
        done.err
            .contains("is no text (UTF-8): line 1 has the byte ff\n  it begins as UTF-16 does"),
        "{done:?}"
    );
    let file = folder.write("x.ttda", [0x61, 0xff, 0x00]);
    let done = dayomlak(&["run", &file]);
    done.complains("\n  for the files of a graph");
    let file = folder.write("x.ttda", [0x61, 0xff]);
    let done = dayomlak(&["run", &file]);
    assert!(
        done.err
            .contains("is no text (UTF-8): line 1 has the byte ff\n  it may be Latin-1"),
        "{done:?}"
    );
}

/// Without Graphviz there is no picture, but its text.
#[test]
fn without_graphviz() {
    let folder = Folder::new();
    let file = "examples/call/call.ttda";
    let drawn = done(command(&folder, &["draw", file]).env("PATH", ""));
    drawn.fails(3);
    drawn.complains("Graphviz is not installed");
    let text = done(command(&folder, &["draw", file, "--dot"]).env("PATH", ""));
    assert_eq!(text.status, 0);
}

#[test]
fn no_file_is_left_half_written() {
    let folder = Folder::new();
    let log = folder.path("log");
    dayomlak(&["log", "examples/call/call.ttda", "-o", &log]);
    let names: Vec<_> = fs::read_dir(folder.path(""))
        .unwrap()
        .map(|entry| entry.unwrap().file_name())
        .collect();
    assert_eq!(names, ["log"]);
    assert!(fs::metadata(&log).unwrap().len() > 17 * LOGGED as u64);
}
