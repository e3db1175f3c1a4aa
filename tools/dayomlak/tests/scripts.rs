//! What scripts read: `--json` and `--csv`, and what a system has beside a program.

mod common;

use std::collections::BTreeSet;
use std::fs;

use common::{dayomlak, expect, typed, LATE, READ, ROOT};

const CALL: &str = "examples/call/call.ttda";
const FAULTY: &str = "examples/past_next/past_next.ttda";
const RANGES: &str = "examples/measurement/measurement.ranges";
const CONSTANTS: &str = "examples/constants/constants.ttda";

/// Every command with a graph, and the names that its output is stored by.
const CALLS: [(&str, &[&str]); 21] = [
    ("run", &["run", CALL]),
    ("run-hung", &["run", READ, "--order", "newest"]),
    ("run-refused", &["run", FAULTY]),
    ("run-cut", &["run", CALL, "--budget", "3"]),
    (
        "run-held",
        &["run", LATE, "--order", "oldest", "--bound", "2"],
    ),
    ("ranges", &["ranges", RANGES]),
    (
        "ranges-samples",
        &["ranges", RANGES, "--sample", "20", "--seed", "7"],
    ),
    ("check", &["check", FAULTY]),
    ("bounds", &["bounds", CONSTANTS]),
    ("bounds-refused", &["bounds", CALL]),
    ("compare", &["compare", CALL, "--orders", "2"]),
    (
        "compare-bound",
        &["compare", LATE, "--orders", "2", "--bound", "2"],
    ),
    ("trace", &["trace", READ, "--from", "2", "--count", "9"]),
    (
        "trace-bound",
        &[
            "trace", LATE, "--order", "oldest", "--bound", "2", "--from", "12",
        ],
    ),
    ("diff", &["diff", READ, "oldest", "newest"]),
    ("profile", &["profile", CALL]),
    (
        "profile-processors",
        &["profile", CALL, "--processors", "1"],
    ),
    (
        "profile-firings",
        &["profile", CALL, "--firings", "--budget", "2"],
    ),
    (
        "profile-bound",
        &["profile", LATE, "--bound", "2", "--budget", "2"],
    ),
    ("explain", &["explain", "9"]),
    ("explain-wrong", &["explain", "99"]),
];

/// The names of the fields in a line of JSON. No string in these has a colon behind a quote.
fn fields(line: &str) -> BTreeSet<String> {
    let parts: Vec<&str> = line.split("\":").collect();
    let names = parts[..parts.len() - 1]
        .iter()
        .map(|part| part.rsplit('"').next());
    names.map(|name| name.unwrap().to_string()).collect()
}

#[test]
fn the_form_is_as_stored_and_on_one_line() {
    for (name, arguments) in CALLS {
        let done = dayomlak(&[arguments, &["--json"]].concat());
        let start = format!("{{\"version\":1,\"command\":\"{}\",", arguments[0]);
        assert!(done.out.starts_with(&start), "{name}: {}", done.out);
        assert_eq!(done.out.matches('\n').count(), 1, "{name}");
        assert_eq!(done.status, dayomlak(arguments).status, "{name}");
        expect(&format!("json/{name}"), &done);
    }
}

#[test]
fn every_field_is_on_the_page() {
    let page = fs::read_to_string(format!("{ROOT}/docs/JSON.md")).unwrap();
    for (name, arguments) in CALLS {
        let done = dayomlak(&[arguments, &["--json"]].concat());
        for field in fields(&done.out) {
            let word = format!("`{field}`");
            assert!(page.contains(&word), "{name}: docs/JSON.md lacks {word}");
        }
    }
    let example = dayomlak(&["bounds", "--json", CONSTANTS]).out;
    assert!(
        page.contains(&format!("    {example}")),
        "the page's example is another"
    );
}

#[test]
fn faults_of_a_text_have_their_places() {
    let done = typed("a: COPY -> b\nb: FROB\n", &["run", "-", "--json"]);
    assert_eq!(done.status, 2);
    let start =
        "{\"version\":1,\"command\":\"run\",\"file\":\"standard input\",\"error\":{\"status\":2,";
    assert!(done.out.starts_with(start), "{}", done.out);
    assert!(done.out.contains("\"line\":2,\"column\":4"), "{}", done.out);
    assert!(done.err.contains("standard input:2:4"));
    let done = dayomlak(&["run", "absent.ttda", "--json"]);
    assert_eq!(done.status, 3);
    assert!(done
        .out
        .contains("\"status\":3,\"message\":\"absent.ttda: "));
}

#[test]
fn tables_of_values() {
    let profile = dayomlak(&["profile", CONSTANTS, "--csv"]);
    assert_eq!(
        profile.out,
        "step,firings,tokens,waiting\n1,2,3,0\n2,2,3,0\n3,1,2,0\n"
    );
    let trace = dayomlak(&["trace", READ, "--csv", "--count", "2"]);
    let lines = "firing,activity,operation,operands,effect,pick,enabled,held\n\
        1,read_5[0],FETCH,5,\"-> twice[0], write_6[0].1 deferred: cell 5 has no value yet\",0,\
        read_5[0] read_6[0] read_7[0] write_5[0],\n\
        2,read_6[0],FETCH,6,-> out_6[0] deferred: cell 6 has no value yet,0,\
        read_6[0] read_7[0] write_5[0],\n";
    assert_eq!(trace.out, lines);
    for command in ["profile", "trace"] {
        assert_eq!(dayomlak(&[command, READ, "--csv", "--json"]).status, 2);
    }
}

#[test]
fn completion_and_manual_know_every_command() {
    let commands = [
        "run", "ranges", "compare", "report", "disasm", "explain", "bounds",
    ];
    for shell in ["bash", "zsh", "fish"] {
        let done = dayomlak(&["completion", shell]);
        assert_eq!(done.status, 0);
        for command in commands {
            assert!(done.out.contains(command), "{shell}: {command}");
        }
    }
    let manual = dayomlak(&["manual"]).out;
    assert!(manual.starts_with(".TH DAYOMLAK 1 "));
    for command in commands {
        let heading = format!("\n.SS dayomlak {command} ");
        assert!(manual.contains(&heading), "{command}");
    }
    assert!(manual.contains("\n.B \\-\\-order ORDER\n"));
    assert!(manual.contains("Exit status: 0 completed"));
}
