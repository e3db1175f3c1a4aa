//! What a first user gets wrong, and is told.

mod common;

use std::fs::OpenOptions;

use common::{command, dayomlak, done, typed, Folder};

/// Adds 1 to 5 by a loop, with the arcs of index and sum as given.
fn sum(index: &str, sum: &str) -> String {
    format!(
        "j: COPY -> more j_test\nmore: LE 5 -> tests\ntests: COPY -> j_test.1 s.1\nj_test: SWITCH -> pass end\n\
        s: SWITCH -> new_s total\nend: SINK\ntotal: OUT\npass: COPY -> next_j new_s.1\n{index}\n{sum}\n\
        input j = 1\ninput s = 0\n"
    )
}

const INDEX: &str = "next_j: ADD 1 -> d_j\nd_j: NEXT -> j";
const SUM: &str = "new_s: ADD -> d_s\nd_s: NEXT -> s";

#[test]
fn the_loop_as_it_should_be() {
    let done = typed(&sum(INDEX, SUM), &["run", "-"]);
    assert_eq!((done.status, &done.err[..]), (0, ""));
    assert!(done.out.ends_with("total[5] = 15\n"), "{}", done.out);
}

#[test]
fn one_next_too_many() {
    let many = "new_s: ADD -> d_s\nd_s: NEXT -> again\nagain: NEXT -> s";
    let done = typed(&sum(INDEX, many), &["run", "-"]);
    assert_eq!(done.status, 1);
    assert!(done
        .err
        .contains("a circle with 2 NEXTs: d_s -> again -> s -> new_s -> d_s\n"));
    let waits = "s[1].1 = 1 waits: no token came to port 0 in this iteration, only in iterations 0, 2, 4 and 6\n";
    assert!(done.out.contains(waits), "{}", done.out);
}

#[test]
fn one_arc_past_its_next_has_one_warning() {
    let done = typed(&sum("next_j: ADD 1 -> j", SUM), &["check", "-"]);
    assert_eq!(done.err.matches("warning: ").count(), 1, "{}", done.err);
    assert!(done
        .err
        .contains("a circle without NEXT or ENTER: j -> j_test -> pass -> next_j -> j\n"));
}

#[test]
fn two_tokens_that_are_sure_to_meet() {
    let arcs = "a: ADD 1 -> x\nb: MUL 2 -> x\nx: OUT\ninput a = 3\ninput b = 3\n";
    let arc_and_input = "a: ADD 1 -> x\nx: OUT\ninput a = 3\ninput x = 3\n";
    for text in [arcs, arc_and_input] {
        let done = typed(text, &["run", "-"]);
        assert!(
            done.err.contains("warning: two tokens come to `x.0`\n"),
            "{}",
            done.err
        );
        assert_eq!(done.status, 1);
        assert!(done.out.contains("refused by 9, second token"));
    }
    // The arms of a SWITCH may end at one port, and of two reads one may wait forever.
    let arms =
        "t: SWITCH -> a b\na: COPY -> x\nb: COPY -> x\nx: OUT\ninput t.0 = 1\ninput t.1 = 0\n";
    let reads = "a: FETCH -> x\nb: FETCH -> x\nx: OUT\ninput a = 1\ninput b = 2\n";
    for text in [arms, reads] {
        assert_eq!(typed(text, &["check", "-"]).err, "");
    }
}

#[test]
fn a_strict_check() {
    let text = "a: ADD -> x\nx: OUT\ninput a.0 = 1\n";
    assert_eq!(typed(text, &["check", "-"]).status, 0);
    assert_eq!(typed(text, &["check", "-", "--strict"]).status, 1);
    assert_eq!(typed(text, &["check", "-", "--strict", "--json"]).status, 1);
    let fine = text.replace("ADD", "ADD 1");
    assert_eq!(typed(&fine, &["check", "-", "--strict"]).status, 0);
}

#[test]
fn too_many_instructions() {
    let line = |number: usize| format!("x{number}: COPY -> x{number}\n");
    // Up to 65,536 the engine refuses the graph; longer ones have no numbers for all instructions.
    for (count, status) in [(257, 1), (40_000, 1), (80_000, 2)] {
        let text: String = (0..count).map(line).collect();
        let started = std::time::Instant::now();
        let done = typed(&text, &["check", "-"]);
        let took = started.elapsed();
        assert!(took.as_secs() < 20, "{count} lines took {took:?}");
        assert_eq!(done.status, status);
        assert!(done.err.contains("standard input:257:1\n"), "{}", done.err);
        let words = format!("there are {count} instructions, and 256 is the most\n");
        assert!(done.err.contains(&words), "{}", done.err);
    }
}

#[test]
fn files_that_an_editor_saved_otherwise() {
    let folder = Folder::new();
    let returns = folder.write("returns.ttda", "# a loop\ra: COPY -> b\rb: OUT\r");
    let done = dayomlak(&["run", &returns]);
    done.fails(2);
    assert!(done
        .err
        .contains("a line ends by a carriage return (CR) alone"));
    let windows = folder.write("windows.ttda", "a: COPY -> b\r\nb: OUT\r\ninput a = 1\r\n");
    assert_eq!(dayomlak(&["run", &windows]).status, 0);
    let latin = folder.write("latin.ttda", b"a: COPY -> b\nb: OUT # caf\xe9\n");
    let done = dayomlak(&["run", &latin]);
    assert_eq!(done.status, 2);
    assert!(
        done.err
            .contains("line 2 has the byte e9\n  it may be Latin-1"),
        "{}",
        done.err
    );
}

#[test]
fn numbers_of_the_command_line() {
    let wrong = [
        ("--budget", "65536", "it is a number from 0 to 65535"),
        ("--capacity", "2049", "it is a number from 0 to 2048"),
        ("--cells", "-1", "it is a number from 0 to 1024"),
    ];
    for (option, number, words) in wrong {
        let done = dayomlak(&["run", "-", &format!("{option}={number}")]);
        assert_eq!(done.status, 2);
        assert!(done.err.contains(words), "{}", done.err);
    }
}

#[test]
fn an_error_that_nobody_can_read_keeps_its_status() {
    for (arguments, status) in [(["run", "absent.ttda"], 3), (["run", "README.md"], 2)] {
        let full = OpenOptions::new().write(true).open("/dev/full").unwrap();
        let folder = Folder::new();
        let done = command(&folder, &arguments).stderr(full).status().unwrap();
        assert_eq!(done.code(), Some(status), "{arguments:?}");
    }
    assert_eq!(
        done(&mut command(
            &Folder::new(),
            &["draw", "README.md", "-o", "."]
        ))
        .status,
        2
    );
}
