//! Every message: the faults of a text, warnings, and each refusal by name.

mod common;

use common::{dayomlak, expect, typed, Folder};
use ttda::layout::fields::logged;
use ttda::widths::LOGGED;

/// Faults are shown all at once, and nothing is printed.
#[test]
fn faults_of_a_text() {
    let text =
        "a: COPY → b, c\nb: GT 4 -> a.1\nb: OUT\nd ADD b\n  D -> a\ninput d = 7x\npicks 70000\n";
    let done = typed(text, &["run", "-"]);
    done.fails(2);
    expect("messages/faults", &done);
}

#[test]
fn a_byte_order_mark_is_skipped() {
    let done = typed("\u{feff}a: OUT\r\ninput a = 3\r\n", &["run", "-"]);
    assert_eq!(
        done.out,
        "completed: 0 firings, 1 token, oldest first\na[0] = 3\n"
    );
}

/// What the run wrote comes before what was typed; a cell that was not loaded yet is not counted.
#[test]
fn loaded_cells_are_counted() {
    let text = "read: FETCH -> write.1 out\nwrite: STORE\nout: OUT\ncell 3 = 7\ncell 4 = 8\ninput read = 3\ninput write.0 = 9\n";
    let done = typed(text, &["run", "-"]);
    assert_eq!(
        done.out,
        "completed: 4 firings, 8 tokens, oldest first\nout[0] = 7\ncell 9 = 7\n(2 loaded cells)\n"
    );
    let done = typed(text, &["run", "-", "--budget", "1"]);
    assert!(
        done.out.ends_with("tokens under way)\n(1 loaded cell)\n"),
        "{done:?}"
    );
}

/// A cell that a loading STORE came too late for is not a loaded one.
#[test]
fn a_cell_that_the_run_wrote_before_it_was_loaded() {
    let text = "write: STORE\none: COPY -> write.1\ncell 3 = 7\ninput write.0 = 3\ninput one = 5\npicks 1 1\n";
    let done = typed(text, &["run", "-"]);
    done.says("refused by 11, second write");
    assert!(
        done.out.contains("\ncell 3 = 5\n") && !done.out.contains("loaded"),
        "{done:?}"
    );
}

/// Arrays that share cells, indices that no element has, and a cell that is an element.
#[test]
fn warnings_of_arrays() {
    let text = "array a = 8\narray b = 4 at 6\narray none = 0 at 7\nr: FETCH a -> out\nout: OUT\nc: CONST 5 -> w.0\nw: STORE b\n\
        cell 3 = 7\na[2] = 1\ninput r = 9\ninput c = 1\ninput w.1 = 1\n";
    expect("messages/warnings-arrays", &typed(text, &["check", "-"]));
}

#[test]
fn warnings() {
    let text = "a: COPY -> b.0 b.0\nb: ADD -> c\nc: SWITCH -> a a\n   SINK\ninput c.0 = 1\ninput c.1 = 1\n";
    expect("messages/warnings", &typed(text, &["check", "-"]));
}

/// What comes back from a call is fed by its LEAVE.
#[test]
fn a_return_is_fed() {
    let text = "a: ENTER site 1 -> b return c\nb: LEAVE 1\nc: OUT\nd: OUT\ninput a = 1\n";
    let done = typed(text, &["check", "-"]);
    assert!(
        done.err.contains("nothing sends to `c.0`") && !done.err.contains("`d.0`"),
        "{done:?}"
    );
}

/// The refusals that a text and options lead to, by number.
const REFUSED: [(u16, &str, &[&str]); 15] = [
    (1, "", &[]),
    (
        2,
        "a: raw 63 00 00 00 00 00 00 00 00 00 00 00 00 00 00 00",
        &[],
    ),
    (
        3,
        "a: raw 02 00 00 00 00 00 00 00 01 00 00 00 00 00 00 00",
        &[],
    ),
    (
        4,
        "a: raw 01 01 00 00 09 00 00 00 00 00 00 00 00 00 00 00",
        &[],
    ),
    (
        5,
        "a: OUT\nb: raw 08 02 00 00 00 00 00 00 00 00 00 00 00 00 00 00",
        &[],
    ),
    (
        6,
        "a: OUT\ninput raw 01 00 00 00 00 00 00 00 00 00 00 00 00 00 00 00 00 00 00 00 00 00 00 00 00 00 00 00",
        &[],
    ),
    (
        8,
        "a: COPY -> b b2\nb: OUT\nb2: OUT\ninput a = 1",
        &["--capacity", "2"],
    ),
    (9, "a: COPY -> b b\nb: OUT\ninput a = 1", &[]),
    (10, "a: FETCH -> b\nb: OUT\ninput a = 5", &["--cells", "5"]),
    (
        11,
        "a: STORE\nb: STORE\ninput a.0 = 5\ninput a.1 = 1\ninput b.0 = 5\ninput b.1 = 2",
        &[],
    ),
    (12, "a: DIV 0 -> b\nb: OUT\ninput a = 5", &[]),
    (13, "a: NEXT -> a\ninput a = 1", &[]),
    (
        14,
        "a: ENTER site 1 -> a return b\nb: OUT\ninput a = 1",
        &[],
    ),
    (
        17,
        "a: ENTER site 1 -> c return b\nb: OUT\nc: LEAVE 2\ninput a = 1",
        &[],
    ),
    (
        22,
        "array x = 3\narray y = 8\na: FETCH y -> b\nb: OUT\ninput a = 2",
        &["--cells", "10"],
    ),
];

#[test]
fn each_refusal_is_explained() {
    for (number, text, options) in REFUSED {
        let done = typed(text, &[&["run", "-"], options].concat());
        assert!(
            done.out.contains(&format!("refused by {number}, ")),
            "{number}: {done:?}"
        );
        assert_eq!(done.status, 1);
        expect(&format!("messages/refused-{number}"), &done);
    }
}

/// Eight calls of one site: a listing and a page have the path's decimal number, a trace has the name of each call.
#[test]
fn a_path_of_eight_levels() {
    let text = "a: ENTER site 1 -> a return b\nb: OUT\ninput a = 7\n";
    let path = (0..8).fold(0u128, |path, _| path * 65_536 + 256);
    let done = typed(text, &["run", "-", "--listing"]);
    let line = format!("\n{path} 0 0 0 7 live\n");
    done.says(&line);
    let done = typed(text, &["trace", "-"]);
    assert!(
        done.out.contains(&"a[0]/".repeat(8)) && !done.out.contains(&"a[0]/".repeat(9)),
        "{done:?}"
    );
    let folder = Folder::new();
    let page = folder.path("page.html");
    typed(text, &["report", "-", "-o", &page]);
    let page = std::fs::read_to_string(page).unwrap();
    let words = format!("path {path}, iteration 0, instruction 0");
    assert!(page.contains(&words), "{words}");
}

/// Refusals of inputs, of other results, and those that need files.
#[test]
fn other_forms_of_refusals() {
    let cases = [
        ("8-inputs", "a: ADD -> b\nb: OUT\ninput a.0 = 1\ninput a.1 = 1", &["--capacity", "1"][..]),
        ("9-inputs", "a: OUT\ninput a = 1\ninput a = 1", &[]),
        ("9-enter", "a: ENTER site 1 -> c return d\nb: ENTER site 1 -> c return d\nc: LEAVE 0\nd: OUT\ninput a = 1\ninput b = 2", &[]),
        ("9-leave", "a: ENTER site 1 -> b return d\nb: COPY -> c c2\nc: LEAVE 0\nc2: LEAVE 0\nd: OUT\ninput a = 1", &[]),
        ("9-switch", "a: SWITCH -> b b\nc: COPY -> b\nb: OUT\ninput a.0 = 1\ninput a.1 = 0\ninput c = 2", &[]),
        ("10-array", "array x = 8\na: FETCH x -> b\nb: OUT\nc: ADD 1 -> a\ninput c = 8", &[]),
        ("11-array", "array x = 8\na: STORE x\nb: STORE\ninput a.0 = 3\ninput a.1 = 1\ninput b.0 = 2\ninput b.1 = 2", &[]),
        ("22-constant", "array x = 8\na: raw 0a 01 00 00 01 00 00 00 02 00 00 00 00 00 00 00\nb: OUT\ninput a = 1", &[]),
        ("22-none", "a: raw 0b 00 00 00 00 00 00 00 ff ff ff ff 00 00 00 00\ninput a.0 = 1\ninput a.1 = 1", &[]),
        ("12-range", "a: MUL -> b\nb: OUT\ninput a.0 = 65536\ninput a.1 = 65536", &[]),
    ];
    for (name, text, options) in cases {
        let done = typed(text, &[&["run", "-"], options].concat());
        assert_eq!(done.status, 1);
        expect(&format!("messages/refused-{name}"), &done);
    }
    let folder = Folder::new();
    folder.write("graph", [3; 16]);
    folder.write("inputs", [0; 7]);
    let done = dayomlak(&["run", &folder.path("")]);
    done.says("refused by 3, fan-out");
    folder.write("graph", [&[3][..], &[0; 15]].concat());
    let done = dayomlak(&["run", &folder.path("")]);
    assert!(
        done.out
            .contains("refused by 7, bad store, before the first firing"),
        "{done:?}"
    );
}

/// 20: a log of another run, one that is not whole, and one with a byte that is not zero.
#[test]
fn a_log_that_cannot_be_replayed() {
    let text = "a: ADD 1 -> b\nb: OUT\ninput a = 1\n";
    let folder = Folder::new();
    let file = folder.write("sum.ttda", text);
    let mut damaged = [0; LOGGED];
    damaged[logged::ZERO] = 1;
    let cases = [
        (
            vec![0; 40],
            "record 1 names `a[0]`, which is not enabled then",
        ),
        (vec![0; 21], "record 1 has 1 bytes instead of 20"),
        (damaged.to_vec(), "byte 17 of record 0 is not 0"),
    ];
    for (bytes, words) in cases {
        let log = folder.write("log", bytes);
        let done = dayomlak(&["replay", &file, &log]);
        assert!(
            done.out.contains("refused by 20, not enabled") && done.out.contains(words),
            "{done:?}"
        );
        assert_eq!(done.status, 1);
    }
    let log = folder.write("log", []);
    let done = dayomlak(&["replay", &file, &log]);
    assert!(
        done.out.starts_with("spent: 0 firings, 1 token, as logged"),
        "{done:?}"
    );
}

#[test]
fn every_number_is_explained() {
    for number in (1..=14).chain(17..=26) {
        let done = dayomlak(&["explain", &number.to_string()]);
        assert_eq!((done.status, &done.err[..]), (0, ""));
        expect(&format!("messages/explain-{number}"), &done);
    }
    for number in ["0", "15", "16", "27", "100"] {
        assert_eq!(dayomlak(&["explain", number]).status, 2);
    }
}

/// A cell that two lines load: both are shown.
#[test]
fn two_writes_by_their_lines() {
    let done = typed("cell 3 = 7\ncell 4 = 8\ncell 3 = 9\n", &["run", "-"]);
    let lines = "1 | cell 3 = 7\n  | ---------- the first write\n2 | cell 4 = 8\n3 | cell 3 = 9\n";
    done.says(lines);
}

/// A profile without a step has no table.
#[test]
fn profiles_without_a_step() {
    let cases = [
        (
            "",
            "refused by 1, graph length, before the first ideal step\nerror:",
        ),
        (
            "a: COPY -> a\ninput a = 1\n",
            "refused by 9, second token, in the first ideal step: 0 firings, 1 token\nerror:",
        ),
        (
            "a: OUT\ninput a = 1\n",
            "0 ideal steps, then completed: 0 firings, 1 token\n",
        ),
    ];
    for (text, start) in cases {
        let done = typed(text, &["profile", "-"]);
        assert!(done.out.starts_with(start), "{done:?}");
    }
}

#[test]
fn a_procedure_run_by_itself() {
    let text = "n: MUL 2 -> back\nback: LEAVE 0\ninput n = 4\n";
    let done = typed(text, &["run", "-"]);
    assert_eq!(
        done.out,
        "completed: 1 firing, 2 tokens, oldest first\nback[0] = 8\n"
    );
}

#[test]
fn a_token_without_a_partner() {
    let text = "a: ADD -> b\nb: OUT\ninput a.1 = 4\n";
    let done = typed(text, &["run", "-"]);
    assert_eq!(done.status, 1);
    assert!(
        done.out
            .contains("\na[0].1 = 4 waits: no token came to port 0\n"),
        "{done:?}"
    );
    done.complains("nothing sends to `a.0`");
}
