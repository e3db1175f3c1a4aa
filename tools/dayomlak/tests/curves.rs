//! The curves of Memo 280: tokens that wait, steps with few processors, several runs in one plot, and forms of pictures.

mod common;

use std::fs;

use common::{dayomlak, Folder, VECTOR_SUM};

const MULTIPLY: &str = "examples/matrix_multiply/matrix_multiply.ttda";
const BOUNDED: &str = "examples/matrix_multiply_both_bounded/matrix_multiply_both_bounded.ttda";

/// The numbers of a table in CSV, row by row.
fn rows(arguments: &[&str]) -> Vec<Vec<u32>> {
    let done = dayomlak(&[&["profile"], arguments, &["--csv"]].concat());
    let lines = done.out.lines().skip(1);
    let numbers = |line: &str| line.split(',').map(|n| n.parse().unwrap_or(0)).collect();
    lines.map(numbers).collect()
}

fn most(rows: &[Vec<u32>], column: usize) -> u32 {
    rows.iter().map(|row| row[column]).max().unwrap()
}

/// Memo 280 on its figure 6: fewer processors take more steps, and no fewer tokens wait. On its figures 8 to 10: a bound on
/// the loops makes fewer wait.
#[test]
fn what_the_memo_observes() {
    let ideal = rows(&[MULTIPLY]);
    let four = rows(&[MULTIPLY, "--processors", "4"]);
    let loads = four[0][1];
    assert_eq!((four[0][0], loads), (0, 18));
    assert_eq!(most(&four[1..], 1), 4);
    assert_eq!(four.iter().map(|row| row[1]).sum::<u32>(), 1153);
    assert!(four.len() > 3 * ideal.len(), "{}", four.len());
    assert!(most(&four, 3) >= most(&ideal, 3));
    let bounded = rows(&[BOUNDED, "--processors", "4"]);
    assert!(
        3 * most(&bounded, 3) < most(&four, 3) * 2,
        "{}",
        most(&bounded, 3)
    );
    // With as many processors as are ever used, steps are ideal; the engine's own first step loads the cells.
    let many = rows(&[MULTIPLY, "--processors", "65535"]);
    assert_eq!(many.len(), ideal.len() + 1);
    assert_eq!(many[0][1] + many[1][1], ideal[0][1]);
    assert_eq!(
        many[2..].iter().map(|row| &row[1..]).collect::<Vec<_>>(),
        ideal[1..].iter().map(|row| &row[1..]).collect::<Vec<_>>()
    );
}

/// After the last firing of any order there are as many tokens as after the last step.
#[test]
fn tokens_by_firings() {
    let ideal = rows(&[VECTOR_SUM]);
    for order in ["oldest", "newest", "random:4"] {
        let firings = rows(&[VECTOR_SUM, "--firings", "--order", order]);
        assert_eq!((firings.len(), firings[0][2]), (60, 17), "{order}");
        assert_eq!(
            firings.last().unwrap()[2..],
            ideal.last().unwrap()[2..],
            "{order}"
        );
    }
    let cut = rows(&[VECTOR_SUM, "--firings", "--budget", "9"]);
    assert_eq!(cut.len(), 10);
}

#[test]
fn several_in_one_plot() {
    let folder = Folder::new();
    let picture = folder.path("x.svg");
    let done = dayomlak(&["profile", MULTIPLY, BOUNDED, "-o", &picture]);
    assert_eq!(done.status, 0, "{done:?}");
    assert_eq!(done.out.lines().count(), 2);
    let svg = fs::read_to_string(&picture).unwrap();
    for words in [
        "ideal step: 76 steps, completed",
        "ideal step: 458 steps, completed",
        "firings in a step: at most 35, 6",
    ] {
        assert!(svg.contains(words), "{words}");
    }
    let arguments = [
        "profile",
        VECTOR_SUM,
        "--processors",
        "any",
        "--processors",
        "1",
    ];
    let tables = dayomlak(&arguments).out;
    assert!(
        tables.contains("ideal step: 27 steps, completed, 59 firings, 81 tokens\n"),
        "{tables}"
    );
    assert!(
        tables.contains("step of 1 firing: 51 steps, completed, 59 firings, 81 tokens\n"),
        "{tables}"
    );
    let done = dayomlak(&[&arguments[..], &["--csv"]].concat());
    done.fails(2);
}

/// Axes have names, and what wait stand beside all tokens.
#[test]
fn names_in_the_picture() {
    let folder = Folder::new();
    let picture = folder.path("x.svg");
    dayomlak(&["profile", VECTOR_SUM, "-o", &picture]);
    let svg = fs::read_to_string(&picture).unwrap();
    for words in [
        "\nideal step\n",
        "\nfirings\n",
        "\ntokens\n",
        "those that wait for a partner, at most 2",
        "8 cells are loaded before step 1",
    ] {
        assert!(svg.contains(words), "{words}");
    }
}

#[test]
fn wrong_paces() {
    for arguments in [
        &["--processors", "0"][..],
        &["--processors", "65536"],
        &["--processors", "2", "--firings"],
        &["--processors", "2", "--order", "newest"],
        &["--order", "newest"],
    ] {
        let done = dayomlak(&[&["profile", VECTOR_SUM], arguments].concat());
        assert_eq!((done.status, &done.out[..]), (2, ""), "{arguments:?}");
    }
}

/// PNG and PDF are librsvg's; without it a message says what is missing, and nothing is written.
#[test]
fn other_forms() {
    let folder = Folder::new();
    let is_here = std::process::Command::new("rsvg-convert")
        .arg("--version")
        .output()
        .is_ok();
    for (name, start) in [("x.png", &b"\x89PNG"[..]), ("x.pdf", b"%PDF")] {
        let picture = folder.path(name);
        let commands = [
            &["profile", VECTOR_SUM, "-o", &picture][..],
            &["profile", VECTOR_SUM, "--processors", "2", "-o", &picture],
            &["draw", VECTOR_SUM, "-o", &picture],
        ];
        for arguments in commands {
            let done = dayomlak(arguments);
            if is_here {
                assert_eq!(done.status, 0, "{done:?}");
                assert!(
                    fs::read(&picture).unwrap().starts_with(start),
                    "{arguments:?}"
                );
                fs::remove_file(&picture).unwrap();
            } else {
                assert_eq!(done.status, 3, "{done:?}");
                done.complains("librsvg is not installed");
                assert!(!folder.exists(name));
            }
        }
    }
}
