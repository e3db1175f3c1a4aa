//! Firing by hand, by lines: there is no terminal here.

mod common;

use std::io::Write;
use std::process::Stdio;

use common::{command, dayomlak, expect, Done, Folder, READ, ROOT};

/// A session with these lines.
fn step(arguments: &[&str], lines: &str) -> Done {
    let mut child = command(&Folder::new(), &[&["step"], arguments].concat())
        .stdin(Stdio::piped())
        .stdout(Stdio::piped())
        .stderr(Stdio::piped())
        .spawn()
        .unwrap();
    let mut input = child.stdin.take().unwrap();
    // A program that has ended reads no more.
    let _ = input.write_all(lines.as_bytes());
    drop(input);
    let output = child.wait_with_output().unwrap();
    Done {
        out: String::from_utf8_lossy(&output.stdout).into_owned(),
        err: String::from_utf8_lossy(&output.stderr).into_owned(),
        status: output.status.code().unwrap(),
    }
}

#[test]
fn a_session() {
    expect(
        "step/session",
        &step(&[READ], "3\nread_5[0]\nb\n\nfrob\n9\np\nb\nq\n0\n"),
    );
    expect(
        "step/refused",
        &step(&["examples/past_next/past_next.ttda"], "p\n0\nb\n"),
    );
    expect("step/nothing", &step(&[READ], "b\nw\n"));
}

/// What is written fires the same again, and a run by hand ends as any other.
#[test]
fn the_order_is_written() {
    let folder = Folder::new();
    let order = folder.path("x.order");
    let lines = format!("3\n0\nw {order}\np\n");
    let done = step(&[READ], &lines);
    assert_eq!(done.status, 1, "{done:?}");
    done.says(&format!("{order} has 2 firings\n"));
    let text = std::fs::read_to_string(&order).unwrap();
    let expected = format!("# The order of {READ}: 2 firings\nwrite_5[0]\nread_5[0]\n");
    assert_eq!(text, expected);
    let traced = dayomlak(&["trace", READ, "--order", &order, "--short", "--count", "2"]);
    let lines: Vec<&str> = traced.out.lines().collect();
    assert!(lines[0].starts_with("1  write_5[0]") && lines[1].starts_with("2  read_5[0]"));
    let end = dayomlak(&["run", READ]).out;
    let end = end.split_once('\n').unwrap().1;
    assert!(done.out.ends_with(end), "{done:?}");
}

/// Every example, oldest first by hand, ends as a run does.
#[test]
fn played_to_the_end() {
    for example in std::fs::read_dir(format!("{ROOT}/examples")).unwrap() {
        let name = example.unwrap().file_name().into_string().unwrap();
        let file = format!("examples/{name}/{name}.ttda");
        let (played, run) = (step(&[&file], "p\n"), dayomlak(&["run", &file]));
        assert_eq!(played.status, run.status, "{name}");
        let end = run.out.split_once('\n').unwrap().1;
        let refused = run.out.starts_with("error");
        assert!(refused || played.out.ends_with(end), "{name}: {played:?}");
    }
}

/// A failure to write ends nothing, and nothing that was read is written over.
#[test]
fn what_cannot_be_written() {
    let folder = Folder::new();
    let file = folder.write("x.ttda", "a: SINK\ninput a = 1\n");
    let lines = format!("w {file}\nw {}\n0\n", folder.path("no/x.order"));
    let done = step(&[&file], &lines);
    assert_eq!(done.status, 0, "{done:?}");
    done.says("is the graph itself");
    done.says("there is no folder");
    assert_eq!(
        std::fs::read_to_string(&file).unwrap(),
        "a: SINK\ninput a = 1\n"
    );
}

#[test]
fn files_that_cannot_be_fired() {
    let done = step(&["-"], "a: SINK\n");
    assert_eq!(done.status, 2, "{done:?}");
    let done = step(&["missing.ttda"], "");
    assert_eq!(done.status, 3, "{done:?}");
    let folder = Folder::new();
    let saved = folder.path("x.saved");
    dayomlak(&["run", READ, "--budget", "2", "--save", &saved]);
    let done = step(&[&saved], "");
    assert_eq!(done.status, 2, "{done:?}");
    done.complains("carry-on");
    // Refused before any firing.
    let twice = folder.write("x.ttda", "a: SINK\ninput a = 1\ninput a = 2\n");
    let done = step(&[&twice], "0\nb\np\n");
    assert_eq!(done.status, 1, "{done:?}");
    done.says("no activity 0 is enabled");
}
