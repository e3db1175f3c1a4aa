//! Firing orders, and what large graphs take.

mod common;

use std::time::{Duration, Instant};

use common::{dayomlak, typed, Folder};

/// The activities of a trace, in the order of their firing.
fn fired(text: &str, order: &str) -> Vec<String> {
    let done = typed(text, &["trace", "-", "--order", order]);
    let words = |line: &str| {
        line.split_whitespace()
            .map(str::to_string)
            .collect::<Vec<_>>()
    };
    let lines = done.out.lines().map(words);
    // Behind the firings a refusal may show a line of the text, with its number and a bar.
    let firings = lines
        .filter(|words| words.len() > 3 && words[0].parse::<usize>().is_ok() && words[1] != "|");
    firings.map(|words| words[1].clone()).collect()
}

/// 40 are enabled at once, more than any one pick would serve.
#[test]
fn newest_first_of_many() {
    let mut text = "out: OUT\n".to_string();
    for number in 0..40 {
        text += &format!("s{number}: SINK\ninput s{number} = 1\n");
    }
    let names = |numbers: &mut dyn Iterator<Item = usize>| {
        numbers.map(|n| format!("s{n}[0]")).collect::<Vec<_>>()
    };
    assert_eq!(fired(&text, "oldest"), names(&mut (0..40)));
    assert_eq!(fired(&text, "newest"), names(&mut (0..40).rev()));
}

/// The place of an activity is that of its earliest operand, and a read that wakes keeps its own.
#[test]
fn newest_first_by_place() {
    let text = "read: FETCH -> plus.0\nplus: ADD -> out\nout: OUT\na: COPY -> plus.1\nwrite: STORE\nz: SINK\n\
        input read = 0\ninput a = 1\ninput write.0 = 0\ninput write.1 = 5\ninput z = 1\n";
    assert_eq!(
        fired(text, "oldest"),
        ["read[0]", "a[0]", "write[0]", "z[0]", "plus[0]"]
    );
    assert_eq!(
        fired(text, "newest"),
        ["z[0]", "write[0]", "a[0]", "read[0]", "plus[0]"]
    );
}

/// Newest first where it is refused: nothing of another order is known of what it fires.
#[test]
fn newest_first_of_a_refused_run() {
    let mut text = "a: COPY -> b\nb: COPY -> b\n".to_string();
    for number in 0..30 {
        text += &format!("c{number}: ADD 1 -> d{number}\nd{number}: SINK\ninput c{number} = 1\n");
    }
    text += "input a = 1\n";
    let newest = fired(&text, "newest");
    assert_eq!(newest, ["a[0]"]);
    let text = text
        .replace("input a = 1\n", "")
        .replace("b: COPY -> b\n", "b: COPY -> b\ninput a = 1\n");
    let newest = fired(&text, "newest");
    assert_eq!(newest.len(), 61);
    assert_eq!(newest[..3], ["c29[0]", "d29[0]", "c28[0]"]);
    assert_eq!(newest[60], "a[0]");
}

#[test]
fn random_orders_differ_and_are_the_same_again() {
    let text = (0..20)
        .map(|n| format!("s{n}: SINK\ninput s{n} = 1\n"))
        .collect::<String>();
    assert_eq!(fired(&text, "random:1"), fired(&text, "random:1"));
    assert_ne!(fired(&text, "random:1"), fired(&text, "random:2"));
}

/// A loop that fills the ledger; some seconds would show that a command had become quadratic.
#[test]
fn a_full_ledger_takes_no_time() {
    let text = "j: COPY -> more j_test\nmore: LE 156 -> tests\ntests: COPY -> j_test.1 s.1\n\
        j_test: SWITCH -> pass end\ns: SWITCH -> new_s total\nend: SINK\ntotal: OUT\npass: COPY -> next_j new_s.1\n\
        next_j: ADD 1 -> d_j\nd_j: NEXT -> j\nnew_s: ADD -> d_s\nd_s: NEXT -> s\ninput j = 1\ninput s = 0\n";
    let folder = Folder::new();
    let (file, picture) = (folder.write("full.ttda", text), folder.path("x.svg"));
    let page = folder.path("x.html");
    let commands = [
        &["trace", &file, "--order", "newest"][..],
        &["profile", &file, "-o", &picture],
        &["report", &file, "-o", &page],
        &["compare", &file, "--orders", "1000"],
    ];
    for arguments in commands {
        let started = Instant::now();
        let done = dayomlak(arguments);
        let took = started.elapsed();
        println!("{}: {took:?}", arguments[0]);
        assert_eq!(done.status, 0, "{done:?}");
        assert!(took < Duration::from_secs(10), "{}: {took:?}", arguments[0]);
    }
    let bytes = std::fs::metadata(&page).unwrap().len();
    assert!(bytes < 2_000_000, "{bytes}");
}
