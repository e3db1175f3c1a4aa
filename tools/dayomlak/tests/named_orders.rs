//! Orders that a person writes: by names, in the text or in a file, and by picks.

mod common;

use common::{dayomlak, expect, typed, Folder, ROOT, VECTOR_SUM};

const CALLS: &str = "examples/fibonacci/fibonacci.ttda";

/// The loop of the page of typed graphs, without its picks.
fn page_loop() -> String {
    let page = std::fs::read_to_string(format!("{ROOT}/docs/TYPED-GRAPHS.md")).unwrap();
    let text = page
        .split("```")
        .nth(1)
        .unwrap()
        .replace("picks 0 1 1\n", "");
    assert!(text.contains("new_s:") && !text.contains("picks"));
    text
}

/// The activities of a run in the order of their firing, a name each.
fn names(file: &str, order: &str) -> String {
    let trace = dayomlak(&["trace", file, "--csv", "--order", order]);
    let lines = trace.out.lines().skip(1);
    lines
        .map(|line| line.split(',').nth(1).unwrap().to_string() + "\n")
        .collect()
}

/// A run by the names of another is that run in every byte, in a file, in the text, and by its picks.
#[test]
fn names_picks_and_the_order_itself_are_one_run() {
    let folder = Folder::new();
    for file in [VECTOR_SUM, CALLS, "examples/past_next/past_next.ttda"] {
        let text = std::fs::read_to_string(format!("{ROOT}/{file}")).unwrap();
        for order in ["newest", "random:7"] {
            let log = |name: &str, order: &[&str]| {
                let path = folder.path(name);
                let arguments = [&["log", file, "-o", &path], order].concat();
                let done = dayomlak(&arguments);
                (std::fs::read(path).unwrap(), done.status)
            };
            let own = log("own.log", &["--order", order]);
            let names = names(file, order);
            let by_name = folder.write("x.order", &names);
            assert_eq!(
                log("named.log", &["--order", &by_name]),
                own,
                "{file} {order}"
            );
            let picks = picks(file, order);
            assert_eq!(
                log("picked.log", &["--picks", &picks]),
                own,
                "{file} {order}"
            );
            let line = names.replace('\n', " ");
            let text = text.lines().filter(|line| !line.starts_with("picks"));
            let text: String = text.map(|line| format!("{line}\n")).collect();
            let ordered = folder.write("x.ttda", format!("{text}order {line}\n"));
            let listing = |arguments: &[&str]| dayomlak(arguments).out;
            assert_eq!(
                listing(&["run", &ordered, "--listing"]),
                listing(&["run", file, "--listing", "--order", order])
            );
        }
    }
}

/// The picks of a run, as its trace numbers them.
fn picks(file: &str, order: &str) -> String {
    let trace = dayomlak(&["trace", file, "--json", "--order", order]).out;
    let parts = trace.split("\"pick\":").skip(1);
    let picks: Vec<&str> = parts.map(|part| part.split(',').next().unwrap()).collect();
    picks.join(",")
}

#[test]
fn a_typed_order() {
    let text = page_loop() + "order j[0] more[0] tests[0] s[0]  # and\norder j_test[0]\n";
    expect(
        "messages/order",
        &typed(&text, &["trace", "-", "--count", "7"]),
    );
    expect("messages/order_run", &typed(&text, &["run", "-"]));
    // asm writes its picks.
    let folder = Folder::new();
    let file = folder.write("x.ttda", &text);
    assert_eq!(dayomlak(&["asm", &file, &folder.path("x")]).status, 0);
    let picks = std::fs::read(folder.path("x/picks")).unwrap();
    assert_eq!(picks, [0, 0, 0, 0, 0, 0, 0, 0, 0, 0]);
}

#[test]
fn what_is_not_enabled_is_an_error_with_what_is() {
    for (name, order) in [
        ("not_enabled", "order j[0] s[0]\n"),
        ("fired_already", "order j[0] more[0]\norder j[0]\n"),
        ("no_instruction", "order jj[0]\n"),
        ("beside_picks", "picks 0\norder j[0]\n"),
    ] {
        let done = typed(&(page_loop() + order), &["check", "-"]);
        expect(&format!("messages/order_{name}"), &done);
    }
    let text = "a: SINK\ninput a = 1\norder a[0] a[0]\n";
    expect("messages/order_past_the_end", &typed(text, &["run", "-"]));
}

/// Behind a refused firing nothing fires, whatever is named.
#[test]
fn a_refused_order() {
    let text = "a: DIV 0 -> b\nb: OUT\ninput a = 1\norder a[0] b[0] c[0]\n";
    let done = typed(text, &["run", "-"]);
    assert_eq!(done.status, 1);
    done.says("refused by 12");
}

#[test]
fn files_that_are_no_orders() {
    let folder = Folder::new();
    let (file, log) = (folder.write("x.ttda", page_loop()), folder.path("x.log"));
    dayomlak(&["log", &file, "-o", &log]);
    let comma = folder.write("comma.order", "j[0],\nmore[0]\n");
    let latin = folder.write("latin.order", [b'j', 0xe9]);
    let missing = folder.path("missing.order");
    for (order, status) in [(log, 2), (comma, 2), (latin, 2), (missing, 3)] {
        let done = dayomlak(&["run", &file, "--order", &order]);
        assert_eq!((done.status, done.out.as_str()), (status, ""), "{done:?}");
        assert!(done.err.starts_with("error: "), "{done:?}");
    }
    let done = dayomlak(&["run", &file, "--order", "neweset"]);
    assert_eq!(done.status, 2);
    done.complains("picks such as 0,3,1, or a file");
}

/// What is read is not written over.
#[test]
fn an_order_is_not_overwritten() {
    let folder = Folder::new();
    let (file, order) = (
        folder.write("x.ttda", page_loop()),
        folder.write("x.order", "j[0]\n"),
    );
    for arguments in [
        &["run", &file, "--order", &order, "--save", &order][..],
        &["log", &file, "--order", &order, "-o", &order],
        &["report", &file, "--order", &order, "-o", &order],
    ] {
        let done = dayomlak(arguments);
        assert_eq!(done.status, 2, "{done:?}");
        done.complains("the order itself");
    }
    assert_eq!(std::fs::read(&order).unwrap(), b"j[0]\n");
}

#[test]
fn comparing_and_telling_apart() {
    let folder = Folder::new();
    let file = folder.write("x.ttda", page_loop());
    let order = folder.write("x.order", "j[0] more[0] tests[0] j_test[0]\n");
    let same = folder.write("same.order", "j[0] more[0] tests[0] s[0]\n");
    let out = |arguments: &[&str]| dayomlak(arguments).out.replace(&folder.path(""), "");
    let text = out(&["compare", &file, &order, &same]);
    assert!(
        text.starts_with("    3 orders (oldest, x.order, same.order): completed"),
        "{text}"
    );
    let text = out(&["compare", &file, &order, "--orders", "5"]);
    assert!(
        text.starts_with("    7 orders (oldest, x.order, random:1, ...)"),
        "{text}"
    );
    let text = out(&["diff", &file, &same, &order]);
    let expected = "they part at firing 4: same.order fires `s[0]`, x.order fires `j_test[0]`\n  \
        enabled there: 0 s[0]  1 j_test[0]\n    \
        2 orders (same.order, x.order): completed: 56 firings, 74 tokens\n\
        all orders leave the same listing, equal in every byte\n";
    assert!(text.starts_with(expected), "{text}");
    let text = out(&["diff", &file, &same, "oldest"]);
    assert!(text.starts_with("they fire the same"), "{text}");
    let json = out(&["diff", &file, &same, "0,0,0,1", "--json"]);
    let fields =
        "\"parts_at\":4,\"fires\":[\"s[0]\",\"j_test[0]\"],\"enabled\":[\"s[0]\",\"j_test[0]\"]";
    assert!(json.contains(fields), "{json}");
}

/// Two orders that are both refused, elsewhere, and one graph that is refused at once.
#[test]
fn telling_refused_runs_apart() {
    let text = "a: DIV 0 -> b\nb: OUT\nc: DIV 0 -> d\nd: OUT\ninput a = 1\ninput c = 1\n";
    let done = typed(text, &["diff", "-", "oldest", "newest"]);
    assert_eq!(done.status, 1);
    let start = "they part at firing 1: oldest fires `a[0]`, newest fires `c[0]`";
    assert!(done.out.starts_with(start), "{done:?}");
    done.says("every order is refused");
    let done = typed(
        "a: SINK\ninput a = 1\ninput a = 2\n",
        &["diff", "-", "oldest", "newest"],
    );
    assert_eq!(done.status, 1);
    assert!(done.out.starts_with("they fire the same"), "{done:?}");
}

/// An order goes on where a saved run stopped: name i is for firing i since the inputs.
#[test]
fn an_order_over_two_parts() {
    let folder = Folder::new();
    let order = folder.write("x.order", names(VECTOR_SUM, "random:3"));
    let saved = folder.path("x.saved");
    let uncut = dayomlak(&["run", VECTOR_SUM, "--order", &order, "--listing"]);
    dayomlak(&[
        "run", VECTOR_SUM, "--order", &order, "--budget", "20", "--save", &saved,
    ]);
    let rest = dayomlak(&["carry-on", &saved, "--order", &order, "--listing"]);
    assert_eq!((uncut.status, rest.out), (0, uncut.out));
    let traced = dayomlak(&[
        "trace", &saved, "--order", &order, "--short", "--count", "1",
    ]);
    assert!(traced.out.starts_with("21  "), "{traced:?}");
}
