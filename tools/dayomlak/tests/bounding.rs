//! Loop bounding (02, R-9) as a user meets it: which hang it was, by names and lines, and what is promised of a bounded run.

mod common;

use std::fs;

use common::{dayomlak, expect, typed, Folder, LATE, ROOT};

const MATRIX: &str = "examples/matrix_multiply_long/matrix_multiply_long.ttda";
const BACKWARDS: &str = "examples/backwards/backwards.ttda";

/// A NEXT whose value goes on to a second one, in iterations 0 and 1; with a bound of 2 the second waits for what is left at
/// iteration 0.
const NEXTS: &str = "first: NEXT -> second\nsecond: NEXT -> out\nout: OUT\ninput first = 5\n";

/// A loop at the root that counts while j is below a number, beside a GATE.
fn counting_to(end: u16) -> String {
    format!(
        "j: COPY -> more test.0\nmore: LT {end} -> test.1\ntest: SWITCH -> plus out\nplus: ADD 1 -> d_j\nd_j: NEXT -> j\n\
         out: OUT\ngate: GATE -> out\ninput j = 0\n"
    )
}

/// The first line of a run of a text with a bound.
fn first_line(text: &str, bound: &str) -> String {
    let done = typed(text, &["run", "-", "--bound", bound]);
    done.out.lines().next().unwrap_or_default().to_string()
}

#[test]
fn one_order_hangs_and_another_completes() {
    let hung = dayomlak(&["run", LATE, "--order", "oldest", "--bound", "2"]);
    expect("bounding/late_entry", &hung);
    for (bound, counts) in [
        ("2", "12 firings, 16 tokens"),
        ("3", "17 firings, 22 tokens"),
    ] {
        let done = dayomlak(&["run", LATE, "--order", "oldest", "--bound", bound]);
        let held = "1 NEXT activity is held by start_j[0]/back[0]\n";
        let line = format!("hung: {counts}, oldest first, bound {bound}; {held}");
        assert!(done.out.starts_with(&line), "{done:?}");
        let done = dayomlak(&["run", LATE, "--bound", bound]);
        let line =
            format!("completed: 25 firings, 31 tokens, in the order of its picks, bound {bound}\n");
        assert!(done.out.starts_with(&line) && done.status == 0, "{done:?}");
    }
    let done = dayomlak(&["run", LATE, "--order", "oldest", "--bound", "4"]);
    assert_eq!(done.status, 0);
}

/// Two orders under one bound, and what is promised of them.
#[test]
fn what_compare_promises() {
    let compared = dayomlak(&["compare", LATE, "--bound", "2", "--orders", "3"]);
    expect("bounding/compare", &compared);
    let completed = dayomlak(&["compare", MATRIX, "--bound", "2", "--orders", "3"]);
    assert_eq!(completed.status, 0);
    completed.says(
        "    5 orders (oldest, newest, random:1, ...): completed: 1429 firings, 1805 tokens\n",
    );
    completed.says(
        "as every order without a bound does\nthat another order under this bound does not hang",
    );
    let held = dayomlak(&["compare", BACKWARDS, "--bound", "5", "--orders", "3"]);
    assert_eq!(held.status, 1);
    held.says("    5 orders (oldest, newest, random:1, ...): hung on held activities\n");
    held.says("      every order without a bound: completed: 104 firings, 124 tokens\nall these hang on held");
    let refused = dayomlak(&[
        "compare",
        "examples/past_next/past_next.ttda",
        "--bound",
        "2",
        "--orders",
        "3",
    ]);
    refused.says(
        "every order is refused, without a bound too; by what and where may depend on the order\n",
    );
    let diff = dayomlak(&["diff", LATE, "oldest", "typed", "--bound", "2"]);
    diff.says("they part at firing 2: oldest fires `start_r[0]`, typed fires `start_j[0]/j[0]`\n");
    diff.says("orders under a bound need not agree: ");
}

/// Anything but 0 and 2 to 256 is an error of the command line, with the words of the refusal.
#[test]
fn bounds_that_are_none() {
    for bound in ["1", "257", "65535", "65536", "-1", "two", ""] {
        for arguments in [
            &["run", LATE][..],
            &["compare", LATE],
            &["diff", LATE, "oldest", "newest"],
            &["step", LATE],
            &["trace", LATE],
            &["profile", LATE],
            &["timeline", LATE, "-o", "x.svg"],
            &["report", LATE, "-o", "x.html"],
            &["log", LATE, "-o", "x.log"],
            &["carry-on", "x.saved"],
        ] {
            let bound = format!("--bound={bound}");
            let done = dayomlak(&[arguments, &[&bound]].concat());
            done.fails(2);
        }
    }
    let done = dayomlak(&["run", LATE, "--bound", "1"]);
    let words = "a bound is 0 for none, or 2 to 256 (else 21, bad bound)";
    done.complains(words);
}

/// Bound 0 is no bound, in all that is printed and written.
#[test]
fn bound_0_is_none() {
    let folder = Folder::new();
    let files = ["one", "two"].map(|name| folder.path(name));
    for arguments in [
        &["run", MATRIX, "--json"][..],
        &["trace", LATE, "--csv"],
        &["compare", LATE, "--orders", "2"],
    ] {
        let bounded = dayomlak(&[arguments, &["--bound", "0"]].concat());
        assert_eq!(bounded.out, dayomlak(arguments).out);
    }
    for arguments in [
        &["log", LATE, "-o"][..],
        &["run", LATE, "--budget", "9", "--save"],
    ] {
        dayomlak(&[arguments, &[&files[0]]].concat());
        dayomlak(&[arguments, &[&files[1], "--bound", "0"]].concat());
        assert_eq!(fs::read(&files[0]).unwrap(), fs::read(&files[1]).unwrap());
    }
}

/// A NEXT at 255 is held like others; where nothing holds it, it is refused by 13.
#[test]
fn next_at_255() {
    assert!(first_line(&counting_to(255), "256").starts_with("completed: 1278 firings"));
    let refused = typed(&counting_to(256), &["run", "-", "--bound", "2"]);
    refused.says("refused by 13, iteration, in firing 1280, of `d_j[255]`");
    let gate = counting_to(256) + "input gate.1 = 0\n";
    let refused = typed(&gate, &["run", "-"]);
    refused.says("refused by 13, iteration");
    let held = typed(&gate, &["run", "-", "--bound", "256"]);
    held.says("bound 256; 1 NEXT activity is held by gate[0].1\n");
    held.says("it would make iteration 256, and waits for what is left at iteration 0\n");
    held.says("\n  = without a bound every order is refused\n");
    held.says("\nd_j[255] (line 5) = 256 is held by gate[0].1 (line 7)\n");
    let held = typed(&gate, &["run", "-", "--bound", "255"]);
    held.says("it would make iteration 255, and waits for what is left at iteration 0\n");
}

/// Results hold nothing: a token at an OUT, or at a LEAVE that has no caller.
#[test]
fn results_do_not_hold() {
    let results = format!("{NEXTS}leave: LEAVE 0\nother: OUT\ninput leave = 1\ninput other = 1\n");
    assert_eq!(
        first_line(&results, "2"),
        "completed: 2 firings, 5 tokens, oldest first, bound 2"
    );
}

/// An operand that waits holds, and a deferred token wherever it is, at an OUT too.
#[test]
fn what_waits_holds() {
    let operand = format!("{NEXTS}gate: GATE -> out\ninput gate = 1\n");
    let held = "1 NEXT activity is held by gate[0].0";
    let line = format!("hung: 1 firing, 3 tokens, oldest first, bound 2; {held}");
    assert_eq!(first_line(&operand, "2"), line);
    // At m - k it holds, and not above.
    let free = "hung: 2 firings, 4 tokens, oldest first, bound 3; nothing more can fire, and some tokens still wait";
    assert_eq!(first_line(&operand, "3"), free);
    for end in ["OUT", "LEAVE 0"] {
        let deferred = format!("{NEXTS}read: FETCH -> end\nend: {end}\ninput read = 7\n");
        let done = typed(&deferred, &["run", "-", "--bound", "2"]);
        done.says("; 1 NEXT activity is held by end[0]\n");
        done.says("--- `end[0]` waits for cell 7\n");
        done.says("\n  = without a bound every order hangs too, with nothing held\n");
    }
    let deep = format!(
        "{NEXTS}call: ENTER site 1 -> again return out\nagain: ENTER site 2 -> gate return out\ngate: GATE -> out\n\
         input call = 7\n"
    );
    let line = "hung: 3 firings, 5 tokens, oldest first, bound 2; 1 NEXT activity is held by call[0]/again[0]/gate[0].0";
    assert_eq!(first_line(&deep, "2"), line);
}

/// What is held by what is held itself: only what something else would have to take is named as the cause.
#[test]
fn several_are_held() {
    let text = "a: NEXT -> b\nb: NEXT -> c\nc: NEXT -> out\nx: NEXT -> y\ny: NEXT -> z\nz: NEXT -> out.0\nout: OUT\ngate: GATE -> sink\n\
        sink: SINK\ninput a = 1\ninput x = 2\ninput gate.1 = 3\n";
    let done = typed(text, &["run", "-", "--bound", "2"]);
    done.says("; 2 NEXT activities are held by gate[0].1\n");
    done.says("note: bound 2 holds `b[1]`, `y[1]` back, and nothing else can fire\n");
    done.says("\nb[1] (line 2) = 1 is held by gate[0].1 (line 8)\n");
}

/// The budget is looked at last: hung on held activities comes before spent.
#[test]
fn hung_before_spent() {
    let text = format!("{NEXTS}gate: GATE -> out\ninput gate = 1\n");
    for (budget, word) in [("0", "spent"), ("1", "hung"), ("2", "hung")] {
        let done = typed(&text, &["run", "-", "--bound", "2", "--budget", budget]);
        assert!(done.out.starts_with(word), "{done:?}");
    }
    let done = typed(&text, &["run", "-", "--budget", "1"]);
    assert!(done.out.starts_with("spent"), "{done:?}");
}

/// What is held is marked, and numbers count what is free.
#[test]
fn a_trace_marks_what_is_held() {
    let text = format!(
        "{NEXTS}gate: GATE -> out\na: COPY -> b\nb: COPY -> c\nc: COPY -> gate.1\ninput gate.0 = 1\ninput a = 1\n"
    );
    let arguments = ["trace", "-", "--bound", "2"];
    expect("bounding/trace", &typed(&text, &arguments));
    expect(
        "bounding/trace_csv",
        &typed(&text, &[&arguments[..], &["--csv"]].concat()),
    );
    let json = typed(&text, &[&arguments[..], &["--json"]].concat());
    json.says("\"bound\":2,");
    json.says(
        "\"pick\":0,\"enabled\":[\"a[0]\"],\"held\":[{\"name\":\"second[1]\",\"path\":\"0\",",
    );
    json.says("\"line\":2,\"by\":[{\"name\":\"gate[0].0\",");
    // The second pick would take the held NEXT if it were counted.
    let picked = typed(&text, &[&arguments[..], &["--picks", "0,0,0,0,0"]].concat());
    assert_eq!(
        picked.out.replace("by the picks 0,0,0,0,0", "oldest first"),
        typed(&text, &arguments).out
    );
}

/// A held activity cannot be named in an order.
#[test]
fn an_order_that_names_a_held_activity() {
    let text = format!("{NEXTS}gate: GATE -> out\ninput gate.0 = 1\norder first[0] second[1]\n");
    assert_eq!(typed(&text, &["run", "-", "--budget", "2"]).status, 1);
    let done = typed(&text, &["run", "-", "--bound", "2"]);
    expect("bounding/order_held", &done);
    // The same order is right under a bound that lets it by.
    let done = typed(&text, &["run", "-", "--bound", "3"]);
    assert!(
        done.out
            .starts_with("hung: 2 firings, 4 tokens, in its typed order, bound 3;"),
        "{done:?}"
    );
}

#[test]
fn by_hand() {
    let folder = Folder::new();
    let text = format!("{NEXTS}gate: GATE -> out\na: SINK\ninput gate.0 = 1\ninput a = 1\n");
    let file = folder.write("x.ttda", text);
    let lines = "0\nsecond[1]\n1\np\n";
    let mut done = typed(lines, &["step", &file, "--bound", "2"]);
    done.out = done.out.replace(&file, "x.ttda");
    done.err = done.err.replace(&file, "x.ttda");
    expect("bounding/step", &done);
}

/// A run that is stopped keeps its bound, and another one may be given.
#[test]
fn saved_and_carried_on() {
    let folder = Folder::new();
    let part = folder.path("part");
    let run = ["run", MATRIX, "--bound", "2"];
    let uncut = dayomlak(&[&run[..], &["--listing"]].concat());
    for budget in ["0", "7", "500"] {
        let done = dayomlak(&[&run[..], &["--budget", budget, "--save", &part]].concat());
        assert_eq!(done.status, 1);
        let head = fs::read(&part).unwrap();
        assert!(String::from_utf8_lossy(&head).contains("\nbound 2\n"));
        let done = dayomlak(&["carry-on", &part, "--listing"]);
        assert_eq!(done.out, uncut.out);
    }
    let hung = ["run", LATE, "--order", "oldest", "--bound", "2"];
    dayomlak(&[&hung[..], &["--save", &part]].concat());
    let again = dayomlak(&["carry-on", &part, "--order", "oldest"]);
    again.says("hung: 12 firings, 16 tokens, oldest first, bound 2; 1 NEXT activity is held");
    again.says("   = carried on without a bound every order completes\n");
    let show = dayomlak(&["show", &part]);
    show.says("\nheld back:\n  start_j[0]/d_j[1] (by start_j[0]/back[0])\n");
    let free = dayomlak(&["carry-on", &part, "--order", "oldest", "--bound", "0"]);
    let line = "completed: 25 firings, 31 tokens, oldest first, bound 2, then oldest first from firing 13 on\n";
    assert!(free.out.starts_with(line) && free.status == 0, "{free:?}");
    let traced = dayomlak(&[
        "trace", &part, "--order", "oldest", "--bound", "0", "--short",
    ]);
    assert_eq!(traced.status, 0);
}

/// A log says under which bound it was made, and replays without one.
#[test]
fn a_log_of_a_bounded_run() {
    let folder = Folder::new();
    let log = folder.path("x.log");
    let done = dayomlak(&["log", LATE, "-o", &log, "--order", "oldest", "--bound", "2"]);
    done.says("hung: 12 firings, 16 tokens, oldest first, bound 2; ");
    let bytes = fs::read(&log).unwrap();
    assert!(String::from_utf8_lossy(&bytes).contains("\ncells 1024\nbound 2\nfirings 12\n"));
    let replayed = dayomlak(&["replay", LATE, &log]);
    let lines = "spent: 12 firings, 16 tokens, as logged; more can fire\n\
        the log is of a run with bound 2; a replay has none, so that what was held then can fire here\n";
    assert!(replayed.out.starts_with(lines), "{replayed:?}");
    let done = dayomlak(&["log", LATE, "-o", &log, "--bound", "2"]);
    assert_eq!(done.status, 0);
    let replayed = dayomlak(&["replay", LATE, &log]);
    assert!(
        replayed
            .out
            .starts_with("completed: 25 firings, 31 tokens, as logged\n"),
        "{replayed:?}"
    );
}

/// Tokens over the firings, with bounds and without, side by side.
#[test]
fn a_profile_by_bounds() {
    let folder = Folder::new();
    let picture = folder.path("x.svg");
    let arguments = ["profile", MATRIX, "--bound", "2", "--bound", "4", "--none"];
    let done = dayomlak(&[&arguments[..], &["-o", &picture]].concat());
    let line = |words: &str, most: &str| {
        format!("{MATRIX}, oldest first, {words}: completed, 1429 firings, 1805 tokens, at most {most} live or deferred\n")
    };
    let lines = line("bound 2", "38") + &line("bound 4", "60") + &line("no bound", "77");
    let lines = lines + "tokens by firings: ideal steps take no bound\n";
    assert_eq!((&done.out[..], done.status), (&lines[..], 0));
    let svg = fs::read_to_string(&picture).unwrap();
    assert!(
        svg.contains("tokens live or deferred after it: at most 38, 60, 77"),
        "{svg}"
    );
    // Each bound beside its fingerprint, and in the name of its run.
    assert!(["bound 2", "bound 4"].map(|words| svg.matches(words).count()) == [2, 2]);
    let one = dayomlak(&[
        "profile", LATE, "--bound", "2", "--order", "oldest", "--csv",
    ]);
    assert_eq!((one.out.lines().count(), one.status), (14, 1));
    let one = dayomlak(&[
        "profile", LATE, "--bound", "2", "--order", "oldest", "--json",
    ]);
    one.says("\"bound\":2,\"answer\":{\"word\":\"hung\"");
    let table = dayomlak(&["profile", LATE, "--bound", "2", "--order", "oldest"]);
    table.says("bound 2: hung, 12 firings, 16 tokens, at most 3 live or deferred; 1 NEXT activity is held by start_j[0]/back[0]\n");
    // Ideal steps take no bound.
    let done = dayomlak(&["profile", LATE, "--bound", "2", "--processors", "any"]);
    assert_eq!(done.status, 2);
    let done = dayomlak(&[&arguments[..], &["--json"]].concat());
    assert_eq!(done.status, 2);
    done.complains("each --bound by itself");
    assert!(dayomlak(&["profile", "--help"])
        .out
        .contains("steps take no bound"));
}

/// The page of a run that hung says why, and marks what is held.
#[test]
fn a_page() {
    let folder = Folder::new();
    let file = folder.path("x.html");
    let page = |arguments: &[&str]| {
        dayomlak(
            &[
                &["report", LATE, "--order", "oldest", "-o", &file],
                arguments,
            ]
            .concat(),
        );
        fs::read_to_string(&file).unwrap()
    };
    let bounded = page(&["--bound", "2"]);
    let by = "by start_j[0]/back[0]";
    let held = format!("{{\"name\":\"start_j[0]/d_j[1]\",\"at\":\"instruction-6\",\"since\":12,\"until\":13,\"by\":\"{by}\"}}");
    assert!(bounded.contains(&held), "{bounded}");
    for words in [
        "<dt>Graph, inputs and bound</dt>",
        "oldest first, bound 2",
        "ideal steps take no bound",
        "<pre id=\"refusal\">note: bound 2 holds `start_j[0]/d_j[1]` back",
    ] {
        assert!(bounded.contains(words), "{words}");
    }
    let plain = page(&[]);
    assert!(plain.contains("\"held\":[],") && !plain.contains("<dt>Graph, inputs and bound"));
}

#[test]
fn a_timeline() {
    let folder = Folder::new();
    let file = folder.path("x.svg");
    let done = dayomlak(&[
        "timeline", LATE, "--order", "oldest", "--bound", "2", "-o", &file,
    ]);
    done.says("hung: 12 firings, 16 tokens, oldest first, bound 2; 1 NEXT activity is held by");
    let done = dayomlak(&["timeline", LATE, "--steps", "--bound", "2", "-o", &file]);
    assert_eq!(done.status, 2);
}

/// What is shown as free and held is what the engine says, for every graph of the gallery; where they did not agree, the status
/// would be another one.
#[test]
fn the_engine_agrees_on_what_is_held() {
    let folders = fs::read_dir(format!("{ROOT}/examples")).unwrap();
    for folder in folders {
        let name = folder.unwrap().file_name().into_string().unwrap();
        let file = format!("examples/{name}/{name}.ttda");
        for (bound, order) in [("2", "newest"), ("3", "random:5")] {
            let done = dayomlak(&[
                "trace", &file, "--bound", bound, "--order", order, "--count", "1",
            ]);
            assert!(matches!(done.status, 0 | 1), "{done:?}");
        }
    }
}

/// The page shows what comes.
#[test]
fn the_page_of_bounding() {
    let page = fs::read_to_string(format!("{ROOT}/docs/BOUNDING.md")).unwrap();
    let indented = |text: &str| -> String {
        let lines = text.lines().map(|line| match line {
            "" => "\n".to_string(),
            line => format!("    {line}\n"),
        });
        lines.collect()
    };
    let run = dayomlak(&["run", LATE, "--order", "oldest", "--bound", "2"]);
    assert!(page.contains(&indented(&run.out)), "{}", run.out);
    let compared = dayomlak(&["compare", LATE, "--bound", "2"]).out;
    let verdict = compared.split("\n\n").next().unwrap();
    assert!(page.contains(&indented(verdict)), "{verdict}");
    let folder = Folder::new();
    let picture = folder.path("x.svg");
    let profile = dayomlak(&[
        "profile", MATRIX, "--bound", "2", "--bound", "4", "--none", "-o", &picture,
    ]);
    assert!(page.contains(&indented(&profile.out)), "{}", profile.out);
}
