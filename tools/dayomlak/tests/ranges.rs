//! Inputs known only between limits (02, R-11) as a user meets them: ranges of what is left, what is not decided, samples, and
//! what every other command says of a range.

mod common;

use std::fs;

use common::{command, dayomlak, done, expect, typed, Done, Folder, ROOT};
use ttda::widths::LOGGED;

const MARGIN: &str = "examples/measurement/measurement.ranges";
const NOMINAL: &str = "examples/measurement/measurement.ttda";

/// Ranges by an input, a cell and an element; a result, a token that waits, one that is deferred, and cells.
const EVERY_KIND: &str = "array a = 3\nx: ADD -> total\ntotal: OUT\nread: FETCH a -> copy\ncopy: COPY -> write.1 wait.0\n\
    write: STORE\nwait: SUB -> other\nother: OUT\nlate: FETCH -> last\nlast: OUT\nsame: OUT\ninput x.0 = 3..5\ninput x.1 = -2..2\n\
    a[2] = 1..4\ncell 9 = 7..9\ninput read = 2\ninput write.0 = 20\ninput late = 30\ninput same = 6..6\n";

/// A comparison that may go either way decides a SWITCH.
const EITHER: &str =
    "x: COPY -> less test.0\nless: LT 5 -> test.1\ntest: SWITCH -> low high\nlow: OUT\nhigh: OUT\n\
    input x = 3..8\n";

/// Products and quotients of two small ranges, of which every choice can be run.
const SMALL: &str = "a: COPY -> p.0 q.0\nb: COPY -> p.1 c\nc: COPY -> q.1 r.1\np: MUL -> r.0\nq: DIV -> out\nr: REM -> rest\n\
    out: OUT\nrest: OUT\ninput a = -3..4\ninput b = 2..5\n";

fn ranges(text: &str, options: &[&str]) -> Done {
    typed(text, &[&["ranges", "-"], options].concat())
}

fn contains(text: &str, words: &str) {
    assert!(text.contains(words), "{words}\n{text}");
}

/// The value behind a name in an answer: `out[0] = -1..2`.
fn value(text: &str, name: &str) -> (i32, i32) {
    let start = format!("{name} = ");
    let line = text.lines().find_map(|line| line.strip_prefix(&start));
    let word = line.unwrap_or_else(|| panic!("{name}\n{text}"));
    let (low, high) = word.split_once("..").unwrap_or((word, word));
    (low.parse().unwrap(), high.parse().unwrap())
}

#[test]
fn everything_that_is_left() {
    let done = ranges(EVERY_KIND, &[]);
    assert_eq!(done.status, 1);
    expect("ranges/every-kind", &done);
    for (name, low, high) in [("total[0]", 1, 7), ("same[0]", 6, 6), ("cell 20", 1, 4)] {
        assert_eq!(value(&done.out, name), (low, high), "{name}");
    }
    contains(
        &done.out,
        "\nwait[0].0 = 1..4 waits: no token came to port 1\n",
    );
    contains(&done.out, "\nsame[0] = 6\n");
}

/// Any two orders of a run of ranges agree, and each is named.
#[test]
fn orders() {
    let behind = |done: &Done| done.out.split_once('\n').unwrap().1.to_string();
    let oldest = ranges(EVERY_KIND, &[]);
    let named = format!("{EVERY_KIND}order read[0] a[2][0]\n");
    for (text, order, words) in [
        (EVERY_KIND, "newest", "newest first"),
        (EVERY_KIND, "random:7", "in random order 7"),
        (EVERY_KIND, "2,1", "by the picks 2,1"),
        (&named, "typed", "in its typed order"),
    ] {
        let done = ranges(text, &["--order", order]);
        contains(done.out.lines().next().unwrap(), words);
        assert_eq!(behind(&done), behind(&oldest), "{order}");
    }
    let picks = ranges(EVERY_KIND, &["--picks", "2,1"]);
    contains(&picks.out, ", by the picks 2,1;");
}

/// All choices within small ranges: each plain run ends within what is shown, and both ends of a quotient are met.
#[test]
fn every_choice_is_within() {
    let done = ranges(SMALL, &[]);
    assert_eq!(done.status, 0, "{done:?}");
    let (out, rest) = (value(&done.out, "out[0]"), value(&done.out, "rest[0]"));
    assert_eq!((out, rest), ((-1, 2), (-4, 4)));
    let mut met = Vec::new();
    for a in -3..=4 {
        for b in 2..=5 {
            let text = SMALL.replace("-3..4", &a.to_string());
            let plain = typed(&text.replace("2..5", &b.to_string()), &["run", "-"]);
            assert_eq!(plain.out.lines().next(), done.out.lines().next());
            let (quotient, remainder) = (
                value(&plain.out, "out[0]").0,
                value(&plain.out, "rest[0]").0,
            );
            assert!((out.0..=out.1).contains(&quotient), "{a} {b}");
            assert!((rest.0..=rest.1).contains(&remainder), "{a} {b}");
            met.push(quotient);
        }
    }
    assert!(met.contains(&-1) && met.contains(&2));
}

/// Operands are chosen each by itself, even where both come from one input.
#[test]
fn each_operand_is_chosen_freely() {
    let text = "a: COPY -> s.0 s.1\ns: SUB -> out\nout: OUT\ninput a = 3..5\n";
    let done = ranges(text, &["--sample", "9"]);
    contains(&done.out, "\nout[0] = -2..2\n");
    contains(&done.out, "\n  out[0]: samples 0 of -2..2\n");
}

/// Of single values it says what `run` says, of every example.
#[test]
fn single_values_are_a_plain_run() {
    for entry in fs::read_dir(format!("{ROOT}/examples")).unwrap() {
        let name = entry.unwrap().file_name().into_string().unwrap();
        let file = format!("examples/{name}/{name}.ttda");
        let (run, ranged) = (dayomlak(&["run", &file]), dayomlak(&["ranges", &file]));
        assert_eq!(
            (run.status, &run.out, &run.err),
            (ranged.status, &ranged.out, &ranged.err),
            "{name}"
        );
    }
}

/// A text in which every third value that is typed may be one more.
fn widened(text: &str, first: usize) -> String {
    let mut typed = 0;
    let line = |line: &str| {
        let is_value =
            line.starts_with("input ") || line.starts_with("cell ") || line.contains("] = ");
        let parts = line.split_once(" = ").filter(|_| is_value);
        let number =
            parts.and_then(|(name, value)| Some((name, value.trim().parse::<i32>().ok()?)));
        let Some((name, number)) = number else {
            return format!("{line}\n");
        };
        typed += 1;
        match typed % 3 == first {
            true => format!("{name} = {number}..{}\n", number + 1),
            false => format!("{line}\n"),
        }
    };
    text.lines().map(line).collect()
}

/// Every example with wider inputs: what completes or hangs holds its samples, in any order; what is not decided says so.
#[test]
fn samples_of_every_example() {
    let (mut sampled, mut undecided) = (0, 0);
    for entry in fs::read_dir(format!("{ROOT}/examples")).unwrap() {
        let name = entry.unwrap().file_name().into_string().unwrap();
        let text = fs::read_to_string(format!("{ROOT}/examples/{name}/{name}.ttda")).unwrap();
        for (first, order) in ["oldest", "newest", "random:3"].into_iter().enumerate() {
            let done = ranges(
                &widened(&text, first),
                &["--sample", "10", "--order", order],
            );
            assert!(done.status <= 1, "{name}: {done:?}");
            assert!(!done.err.contains("error: "), "{name}: {done:?}");
            let is_ended = done.out.starts_with("completed") || done.out.starts_with("hung");
            assert_eq!(
                is_ended,
                done.out.contains("\n10 samples, seed 1: each "),
                "{name}"
            );
            sampled += usize::from(is_ended && text != widened(&text, first));
            undecided += usize::from(done.out.contains("refused by 23, undecided"));
        }
    }
    assert!(sampled > 50 && undecided > 20, "{sampled} {undecided}");
}

#[test]
fn the_example() {
    let done = dayomlak(&["ranges", MARGIN, "--sample", "200"]);
    assert_eq!((done.status, &done.err[..]), (0, ""));
    expect("ranges/measurement", &done);
    let (run, ranged) = (
        dayomlak(&["run", NOMINAL]).out,
        dayomlak(&["ranges", MARGIN]).out,
    );
    for name in [
        "mean[3]",
        "allowed[3]",
        "speeds[1]",
        "speeds[2]",
        "speeds[3]",
    ] {
        let ((read, _), (low, high)) = (value(&run, name), value(&ranged, name));
        assert!((low..=high).contains(&read), "{name}");
    }
}

/// The two texts of the example are one graph, and each reading is the middle of its range.
#[test]
fn the_example_with_and_without_its_margins() {
    let lines = |file: &str| -> Vec<String> {
        let text = fs::read_to_string(format!("{ROOT}/{file}")).unwrap();
        let lines = text.lines().filter(|line| !line.starts_with('#'));
        lines.map(str::to_string).collect()
    };
    let (plain, margin) = (lines(NOMINAL), lines(MARGIN));
    let plain = &plain[plain.len() - margin.len()..];
    let mut readings = 0;
    for (one, other) in plain.iter().zip(&margin) {
        let Some((name, range)) = other
            .split_once(" = ")
            .filter(|(_, value)| value.contains(".."))
        else {
            assert_eq!(one, other);
            continue;
        };
        let (low, high) = value(other, name);
        assert_eq!(*one, format!("{name} = {}", (low + high) / 2), "{range}");
        readings += 1;
    }
    assert_eq!(readings, 6);
}

/// 23 by its name, its line and what is not decided.
#[test]
fn what_is_not_decided() {
    let array = "array a = 8\nx: FETCH a -> out\nout: OUT\ninput x = 2..3\n";
    let cell = "x: STORE\ninput x.0 = 2000..2001\ninput x.1 = 5..9\n";
    let looped = "j: COPY -> more test.0\nmore: LE 5 -> test.1\ntest: SWITCH -> plus out\nplus: ADD 1 -> d\nd: NEXT -> j\n\
        out: OUT\ninput j = 3..4\n";
    let several = "a: ADD -> t.1\nt: SWITCH -> out out\nout: OUT\ninput a.0 = 1..2\ninput a.1 = -2..-1\ninput t.0 = 5..6\n";
    for (name, text, words) in [
        (
            "switch",
            EITHER,
            "SWITCH `test` may go either way: its control is 0..1",
        ),
        (
            "index",
            array,
            "FETCH `x` may mean several elements of `a`: its index is 2..3",
        ),
        (
            "cell",
            cell,
            "STORE `x` may mean several cells: its cell is 2000..2001",
        ),
        (
            "loop",
            looped,
            "SWITCH `test` may go either way: its control is 0..1",
        ),
        (
            "several",
            several,
            "the control comes from a.0 = 1..2 (line 4), a.1 = -2..-1 (line 5)",
        ),
    ] {
        let done = ranges(text, &[]);
        assert_eq!(done.status, 1, "{done:?}");
        contains(&done.out, "refused by 23, undecided, in firing ");
        contains(&done.out, words);
        expect(&format!("ranges/undecided-{name}"), &done);
    }
    // In parts, the range decides the comparison.
    for (part, left) in [("3..4", "low[0] = 3..4"), ("5..8", "high[0] = 5..8")] {
        let done = ranges(&EITHER.replace("3..8", part), &[]);
        assert_eq!(done.status, 0, "{done:?}");
        contains(&done.out, left);
    }
    // A control that is never 0, or 0 alone, is decided.
    for (control, side) in [("1..9", "low"), ("-9..-1", "low"), ("0..0", "high")] {
        let text = format!(
            "t: SWITCH -> low high\nlow: OUT\nhigh: OUT\ninput t.0 = 1..2\ninput t.1 = {control}\n"
        );
        contains(&ranges(&text, &[]).out, &format!("\n{side}[0] = 1..2\n"));
    }
}

/// The other refusals with ranges among the operands.
#[test]
fn other_refusals() {
    let zero = "d: DIV -> out\nout: OUT\ninput d.0 = 8\ninput d.1 = -1..3\n";
    let wide = "m: MUL 2 -> out\nout: OUT\ninput m = 5..1073741824\n";
    let twice = "a: COPY -> out\nb: COPY -> out\nout: OUT\ninput a = 3..5\ninput b = 6..7\n";
    let small = "a: COPY -> out\nout: OUT\ninput a = 3..5\n";
    for (name, text, options, words) in [
        (
            "divisor",
            zero,
            &[][..],
            "the divisor may be 0: it is -1..3",
        ),
        ("too-wide", wide, &[], "a result may be past 32 signed bits"),
        (
            "second-token",
            twice,
            &[],
            "`out[0]` had a token already: 3..5, live",
        ),
        (
            "full",
            small,
            &["--capacity", "1"],
            "it sends 1 token, and 1 of 1 records are used",
        ),
    ] {
        let done = ranges(text, options);
        assert_eq!(done.status, 1, "{done:?}");
        contains(&done.out, words);
        expect(&format!("ranges/refused-{name}"), &done);
    }
    let divisor = ranges(zero, &[]);
    contains(&divisor.out, "the ranges come from d.1 = -1..3 (line 4)\n");
    let never = ranges("d: DIV 0 -> out\nout: OUT\ninput d = 3..5\n", &[]);
    contains(&never.out, "the divisor is 0\n  |\n  = Guard the division by a SWITCH.\n  = DIV 0 with 3..5 on port 0\n");
    let before = ranges(small, &["--capacity", "0"]);
    contains(
        &before.out,
        "refused by 8, ledger full, before the first firing",
    );
    let spent = ranges(small, &["--budget", "0"]);
    assert_eq!(spent.status, 1);
    contains(
        &spent.out,
        "spent: 0 firings, 1 token, oldest first; more can fire\n(1 token under way)\n",
    );
}

/// A range run takes a loop bound, and says which hang it was.
#[test]
fn a_bound() {
    let text = "first: NEXT -> second\nsecond: NEXT -> out\nout: OUT\ngate: GATE -> out\ninput first = 5..9\ninput gate.0 = 1..2\n";
    let done = ranges(text, &["--bound", "2"]);
    expect("ranges/held", &done);
    contains(
        &done.out,
        "second[1] (line 2) = 5..9 is held by gate[0].0 (line 4)",
    );
    let done = ranges(text, &["--bound", "2", "--sample", "30"]);
    contains(
        &done.out,
        "30 samples, seed 1: each hung after 1 firing, with every value in its range\n",
    );
    contains(&done.out, "\n  second[1]: samples 5..9 of 5..9\n");
}

/// Ends that are the wrong way round, and what else cannot be read: the place in the text, and nothing is run.
#[test]
fn faults_of_a_text() {
    let text = "x: OUT\ninput x = 5..3\ncell 3 = 9..7\narray a = 2\na[1] = 2..\ninput x = 40±2\n";
    let done = ranges(text, &[]);
    done.fails(2);
    expect("ranges/faults", &done);
}

/// Every other command that is given a graph says where the range stands and what to do, and writes nothing.
#[test]
fn other_commands() {
    let folder = Folder::new();
    let file = folder.write("x.ttda", EITHER);
    folder.write("x.log", [0; LOGGED]);
    let (log, out) = (folder.path("x.log"), folder.path("out"));
    let calls: [&[&str]; 17] = [
        &["run", &file],
        &["run", &file, "--listing"],
        &["run", &file, "--save", &out],
        &["check", &file],
        &["bounds", &file],
        &["compare", &file],
        &["diff", &file, "oldest", "newest"],
        &["step", &file],
        &["trace", &file],
        &["profile", &file],
        &["profile", &file, "-o", &out],
        &["timeline", &file, "-o", &out],
        &["report", &file, "-o", &out],
        &["draw", &file, "-o", &out],
        &["log", &file, "-o", &out],
        &["replay", &file, &log],
        &["asm", &file, &out],
    ];
    for call in calls {
        let done = dayomlak(call);
        assert_eq!((done.status, &done.out[..]), (2, ""), "{call:?}: {done:?}");
        contains(&done.err, "error: `3..8` is a range\n");
        contains(&done.err, "x.ttda:6:11\n");
        contains(
            &done.err,
            "`dayomlak ranges` runs the graph for all values between the limits",
        );
        assert!(!folder.exists("out"), "{call:?}");
    }
    expect("ranges/run", &typed(EITHER, &["run", "-"]));
    let json = dayomlak(&["run", &file, "--json"]);
    contains(
        &json.out,
        "\"message\":\"`3..8` is a range\",\"line\":6,\"column\":11,",
    );
    let many: String = (0..6)
        .map(|n| format!("o{n}: OUT\ninput o{n} = 1..2\n"))
        .collect();
    let done = typed(&many, &["run", "-"]);
    assert_eq!(done.err.matches("is a range\n").count(), 4);
    contains(&done.err, "  = and 2 more\n");
}

/// An order by names: names behind what is not decided are not looked at, those before it are.
#[test]
fn an_order_by_names() {
    let behind = format!("{EITHER}order x[0] less[0] test[0] nonsense[0]\n");
    let done = ranges(&behind, &[]);
    contains(
        &done.out,
        "refused by 23, undecided, in firing 3, of `test[0]`",
    );
    contains(&done.out, ", in its typed order\n");
    let before = format!("{EITHER}order x[0] nonsense[0]\n");
    let done = ranges(&before, &[]);
    done.fails(2);
    contains(&done.err, "`nonsense[0]` is not enabled at firing 2");
}

/// A folder has single values; what is damaged in it is refused as by `run`.
#[test]
fn folders_and_saved_runs() {
    let folder = Folder::new();
    let (file, files) = (
        folder.write("x.ttda", "x: ADD 1 -> o\no: OUT\ninput x = 4\n"),
        folder.path("files"),
    );
    dayomlak(&["asm", &file, &files]);
    let done = dayomlak(&["ranges", &files]);
    contains(&done.out, "\nout1[0] = 5\n");
    fs::write(format!("{files}/inputs"), [0; 33]).unwrap();
    let done = dayomlak(&["ranges", &files]);
    contains(
        &done.out,
        "refused by 7, bad store, before the first firing",
    );
    contains(&done.out, "the inputs have 33 bytes");
    let saved = folder.path("x.saved");
    dayomlak(&["run", &file, "--save", &saved]);
    let done = dayomlak(&["ranges", &saved]);
    done.fails(2);
    contains(
        &done.err,
        "is a saved state, which `dayomlak ranges` does not take",
    );
}

/// An index that is a range is not warned of as the index that its low end would be.
#[test]
fn a_range_is_no_wrong_index() {
    let text = "array a = 3\nx: FETCH a -> out\nout: OUT\ninput x = 0..2\n";
    let done = ranges(text, &[]);
    assert_eq!(done.err, "");
    contains(
        &done.out,
        "may mean several elements of `a`: its index is 0..2",
    );
}

/// Samples come out the same again by their seed, and are those of that order.
#[test]
fn samples() {
    let sample = |seed: &str| dayomlak(&["ranges", MARGIN, "--sample", "50", "--seed", seed]).out;
    assert_eq!(sample("3"), sample("3"));
    assert_ne!(sample("3"), sample("4").replace("seed 4", "seed 3"));
    contains(
        &sample("3"),
        "\n50 samples, seed 3: each completed after 65 firings, with every value in its range\n",
    );
    let hung = ranges(EVERY_KIND, &["--sample", "20", "--order", "newest"]);
    assert_eq!(hung.status, 1);
    contains(&hung.out, "\n20 samples, seed 1: each hung after ");
    for options in [&["--budget", "0"][..], &["--capacity", "0"]] {
        let done = ranges(SMALL, &[options, &["--sample", "5"]].concat());
        assert!(
            done.out.ends_with("completes or hangs, and of no other\n"),
            "{done:?}"
        );
        assert_eq!(done.status, 1);
    }
}

/// The picture names the graph, the order, the date and the samples; without samples none is drawn.
#[test]
fn the_picture() {
    let folder = Folder::new();
    let picture = folder.path("x.svg");
    let drawn = dayomlak(&[
        "ranges", MARGIN, "--sample", "40", "--order", "newest", "-o", &picture,
    ]);
    assert_eq!(drawn.status, 0, "{drawn:?}");
    contains(&drawn.out, "40 samples, seed 1");
    let svg = fs::read_to_string(&picture).unwrap();
    for words in [
        MARGIN,
        ">run of 2026-11-16 05:40:12 UTC: completed: 65 firings, 90 tokens, newest first<",
        ">40 samples, seed 1: plain runs in the same order",
        "<title>mean[3]: 1986..2011</title>",
        "<title>time[2]: 1986..2006</title>",
    ] {
        contains(&svg, words);
    }
    assert_eq!(svg.matches("<circle").count(), 40 * 10);
    let fingerprint = |options: &[&str]| {
        let arguments = [&["ranges", MARGIN, "--sample", "1", "-o", "-"], options].concat();
        let svg = dayomlak(&arguments).out;
        let behind = svg.split(">graph").nth(1).unwrap().to_string();
        behind.split(',').take(2).collect::<String>()
    };
    assert_ne!(fingerprint(&[]), fingerprint(&["--bound", "4"]));
    let none = folder.path("none.svg");
    let done = dayomlak(&[
        "ranges", MARGIN, "--sample", "4", "--budget", "3", "-o", &none,
    ]);
    assert_eq!(done.status, 1);
    assert!(!folder.exists("none.svg") && done.out.contains("no samples are taken"));
}

/// What cannot be written, or would be written over, is refused before anything is.
#[test]
fn where_the_picture_goes() {
    let folder = Folder::new();
    let file = folder.write("x.ttda", SMALL);
    let call = |path: &str, more: &[&str]| {
        let arguments = [&["ranges", &file, "--sample", "3", "-o", path], more].concat();
        dayomlak(&arguments)
    };
    let over = call(&file, &[]);
    over.fails(2);
    contains(&over.err, "is the graph itself, which would be overwritten");
    assert_eq!(fs::read_to_string(&file).unwrap(), SMALL);
    assert_eq!(call(&folder.path("x.gif"), &[]).status, 2);
    assert_eq!(call(&folder.path("absent/x.svg"), &[]).status, 3);
    let both = call("-", &["--json"]);
    assert_eq!(both.status, 2);
    contains(
        &both.err,
        "-o - goes to standard output, and so does --json",
    );
    let standard = call("-", &[]);
    assert!(standard.out.starts_with("<svg") && standard.err.contains("3 samples, seed 1"));
    let json = call(&folder.path("y.svg"), &["--json"]);
    assert!(json.out.starts_with('{') && folder.exists("y.svg"));
}

/// Without librsvg a PNG is refused by name, and with it, it is one.
#[test]
fn a_png() {
    let folder = Folder::new();
    let path = folder.path("x.png");
    let made = dayomlak(&["ranges", MARGIN, "--sample", "3", "-o", &path]);
    match made.status {
        0 => assert!(fs::read(&path).unwrap().starts_with(b"\x89PNG")),
        status => {
            assert_eq!(status, 3);
            contains(&made.err, "librsvg is not installed");
        }
    }
    let mut without = command(&folder, &["ranges", MARGIN, "--sample", "3", "-o", &path]);
    assert_eq!(done(without.env("PATH", "")).status, 3);
}

/// What was not decided, for scripts; every field is on the page.
#[test]
fn json() {
    let done = ranges(EITHER, &["--json", "--sample", "3"]);
    let undecided = "\"undecided\":{\"name\":\"test[0]\",\"operation\":\"SWITCH\",\"line\":3,\"what\":\"control\",\"low\":0,\"high\":1,\"from\":[{\"name\":\"x\",\"line\":6,\"low\":3,\"high\":8}]},\"samples\":null}\n";
    assert!(done.out.ends_with(undecided), "{done:?}");
    let page = fs::read_to_string(format!("{ROOT}/docs/JSON.md")).unwrap();
    for field in [
        "undecided",
        "samples",
        "what",
        "low",
        "high",
        "least",
        "most",
        "count",
        "seed",
    ] {
        contains(&page, &format!("`{field}`"));
    }
}

/// The page's examples are what the program prints.
#[test]
fn the_page() {
    let page = fs::read_to_string(format!("{ROOT}/docs/RANGES.md")).unwrap();
    let indented = |text: &str| -> String {
        let line = |line: &str| match line.is_empty() {
            true => "\n".to_string(),
            false => format!("    {line}\n"),
        };
        text.lines().map(line).collect()
    };
    let done = dayomlak(&["ranges", MARGIN, "--sample", "200"]);
    contains(
        &page,
        &indented(&format!(
            "$ ./dayomlak ranges {MARGIN} --sample 200\n{}",
            done.out
        )),
    );
    let folder = Folder::new();
    let file = folder.write("either.ttda", EITHER);
    let said = dayomlak(&["ranges", &file])
        .out
        .replace(&file, "either.ttda");
    contains(
        &page,
        &indented(&format!("$ ./dayomlak ranges either.ttda\n{said}")),
    );
}
