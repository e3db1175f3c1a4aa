//! The plotter's cache: a picture is of the run that it names.

mod common;

use std::fs;
use std::thread::sleep;
use std::time::Duration;

use common::{command, done, kept_command, Folder, MOMENT};

/// The picture of a file, by options, and what is said of it.
fn plot(folder: &Folder, file: &str, options: &[&str]) -> (String, String) {
    let picture = folder.path("picture.svg");
    let arguments = [&["profile", file, "-o", &picture], options].concat();
    let plotted = done(&mut kept_command(folder, &arguments));
    assert!(plotted.status <= 1, "{plotted:?}");
    (fs::read_to_string(picture).unwrap(), plotted.out)
}

/// The line of a picture that begins with some words, without them.
fn line<'p>(picture: &'p str, words: &str) -> Option<&'p str> {
    picture.lines().find_map(|line| line.strip_prefix(words))
}

/// The date and the words of the run that a picture is of.
fn run(picture: &str) -> (&str, &str) {
    let line = line(picture, "run of ").unwrap();
    line.split_once(" UTC: ").unwrap()
}

/// A vector sum of two elements, with a read that is deferred oldest first.
fn sum(value: i32) -> String {
    format!("read: FETCH -> plus\nplus: ADD 1 -> out\nout: OUT\ninput read = 3\ncell 3 = {value}\n")
}

/// A loop whose arc is drawn past its NEXT, as in the mission: the order decides where it is refused.
const PAST: &str = "j: COPY -> more j_test\nmore: LE 4 -> tests\ntests: COPY -> j_test.1 s.1\n\
    j_test: SWITCH -> pass end\ns: SWITCH -> new_s total\nend: SINK\ntotal: OUT\npass: COPY -> next_j new_s.1\n\
    next_j: ADD 1 -> d_j\nd_j: NEXT -> j\nnew_s: ADD -> s\ninput j = 1\ninput s = 0\n";

/// The mission's story: one run, then another. The picture of the second is the second's.
#[test]
fn the_picture_of_the_second_run_is_the_seconds() {
    let folder = Folder::new();
    let file = folder.write("loop.ttda", PAST);
    for (order, words) in [
        ("oldest", "oldest first"),
        ("newest", "newest first"),
        ("oldest", "oldest first"),
    ] {
        let (picture, said) = plot(&folder, &file, &["--order", order]);
        assert!(run(&picture).1.contains(words), "{order}: {picture}");
        assert_eq!(line(&picture, "asked for: "), None, "{order}");
        assert!(
            said.contains(words) && !said.contains("asked for"),
            "{said}"
        );
    }
}

/// The same, with a graph that is edited between the runs.
#[test]
fn an_edited_graph_has_a_picture_of_its_own() {
    let folder = Folder::new();
    let file = folder.write("sum.ttda", sum(40));
    assert!(plot(&folder, &file, &[]).0.contains("out[0] = 41"));
    folder.write("sum.ttda", sum(50));
    let (second, _) = plot(&folder, &file, &[]);
    assert!(second.contains("out[0] = 51") && !second.contains("out[0] = 41"));
    assert_eq!(line(&second, "asked for: "), None);
    // Only an operation differs, in a byte of the graph.
    folder.write("sum.ttda", sum(50).replace("ADD", "SUB"));
    let (third, _) = plot(&folder, &file, &[]);
    assert!(third.contains("out[0] = 49"));
    assert_eq!(line(&third, "asked for: "), None);
}

/// The same run asked for again is shown under its own date, with the moment of asking beside it.
#[test]
fn a_run_asked_for_again() {
    let folder = Folder::new();
    let file = folder.write("sum.ttda", sum(40));
    let (first, _) = plot(&folder, &file, &[]);
    sleep(Duration::from_millis(1100));
    let (second, said) = plot(&folder, &file, &[]);
    assert_eq!(run(&first), run(&second));
    let asked = line(&second, "asked for: oldest first, ").unwrap();
    let (date, reason) = asked.split_once(" UTC; ").unwrap();
    assert!(date > run(&first).0, "{asked}");
    assert_eq!(reason, "the same run");
    assert!(
        said.contains(&format!("asked for: oldest first, {asked}\n")),
        "{said}"
    );
    // By another name it is the same run, and the picture carries the name asked for.
    let other = folder.write("other.ttda", sum(40));
    let (third, _) = plot(&folder, &other, &[]);
    assert!(third.contains("other.ttda") && !third.contains("sum.ttda"));
    assert_eq!(run(&third), run(&first));
}

/// A run that completes ends so in every order: what is kept of it serves, under its own order and date, and the picture
/// says so.
#[test]
fn a_completed_run_is_kept_for_every_order() {
    let folder = Folder::new();
    let file = folder.write("sum.ttda", sum(40));
    let (first, _) = plot(&folder, &file, &["--order", "oldest"]);
    let cases = [
        (
            &["--order", "newest"][..],
            "newest first, ",
            "any order ends as this one",
        ),
        (
            &["--order", "random:3"],
            "in random order 3, ",
            "any order ends as this one",
        ),
        (
            &["--budget", "3"],
            "oldest first, budget 3, ",
            "either budget is enough",
        ),
        (&[], "oldest first, ", "the same run"),
    ];
    for (options, order, reason) in cases {
        let (picture, said) = plot(&folder, &file, options);
        assert_eq!(run(&picture), run(&first));
        let asked = line(&picture, "asked for: ").unwrap();
        assert!(
            asked.starts_with(order) && asked.ends_with(reason),
            "{asked}"
        );
        assert!(said.contains(&format!("asked for: {asked}\n")), "{said}");
    }
}

#[test]
fn another_capacity_or_cell_count_is_another_run() {
    for options in [
        &["--capacity", "20"][..],
        &["--cells", "20"],
        &["--budget", "1"],
    ] {
        let folder = Folder::new();
        let file = folder.write("sum.ttda", sum(40));
        plot(&folder, &file, &[]);
        let (picture, _) = plot(&folder, &file, options);
        assert_eq!(line(&picture, "asked for: "), None, "{options:?}");
    }
}

/// A refused or spent run is kept for the same picks and budget only.
#[test]
fn a_run_that_does_not_end_is_kept_for_its_order() {
    let spent = &["--budget", "1"][..];
    let spent_newest = &["--budget", "1", "--order", "newest"][..];
    let cases = [
        (PAST.to_string(), &[][..], &["--order", "newest"][..]),
        (PAST.to_string(), &[], &["--budget", "3"]),
        (sum(40), spent, spent_newest),
        (sum(40), spent, &["--budget", "2"]),
    ];
    for (text, options, others) in cases {
        let folder = Folder::new();
        let file = folder.write("graph.ttda", text);
        let (first, _) = plot(&folder, &file, options);
        let (again, _) = plot(&folder, &file, options);
        assert_eq!(run(&first), run(&again));
        assert!(line(&again, "asked for: ").is_some());
        let (other, _) = plot(&folder, &file, others);
        assert_eq!(line(&other, "asked for: "), None, "{others:?}");
        assert_ne!(run(&other).1, run(&first).1);
    }
}

/// A picture under SOURCE_DATE_EPOCH carries that date, comes out the same again, and dates no later one.
#[test]
fn a_moment_that_stands_in_for_the_clock_dates_no_later_plot() {
    let folder = Folder::new();
    let file = folder.write("sum.ttda", sum(40));
    let picture = folder.path("fixed.svg");
    let arguments = ["profile", &file, "-o", &picture];
    let fixed = |moment: &str| {
        let plotted = done(command(&folder, &arguments).env("SOURCE_DATE_EPOCH", moment));
        assert_eq!(plotted.status, 0, "{plotted:?}");
        fs::read_to_string(&picture).unwrap()
    };
    let first = fixed("0");
    assert_eq!(run(&first).0, "1970-01-01 00:00:00");
    let (later, said) = plot(&folder, &file, &[]);
    assert!(run(&later).0 > "2026", "{later}");
    assert!(!later.contains("1970") && !said.contains("1970"));
    // Nor does a kept plot date a picture that has to come out the same.
    assert_eq!(fixed("0"), first);
    assert_eq!(run(&fixed(MOMENT)).0, "2026-11-16 05:40:12");
}

/// A spent run stands beside a profile that takes no budget, and each says what it is.
#[test]
fn a_spent_run_beside_the_whole_profile() {
    let folder = Folder::new();
    let file = folder.write("sum.ttda", sum(40));
    let (picture, said) = plot(&folder, &file, &["--budget", "1"]);
    let words = "spent: 1 firing, 4 tokens, oldest first, budget 1; more can fire";
    assert_eq!(run(&picture).1, words);
    let profile = "profile, which takes no picks and no budget: 2 ideal steps, then completed: 3 firings, 5 tokens\n";
    assert!(
        picture.contains(profile) && said.contains(profile),
        "{said}"
    );
    assert!(said.starts_with("spent: 1 firing, 4 tokens, oldest first, budget 1, run of "));
}

/// Without a picture there is no run, so that nothing is said of one, and its options are refused.
#[test]
fn a_table_has_no_order_and_no_budget() {
    let folder = Folder::new();
    let file = folder.write("sum.ttda", sum(40));
    let table = done(&mut kept_command(&folder, &["profile", &file]));
    assert!(table.out.ends_with("2 ideal steps, then completed: 3 firings, 5 tokens\n1 cell is loaded before step 1; a step has at most 1 firing\n"), "{table:?}");
    assert!(!folder.exists("cache"));
    for options in [&["--order", "newest"][..], &["--budget", "10"]] {
        let refused = done(&mut kept_command(
            &folder,
            &[&["profile", &file], options].concat(),
        ));
        refused.fails(2);
        let words = "steps take no picks and no budget: leave them out, or name a picture";
        refused.complains(words);
    }
    let file = folder.write("picked.ttda", sum(40) + "picks 1 0\n");
    let table = done(&mut kept_command(&folder, &["profile", &file]));
    table.says("\nthe picks are not used: ");
}

/// A cache that is damaged or cannot be written is no failure.
#[test]
fn no_cache() {
    let folder = Folder::new();
    let file = folder.write("sum.ttda", sum(40));
    plot(&folder, &file, &[]);
    let kept = folder.path("cache/dayomlak/plot");
    let mut damaged = fs::read(&kept).unwrap();
    damaged[100] ^= 1;
    fs::write(&kept, &damaged).unwrap();
    assert_eq!(line(&plot(&folder, &file, &[]).0, "asked for: "), None);
    fs::remove_dir_all(folder.path("cache")).unwrap();
    folder.write("cache", "a file in the way");
    for _ in 0..2 {
        assert_eq!(line(&plot(&folder, &file, &[]).0, "asked for: "), None);
    }
}
