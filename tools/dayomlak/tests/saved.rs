//! Saved states: a run that is cut and carried on ends as the uncut one in every byte; damage is told, and 24 is explained.

mod common;

use std::fs;

use common::{command, dayomlak, done, expect, Done, Folder, VECTOR_SUM};
use plotter::Fingerprint;
use ttda::layout::fields::{cell, token};
use ttda::widths::{CELL, TOKEN};

const RECURSION: &str = "examples/recursion/recursion.ttda";

/// A read that is deferred in a call, its partner, and a result. Three firings, and then it hangs.
const DEFERRED: &str = "main: ENTER site 1 -> n return result\nresult: OUT\nn: COPY -> plus.0 read\nread: FETCH -> plus.1\n\
    plus: ADD -> leave\nleave: LEAVE 0\nother: OUT\ninput main = 3\ninput other = 9\n";

/// Runs a command that is to save something, and answers the file's bytes.
fn saved(arguments: &[&str], file: &str) -> (Done, Vec<u8>) {
    let done = dayomlak(&[arguments, &["--save", file]].concat());
    assert!(fs::metadata(file).is_ok(), "{arguments:?}: {done:?}");
    (done, fs::read(file).unwrap())
}

fn firings(file: &str, order: &str) -> usize {
    let done = dayomlak(&["run", file, "--order", order, "--json"]);
    let behind = done.out.split_once("\"firings\":").unwrap().1;
    behind.split_once(',').unwrap().0.parse().unwrap()
}

/// The same words, listing, object and file as of the uncut run, from a cut at every firing.
fn cut_everywhere(file: &str, order: &str) {
    let folder = Folder::new();
    let (part, rest) = (folder.path("part"), folder.path("rest"));
    let run = ["run", file, "--order", order];
    let (uncut, whole) = saved(&run, &folder.path("whole"));
    let listing = dayomlak(&[&run[..], &["--listing"]].concat());
    for cut in 0..=firings(file, order) {
        let budget = cut.to_string();
        saved(&[&run[..], &["--budget", &budget]].concat(), &part);
        let carry_on = ["carry-on", &part, "--order", order];
        let (done, left) = saved(&carry_on, &rest);
        let place = |text: &str| text.replace(&format!("text in {part}"), file);
        assert_eq!(
            (place(&done.out), done.status),
            (uncut.out.clone(), uncut.status),
            "{cut}"
        );
        assert!(left == whole, "{file}, cut at {cut}");
        let listed = dayomlak(&[&carry_on[..], &["--listing"]].concat());
        assert_eq!(
            (&listed.out, listed.status),
            (&listing.out, listing.status),
            "{cut}"
        );
    }
}

#[test]
fn the_vector_sum_cut_at_every_firing() {
    cut_everywhere(VECTOR_SUM, "typed");
}

#[test]
fn a_recursion_cut_at_every_firing() {
    cut_everywhere(RECURSION, "typed");
}

/// The picks of an order are divided as the firings are.
#[test]
fn other_orders_cut_at_every_firing() {
    cut_everywhere("examples/call/call.ttda", "newest");
    cut_everywhere("examples/call/call.ttda", "random:7");
    cut_everywhere("examples/deferred_read/deferred_read.ttda", "newest");
    cut_everywhere("examples/deferred_read/deferred_read.ttda", "random:3");
}

/// Where an order is refused depends on its picks, the typed ones too.
#[test]
fn refused_runs_cut_at_every_firing() {
    cut_everywhere("examples/past_next/past_next.ttda", "typed");
    let folder = Folder::new();
    let text = "a: COPY -> b x\nb: DIV 0 -> s\nx: COPY -> y\ny: STORE\ns: SINK\ninput a = 1\ninput y.1 = 1\npicks 0 1 0\n";
    cut_everywhere(&folder.write("picks.ttda", text), "typed");
}

/// A firing at a time, each part from the file of the one before.
#[test]
fn as_many_parts_as_firings() {
    for file in [VECTOR_SUM, RECURSION] {
        let folder = Folder::new();
        let (_, whole) = saved(&["run", file], &folder.path("whole"));
        saved(&["run", file, "--budget", "0"], &folder.path("0"));
        for part in 0..firings(file, "typed") {
            let (from, to) = (
                folder.path(&part.to_string()),
                folder.path(&(part + 1).to_string()),
            );
            let (done, _) = saved(&["carry-on", &from, "--budget", "1"], &to);
            done.says(&format!(": {} firing", part + 1));
        }
        let last = fs::read(folder.path(&firings(file, "typed").to_string())).unwrap();
        assert!(last == whole, "{file}");
    }
}

/// An answer names the orders of all its parts.
#[test]
fn parts_in_several_orders() {
    let folder = Folder::new();
    let [a, b, c] = ["a", "b", "c"].map(|name| folder.path(name));
    saved(&["run", VECTOR_SUM, "--budget", "30"], &a);
    saved(&["carry-on", &a, "--order", "newest", "--budget", "5"], &b);
    let (again, _) = saved(&["carry-on", &b, "--order", "newest", "--budget", "5"], &c);
    let words = "spent: 40 firings, 59 tokens, oldest first, then newest first from firing 31 on; more can fire\n";
    assert!(again.out.starts_with(words), "{again:?}");
    let done = dayomlak(&["carry-on", &c, "--order", "random:7"]);
    let words = "completed: 59 firings, 81 tokens, oldest first, then newest first from firing 31 on, then in random order 7 from firing 41 on\n";
    assert!(done.out.starts_with(words), "{done:?}");
    // One firing is enough to be named.
    let done = dayomlak(&["carry-on", &a, "--order", "newest", "--budget", "1"]);
    let words = "spent: 31 firings, 48 tokens, oldest first, then newest first from firing 31 on;";
    assert!(done.out.starts_with(words), "{done:?}");
    // Where nothing is fired, the order of this part has no say.
    let done = dayomlak(&["carry-on", &a, "--order", "newest", "--budget", "0"]);
    assert!(
        done.out
            .starts_with("spent: 30 firings, 47 tokens, oldest first; more"),
        "{done:?}"
    );
    // Before the first firing there was no order.
    saved(&["run", VECTOR_SUM, "--budget", "0"], &b);
    let done = dayomlak(&["carry-on", &b, "--order", "newest"]);
    assert_eq!(
        done.out,
        dayomlak(&["run", VECTOR_SUM, "--order", "newest"]).out
    );
}

/// The firings of a trace go on as in the uncut run, cut at every firing.
#[test]
fn traces_from_a_saved_state() {
    for (file, order) in [
        (VECTOR_SUM, "random:5"),
        (RECURSION, "newest"),
        ("examples/deferred_read/deferred_read.ttda", "oldest"),
        ("examples/late_array/late_array.ttda", "oldest"),
    ] {
        let folder = Folder::new();
        let part = folder.path("part");
        let uncut = dayomlak(&["trace", file, "--order", order, "--csv"]);
        let rows: Vec<&str> = uncut.out.lines().collect();
        for cut in 0..rows.len() {
            let budget = cut.to_string();
            saved(&["run", file, "--order", order, "--budget", &budget], &part);
            let traced = dayomlak(&["trace", &part, "--order", order, "--csv"]);
            let expected = [&rows[..1], &rows[1 + cut..]].concat();
            assert_eq!(
                traced.out.lines().collect::<Vec<_>>(),
                expected,
                "{file}, {cut}"
            );
        }
        let some = dayomlak(&["trace", &part, "--from", "1000"]);
        assert_eq!(some.out.lines().count(), 1, "{some:?}");
    }
}

#[test]
fn firings_of_a_trace_are_counted_from_the_inputs() {
    let folder = Folder::new();
    let part = folder.path("part");
    saved(&["run", VECTOR_SUM, "--budget", "30"], &part);
    let done = dayomlak(&["trace", &part, "--from", "33", "--count", "1", "--csv"]);
    assert!(
        done.out.lines().nth(1).unwrap().starts_with("33,c[1],"),
        "{done:?}"
    );
}

#[test]
fn a_page_from_a_saved_state() {
    let folder = Folder::new();
    let (part, page, whole) = (
        folder.path("part"),
        folder.path("page"),
        folder.path("whole"),
    );
    saved(&["run", VECTOR_SUM, "--budget", "30"], &part);
    let done = dayomlak(&["report", &part, "-o", &page]);
    assert_eq!(
        (&done.out[..], done.status),
        ("completed: 59 firings, 81 tokens, oldest first\n", 0)
    );
    assert_eq!(dayomlak(&["report", VECTOR_SUM, "-o", &whole]).status, 0);
    let [page, whole] = [page, whole].map(|page| fs::read_to_string(page).unwrap());
    let listing = |page: &str| {
        page.split_once("<pre id=\"listing\"")
            .unwrap()
            .1
            .split_once("</pre>")
            .unwrap()
            .0
            .to_string()
    };
    assert_eq!(listing(&page), listing(&whole));
    assert!(page.contains("<dt>Carried on from</dt><dd>30 firings, 47 tokens</dd>"));
    assert!(page.contains("{\"before\":30,\"carriedOn\":true,\"firings\":[{\"name\":\"b[1]\""));
    assert!(whole.contains("{\"before\":0,\"carriedOn\":false,"));
    assert!(
        page.contains("None: this page begins at a saved state")
            && !page.contains("<figure data-left")
    );
}

/// A state that hung and one that completed: the answer comes again, and nothing is fired.
#[test]
fn ended_runs_are_taken() {
    let folder = Folder::new();
    let (file, part) = (folder.write("hung.ttda", DEFERRED), folder.path("part"));
    let (hung, _) = saved(&["run", &file], &part);
    assert!(
        hung.out.starts_with("hung: 3 firings, 6 tokens") && hung.status == 1,
        "{hung:?}"
    );
    let again = dayomlak(&["carry-on", &part, "--order", "newest"]);
    assert_eq!((again.out, again.status), (hung.out, 1));
    let (completed, _) = saved(&["run", VECTOR_SUM], &part);
    let again = dayomlak(&["carry-on", &part, "--budget", "0"]);
    assert_eq!((again.out, again.status), (completed.out, 0));
}

#[test]
fn what_stands_where() {
    let folder = Folder::new();
    let (file, part) = (folder.write("deferred.ttda", DEFERRED), folder.path("part"));
    saved(
        &[
            "run",
            "examples/deferred_read/deferred_read.ttda",
            "--budget",
            "3",
        ],
        &part,
    );
    expect("saved/show", &dayomlak(&["show", &part]));
    let mut done = dayomlak(&["show", &part, "--json"]);
    done.out = done.out.replace(&part, "X.saved");
    expect("saved/show_json", &done);
    saved(&["run", &file], &part);
    let mut done = dayomlak(&["show", &part]);
    done.out = done.out.replace(&file, "hung.ttda");
    expect("saved/show_hung", &done);
    let text = dayomlak(&["show", &part, "--text"]);
    assert_eq!((&text.out[..], text.status), (DEFERRED, 0));
}

/// For scripts: as a run, and what it went on from.
#[test]
fn objects_for_scripts() {
    let folder = Folder::new();
    let part = folder.path("part");
    saved(&["run", VECTOR_SUM, "--budget", "30", "--json"], &part);
    let run = dayomlak(&["run", VECTOR_SUM, "--json"]);
    let done = dayomlak(&["carry-on", &part, "--json"]);
    let from = "\"from\":{\"firings\":30,\"tokens\":47},";
    assert!(done.out.contains(from));
    let plain = done.out.replace(from, "").replace(&part, VECTOR_SUM);
    assert_eq!(plain.replace("carry-on", "run"), run.out);
    let failed = dayomlak(&["carry-on", VECTOR_SUM, "--json"]);
    assert_eq!(failed.status, 2);
    assert!(
        failed
            .out
            .starts_with("{\"version\":1,\"command\":\"carry-on\"")
            && failed.out.contains("is no saved state")
    );
}

/// The lines of a head without checksums, and the parts of a file.
struct Edited {
    lines: Vec<String>,
    parts: Vec<Vec<u8>>,
}

impl Edited {
    /// The state of the run that hung, with 10 cells and 20 records.
    fn deferred(folder: &Folder) -> Edited {
        let (file, part) = (folder.write("deferred.ttda", DEFERRED), folder.path("part"));
        let (_, bytes) = saved(&["run", &file, "--cells", "10", "--capacity", "20"], &part);
        Edited::of(&bytes)
    }

    fn of(bytes: &[u8]) -> Edited {
        let mut lines = Vec::new();
        let mut lengths = Vec::new();
        let mut rest = bytes;
        loop {
            let end = rest.iter().position(|byte| *byte == b'\n').unwrap();
            let line = String::from_utf8(rest[..end].to_vec()).unwrap();
            rest = &rest[end + 1..];
            match line.split(' ').collect::<Vec<_>>()[..] {
                ["part", _, length, _] => lengths.push(length.parse::<usize>().unwrap()),
                ["head", _] => break,
                _ => lines.push(line),
            }
        }
        let take = |length: &usize| {
            let (part, behind) = rest.split_at(*length);
            rest = behind;
            part.to_vec()
        };
        let parts = lengths.iter().map(take).collect();
        Edited { lines, parts }
    }

    /// With the checksums that its parts have now.
    fn bytes(&self) -> Vec<u8> {
        let mut head: String = self.lines.iter().map(|line| line.clone() + "\n").collect();
        for (name, part) in ["text", "graph", "arrays", "ledger", "cells"]
            .iter()
            .zip(&self.parts)
        {
            head += &format!(
                "part {name} {} {}\n",
                part.len(),
                Fingerprint::of(part).digits()
            );
        }
        head += &format!("head {}\n", Fingerprint::of(head.as_bytes()).digits());
        [head.into_bytes(), self.parts.concat()].concat()
    }

    fn set(&mut self, name: &str, value: &str) {
        let line = self
            .lines
            .iter_mut()
            .find(|line| line.starts_with(&format!("{name} ")))
            .unwrap();
        *line = format!("{name} {value}");
    }

    /// A byte of a token's record.
    fn token(&mut self, place: usize, at: usize) -> &mut u8 {
        &mut self.parts[3][TOKEN * place + at]
    }

    /// A byte of a cell's record.
    fn cell(&mut self, number: usize, at: usize) -> &mut u8 {
        &mut self.parts[4][CELL * number + at]
    }
}

/// Undone, an edit leaves the file as it was: what the tests below change is all that they change.
#[test]
fn an_unchanged_file_is_the_same() {
    let folder = Folder::new();
    let edited = Edited::deferred(&folder);
    assert_eq!(edited.bytes(), fs::read(folder.path("part")).unwrap());
}

type Change = fn(&mut Edited);

/// The tokens: 0 main, 1 other (a result), 2 n, 3 plus.0 (waits), 4 read, 5 plus.1 (deferred on cell 3).
const CHANGES: [(&str, &str, Change); 17] = [
    ("fields and states are allowed", "token 3, `main[0]/#99[0].0`, is at instruction 99, which is not there", |e| *e.token(3, token::INSTRUCTION.start) = 99),
    ("fields and states are allowed", "token 1, `other[0]`, is at port 1, which the instruction does not have", |e| *e.token(1, token::PORT) = 1),
    ("fields and states are allowed", "token 1, `other[0]`, has the state 7, and states are 0 to 2", |e| *e.token(1, token::STATE) = 7),
    ("fields and states are allowed", "token 1, `other[0]`, has last bytes that are not zero", |e| *e.token(1, token::ZEROS.end - 1) = 1),
    ("fields and states are allowed", "cell 6 has the state 3, and states are 0 to 2", |e| *e.cell(6, cell::STATE) = 3),
    ("fields and states are allowed", "cell 6 has last bytes that are not zero", |e| *e.cell(6, cell::ZEROS.start) = 1),
    ("a tag and port is there once", "token 6, `other[0]`, is where token 1 is", |e| {
        let other = e.parts[3][TOKEN..2 * TOKEN].to_vec();
        e.parts[3].extend(other);
        e.set("tokens", "7");
    }),
    ("a path is made of sites that have an ENTER, its levels unbroken", "token 3, `site 9[0]/plus[0].0`, has a path through site 9, which has no ENTER", |e| *e.token(3, 1) = 9),
    ("a path is made of sites that have an ENTER, its levels unbroken", "token 3, `main[0]/site 0[0]/main[0]/plus[0].0`, has a path with a level that names no site", |e| *e.token(3, 5) = 1),
    ("a tag's operands are all present and spent, or none is spent", "token 3, `main[0]/plus[0].0`, is spent, and the token at port 1 is deferred", |e| {
        *e.token(3, token::STATE) = token::SPENT;
        e.set("firings", "4");
    }),
    ("a result is never spent", "token 1, `other[0]`, is spent", |e| {
        *e.token(1, token::STATE) = token::SPENT;
        e.set("firings", "4");
    }),
    ("a deferred token names a cell", "token 5, `main[0]/plus[0].1`, is deferred on cell 10, and there are 10 cells", |e| {
        *e.token(5, token::VALUE.start) = 10;
        *e.cell(3, cell::STATE) = cell::ABSENT;
    }),
    ("a cell waits exactly where a token is deferred on it", "token 5, `main[0]/plus[0].1`, is deferred on cell 3, which is absent", |e| *e.cell(3, cell::STATE) = cell::ABSENT),
    ("a cell waits exactly where a token is deferred on it", "cell 5 waits, and no token is deferred on it", |e| *e.cell(5, cell::STATE) = cell::WAITING),
    ("a cell's value is 0 until it is present", "cell 4 is not present and has the value 7", |e| *e.cell(4, cell::VALUE.start) = 7),
    ("the tokens are within the capacity", "there are 6, and the capacity is 5", |e| e.set("capacity", "5")),
    ("there are as many firings as tags with spent operands", "there are 4 firings and 3 such tags", |e| e.set("firings", "4")),
];

/// Each condition broken by itself has its own words, and no other is named.
#[test]
fn each_condition_is_explained() {
    let folder = Folder::new();
    for (rule, words, change) in CHANGES {
        let mut edited = Edited::deferred(&folder);
        change(&mut edited);
        let file = folder.write("damaged", edited.bytes());
        let rest = folder.path("rest");
        for arguments in [
            &["carry-on", &file, "--save", &rest][..],
            &["show", &file],
            &["trace", &file],
        ] {
            let done = dayomlak(arguments);
            assert_eq!((&done.err[..], done.status), ("", 1), "{done:?}");
            let title = "error: refused by 24, damaged state, before the first firing\n";
            assert!(done.out.starts_with(title), "{done:?}");
            done.says(&format!("= {rule}: {words}\n"));
            let named = CHANGES
                .iter()
                .filter(|c| done.out.contains(&format!("= {}: ", c.0)));
            assert!(
                named.clone().all(|c| c.0 == rule) && named.count() > 0,
                "{done:?}"
            );
            assert!(!done.out.contains("fault of dayomlak"), "{done:?}");
        }
        assert!(!folder.exists("rest"));
    }
}

/// What 24 says, with the place in the text.
#[test]
fn a_damaged_state() {
    let folder = Folder::new();
    let mut edited = Edited::deferred(&folder);
    *edited.token(1, 24) = 1;
    let file = folder.write("damaged", edited.bytes());
    let mut done = dayomlak(&["carry-on", &file, "--save", &folder.path("rest")]);
    done.out = done.out.replace(&file, "X.saved");
    expect("saved/damaged_state", &done);
    let json = dayomlak(&["carry-on", &file, "--json"]);
    assert_eq!(json.status, 1);
    assert!(json.out.contains(
        "\"refusal\":24,\"name\":\"damaged state\",\"firings\":0,\"tokens\":0,\"place\":0}"
    ));
    assert!(
        json.out
            .ends_with("\"results\":[],\"left\":[],\"cells\":[]}\n"),
        "{json:?}"
    );
}

/// A state that no run left is taken if the conditions hold.
#[test]
fn the_conditions_alone_decide() {
    let folder = Folder::new();
    let mut edited = Edited::deferred(&folder);
    // The result is another one, and the ledger is in another order.
    *edited.token(1, 20) = 77;
    let first = edited.parts[3].drain(..TOKEN).collect::<Vec<u8>>();
    edited.parts[3].extend(first);
    let file = folder.write("other", edited.bytes());
    let done = dayomlak(&["carry-on", &file]);
    assert!(
        done.out.starts_with("hung: 3 firings, 6 tokens") && done.out.contains("\nother[0] = 77\n"),
        "{done:?}"
    );
}

/// Every byte changed, every length: nothing is shown of such a file.
#[test]
fn damage_is_told() {
    let folder = Folder::new();
    let file = folder.write("small.ttda", "a: ADD 1 -> b\nb: OUT\ninput a = 1\n");
    let part = folder.path("part");
    let (_, bytes) = saved(&["run", &file, "--cells", "2", "--capacity", "3"], &part);
    let told = |name: &str, bytes: &[u8]| {
        let done = dayomlak(&["carry-on", &folder.write("damaged", bytes)]);
        assert_eq!((&done.out[..], done.status), ("", 2), "{name}: {done:?}");
        let words = [
            "is damaged: ",
            "are damaged: ",
            "is no saved state",
            "a saved state of form ",
        ];
        assert!(
            words.iter().any(|words| done.err.contains(words)),
            "{name}: {done:?}"
        );
        assert!(!done.err.contains("refused"), "{name}: {done:?}");
    };
    for at in 0..bytes.len() {
        let mut damaged = bytes.clone();
        damaged[at] ^= 1;
        told(&format!("byte {at}"), &damaged);
    }
    for length in [0, 10, 200, bytes.len() - 1] {
        told(&format!("{length} bytes"), &bytes[..length]);
    }
    told("a byte more", &[&bytes[..], &[0]].concat());
}

/// Which part is damaged, with the checksum that it should have and the one that it has.
#[test]
fn damage_is_named() {
    let folder = Folder::new();
    let edited = Edited::deferred(&folder);
    let whole = edited.bytes();
    let head = whole.len() - edited.parts.iter().map(Vec::len).sum::<usize>();
    let mut start = head;
    for (name, part) in ["text", "graph", "arrays", "ledger", "cells"]
        .iter()
        .zip(&edited.parts)
    {
        if part.is_empty() {
            continue;
        }
        let mut damaged = whole.clone();
        damaged[start] ^= 1;
        let found = Fingerprint::of(&damaged[start..start + part.len()]);
        start += part.len();
        let done = dayomlak(&["show", &folder.write("damaged", &damaged)]);
        let said = Fingerprint::of(part);
        let words = format!("its {name} is damaged: its checksum should be {said}, and is {found} (the first 16 digits)\n");
        assert!(done.err.ends_with(&words), "{done:?}");
    }
    let mut damaged = whole.clone();
    let at = String::from_utf8_lossy(&whole).find("firings 3").unwrap();
    damaged[at + 8] = b'4';
    let done = dayomlak(&["show", &folder.write("damaged", &damaged)]);
    assert!(
        done.err
            .contains("its head is damaged: its checksum should be "),
        "{done:?}"
    );
}

type Edit = (&'static str, fn(&mut Edited));

/// Files whose checksums are right and whose contents do not fit together, or are of another program.
const UNFIT: [Edit; 7] = [
    (
        "its head says 7 tokens of 28 bytes, and it has 168 bytes of them",
        |e| e.set("tokens", "7"),
    ),
    (
        "its head says 9 cells of 8 bytes, and it has 80 bytes of them",
        |e| e.set("cells", "9"),
    ),
    ("its text is not the text of its graph", |e| {
        e.parts[1][0] = 2
    }),
    ("its text is not the text of its graph", |e| {
        e.parts[0] = e.bytes()
    }),
    (
        "its head says a bound of 1, and a bound is 0 for none, or 2 to 256",
        |e| e.set("bound", "1"),
    ),
    ("its text is not the text of its graph", |e| {
        e.parts[2].extend([0, 0, 1, 0])
    }),
    (
        "a saved state of form 2, and this program reads form 1",
        |e| e.lines[0] = "dayomlak saved state 2".to_string(),
    ),
];

#[test]
fn files_that_do_not_fit() {
    let folder = Folder::new();
    for (words, change) in UNFIT {
        let mut edited = Edited::deferred(&folder);
        change(&mut edited);
        let file = folder.write("unfit", edited.bytes());
        for name in ["carry-on", "show", "trace"] {
            let done = dayomlak(&[name, &file]);
            done.fails(2);
            assert_eq!(done.err, format!("error: {file}: {words}\n"));
        }
    }
}

/// What comes before 24 in the engine's order.
#[test]
fn what_is_refused_before_the_state() {
    let folder = Folder::new();
    let mut edited = Edited::deferred(&folder);
    edited.set("capacity", "3000");
    *edited.token(1, 24) = 7;
    let done = dayomlak(&["carry-on", &folder.write("large", edited.bytes())]);
    assert_eq!(done.status, 1);
    assert!(
        done.out
            .starts_with("error: refused by 7, bad store, before the first firing\n"),
        "{done:?}"
    );
}

#[test]
fn commands_that_take_none() {
    let folder = Folder::new();
    let (part, other) = (folder.path("part"), folder.path("other"));
    saved(&["run", VECTOR_SUM, "--budget", "30"], &part);
    let commands: [(&[&str], &str); 9] = [
        (&["run", &part], "`dayomlak carry-on` goes on from it"),
        (&["profile", &part], "a profile is of a run from its inputs"),
        (
            &["log", &part, "-o", &other],
            "a log is of a run from its inputs",
        ),
        (
            &["replay", &part, &other],
            "a log is of a run from its inputs",
        ),
        (
            &["compare", &part],
            "`dayomlak carry-on --order ORDER` goes on from it in one order",
        ),
        (&["bounds", &part], "bounds are of a run from its inputs"),
        (&["check", &part], "`dayomlak show` looks at it"),
        (&["draw", &part], "`dayomlak report` shows it on its graph"),
        (&["asm", &part, &other], "`dayomlak show` looks at it"),
    ];
    for (arguments, why) in commands {
        let done = dayomlak(arguments);
        let name = arguments[0];
        let text = format!(
            "error: {part} is a saved state, which `dayomlak {name}` does not take\n  {why}; \
            its graph is had by `dayomlak show --text`\n"
        );
        assert_eq!((&done.out[..], &done.err, done.status), ("", &text, 2));
    }
    let done = dayomlak(&["replay", VECTOR_SUM, &part]);
    done.fails(2);
    done.complains("is a saved state, and no log\n");
    let done = dayomlak(&["convert", &part, &other]);
    assert!(
        done.status == 2 && done.err.contains("a saved state: its records are new ones"),
        "{done:?}"
    );
    assert!(!folder.exists("other"));
}

#[test]
fn where_a_state_is_saved() {
    let folder = Folder::new();
    let part = folder.path("part");
    let (_, bytes) = saved(&["run", VECTOR_SUM, "--budget", "30"], &part);
    // Not over what is read.
    let done = dayomlak(&["carry-on", &part, "--save", &part]);
    done.fails(2);
    assert!(
        done.err
            .contains("is the saved state itself, which would be overwritten\n  name another file"),
        "{done:?}"
    );
    assert_eq!(fs::read(&part).unwrap(), bytes);
    let graph = folder.write("a.ttda", "a: OUT\ninput a = 1\n");
    let done = dayomlak(&["run", &graph, "--save", &graph]);
    assert!(
        done.status == 2 && done.err.contains("is the graph itself"),
        "{done:?}"
    );
    // To standard output: what is said goes to standard error.
    let bytes = |arguments: &[&str]| command(&folder, arguments).output().unwrap();
    let output = bytes(&["run", VECTOR_SUM, "--budget", "30", "--save", "-"]);
    assert_eq!(output.stdout, fs::read(&part).unwrap());
    assert!(output.stderr.starts_with(b"spent: 30 firings"));
    for form in ["--json", "--listing"] {
        let done = dayomlak(&["run", VECTOR_SUM, "--save", "-", form]);
        assert_eq!(done.status, 2);
        assert!(
            done.err
                .contains("--save - goes to standard output, and so do"),
            "{done:?}"
        );
    }
    let done = dayomlak(&["run", VECTOR_SUM, "--save", "no/such/folder/x"]);
    done.fails(3);
    // From standard input.
    let mut piped = command(&folder, &["carry-on", "-"]);
    let done = done_from(&mut piped, &part);
    assert_eq!(done.out, dayomlak(&["run", VECTOR_SUM]).out);
    // A run that did not begin leaves nothing to go on from.
    let twice = folder.write("twice.ttda", "a: OUT\ninput a = 1\ninput a = 2\n");
    let none = dayomlak(&["run", &twice, "--save", &folder.path("none")]);
    assert!(
        none.status == 1
            && none
                .out
                .ends_with("nothing is saved: the run did not begin\n"),
        "{none:?}"
    );
    assert!(!folder.exists("none"));
}

fn done_from(command: &mut std::process::Command, file: &str) -> Done {
    done(command.stdin(fs::File::open(file).unwrap()))
}

/// The sizes of a saved state are its own.
#[test]
fn sizes_are_saved() {
    let folder = Folder::new();
    let part = folder.path("part");
    saved(
        &[
            "run",
            VECTOR_SUM,
            "--budget",
            "30",
            "--capacity",
            "60",
            "--cells",
            "40",
        ],
        &part,
    );
    let done = dayomlak(&["carry-on", &part]);
    assert!(
        done.out.contains("refused by 8, ledger full")
            && done.out.contains("of 60 records are used"),
        "{done:?}"
    );
    for name in ["--capacity", "--cells"] {
        let done = dayomlak(&["trace", &part, name, "100"]);
        done.fails(2);
        assert!(
            done.err
                .contains("which has a capacity and cells of its own\n  leave out"),
            "{done:?}"
        );
    }
}

/// A folder's files are saved with the text that they have.
#[test]
fn a_folder_is_saved_by_its_text() {
    let folder = Folder::new();
    let (files, part) = (folder.path("files"), folder.path("part"));
    dayomlak(&["asm", RECURSION, &files]);
    saved(&["run", &files, "--budget", "20"], &part);
    assert_eq!(
        dayomlak(&["carry-on", &part]).out,
        dayomlak(&["run", &files]).out
    );
    assert_eq!(
        dayomlak(&["show", &part, "--text"]).out,
        dayomlak(&["disasm", &files]).out
    );
}

/// What the documents show is what comes.
#[test]
fn the_documents_are_true() {
    let folder = Folder::new();
    let part = folder.path("sum.saved");
    let (run, bytes) = saved(&["run", VECTOR_SUM, "--budget", "30"], &part);
    let document =
        |name: &str| fs::read_to_string(format!("{}/docs/{name}", common::ROOT)).unwrap();
    let indented = |text: &str| {
        text.lines()
            .map(|line| format!("    {line}\n"))
            .collect::<String>()
    };
    let parts = Edited::of(&bytes).parts;
    let head = bytes.len() - parts.iter().map(Vec::len).sum::<usize>();
    assert!(document("FORMATS.md").contains(&indented(&String::from_utf8_lossy(&bytes[..head]))));
    let shown = [
        run,
        dayomlak(&["show", &part]),
        dayomlak(&["carry-on", &part]),
    ];
    for done in shown {
        assert!(
            document("SAVED.md").contains(&indented(&done.out)),
            "{done:?}"
        );
    }
    let mut damaged = bytes.clone();
    let ledger = head + parts[..3].iter().map(Vec::len).sum::<usize>();
    damaged[ledger] ^= 1;
    let damaged = dayomlak(&["show", &folder.write("damaged", damaged)]);
    let words = damaged.err.replace(&folder.path("damaged"), "sum.saved");
    assert!(document("SAVED.md").contains(&indented(&words)), "{words}");
    let expected = fs::read_to_string(format!(
        "{}/tools/dayomlak/tests/expected/saved/damaged_state",
        common::ROOT
    ))
    .unwrap();
    let refused = expected.split("\n\n").next().unwrap();
    assert!(document("SAVED.md").contains(&indented(refused)));
}

/// The page of a damaged state says why, and none is written over a state.
#[test]
fn the_page_of_a_damaged_state() {
    let folder = Folder::new();
    let mut edited = Edited::deferred(&folder);
    *edited.token(1, 24) = 1;
    let (file, page) = (folder.write("damaged", edited.bytes()), folder.path("page"));
    let done = dayomlak(&["report", &file, "-o", &page]);
    assert_eq!(done.status, 1);
    let page = fs::read_to_string(page).unwrap();
    assert!(page.contains("= a result is never spent: token 1, `other[0]`, is spent\n"));
    assert!(page.contains(
        "\"firings\":[],\"refused\":null,\"enabled\":[],\"held\":[],\"tokens\":[],\"cells\":[]"
    ));
    let done = dayomlak(&["report", &file, "-o", &file]);
    done.fails(2);
    assert!(
        done.err
            .contains("is the saved state itself, which would be overwritten"),
        "{done:?}"
    );
    assert_eq!(fs::read(&file).unwrap(), edited.bytes());
}
