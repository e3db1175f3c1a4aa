//! Named arrays: what is said of them, and that no run is taken for one under another table.

mod common;

use std::fs;

use common::{dayomlak, done, kept_command, typed, Folder};

/// c[j] = a[j] + 1 for j from 1 to 3.
const SUM: &str = "array a = 3
array c = 3 at 20
j: COPY -> more test.0
more: LE 3 -> test.1
test: SWITCH -> pass end
end: SINK
pass: COPY -> body next
next: ADD 1 -> d
d: NEXT -> j
body: COPY -> read write.0
read: FETCH a -> plus
plus: ADD 1 -> write.1
write: STORE c
input j = 1
a[1] = 5
a[2] = 6
a[3] = 7
";

/// A read that nothing answers.
const LATE: &str = "array a = 3 at 4\nread: FETCH a -> out\nout: OUT\ninput read = 2\n";

fn fingerprint(text: &str) -> String {
    let folder = Folder::new();
    let drawn = dayomlak(&["draw", "--dot", &folder.write("x.ttda", text)]).out;
    let digits = drawn.split("graph and inputs ").nth(1).unwrap();
    digits[..16].to_string()
}

#[test]
fn elements_have_their_names() {
    let done = typed(SUM, &["run", "-"]);
    let words = "completed: 37 firings, 47 tokens, oldest first\nc[1] = 6\nc[2] = 7\nc[3] = 8\n(3 loaded cells)\n";
    assert_eq!((&done.out[..], done.status), (words, 0), "{done:?}");
    assert_eq!(done.err, "");
    let traced = typed(SUM, &["trace", "-"]).out;
    for words in [
        "  a[1][0]   STORE a  1 5  a[1] := 5\n",
        "  read[2]   FETCH a    3  -> plus[2] = 7; reads a[3]\n",
        "  write[1]  STORE c  2 7  c[2] := 7\n",
    ] {
        assert!(traced.contains(words), "{words} in\n{traced}");
    }
    let csv = typed(SUM, &["trace", "-", "--csv"]).out;
    assert!(csv.contains(",STORE c,2 7,c[2] := 7,"), "{csv}");
    // The listing is the printing program's, which knows no names.
    let listing = typed(SUM, &["run", "-", "--listing"]).out;
    assert!(listing.ends_with("cell 20 present 6\ncell 21 present 7\ncell 22 present 8\n"));
}

#[test]
fn a_read_that_waits_is_named() {
    let done = typed(LATE, &["run", "-"]);
    let words = "out[0] waits for a[2], which nothing wrote\na[2] is read and not written\n";
    assert!(done.out.ends_with(words), "{done:?}");
    let json = typed(LATE, &["run", "-", "--json"]).out;
    let token = "\"value\":5,\"state\":\"deferred\",\"waits_for\":\"a[2]\"}";
    assert!(json.contains(token), "{json}");
    let cell = "{\"cell\":5,\"name\":\"a[2]\",\"state\":\"waiting\",\"value\":null}";
    assert!(json.contains(cell), "{json}");
    let json = typed(LATE, &["trace", "-", "--json"]).out;
    let cell = "{\"cell\":5,\"name\":\"a[2]\",\"touch\":\"deferred\",\"woken\":[]}";
    assert!(json.contains(cell), "{json}");
}

/// A read that comes before its write.
#[test]
fn a_read_that_is_woken_is_named() {
    let text = LATE.to_string() + "late: STORE a\ninput late.0 = 2\ninput late.1 = 9\n";
    let traced = typed(&text, &["trace", "-"]).out;
    let words = "-> out[0] deferred: a[2] has no value yet\n";
    assert!(traced.contains(words), "{traced}");
    assert!(traced.contains("a[2] := 9; wakes out[0]\n"), "{traced}");
}

/// Two names of one cell: what touches it has its own, and what is left the first.
#[test]
fn two_names_of_one_cell() {
    let text = "array a = 4\narray b = 4 at 2\nw: STORE b\ninput w.0 = 1\ninput w.1 = 9\n";
    let done = typed(text, &["trace", "-"]);
    done.says("STORE b  1 9  b[1] := 9\n");
    done.says("completed: 1 firing");
    assert!(typed(text, &["run", "-"]).out.contains("\na[3] = 9\n"));
    done.complains("`b[1]` is `a[3]`");
    let twice = text.to_string() + "a[3] = 1\n";
    let done = typed(&twice, &["run", "-"]);
    done.says("refused by 11, second write");
    done.says("a[3] was written by `w[0]`");
}

/// An array may be empty, also behind the last cell.
#[test]
fn an_empty_array() {
    let text = "array last = 1023\narray one = 1\narray none = 0\nr: FETCH none -> out\nout: OUT\ninput r = 1\n";
    let done = typed(text, &["run", "-"]);
    done.says("refused by 10, no such cell");
    done.says("`none` has 0 elements; index 1");
    done.says("`none` is empty");
}

/// The bounds take no table.
#[test]
fn bounds_let_the_name_by() {
    let done = typed(LATE, &["bounds", "-"]);
    let words = "every order needs at most 1 firing, 2 tokens\n";
    assert_eq!((&done.out[..], done.status), (words, 0));
    let done = typed(LATE, &["check", "-"]);
    assert!(done.out.ends_with(words) && done.status == 0, "{done:?}");
}

#[test]
fn an_expression_has_no_arrays() {
    let done = dayomlak(&["expression", "a[3] * 2", "a=1"]);
    done.fails(2);
    let words = "`[` cannot stand in an expression";
    done.complains(words);
    done.complains("give the element a name");
}

/// The folder of a typed graph runs as the text does; its arrays are named by their numbers.
#[test]
fn the_file_of_arrays() {
    let folder = Folder::new();
    let (file, files) = (folder.write("sum.ttda", SUM), folder.path("files"));
    assert_eq!(dayomlak(&["asm", &file, &files]).status, 0);
    let table = fs::read(folder.path("files/arrays")).unwrap();
    assert_eq!(table, [0, 0, 3, 0, 20, 0, 3, 0]);
    let listing = |name: &str| dayomlak(&["run", name, "--listing"]).out;
    assert_eq!(listing(&files), listing(&file));
    let run = dayomlak(&["run", &files]).out;
    assert!(run.contains("\narray2[1] = 6\narray2[2] = 7\n"), "{run}");
    let text = dayomlak(&["disasm", &files]).out;
    assert!(text.starts_with("array array1 = 3 at 0\narray array2 = 3 at 20\n"));
    assert!(text.contains("FETCH array1 -> ") && text.contains("STORE array2\n"));
    // A graph without arrays leaves none of another's behind.
    let plain = folder.write("plain.ttda", "out: OUT\ninput out = 1\n");
    assert_eq!(dayomlak(&["asm", &plain, &files]).status, 0);
    assert_eq!(fs::read(folder.path("files/arrays")).unwrap(), []);
}

/// What no table may be, by its file.
#[test]
fn tables_that_are_refused() {
    let folder = Folder::new();
    let (file, files) = (folder.write("sum.ttda", SUM), folder.path("files"));
    assert_eq!(dayomlak(&["asm", &file, &files]).status, 0);
    let cases: [(&[u8], &str); 5] = [
        (&[], "it names array 1, and there is no array"),
        (&[0, 0, 3, 0], "it names array 2, and 1 is the only one"),
        (
            &[0; 7],
            "the arrays have 7 bytes, no whole number of arrays, which have 4 each",
        ),
        (&[0; 260], "there are 65 arrays, and 64 is the most"),
        (
            &[254, 3, 3, 0, 0, 0, 1, 0],
            "`array1` has cells 1022 to 1024, and the cells are 0 to 1023",
        ),
    ];
    for (table, words) in cases {
        folder.write("files/arrays", table);
        for command in ["run", "check", "profile", "trace"] {
            let done = dayomlak(&[command, &files]);
            let all = done.out.clone() + &done.err;
            let title = "refused by 22, bad array, before the first ";
            assert!(all.contains(title) && all.contains(words), "{done:?}");
            assert_eq!(done.status, 1);
        }
    }
    fs::remove_file(folder.path("files/arrays")).unwrap();
    let done = dayomlak(&["run", &files]);
    done.says("refused by 22, bad array");
}

/// The same graph and inputs under another table are another run: for logs, pictures and the kept plot.
#[test]
fn another_table_is_another_run() {
    let folder = Folder::new();
    let moved = SUM.replace("array c = 3 at 20", "array c = 3 at 30");
    let longer = SUM.replace("array a = 3", "array a = 4");
    let (file, log) = (folder.write("sum.ttda", SUM), folder.path("log"));
    assert_eq!(dayomlak(&["log", &file, "-o", &log]).status, 0);
    assert_eq!(dayomlak(&["replay", &file, &log]).status, 0);
    let plot = |text: &str| {
        let (file, picture) = (folder.write("plot.ttda", text), folder.path("plot.svg"));
        let plotted = done(&mut kept_command(
            &folder,
            &["profile", &file, "-o", &picture],
        ));
        (plotted.out, fs::read_to_string(picture).unwrap())
    };
    plot(SUM);
    assert!(plot(SUM).0.contains("the same run"));
    for other in [&moved, &longer] {
        let name = folder.write("other.ttda", other);
        let replayed = dayomlak(&["replay", &name, &log]);
        replayed.fails(2);
        assert!(replayed.err.contains("is the log of another run"));
        assert_ne!(fingerprint(SUM), fingerprint(other));
        let (said, picture) = plot(other);
        assert!(!said.contains("asked for") && !picture.contains("asked for"));
        assert!(picture.contains(&fingerprint(other)));
        plot(SUM);
    }
    // Names are no part of a run.
    assert_eq!(
        fingerprint(SUM),
        fingerprint(
            &SUM.replace("a[", "x[")
                .replace("array a", "array x")
                .replace("FETCH a", "FETCH x")
        )
    );
}

/// A saved state has the table; the rest of the run is under it.
#[test]
fn saved_and_carried_on() {
    let folder = Folder::new();
    let file = folder.write("sum.ttda", SUM);
    let whole = dayomlak(&["run", &file, "--listing"]).out;
    for budget in ["0", "1", "9", "20", "33", "37"] {
        let part = folder.path("part");
        let run = ["run", &file, "--budget", budget, "--save", &part];
        assert!(dayomlak(&run).status < 2);
        assert_eq!(dayomlak(&["carry-on", &part, "--listing"]).out, whole);
    }
    let part = folder.path("part");
    dayomlak(&["run", &file, "--budget", "20", "--save", &part]);
    let head = String::from_utf8_lossy(&fs::read(&part).unwrap()).into_owned();
    assert!(head.contains("\npart arrays 8 "), "{head}");
    let shown = dayomlak(&["show", &part]).out;
    assert!(shown.contains("cells:\n  c[1] = 6\n"), "{shown}");
    assert!(dayomlak(&["trace", &part]).out.contains("c[3] := 8"));
    let late = folder.write("late.ttda", LATE);
    dayomlak(&["run", &late, "--save", &part]);
    let shown = dayomlak(&["show", &part]).out;
    assert!(shown.contains("\n  out[0], for a[2]\n"), "{shown}");
}

/// A picture and a page have the names, too.
#[test]
fn pictures_and_pages() {
    let folder = Folder::new();
    let file = folder.write("sum.ttda", SUM);
    let drawn = dayomlak(&["draw", "--dot", &file]).out;
    assert!(drawn.contains("label=<FETCH a<br/>") && drawn.contains("label=<STORE c<br/>"));
    assert!(drawn.contains("<td align=\"right\">a[3]</td><td align=\"right\">7</td>"));
    let page = folder.path("page.html");
    assert_eq!(dayomlak(&["report", &file, "-o", &page]).status, 0);
    let page = fs::read_to_string(page).unwrap();
    assert!(page.contains("{\"cell\":21,\"name\":\"c[2]\",\"changes\":"));
    assert!(page.contains("c[2] := 7"));
}

/// A page marks the instruction that names no array, and nothing where the table itself is refused.
#[test]
fn the_page_of_a_refused_table() {
    let folder = Folder::new();
    let (file, files) = (folder.write("sum.ttda", SUM), folder.path("files"));
    assert_eq!(dayomlak(&["asm", &file, &files]).status, 0);
    for (table, fault) in [
        (&[0, 0, 3, 0][..], "\"fault\":\"instruction-10\""),
        (&[0; 7], "\"fault\":\"\""),
    ] {
        folder.write("files/arrays", table);
        let page = folder.path("page.html");
        assert_eq!(dayomlak(&["report", &files, "-o", &page]).status, 1);
        let page = fs::read_to_string(page).unwrap();
        assert!(page.contains(fault), "{fault}");
        assert!(page.contains("refused by 22, bad array"));
    }
}
