//! The page of a run: what it carries, that nothing in it is a user's markup, and what it says of refused runs.
//! `tests/browser` opens it in a browser.

mod common;

use std::fs;

use common::{command, dayomlak, done, Done, Folder, ROOT};

/// What the command answered, and the page.
fn report(file: &str, options: &[&str]) -> (Done, String) {
    let folder = Folder::new();
    let page = folder.path("page.html");
    let done = dayomlak(&[&["report", file, "-o", &page], options].concat());
    (done, fs::read_to_string(page).unwrap_or_default())
}

/// The page of a text.
fn typed(text: &str, options: &[&str]) -> (Done, String) {
    let folder = Folder::new();
    report(&folder.write("typed.ttda", text), options)
}

/// What stands between two words, the first time.
fn between<'p>(page: &'p str, from: &str, to: &str) -> &'p str {
    let start = page
        .split_once(from)
        .unwrap_or_else(|| panic!("no {from}"))
        .1;
    start.split_once(to).unwrap_or_else(|| panic!("no {to}")).0
}

fn data(page: &str) -> &str {
    between(
        page,
        "<script type=\"application/json\" id=\"data\">",
        "</script>",
    )
}

/// Elements without an end.
const VOID: [&str; 2] = ["meta", "input"];

/// The first tag that does not fit the open ones; scripts and styles are text.
fn unbalanced(page: &str) -> Option<String> {
    let mut open: Vec<&str> = Vec::new();
    let mut rest = page;
    while let Some((_, from)) = rest.split_once('<') {
        let (tag, behind) = from.split_once('>').unwrap_or((from, ""));
        let name = tag.split_whitespace().next().unwrap_or_default();
        rest = match name {
            "script" | "style" => &behind[behind.find("</").unwrap_or(0)..],
            _ if name.starts_with("!--") => from.split_once("-->").map_or("", |(_, rest)| rest),
            _ => behind,
        };
        let alone = VOID.contains(&name) || tag.ends_with('/') || name.starts_with('!');
        match name.strip_prefix('/') {
            Some(name) if open.pop() != Some(name) => return Some(tag.to_string()),
            None if !alone => open.push(name),
            _ => {}
        }
    }
    open.pop().map(str::to_string)
}

#[test]
fn unbalanced_tags_are_found() {
    assert_eq!(unbalanced("<p><i>a</i><meta x><b/></p><!-- <p> -->"), None);
    assert!(unbalanced("<p><i>a</p></i>").is_some());
    assert!(unbalanced("<p><i>a</i>").is_some());
    assert!(unbalanced("a</p>").is_some());
}

/// That a page needs nothing else. The name of SVG's language is no reference.
fn stands_alone(page: &str) {
    assert_eq!(unbalanced(page), None);
    let page = page.replace("http://www.w3.org/", "");
    for word in ["http:", "https:", "src=", "href=", "@import", "url("] {
        assert!(!page.contains(word), "{word}");
    }
}

/// The lines of the listing after these firings, tokens and cells, as the data of a page give them.
fn lines_at(page: &str, position: usize) -> Vec<String> {
    let at = |item: &str| {
        let changes = between(item, "\"changes\":[[", "]]");
        let change = |change: &str| {
            let mut parts = change
                .split(',')
                .map(|part| part.trim_matches('"').to_string());
            let mut next = || parts.next().unwrap();
            (next().parse::<usize>().unwrap(), next(), next())
        };
        let changes: Vec<_> = changes.split("],[").map(change).collect();
        changes
            .into_iter()
            .rev()
            .find(|(from, ..)| *from <= position)
    };
    let tokens = between(data(page), "\"tokens\":[", ",\"cells\":[");
    let tokens = tokens.split("{\"name\":").skip(1).filter_map(|token| {
        let (_, state, value) = at(token)?;
        Some(format!(
            "{} {value} {state}",
            between(token, "\"key\":\"", "\"")
        ))
    });
    let cells = between(data(page), ",\"cells\":[", ",\"steps\":[");
    let cells = cells.split("{\"cell\":").skip(1).filter_map(|cell| {
        let (_, state, value) = at(cell)?;
        Some(format!(
            "cell {} {state} {value}",
            cell.split_once(',').unwrap().0
        ))
    });
    let mut lines: Vec<String> = tokens.chain(cells).collect();
    lines.sort();
    lines
}

const EXAMPLES: [&str; 4] = ["vector_sum", "recursion", "deferred_read", "past_next"];

fn example(name: &str) -> String {
    format!("examples/{name}/{name}.ttda")
}

#[test]
fn a_page_carries_what_the_run_answers() {
    for name in EXAMPLES {
        let file = example(name);
        let (done, page) = report(&file, &["--order", "newest"]);
        let run = dayomlak(&["run", &file, "--order", "newest"]);
        assert_eq!(done.status, run.status, "{name}");
        assert!(run.out.starts_with(&done.out), "{name}: {done:?}");
        stands_alone(&page);
        for words in [
            &file[..],
            "newest first",
            "2026-11-16 05:40:12 UTC",
            "budget 2048",
        ] {
            assert!(page.contains(words), "{name}: {words}");
        }
        let listing = dayomlak(&["run", &file, "--order", "newest", "--listing"]).out;
        assert!(page.contains(&format!(
            "<pre id=\"listing\" tabindex=\"0\">{listing}</pre>"
        )));
        let text = fs::read_to_string(format!("{ROOT}/{file}")).unwrap();
        let shown = between(&page, "<pre id=\"text\" tabindex=\"0\">", "</pre>");
        assert_eq!(
            shown
                .replace("&gt;", ">")
                .replace("&lt;", "<")
                .replace("&#39;", "'"),
            text
        );
    }
}

/// After any number of firings the page has the tokens and cells that the engine left then.
#[test]
fn every_state_is_the_engines() {
    for name in EXAMPLES {
        let file = example(name);
        let order = ["--order", "random:3"];
        let (_, page) = report(&file, &order);
        let listing = |budget: usize| {
            let options = ["--budget", &budget.to_string(), "--listing"];
            dayomlak(&[&["run", &file], &order[..], &options].concat()).out
        };
        let fired = between(data(&page), "\"firings\":[", ",\"refused\":");
        let firings = fired.matches("\"tag\":").count();
        for budget in 0..=firings {
            let listing = listing(budget);
            let mut lines: Vec<&str> = listing.lines().skip(1).collect();
            lines.sort();
            assert_eq!(lines_at(&page, budget), lines, "{name}, {budget}");
        }
        let more = |budget| listing(budget).starts_with("spent");
        assert!(more(firings - 1) && !more(firings + 1), "{name}");
    }
}

/// What `trace` says of a firing stands in the page, with the ideal step of its activity.
#[test]
fn firings_in_words() {
    let text = "a: COPY -> c.0 b\nb: ADD 1 -> c.1\nc: SUB -> d\nd: OUT\nwrite: STORE\n\
        input a = 4\ninput write.0 = 3\ninput write.1 = 9\n";
    let (_, page) = typed(text, &[]);
    let expected = [
        ("a[0]", 0, "COPY with 4 -\\u003e c[0].0 = 4, b[0] = 4", 1),
        ("write[0]", 4, "STORE with 3 and 9: cell 3 := 9", 0),
        ("b[0]", 1, "ADD 1 with 4 -\\u003e c[0].1 = 5", 2),
        ("c[0]", 2, "SUB with 4 and 5 -\\u003e d[0] = -1", 3),
    ];
    let firings: Vec<String> = expected.map(|(name, number, words, step)| {
        let tag = format!("path 0, iteration 0, instruction {number}");
        // A STORE of two inputs and no arc stands in the table of loads.
        let at = if name == "write[0]" { "load-0".to_string() } else { format!("instruction-{number}") };
        format!("{{\"name\":\"{name}\",\"tag\":\"{tag}\",\"at\":\"{at}\",\"words\":\"{words}\",\"step\":{step}}}")
    }).into();
    let shown = between(data(&page), "\"firings\":[", "],\"refused\"");
    assert_eq!(shown, firings.join(","));
    let steps = "\"steps\":[[1,1,0],[1,2,1],[1,2,0],[1,1,0]],\"firstStep\":0,";
    assert!(data(&page).contains(steps), "{}", data(&page));
}

/// Each activity is enabled from the position at which its last operand is there, up to that of its firing.
#[test]
fn what_is_enabled_at_a_position() {
    let text = "a: COPY -> c.0 b\nb: ADD 1 -> c.1\nc: SUB -> d\nd: OUT\ne: SINK\ninput a = 4\ninput e = 1\n";
    let (_, page) = typed(text, &["--picks", "0,1", "--budget", "3"]);
    let expected = [
        ("a", 0, 0, 1),
        ("e", 4, 0, 3),
        ("c", 2, 2, 4),
        ("b", 1, 1, 2),
    ];
    let enabled = expected.map(|(name, number, since, until)| {
        format!("{{\"name\":\"{name}[0]\",\"at\":\"instruction-{number}\",\"since\":{since},\"until\":{until}}}")
    });
    let shown = between(data(&page), "\"enabled\":[", "],\"held\"");
    assert_eq!(shown, enabled.join(","));
}

/// A token stands on the arc that it came by, where there are two to one instruction, and back from a call.
#[test]
fn tokens_stand_on_their_arcs() {
    let arcs = |text: &str| -> Vec<String> {
        // Graphviz writes a hyphen by its number.
        let page = typed(text, &[]).1.replace("&#45;", "-");
        let arc = |item: &str| item.split_once('"').unwrap().0.to_string();
        let arcs: Vec<String> = data(&page).split("\"arc\":\"").skip(1).map(arc).collect();
        for arc in arcs.iter().filter(|arc| !arc.starts_with("load-")) {
            assert!(
                page.contains(&format!("<g id=\"{arc}\" class=\"edge\">")),
                "{arc}"
            );
        }
        arcs
    };
    let twice = "a: COPY -> b.1 b.0\nb: SWITCH -> c c\nc: SINK\ninput a = 0\n";
    assert_eq!(arcs(twice), ["input-0", "arc-0-0", "arc-0-1", "arc-1-1"]);
    let call = "a: ENTER site 1 -> b return d\nb: ADD 1 -> c\nc: LEAVE 0\nd: OUT\ncell 1 = 2\ninput a = 1\n";
    let expected = [
        "load-0",
        "load-0",
        "input-2",
        "arc-0-0",
        "arc-1-0",
        "return-0-3",
    ];
    assert_eq!(arcs(call), expected);
}

/// Names and comments are text, in whatever part of the page they stand.
#[test]
fn nothing_typed_is_markup() {
    let folder = Folder::new();
    let text = "# </script><script>alert(1)</script> </pre> <!-- & \" ' {{data}}\na: DIV 0 -> b # </pre><i>\nb: OUT\ninput a = 1\n";
    let file = folder.write("a&b<script>\"'{{data}}.ttda", text);
    let (done, page) = report(&file, &[]);
    assert_eq!(done.status, 1);
    stands_alone(&page);
    assert!(page.contains("a&amp;b&lt;script&gt;&quot;&#39;{{data}}.ttda"));
    assert!(page.contains(
        "&lt;/script&gt;&lt;script&gt;alert(1)&lt;/script&gt; &lt;/pre&gt; &lt;!-- &amp; &quot;"
    ));
    for (word, count) in [
        ("<script", 2),
        ("</script", 2),
        ("<i>", 0),
        ("<!DOCTYPE", 1),
        ("alert", 1),
    ] {
        assert_eq!(page.matches(word).count(), count, "{word}");
    }
}

#[test]
fn a_page_comes_out_the_same_again() {
    let file = example("call");
    let (_, first) = report(&file, &[]);
    assert_eq!(first, report(&file, &[]).1);
    let folder = Folder::new();
    let page = folder.path("page.html");
    let mut later = command(&folder, &["report", &file, "-o", &page]);
    done(later.env("SOURCE_DATE_EPOCH", "1794807613"));
    let later = fs::read_to_string(page).unwrap();
    assert_eq!(first.replace("05:40:12 UTC", "05:40:13 UTC"), later);
    assert_ne!(first, later);
}

/// The refused activity is the page's last position, with its operands and the place in the text.
#[test]
fn a_refused_firing() {
    let (done, page) = report(&example("past_next"), &[]);
    assert_eq!(done.status, 1);
    let refused = between(data(&page), "\"refused\":{", "},\"enabled\"");
    assert!(refused.starts_with("\"name\":\"new_s[0]\""), "{refused}");
    assert!(refused.contains("\"words\":\"refused by 9, second token\""));
    assert!(refused.contains("\"operands\":[7,10]"), "{refused}");
    assert!(refused.contains("\"arc\":\"arc-10-0\""), "{refused}");
    assert!(page.contains("<details id=\"why\"><summary>"));
    let words = between(&page, "<pre id=\"refusal\">", "</pre>");
    assert!(words.contains("past_next.ttda:23:16") && words.contains("had a token already"));
    assert!(page.contains(
        "class=\"refused\">refused by 9, second token: 6 firings, 11 tokens, oldest first</p>"
    ));
}

/// A graph that is refused before any firing has a page with its picture and the place, and no state.
#[test]
fn refused_before_any_firing() {
    let cases = [
        ("", "refused by 1, graph length", ""),
        (
            "a: OUT\ninput a = 1\ninput a = 2\n",
            "refused by 9, second token",
            "input-1",
        ),
        (
            "a: raw 63 00 00 00 00 00 00 00 00 00 00 00 00 00 00 00\n",
            "refused by 2, unknown operation",
            "instruction-0",
        ),
    ];
    for (text, words, fault) in cases {
        let (done, page) = typed(text, &[]);
        assert_eq!(done.status, 1);
        done.says(words);
        stands_alone(&page);
        assert!(between(&page, "<pre id=\"refusal\">", "</pre>").contains(words));
        let empty = "\"firings\":[],\"refused\":null,\"enabled\":[],\"held\":[],\"tokens\":[],\"cells\":[],\"steps\":[],\"firstStep\":1";
        let start = "{\"before\":0,\"carriedOn\":false";
        assert_eq!(
            data(&page),
            format!("{start},{empty},\"fault\":\"{fault}\"}}")
        );
        assert!(page.contains("<svg"));
    }
}

#[test]
fn a_graph_too_large_is_not_drawn() {
    let words = "Not drawn: no run takes more than 256 instructions";
    for (instructions, drawn) in [(256, true), (257, false)] {
        let (done, page) = typed(&"SINK\n".repeat(instructions), &[]);
        assert_eq!(done.status, i32::from(!drawn), "{instructions}");
        assert_eq!(page.contains(words), !drawn, "{instructions}");
        assert_eq!(page.contains("id=\"graph0\""), drawn, "{instructions}");
    }
}

/// A profile that is refused is shown as far as it went.
#[test]
fn a_spent_run_with_a_refused_profile() {
    let text = "a: COPY -> b\nb: DIV 0 -> c\nc: SINK\ninput a = 1\n";
    let (done, page) = typed(text, &["--budget", "1"]);
    assert_eq!(done.status, 1);
    assert!(
        page.contains("class=\"spent\">spent: 1 firing, 2 tokens, oldest first; more can fire</p>")
    );
    assert!(page.contains(
        "1 ideal step, then refused by 12, out of range, in the next step: 1 firing, 2 tokens</span>. "
    ));
    assert!(data(&page).contains("\"refused\":null"));
}

#[test]
fn a_page_that_cannot_be_written() {
    let file = example("call");
    let folder = Folder::new();
    let (nowhere, taken) = (folder.path("no/page.html"), folder.path("taken"));
    fs::create_dir(&taken).unwrap();
    for page in [&nowhere, &taken] {
        let done = dayomlak(&["report", &file, "-o", page]);
        done.fails(3);
        assert!(
            done.err.starts_with(&format!("error: {page}: ")),
            "{done:?}"
        );
    }
    let left: Vec<_> = fs::read_dir(folder.path("")).unwrap().collect();
    assert_eq!(left.len(), 1);
}

#[test]
fn without_graphviz_there_is_no_page() {
    let folder = Folder::new();
    let page = folder.path("page.html");
    let mut command = command(&folder, &["report", &example("call"), "-o", &page]);
    let done = done(command.env("PATH", ""));
    done.fails(3);
    done.complains("Graphviz is not installed");
    assert!(fs::metadata(&page).is_err());
}

#[test]
fn texts_with_faults_have_no_page() {
    let (done, page) = typed("a: FROB\n", &[]);
    assert_eq!((done.status, &done.out[..], &page[..]), (2, "", ""));
    assert_eq!(dayomlak(&["report", &example("call")]).status, 2);
    assert_eq!(
        dayomlak(&["report", "no/such/file", "-o", "x.html"]).status,
        3
    );
}
