//! What is said of a second token under one tag: the ways that the two came, and what keeps them apart.

mod common;

use common::{dayomlak, typed};

/// The lines of the answer that say why and what to do. Behind them stand the operands, the counts and the number.
fn notes(text: &str) -> Vec<String> {
    let done = typed(text, &["run", "-"]);
    assert!(
        done.out.starts_with("error: refused by 9, second token"),
        "{done:?}"
    );
    let notes = done
        .out
        .lines()
        .filter_map(|line| line.trim().strip_prefix("= "));
    let notes: Vec<String> = notes.map(str::to_string).collect();
    notes[..notes.len() - 3].to_vec()
}

const ONE_TOKEN: &str =
    "under one tag a port takes one token: let them end at two ports, or choose one by a SWITCH";

#[test]
fn two_arcs_into_one_port() {
    let done = dayomlak(&[
        "run",
        "examples/impossible_connection/impossible_connection.ttda",
    ]);
    let both = "  |
8 | sum:     ADD -> x.0
  |                 --- the first token came by this arc
9 | product: MUL -> x.0
  |                 ^^^ `x[0]` had a token already: 7, live
  |
  = two arcs end at one port: `sum` -> `x` and `product` -> `x`
";
    done.says(both);
    assert!(
        done.out.contains(ONE_TOKEN) && !done.out.contains("NEXT"),
        "{done:?}"
    );
}

#[test]
fn an_arc_and_an_input() {
    let text = "a: ADD 1 -> x.1\nx: SUB -> b\nb: OUT\ninput a = 1\ninput x.1 = 2\n";
    let why = "an input and the arc `a` -> `x.1` end at one port";
    assert_eq!(notes(text), [why, ONE_TOKEN]);
    let out = typed(text, &["run", "-"]).out;
    assert!(
        out.contains("5 | input x.1 = 2\n  | ------------- the first token came by this input\n"),
        "{out}"
    );
}

#[test]
fn two_inputs() {
    let out = typed(
        "a: OUT\nb: OUT\ninput b = 1\ninput a = 1\ninput a = 2\n",
        &["run", "-"],
    )
    .out;
    assert!(
        out.contains("4 | input a = 1\n  | ----------- the first one\n5 | input a = 2\n"),
        "{out}"
    );
}

#[test]
fn two_arcs_in_a_call() {
    let text = "e: ENTER site 1 -> n return d\nn: COPY -> p q\np: ADD 1 -> x\nq: FETCH -> x\nx: LEAVE 0\nd: OUT\n\
        input e = 1\n";
    let why = "two arcs end at one port: `p` -> `x` and `q` -> `x`";
    assert_eq!(notes(text), [why, ONE_TOKEN]);
}

#[test]
fn two_deferred_reads() {
    let text = "a: FETCH -> x\nb: FETCH -> x\nx: OUT\ninput a = 8\ninput b = 9\n";
    let out = typed(text, &["run", "-"]).out;
    assert!(
        out.contains("`x[0]` had a token already: deferred on cell 8\n"),
        "{out}"
    );
}

#[test]
fn a_loop_without_next() {
    let why = "the arc `b` -> `a` closes a loop without NEXT, so that two passes share a tag";
    let what = "let it go by a NEXT: `b: ... -> n` and `n: NEXT -> a`";
    assert_eq!(
        notes("a: COPY -> b\nb: ADD 1 -> a\ninput a = 1\n"),
        [why, what]
    );
    // Round a call, and inside one.
    let round = "a: ENTER site 1 -> n return b\nb: ADD 1 -> a\nn: LEAVE 0\ninput a = 1\n";
    assert_eq!(notes(round), [why, what]);
    let inside = "e: ENTER site 1 -> a return d\na: COPY -> b x\nb: ADD 1 -> a\nx: LEAVE 0\nd: OUT\ninput e = 1\n";
    assert_eq!(notes(inside), [why, what]);
    // The arc that goes round has sent first.
    let first = "c: COPY -> a\na: COPY -> b\nb: ADD 1 -> a\ninput b = 1\ninput c = 1\n";
    assert_eq!(notes(first), [why, what]);
}

/// A call returns by its own LEAVEs: what stands behind its return belongs to another one here.
#[test]
fn two_arcs_beside_a_call() {
    let text = "p: COPY -> a\na: ENTER site 1 -> f return x\nx: OUT\ny: ADD 1 -> p\nz: ADD 2 -> p\nf: LEAVE 0\ng: LEAVE 1\n\
        input y = 1\ninput z = 1\ninput g = 1\n";
    let why = "two arcs end at one port: `y` -> `p` and `z` -> `p`";
    assert_eq!(notes(text), [why, ONE_TOKEN]);
}

/// A variable that goes round and does not depend on itself.
#[test]
fn an_arc_of_a_loop_past_its_next() {
    let text = "j: COPY -> d_j new_x\nd_j: NEXT -> j\nnew_x: MUL 2 -> x\nx: SINK\ninput j = 1\ninput x = 0\n";
    let why = "an input and the arc `new_x` -> `x` end at one port";
    assert_eq!(
        notes(text),
        [
            why,
            ONE_TOKEN,
            "what goes round a loop needs a NEXT on its arc"
        ]
    );
}

/// Nothing is said of a NEXT where both arcs come from one.
#[test]
fn two_nexts_to_one_port() {
    let text = "a: COPY -> m n\nm: NEXT -> x\nn: NEXT -> x\nx: OUT\ninput a = 1\n";
    let why = "two arcs end at one port: `m` -> `x` and `n` -> `x`";
    assert_eq!(notes(text), [why, ONE_TOKEN]);
}

#[test]
fn two_calls_that_share_a_site() {
    let text = "a: ENTER site 1 -> c return d\nb: ENTER site 1 -> c return d\nc: LEAVE 0\nd: OUT\n\
        input a = 1\ninput b = 2\n";
    assert_eq!(
        notes(text),
        [
            "`a` and `b` enter `c` by one site, 1",
            "give each call a site of its own"
        ]
    );
}

#[test]
fn two_calls_without_enter() {
    let text =
        "a: ADD 1 -> f\nb: ADD 2 -> f\nf: MUL 2 -> back\nback: LEAVE 0\ninput a = 1\ninput b = 2\n";
    assert_eq!(
        notes(text),
        [
            "two arcs end at one port: `a` -> `f` and `b` -> `f`",
            ONE_TOKEN,
            "if `f` belongs to a procedure, each call needs an ENTER with a site of its own"
        ]
    );
}

#[test]
fn two_calls_that_return_to_one_port() {
    let text = "a: ENTER site 1 -> n return d\nb: ENTER site 2 -> n return d\nn: LEAVE 0\nd: OUT\n\
        input a = 1\ninput b = 1\n";
    assert_eq!(
        notes(text),
        [
            "two calls return to `d`",
            "give each call a return of its own"
        ]
    );
}

#[test]
fn an_arc_and_a_result() {
    let text = "a: ENTER site 1 -> n return d\nb: ADD 1 -> d\nn: LEAVE 0\nd: OUT\ninput a = 1\ninput b = 1\n";
    let why = "the arc `b` -> `d` and what `n` sends back end at one port";
    assert_eq!(notes(text), [why, ONE_TOKEN]);
}

#[test]
fn a_call_that_is_left_in_every_pass() {
    let text = "a: ENTER site 1 -> n return d\nn: COPY -> m back\nm: NEXT -> n\nback: LEAVE 0\nd: OUT\ninput a = 1\n";
    assert_eq!(
        notes(text),
        [
            "`back` leaves one call in two iterations, 0 and 1",
            "let only one pass come to it, by a SWITCH"
        ]
    );
}
