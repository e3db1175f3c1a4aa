//! Every error of a text: its line, the words that it marks, and its hint.

use asm::{assemble, Errors};
use layout::widths;

fn errors(text: &str) -> Vec<asm::Error> {
    let Errors(errors) = assemble(text).expect_err(text);
    errors
}

/// A text, the line at fault, the words that are marked, the message and the hint.
type Case = (
    &'static str,
    usize,
    &'static str,
    &'static str,
    Option<&'static str>,
);

#[rustfmt::skip]
const OPERATIONS: [Case; 28] = [
    ("\n\nx: FROB -> x.0", 3, "FROB", "`FROB` is no operation", None),
    ("x: COPPY -> x.0", 1, "COPPY", "`COPPY` is no operation", Some("did you mean COPY?")),
    ("x: OUT\ninputs x = 3", 2, "inputs", "`inputs` is no operation", Some("did you mean input?")),
    ("cells 3 = 4", 1, "cells", "`cells` is no operation", Some("did you mean cell?")),
    ("pick 3", 1, "pick", "`pick` is no operation", Some("did you mean picks?")),
    ("x: D -> x.0", 1, "D", "`D` is no operation", Some("the memo's D is written NEXT here")),
    ("x: D-reset", 1, "D-reset", "`D-reset` is no operation", Some("LEAVE drops the iteration here")),
    ("x: L -> x", 1, "L", "`L` is no operation", Some("the memo's L is written ENTER here")),
    ("x: L⁻¹", 1, "L⁻¹", "`L⁻¹` is no operation", Some("the memo's L⁻¹ and END are written LEAVE here")),
    ("x: A -> x", 1, "A", "`A` is no operation", Some("the memo's A is written ENTER here, one for each argument")),
    ("x: A-1", 1, "A-1", "`A-1` is no operation", Some("the memo's A⁻¹ is the instruction behind `return` of ENTER")),
    ("x: begin -> x", 1, "begin", "`begin` is no operation", Some("there is no BEGIN: ENTER sends to the first instruction")),
    ("x: GT 3 -> x", 1, "GT", "`GT` is no operation", Some("there is no GT: `a > b` is LT with b on port 0")),
    ("x: GE -> x", 1, "GE", "`GE` is no operation", Some("there is no GE: `a >= b` is LE with b on port 0")),
    ("x: NOT -> x", 1, "NOT", "`NOT` is no operation", Some("EQ 0 turns 1 into 0 and 0 into 1")),
    ("x: MOD 2 -> x", 1, "MOD", "`MOD` is no operation", Some("the remainder is written REM")),
    ("x: MERGE -> x", 1, "MERGE", "`MERGE` is no operation", Some("there is no MERGE: arcs may end at one port, if one of them alone sends under a tag, as the arms of a SWITCH do")),
    ("x: READ -> x", 1, "READ", "`READ` is no operation", Some("a cell is read by FETCH")),
    ("x: WRITE", 1, "WRITE", "`WRITE` is no operation", Some("a cell is written by STORE")),
    ("x ADD -> x", 1, "x", "`x` is no operation", Some("a colon behind the name: `x: ADD`")),
    ("x: OUT -> x.0", 1, "x.0", "OUT has no destinations", Some("an arc ends here")),
    ("x: COPY", 1, "COPY", "COPY has 1 or 2 destinations, not 0", Some("where does its token go? `-> name.port`")),
    ("x: SWITCH -> x.0", 1, "x.0", "SWITCH has 2 destinations, not 1", Some("the second one is taken if port 1 is 0; a SINK swallows it")),
    ("x: COPY -> x x x", 1, "x x x", "COPY has 1 or 2 destinations, not 3", Some("let one arc go to a COPY, which sends to two")),
    ("x: STORE -> x x x", 1, "x x x", "STORE has at most 2 destinations, not 3", Some("let one arc go to a COPY, which sends to two")),
    ("x: raw 00", 1, "raw 00", "1 byte instead of 16", None),
    ("x: raw 0g", 1, "0g", "`0g` is not a byte of two hexadecimal digits", None),
    ("x:", 1, "x:", "x has no instruction", Some("for example `x: COPY -> other.0`")),
];

#[rustfmt::skip]
const CONSTANTS: [Case; 17] = [
    ("x: COPY 4 -> x", 1, "4", "COPY is followed by `4`", Some("COPY has no constant; 4 comes by an arc, or by `input name = 4`")),
    ("x: COPY x y", 1, "x y", "COPY is followed by `x y`", Some("an arrow before the targets: `COPY -> x y`")),
    ("x: ADD x", 1, "x", "`x` is not a signed number of 32 bits", Some("an arrow before the targets: `ADD -> x`")),
    ("x: ADD 5 x", 1, "5 x", "ADD is followed by `5 x`", Some("an arrow before the targets: `ADD 5 -> x`")),
    ("x: CONST 5 x y", 1, "CONST", "CONST needs one constant", Some("an arrow before the targets: `CONST 5 -> x y`")),
    ("x: ADD 5 6", 1, "5 6", "ADD is followed by `5 6`", None),
    ("x: CONST -> x", 1, "CONST", "CONST needs one constant", Some("for example `CONST 5 -> name.port`")),
    ("x: CONST 2147483648 -> x", 1, "2147483648", "`2147483648` is not a signed number of 32 bits", None),
    ("x: LEAVE 256", 1, "256", "`256` is not a LEAVE constant, 0 to 255", None),
    ("x: LEAVE", 1, "LEAVE", "LEAVE needs one constant, 0 to 255", Some("`LEAVE 0` sends to the return instruction itself")),
    ("x: ENTER site 0 -> x return x", 1, "0", "`0` is not a site, 1 to 255", None),
    ("x: ENTER 1 -> x return x", 1, "ENTER", "ENTER is `ENTER site N -> name.port return name`", None),
    ("x: ENTER site 1 -> x x", 1, "ENTER", "ENTER is `ENTER site N -> name.port return name`", None),
    ("x: ADD -> x\ny: ENTER site 1 -> x return x.1", 2, "x.1", "a return is to port 0", None),
    ("picks 0 65536", 1, "65536", "`65536` is not a pick, 0 to 65535", None),
    ("cell 1024 = 0", 1, "1024", "`1024` is not the number of a cell, 0 to 1023", None),
    ("cell 3: 7", 1, "cell 3: 7", "a cell is loaded by `cell number = value`", None),
];

#[rustfmt::skip]
const NAMES: [Case; 21] = [
    ("x: COPY -> y.0", 1, "y", "`y` is not defined", None),
    ("tests: COPY -> testss.0", 1, "testss", "`testss` is not defined", Some("did you mean `tests`?")),
    ("prod: COPY -> pord", 1, "pord", "`pord` is not defined", Some("did you mean `prod`?")),
    ("x: OUT\nx: SINK", 2, "x", "`x` is defined twice", Some("the first is in line 1")),
    ("x: OUT\ny: COPY -> x.1", 2, "x.1", "`x` has no port 1, its operand count is 1", Some("its only port is `x.0`")),
    ("x: ADD -> x.2", 1, "x.2", "`x` has no port 2, its operand count is 2", Some("its ports are `x.0` and `x.1`")),
    ("x: COPY -> x.y", 1, "y", "`y` is not a port", None),
    ("x: COPY -> x:0", 1, ":", "a colon among the targets", Some("a port is written with a point: `name.0`")),
    ("9x: OUT", 1, "9x", "`9x` is no name: letters, digits and _, no digit first", None),
    (": OUT", 1, ":", "a colon without a name", None),
    ("input: OUT", 1, "input", "`input` cannot be a name", Some("it begins a line of its own or a clause")),
    ("x: OUT\ninput x.0 7", 2, "input x.0 7", "an input is `input name.port = value`", None),
    ("x: OUT\n\ninput x.0 = 7a", 3, "7a", "`7a` is not a signed number of 32 bits", None),
    ("input x.0 = 7", 1, "x", "`x` is not defined", None),
    ("cell 3 7", 1, "cell 3 7", "a cell is loaded by `cell number = value`", None),
    ("x: COPY → x", 1, "→", "`→` is no arrow", Some("an arrow is written `->`")),
    ("x: COPY => x", 1, "=>", "`=>` is no arrow", Some("an arrow is written `->`")),
    ("x: COPY -> x, x", 1, ",", "a comma", Some("words are parted by spaces alone")),
    ("order", 1, "order", "an order without an activity", Some("for example `order sum[0] total[0]`")),
    ("x: SINK\npicks 0\n order x[0]", 3, "x[0]", "an order beside picks", Some("either of them says what fires: leave one out")),
    ("x: SINK\n order x[0] x[1]", 2, "x[0]", "the picks of an order are not known", Some("`dayomlak asm` fires the graph to find them")),
];

const ARRAY: &str = "an array is `array name = length`, or `array name = length at cell`";
const ELEMENT: &str = "an element is loaded by `name[index] = value`";

#[rustfmt::skip]
const ARRAYS: [Case; 20] = [
    ("array a 8", 1, "array a 8", ARRAY, None),
    ("array a[8]", 1, "array a[8]", ARRAY, Some("`array a = 8`")),
    ("array a = 8 20", 1, "array a = 8 20", ARRAY, None),
    ("array a: 8", 1, "array a: 8", ARRAY, None),
    ("array", 1, "array", ARRAY, None),
    ("array 9a = 3", 1, "9a", "`9a` is no name: letters, digits and _, no digit first", None),
    ("array a = -1", 1, "-1", "`-1` is not a length, 0 to 1024", None),
    ("array a = 1025", 1, "1025", "`1025` is not a length, 0 to 1024", None),
    ("array a = 0 at 1025", 1, "1025", "`1025` is not the number of a cell, 0 to 1023", None),
    ("array a = 8 at 1017", 1, "a = 8 at 1017", "`a` would have cells 1017 to 1024, and 1023 is the last", None),
    ("array a = 1000\narray b = 25", 2, "b = 25", "`b` would have cells 1000 to 1024, and 1023 is the last", Some("it begins behind the arrays above it, at cell 1000")),
    ("array a = 8\narray a = 3", 2, "a", "`a` is defined twice", Some("the first is in line 1")),
    ("array a = 8\na: OUT", 2, "a", "`a` is defined twice", Some("the first is in line 1")),
    ("array a raw 00 00 08", 1, "raw 00 00 08", "3 bytes instead of 4", None),
    ("x: array a = 3", 1, "array", "`array` is no operation", Some("such a line has no name and colon before it")),
    ("ARRAY a = 3", 1, "ARRAY", "`ARRAY` is no operation", Some("did you mean array?")),
    ("array a = 3\nx: COPY -> a", 2, "a", "`a` is an array, and no instruction", Some("`STORE a` writes an element, `FETCH a` reads one")),
    ("array a = 3\nx: COPY -> a[3]", 2, "a[3]", "`a[3]` is no target", Some("an element is written by `STORE a`: port 0 takes its index, port 1 its value")),
    ("array a = 3\ninput a[3] = 7", 2, "input a[3]", "an element is no target", Some("it is loaded without `input`: `a[3] = 7`")),
    ("array a = 3\ncell a[3] = 7", 2, "a[3]", "`a[3]` is not the number of a cell, 0 to 1023", Some("an element is loaded without `cell`: `a[3] = 7`")),
];

#[rustfmt::skip]
const ELEMENTS: [Case; 22] = [
    ("array a = 8\na[9] = 7", 2, "a[9]", "`a` has 8 elements; index 9", Some("its elements are `a[1]` to `a[8]`")),
    ("array a = 8\na[0] = 7", 2, "a[0]", "`a` has 8 elements; index 0", Some("its elements are `a[1]` to `a[8]`")),
    ("a[-1] = 7\narray a = 1", 1, "a[-1]", "`a` has 1 element; index -1", Some("its only element is `a[1]`")),
    ("array a = 0\na[1] = 7", 2, "a[1]", "`a` has 0 elements; index 1", Some("an empty array has nothing to load")),
    ("array a = 8\na[1] = x", 2, "x", "`x` is not a signed number of 32 bits", None),
    ("array a = 8\na[x] = 7", 2, "x", "`x` is not an index", None),
    ("array a = 8\na[1] 7", 2, "a[1] 7", ELEMENT, None),
    ("array a = 8\na[ 1 ] = 7", 2, "a[ 1 ] = 7", ELEMENT, None),
    ("array a = 8\na[1 = 7", 2, "a[1 = 7", ELEMENT, None),
    ("array a = 8\na [1] = 7", 2, "a", "`a` is no operation", Some("an element is written without spaces: `a[1]`")),
    ("array a = 8\na(1) = 7", 2, "a(1)", "`a(1)` is no operation", Some("an element of an array is written `name[index]`")),
    ("array a = 8\na = 7", 2, "a", "`a` is no operation", Some("an input is `input a = 7`; an element of an array is loaded by `a[1] = 7`")),
    ("x: OUT\nx[1] = 7", 2, "x", "`x` is an instruction, and no array", Some("an input is `input x = value`")),
    ("b[1] = 7", 1, "b", "there is no array `b`", Some("a line `array b = 8` makes one of 8 elements")),
    ("array vec = 8\nx: FETCH vex -> x", 2, "vex", "there is no array `vex`", Some("did you mean `vec`?")),
    ("x: FETCH a -> x", 1, "a", "there is no array `a`", Some("a line `array a = 8` makes one of 8 elements")),
    ("x: STORE y\ny: OUT", 1, "y", "`y` is an instruction, and no array", Some("an arrow before the targets: `STORE -> y`")),
    ("x: FETCH y\ny: OUT", 1, "FETCH", "FETCH has 1 or 2 destinations, not 0", Some("an arrow before the targets: `FETCH -> y`; or, of an array `y`, `FETCH y -> name.port`")),
    ("x: FETCH a y\ny: OUT", 1, "a y", "FETCH is followed by `a y`", Some("an arrow before the targets: `FETCH -> a y`; or, of an array `a`, `FETCH a -> y`")),
    ("x: FETCH a[3] -> x", 1, "a[3]", "FETCH is followed by `a[3]`", Some("the index comes by port 0: `FETCH a`, and `input name = 3` or an arc")),
    ("x: FETCH 3 -> x", 1, "3", "FETCH is followed by `3`", Some("FETCH has no constant; 3 comes by an arc, or by `input name = 3`")),
    ("x: STORE 9a", 1, "9a", "`9a` is no name: letters, digits and _, no digit first", None),
];

const INPUT: &str = "an input is `input name.port = value`";
const RANGE: &str = "a range is `low..high`, both included";
const ONLY: Option<&str> = Some("only `dayomlak ranges` takes one");

/// Ranges with faults, and ranges where files are made, which have single values.
#[rustfmt::skip]
const RANGES: [Case; 26] = [
    ("x: OUT\ninput x = 3..5", 2, "3..5", "`3..5` is a range", ONLY),
    ("x: OUT\ninput x = 5..5", 2, "5..5", "`5..5` is a range", ONLY),
    ("cell 3 = -9..-7", 1, "-9..-7", "`-9..-7` is a range", ONLY),
    ("array a = 3\na[2] = 1..4", 2, "1..4", "`1..4` is a range", ONLY),
    ("x: OUT\ninput x = 5..3", 2, "5..3", "`5..3` has its low end above its high end", Some("the low end stands first: `3..5`")),
    ("cell 3 = 9..7", 1, "9..7", "`9..7` has its low end above its high end", Some("the low end stands first: `7..9`")),
    ("array a = 3\na[2] = 0..-1", 2, "0..-1", "`0..-1` has its low end above its high end", Some("the low end stands first: `-1..0`")),
    ("x: OUT\ninput x = ..5", 2, "..5", "`..5` lacks an end", Some(RANGE)),
    ("x: OUT\ninput x = 3..", 2, "3..", "`3..` lacks an end", Some(RANGE)),
    ("x: OUT\ninput x = 3..y", 2, "y", "`y` is not a signed number of 32 bits", None),
    ("x: OUT\ninput x = 3..2147483648", 2, "2147483648", "`2147483648` is not a signed number of 32 bits", None),
    ("x: OUT\ninput x = -2147483649..3", 2, "-2147483649", "`-2147483649` is not a signed number of 32 bits", None),
    ("x: OUT\ninput x = 3 .. 5", 2, "input x = 3 .. 5", INPUT, Some("a range has no spaces: `3..5`")),
    ("cell 3 = 7 ..9", 1, "cell 3 = 7 ..9", "a cell is loaded by `cell number = value`", Some("a range has no spaces: `7..9`")),
    ("array a = 3\na[2] = 1.. 4", 2, "a[2] = 1.. 4", ELEMENT, Some("a range has no spaces: `1..4`")),
    ("x: OUT\ninput x = 3...5", 2, ".5", "`.5` is not a signed number of 32 bits", Some("a range is `low..high`, both included: `3..5`")),
    ("x: OUT\ninput x = 3..=5", 2, "input x = 3..=5", INPUT, Some("a range is `low..high`, both included: `3..5`")),
    ("x: OUT\ninput x = 3…5", 2, "3…5", "`3…5` is not a signed number of 32 bits", Some("a range is `low..high`, both included: `3..5`")),
    ("x: OUT\ninput x = 40±2", 2, "40±2", "`40±2` is not a signed number of 32 bits", Some("a range is `low..high`, both included: `38..42`")),
    ("x: OUT\ninput x = 40 +/- 2", 2, "input x = 40 +/- 2", INPUT, Some("a range is `low..high`, both included: `38..42`")),
    ("x: OUT\ninput x = 3-5", 2, "3-5", "`3-5` is not a signed number of 32 bits", Some("a range is `low..high`, both included: `3..5`")),
    ("x: OUT\ninput x = 5-3", 2, "5-3", "`5-3` is not a signed number of 32 bits", None),
    ("cell 3 = 3 to 5", 1, "cell 3 = 3 to 5", "a cell is loaded by `cell number = value`", Some("a range is `low..high`, both included: `3..5`")),
    ("x: OUT\ninput x = 40±-2", 2, "40±-2", "`40±-2` is not a signed number of 32 bits", None),
    ("x: CONST 3..5 -> x", 1, "3..5", "`3..5` is not a signed number of 32 bits", Some("a constant is one number; a range comes by `input name = 3..5`")),
    ("x: ADD 3..5 -> x", 1, "3..5", "`3..5` is not a signed number of 32 bits", Some("a constant is one number; a range comes by `input name = 3..5`")),
];

#[test]
fn each_error_has_its_place_and_its_hint() {
    let cases = OPERATIONS.into_iter().chain(CONSTANTS).chain(NAMES);
    let cases = cases.chain(ARRAYS).chain(ELEMENTS).chain(RANGES);
    for (text, line, marked, message, hint) in cases {
        let errors = errors(text);
        assert_eq!(errors.len(), 1, "{text}: {errors:?}");
        let error = &errors[0];
        assert_eq!((error.line, &error.text[..]), (line, message), "{text}");
        assert_eq!(&text[error.span.clone()], marked, "{text}");
        assert_eq!(error.hint.as_deref(), hint, "{text}");
    }
}

#[test]
fn all_errors_come_at_once() {
    let text = "a: COPY → b, c\nb: GT 4 -> a.1\nb: OUT\ninput d = 7x\n";
    let lines: Vec<String> = errors(text).iter().map(|e| e.to_string()).collect();
    assert_eq!(
        lines,
        [
            "line 1: `→` is no arrow (an arrow is written `->`)",
            "line 1: a comma (words are parted by spaces alone)",
            "line 1: `c` is not defined",
            "line 2: `GT` is no operation (there is no GT: `a > b` is LT with b on port 0)",
            "line 2: `a` has no port 1, its operand count is 1 (its only port is `a.0`)",
            "line 3: `b` is defined twice (the first is in line 2)",
            "line 4: `d` is not defined",
            "line 4: `7x` is not a signed number of 32 bits",
        ]
    );
}

#[test]
fn an_arc_to_a_faulty_line_is_no_error_of_its_own() {
    let text = "a: COPY -> b.1\nb: FROB\ninput b.7 = 1";
    assert_eq!(errors(text).len(), 1);
}

#[test]
fn a_faulty_array_is_no_error_where_it_is_named() {
    for array in ["array a =", "array a[8]", "array a = 9 at x"] {
        let text = format!("{array}\nf: FETCH a -> out\nout: OUT\na[9] = 1\ninput f = 1\n");
        assert_eq!(errors(&text).len(), 1, "{array}");
    }
}

/// 64 arrays are the most; one more is an error at its line, and so are many more.
#[test]
fn the_first_array_that_is_too_many() {
    let arrays = |count: usize| {
        let line = |number: usize| format!("array a{number} = 1\n");
        (1..=count).map(line).collect::<String>()
    };
    let files = assemble(&arrays(64)).unwrap();
    assert_eq!(files.arrays.len(), widths::MOST_ARRAYS * widths::ARRAY);
    for count in [65, 70] {
        let text = arrays(count);
        let errors = errors(&text);
        assert_eq!((errors.len(), errors[0].line), (1, 65));
        let words = format!("there are {count} arrays, and 64 is the most");
        assert_eq!(errors[0].text, words);
        assert_eq!(
            errors[0].hint.as_deref(),
            Some("the first that is too many")
        );
        assert_eq!(&text[errors[0].span.clone()], "array a65 = 1");
    }
}

#[test]
fn a_site_has_one_return() {
    let text = "a: OUT\nb: OUT\nx: ENTER site 7 -> a return a\ny: ENTER site 7 -> a return b";
    let errors = errors(text);
    assert_eq!(errors.len(), 1);
    assert_eq!(errors[0].line, 4);
    assert_eq!(
        errors[0].text,
        "an earlier ENTER of site 7 has another return"
    );
}
