//! `dayomlak expression`: values, the typed graph, and every message.

mod common;

use std::fs;

use common::{dayomlak, expect, Done, Folder, ROOT};

fn expression(text: &str, words: &[&str]) -> Done {
    dayomlak(&[&["expression", text], words].concat())
}

/// The usual precedence, from the left; a comparison gives 1 or 0; a quotient goes toward zero.
#[test]
fn values() {
    let cases = [
        ("a * (b + c) % 3", 2),
        ("a + b * c", -3),
        ("(a + b) * c", -7),
        ("10 - 3 - 2", 5),
        ("10 - (3 - 2)", 9),
        ("100 / 7 / 2", 7),
        ("100 / (7 / 2)", 33),
        ("7 % 4 * 2", 6),
        ("2 * 7 % 4", 2),
        ("-7 / 2", -3),
        ("-7 % 2", -1),
        ("1 + 2 < 2 * 2", 1),
        ("1 < 2 == 3 <= 2", 0),
        ("3 <= 3 < 1", 0),
        ("b - -3", 8),
        ("b-3", 2),
        ("((b))", 5),
        ("- 3 * c", 3),
        ("a*a*a*a", 16),
        ("-2147483648", -2147483648),
        ("2147483647 + 0", 2147483647),
    ];
    for (text, value) in cases {
        let known = ["a=2", "b=5", "c=-1"];
        let known = known.iter().filter(|word| text.contains(&word[..1]));
        let words: Vec<&str> = known.copied().collect();
        let done = expression(text, &words);
        assert_eq!((done.status, &done.err[..]), (0, ""), "{text}");
        let line = format!("{text} = {value}\ncompleted: ");
        assert!(done.out.starts_with(&line), "{text}: {done:?}");
    }
}

#[test]
fn the_value_and_the_answer() {
    let done = expression("a * (b + c) % 3", &["a=2", "b=5", "c=-1"]);
    let text = "a * (b + c) % 3 = 2\ncompleted: 7 firings, 11 tokens, oldest first\n";
    assert_eq!((done.status, &done.out[..], &done.err[..]), (0, text, ""));
}

/// The typed graph is written, and is one like any other.
#[test]
fn the_graph() {
    let folder = Folder::new();
    let file = folder.path("x.ttda");
    let words = ["a=2", "b=5", "c=-1", "-o", &file];
    assert_eq!(expression("a * (b + c) % 3", &words).status, 0);
    let text = fs::read_to_string(&file).unwrap();
    let expected = "\
# a * (b + c) % 3
#
# Made by `dayomlak expression`: a COPY for each name and constant, then the
# operations, then OUT. Behind each line stands the part of the text that it is.

a:         COPY -> product.0    # a
b:         COPY -> sum.0        # b
c:         COPY -> sum.1        # c
n3:        COPY -> remainder.1  # 3
sum:       ADD -> product.1     # b + c
product:   MUL -> remainder.0   # a * (b + c)
remainder: REM -> value.0       # a * (b + c) % 3
value:     OUT                  # the value

input a.0 = 2
input b.0 = 5
input c.0 = -1
input n3.0 = 3
";
    assert_eq!(text, expected);
    let done = dayomlak(&["run", &file]);
    let answer = "completed: 7 firings, 11 tokens, oldest first\nvalue[0] = 2\n";
    assert_eq!((done.status, &done.out[..], &done.err[..]), (0, answer, ""));
    assert_eq!(dayomlak(&["compare", &file]).status, 0);
    assert_eq!(dayomlak(&["profile", &file]).status, 0);
    let dot = dayomlak(&["draw", &file, "--dot"]);
    dot.says("product");
    let svg = dayomlak(&["draw", &file]);
    svg.says("remainder");
}

/// The gallery's example is what the command makes.
#[test]
fn the_example() {
    let folder = Folder::new();
    let file = folder.path("discriminant.ttda");
    let words = ["a=2", "b=-10", "c=12", "-o", &file];
    assert_eq!(expression("b * b - 4 * a * c", &words).status, 0);
    let example = format!("{ROOT}/examples/discriminant/discriminant.ttda");
    assert_eq!(fs::read(file).unwrap(), fs::read(example).unwrap());
}

/// Names of the expression, those that the graph needs and the words of a typed graph do not meet.
#[test]
fn names_that_meet() {
    let folder = Folder::new();
    let file = folder.path("x.ttda");
    let text = "a * a + sum + value * input - -3 * -3 + n4 * 4 + a_2";
    let values = ["a=1", "sum=2", "value=3", "input=4", "n4=5", "a_2=6"];
    let done = expression(text, &[&values[..], &["-o", &file]].concat());
    assert_eq!(done.status, 0, "{done:?}");
    assert!(done.out.starts_with(&format!("{text} = 32\n")), "{done:?}");
    let typed = fs::read_to_string(&file).unwrap();
    for line in [
        "\na_1: ",
        "\na_3: ",
        "\nsum: ",
        "\nvalue: ",
        "\ninput_1: ",
        "\nminus_3: ",
        "\nminus_3_2: ",
        "\nn4: ",
        "\nn4_2: ",
        "\na_2: ",
        "\nsum_2: ",
        "\nvalue_2: ",
    ] {
        assert!(typed.contains(line), "{line:?}: {typed}");
    }
    let done = dayomlak(&["run", &file]);
    assert!(done.out.ends_with("value_2[0] = 32\n"), "{done:?}");
}

#[test]
fn out_of_range() {
    for (name, text, words) in [
        ("divisor", "a * (b / (c - c))", &["a=2", "b=5", "c=1"][..]),
        ("remainder", "1 + 7 % b", &["b=0"]),
        ("product", "1 + a * a * a", &["a=65536"]),
        ("quotient", "a / -1", &["a=-2147483648"]),
    ] {
        let done = expression(text, words);
        assert_eq!((done.status, &done.err[..]), (1, ""));
        expect(&format!("expression/range-{name}"), &done);
    }
}

#[test]
fn values_that_are_missing_or_too_many() {
    for (name, text, words) in [
        ("missing", "a + b * c * b", &["a=1"][..]),
        ("unused", "a + 1", &["a=1", "b=2"]),
        ("twice", "a + 1", &["a=1", "a=1"]),
    ] {
        let done = expression(text, words);
        assert_eq!((done.status, &done.out[..]), (2, ""), "{name}");
        expect(&format!("expression/value-{name}"), &done);
    }
}

#[test]
fn values_that_are_none() {
    let range = "from -2,147,483,648 to 2,147,483,647";
    for (word, said) in [
        ("a=1x", "`1x` is no whole number"),
        ("a=2147483648", range),
        ("a=", "`` is no whole number"),
        ("5", "a value is given as NAME=VALUE"),
    ] {
        let done = expression("a + 1", &[word]);
        assert_eq!((done.status, &done.out[..]), (2, ""), "{word}");
        done.complains(said);
    }
}

#[test]
fn faults_of_a_text() {
    for (name, text) in [
        ("empty", " "),
        ("end", "a + "),
        ("start", "* a"),
        ("open", "(a + (b * c)"),
        ("close", "a + b) * c"),
        ("nothing", "a + ()"),
        ("two", "a b"),
        ("two-parentheses", "(a)(b)"),
        ("minus", "a * -b"),
        ("number", "2a + 1"),
        ("constant", "a + 2147483648"),
        ("point", "a + 1.5"),
        ("greater", "a >= b"),
        ("assign", "a = b"),
        ("power", "a ** 2"),
        ("not-equal", "a != b"),
        ("letter", "größe + 1"),
        ("sign", "a + $b"),
    ] {
        let done = expression(text, &[]);
        assert_eq!((done.status, &done.out[..]), (2, ""), "{name}");
        expect(&format!("expression/fault-{name}"), &done);
    }
}

/// 99 records are the most that an expression can have: a tree has one variable more than operations.
#[test]
fn too_long() {
    let sum = |count: usize| vec!["a"; count].join("+");
    let done = expression(&sum(50), &["a=1"]);
    assert!(done
        .out
        .ends_with("= 50\ncompleted: 99 firings, 149 tokens, oldest first\n"));
    let done = expression(&sum(51), &["a=1"]);
    done.fails(2);
    let words = "error: the expression has 101 records, 51 names or constants and 50 operations, and 100 are the most\n";
    assert!(done.err.starts_with(words), "{done:?}");
}

/// Nothing is written unless there is an answer; a graph without a value is one all the same.
#[test]
fn what_is_written() {
    let folder = Folder::new();
    let file = folder.path("x.ttda");
    for (text, words) in [("a +", &["a=1"][..]), ("a", &[]), ("a", &["b=1"])] {
        let done = expression(text, &[words, &["-o", &file]].concat());
        assert_eq!(done.status, 2);
        assert!(fs::metadata(&file).is_err(), "{text}");
    }
    let done = expression("a / 0", &["a=1", "-o", &file]);
    assert_eq!(done.status, 1);
    assert_eq!(dayomlak(&["run", &file]).status, 1);
    let done = expression("a", &["a=1", "-o", &folder.path("absent/x.ttda")]);
    done.fails(3);
}
