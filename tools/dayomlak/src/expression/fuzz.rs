//! Random texts: each gives an expression with its graph and value, or an error with its place, and none a panic.

use asm::assemble;

use super::{parse, typed, Expression, Fault, Kind, Operator, MOST_PARTS};
use crate::random::Random;
use crate::records::{tokens, TOKEN};
use ttda::widths::{INSTRUCTION, WHOLE_BUDGET};
use ttda::{Answer, Word};

const TEXTS: usize = 10_000;

const OPERATORS: [Operator; 8] = [
    Operator::Add,
    Operator::Subtract,
    Operator::Multiply,
    Operator::Divide,
    Operator::Remainder,
    Operator::Less,
    Operator::LessOrEqual,
    Operator::Equal,
];

/// An expression that is known before it is written.
#[derive(Debug, PartialEq, Eq)]
enum Tree {
    Name(String),
    Constant(i32),
    Operation(Operator, Box<Tree>, Box<Tree>),
}

impl Tree {
    fn random(random: &mut Random, operations: usize) -> Tree {
        if operations == 0 {
            return match random.below(3) {
                0 => Tree::Constant(random.one_of(&[0, 1, 7, -1, -3, i32::MAX, i32::MIN])),
                _ => Tree::Name(random.one_of(&["a", "b", "x1", "_", "input"]).to_string()),
            };
        }
        let left = random.below(operations);
        Tree::Operation(
            random.one_of(&OPERATORS),
            Box::new(Tree::random(random, left)),
            Box::new(Tree::random(random, operations - 1 - left)),
        )
    }

    /// The text, with the parentheses that it needs and now and then others.
    fn text(&self, random: &mut Random, least: u8) -> String {
        let space = random.one_of(&["", " ", "  ", "\n"]);
        let (text, tightness) = match self {
            Tree::Name(name) => (name.clone(), 9),
            Tree::Constant(value) => (value.to_string(), 9),
            Tree::Operation(operator, left, right) => {
                let tightness = operator.tightness();
                let (left, right) = (
                    left.text(random, tightness),
                    right.text(random, tightness + 1),
                );
                (
                    format!("{left}{space}{}{space}{right}", operator.sign()),
                    tightness,
                )
            }
        };
        match tightness < least || random.below(8) == 0 {
            true => format!("({space}{text})"),
            false => text,
        }
    }

    /// What the parts of an expression say, from one of them down.
    fn of(expression: &Expression, part: usize) -> Tree {
        match &expression.parts[part].kind {
            Kind::Name(name) => Tree::Name(name.clone()),
            Kind::Constant(value) => Tree::Constant(*value),
            Kind::Operation(operator, left, right) => Tree::Operation(
                *operator,
                Box::new(Tree::of(expression, *left)),
                Box::new(Tree::of(expression, *right)),
            ),
        }
    }

    /// The value; `None` out of range.
    fn value(&self) -> Option<i32> {
        let (operator, left, right) = match self {
            Tree::Name(name) => return Some(value_of(name)),
            Tree::Constant(value) => return Some(*value),
            Tree::Operation(operator, left, right) => (operator, left.value(), right.value()),
        };
        let (left, right) = (i64::from(left?), i64::from(right?));
        let value = match operator {
            Operator::Add => left + right,
            Operator::Subtract => left - right,
            Operator::Multiply => left * right,
            Operator::Divide => left.checked_div(right)?,
            Operator::Remainder => left.checked_rem(right)?,
            Operator::Less => i64::from(left < right),
            Operator::LessOrEqual => i64::from(left <= right),
            Operator::Equal => i64::from(left == right),
        };
        i32::try_from(value).ok()
    }
}

/// A name's value, by its letters.
fn value_of(name: &str) -> i32 {
    name.bytes().map(i32::from).sum::<i32>() % 11 - 5
}

/// A text that is mostly no expression.
fn noise(random: &mut Random) -> String {
    const PIECES: [&str; 30] = [
        "a",
        "b1",
        "_",
        "0",
        "7",
        "12",
        "2147483648",
        "(",
        ")",
        "(",
        ")",
        "+",
        "-",
        "*",
        "/",
        "%",
        "<",
        "<=",
        "==",
        "=",
        ">",
        "!",
        " ",
        "\t",
        "\n",
        "é",
        "×",
        "\u{0}",
        "🙂",
        "99999999999999999999",
    ];
    (0..random.below(14))
        .map(|_| random.one_of(&PIECES))
        .collect()
}

/// A text with some of its characters taken out, doubled or put for others.
fn damaged(random: &mut Random, text: &str) -> String {
    let mut characters: Vec<char> = text.chars().collect();
    for _ in 0..1 + random.below(3) {
        let at = random.below(characters.len());
        match random.below(3) {
            0 if characters.len() > 1 => drop(characters.remove(at)),
            1 => characters.insert(
                at,
                random.one_of(&['(', ')', '-', '=', ' ', 'z', '9', '\u{85}']),
            ),
            _ => characters.insert(at, characters[at]),
        }
    }
    characters.into_iter().collect()
}

/// An error says where, in the text, and what to do.
fn check_fault(text: &str, fault: &Fault) {
    assert!(
        text.get(fault.span.clone()).is_some(),
        "{text:?}: {fault:?}"
    );
    assert!(
        !fault.title.is_empty() && !fault.hint.is_empty(),
        "{text:?}"
    );
}

/// The engine takes the records; the typed graph is its graph; the run gives the value.
fn check_expression(expression: &Expression) {
    let last = expression.parts.len() - 1;
    let due = Tree::of(expression, last).value();
    let value = |part: &super::Part| match &part.kind {
        Kind::Name(name) => value_of(name),
        Kind::Constant(value) => *value,
        Kind::Operation(..) => 0,
    };
    let values: Vec<i32> = expression.variables().map(value).collect();
    let mut graph = vec![0; INSTRUCTION * (last + 2)];
    let made = ttda::expression(&expression.records(), &mut graph);
    assert_eq!(made, Answer::of(0, last as u16 + 2, 0, 0), "{expression:?}");
    let files = assemble(&typed::text(expression, &values)).unwrap();
    assert_eq!(files.graph, graph, "{expression:?}");
    let bytes: Vec<u8> = values
        .iter()
        .flat_map(|value| value.to_le_bytes())
        .collect();
    let value = ttda::expression_value(&expression.records(), &bytes);
    let value = (value.word() == Word::Completed).then_some(value.value());
    assert_eq!(value, due, "{expression:?}");
    assert_eq!(
        out(&graph, &files.inputs, last as u16 + 1),
        due,
        "{expression:?}"
    );
}

/// What OUT receives in a run.
fn out(graph: &[u8], inputs: &[u8], instruction: u16) -> Option<i32> {
    let mut ledger = vec![0; TOKEN * 300];
    let answer = ttda::run(
        graph,
        &[],
        inputs,
        &[],
        WHOLE_BUDGET,
        0,
        &mut ledger,
        &mut [],
    );
    assert!(matches!(answer.word(), Word::Completed | Word::Refused(12)));
    let tokens = tokens(&ledger[..TOKEN * answer.tokens()]);
    let out = tokens
        .into_iter()
        .find(|t| t.tag.instruction == instruction);
    out.map(|token| token.value.low)
}

#[test]
fn every_text_gives_a_graph_or_an_error() {
    let mut random = Random::new(1);
    let (mut graphs, mut faults) = (0, 0);
    for number in 0..TEXTS {
        let operations = random.below(if number % 100 == 0 { 60 } else { 9 });
        let tree = Tree::random(&mut random, operations);
        let written = tree.text(&mut random, 0);
        let text = match number % 4 {
            0 | 1 => noise(&mut random),
            2 => damaged(&mut random, &written),
            _ => written,
        };
        match parse(&text) {
            Err(fault) => {
                assert_ne!(number % 4, 3, "{text:?}: {fault:?}");
                check_fault(&text, &fault);
                faults += 1;
            }
            Ok(expression) => {
                let whole = Tree::of(&expression, expression.parts.len() - 1);
                assert!(number % 4 != 3 || whole == tree, "{text:?}: {whole:?}");
                if expression.parts.len() <= MOST_PARTS {
                    check_expression(&expression);
                }
                graphs += 1;
            }
        }
    }
    assert!(
        graphs > 3_000 && faults > 3_000,
        "{graphs} graphs, {faults} faults"
    );
}

/// No depth is too much for the stack.
#[test]
fn many_parentheses() {
    let depth = 1_000_000;
    let text = format!("{}a{}", "(".repeat(depth), ")".repeat(depth));
    assert_eq!(parse(&text).map(|expression| expression.parts.len()), Ok(1));
    assert_eq!(
        parse(&text[1..]).map_err(|fault| fault.span),
        Err(2 * depth - 1..2 * depth)
    );
    assert_eq!(
        parse(&text[..2 * depth]).map_err(|fault| fault.span),
        Err(0..1)
    );
}
