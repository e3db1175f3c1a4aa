//! The words of an expression.

use asm::Span;

use super::{Fault, Operator};

#[derive(Clone, Debug, PartialEq, Eq)]
pub enum Word {
    Name(String),
    /// The digits of a constant, without its sign.
    Digits(String),
    Operator(Operator),
    Open,
    Close,
}

/// A word and where it stands.
pub type Token = (Word, Span);

/// The operators, longer ones first.
const OPERATORS: [(&str, Operator); 8] = [
    ("<=", Operator::LessOrEqual),
    ("==", Operator::Equal),
    ("<", Operator::Less),
    ("+", Operator::Add),
    ("-", Operator::Subtract),
    ("*", Operator::Multiply),
    ("/", Operator::Divide),
    ("%", Operator::Remainder),
];

/// What others write, longer ones first, and what to write here.
const OTHERS: [(&str, &str); 15] = [
    ("**", "there is no power: write a * a"),
    (">=", "turn the sides round: b <= a"),
    ("!=", "write (a == b) == 0"),
    ("<>", "write (a == b) == 0"),
    ("&&", "of two comparisons, write their product"),
    ("||", "of two comparisons, write 0 < their sum"),
    (">", "turn the sides round: b < a"),
    (
        "=",
        "to compare, write ==; a value stands behind the expression: a=5",
    ),
    ("!", "write a == 0"),
    ("^", "there is no power: write a * a"),
    ("×", "write *"),
    ("÷", "write /"),
    (
        "[",
        "there are no arrays here: give the element a name of its own, and its value",
    ),
    (".", "values are whole numbers"),
    (",", "values are whole numbers, without commas"),
];

/// All words, or the first thing that is none.
pub fn tokens(text: &str) -> Result<Vec<Token>, Fault> {
    let mut tokens = Vec::new();
    let mut at = 0;
    while let Some(next) = text[at..].chars().next() {
        if next.is_whitespace() {
            at += next.len_utf8();
            continue;
        }
        let (word, length) = word(text, at, next)?;
        tokens.push((word, at..at + length));
        at += length;
    }
    Ok(tokens)
}

/// The word that starts at a place, and how many bytes it has.
fn word(text: &str, at: usize, first: char) -> Result<(Word, usize), Fault> {
    let rest = &text[at..];
    match first {
        '(' => return Ok((Word::Open, 1)),
        ')' => return Ok((Word::Close, 1)),
        '0'..='9' => return digits(rest, at),
        'a'..='z' | 'A'..='Z' | '_' => {
            let name = leading(rest, |c| c.is_ascii_alphanumeric() || c == '_');
            return Ok((Word::Name(name.to_string()), name.len()));
        }
        _ => (),
    }
    if let Some((_, hint)) = OTHERS.iter().find(|(sign, _)| rest.starts_with(sign)) {
        // `==` is no `=`.
        if !rest.starts_with("==") {
            return Err(unknown(rest, at, hint));
        }
    }
    match OPERATORS.iter().find(|(sign, _)| rest.starts_with(sign)) {
        Some((sign, operator)) => Ok((Word::Operator(*operator), sign.len())),
        None if first.is_alphanumeric() => Err(unknown(
            rest,
            at,
            "names have the letters a to z, digits and _",
        )),
        None => Err(unknown(rest, at, "the operations are + - * / % < <= ==")),
    }
}

/// The digits of a constant; a letter may not follow.
fn digits(rest: &str, at: usize) -> Result<(Word, usize), Fault> {
    let number = leading(rest, |c| c.is_ascii_digit());
    let whole = leading(rest, |c| c.is_ascii_alphanumeric() || c == '_');
    if whole.len() > number.len() {
        let hint = format!(
            "an operation is missing, such as {number} * {}",
            &whole[number.len()..]
        );
        return Err(fault(
            at..at + whole.len(),
            format!("`{whole}` is no number"),
            hint,
        ));
    }
    Ok((Word::Digits(number.to_string()), number.len()))
}

fn leading(text: &str, keep: impl Fn(char) -> bool) -> &str {
    let end = text.find(|c| !keep(c)).unwrap_or(text.len());
    &text[..end]
}

/// A sign that is no operation: one of the known others, or a character.
fn unknown(rest: &str, at: usize, hint: &str) -> Fault {
    let known = OTHERS.iter().find(|(sign, _)| rest.starts_with(sign));
    let character = rest.chars().next().map_or(0, char::len_utf8);
    let length = known.map_or(character, |(sign, _)| sign.len());
    let sign = rest[..length].escape_debug();
    fault(
        at..at + length,
        format!("`{sign}` cannot stand in an expression"),
        hint,
    )
}

pub fn fault(span: Span, title: impl Into<String>, hint: impl Into<String>) -> Fault {
    Fault {
        span,
        title: title.into(),
        hint: hint.into(),
    }
}
