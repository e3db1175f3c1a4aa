//! The words of a line, each with its place in the text.

use crate::errors::{Fault, Span};

/// A word and the offset of its first byte in the text.
#[derive(Clone, Copy, Debug)]
pub struct Word<'t> {
    pub text: &'t str,
    pub start: usize,
}

impl<'t> Word<'t> {
    pub fn span(&self) -> Span {
        self.start..self.start + self.text.len()
    }

    /// The word's bytes from `from` to `to`.
    pub fn part(&self, from: usize, to: usize) -> Word<'t> {
        Word {
            text: &self.text[from..to],
            start: self.start + from,
        }
    }
}

/// The bytes from the first to the last of some words; there is one at least.
pub fn span_of(words: &[Word]) -> Span {
    words[0].start..words[words.len() - 1].span().end
}

/// Words that need no space around them.
const MARKS: [&str; 3] = ["->", "=", ":"];
/// What is often typed for an arrow.
const OTHER_ARROWS: [&str; 7] = ["-->", "=>", "→", "⇒", "⟶", "—>", "–>"];

/// Parts a line, which begins at an offset of the text, into words. Other arrows
/// and commas are faults, and are read as what they stand for.
pub fn words<'t>(line: &'t str, offset: usize, faults: &mut Vec<Fault>) -> Vec<Word<'t>> {
    let is_order = line.split_whitespace().next() == Some("order");
    let code = match is_order {
        true => without_comment(line),
        false => line.split('#').next().unwrap_or_default(),
    };
    parted(code, offset, faults)
}

/// The words of a line that is all an order, with or without the word `order` before it.
pub fn order_words<'t>(line: &'t str, offset: usize, faults: &mut Vec<Fault>) -> Vec<Word<'t>> {
    let mut words = parted(without_comment(line), offset, faults);
    if words.first().is_some_and(|word| word.text == "order") {
        words.remove(0);
    }
    words
}

fn parted<'t>(code: &'t str, offset: usize, faults: &mut Vec<Fault>) -> Vec<Word<'t>> {
    let mut words = Vec::new();
    let mut at = 0;
    while at < code.len() {
        let (length, kind) = next(&code[at..]);
        let word = Word {
            text: &code[at..at + length],
            start: offset + at,
        };
        match kind {
            Kind::Space => {}
            Kind::Word => words.push(word),
            Kind::OtherArrow => {
                let text = format!("`{}` is no arrow", word.text);
                faults.push(Fault::new(word.span(), text).hint("an arrow is written `->`"));
                words.push(Word { text: "->", ..word });
            }
            Kind::Comma => {
                let fault = Fault::new(word.span(), "a comma");
                faults.push(fault.hint("words are parted by spaces alone"));
            }
        }
        at += length;
    }
    words
}

/// A line of an order up to its comment. `#3[0]` is none: so an activity is called whose instruction has no name.
fn without_comment(line: &str) -> &str {
    let begins_comment = |at: &usize| !names_a_number(&line[at + 1..]);
    let mut signs = line.match_indices('#').map(|(at, _)| at);
    &line[..signs.find(begins_comment).unwrap_or(line.len())]
}

/// Whether a text begins by a number and a bracket.
fn names_a_number(text: &str) -> bool {
    let rest = text.trim_start_matches(|c: char| c.is_ascii_digit());
    rest.len() < text.len() && rest.starts_with('[')
}

enum Kind {
    Space,
    Word,
    OtherArrow,
    Comma,
}

/// The length and the kind of what stands at the beginning of a text that is not
/// empty.
fn next(rest: &str) -> (usize, Kind) {
    if let Some(arrow) = OTHER_ARROWS.iter().find(|arrow| rest.starts_with(**arrow)) {
        return (arrow.len(), Kind::OtherArrow);
    }
    if let Some(mark) = MARKS.iter().find(|mark| rest.starts_with(**mark)) {
        return (mark.len(), Kind::Word);
    }
    let first = rest.chars().next().map_or(1, char::len_utf8);
    if rest.starts_with(',') {
        (first, Kind::Comma)
    } else if rest.starts_with(char::is_whitespace) {
        (first, Kind::Space)
    } else {
        (word_length(rest), Kind::Word)
    }
}

fn word_length(rest: &str) -> usize {
    let ends = |at: usize| {
        let tail = &rest[at..];
        let marks = MARKS.iter().chain(&OTHER_ARROWS);
        tail.starts_with(|c: char| c.is_whitespace() || c == ',')
            || marks.into_iter().any(|mark| tail.starts_with(mark))
    };
    let mut ends_at = rest.char_indices().map(|(at, _)| at).filter(|&at| ends(at));
    ends_at.next().unwrap_or(rest.len())
}
