//! Values that are typed: a number, or the range between two, `3..5`, both included.

use crate::errors::{Fault, Span};
use crate::parse::{parse_number, NUMBER};
use crate::words::Word;

/// An input that is typed as a range.
#[derive(Clone, Debug, PartialEq, Eq)]
pub struct RangedInput {
    /// Its number among the inputs, counted from 0.
    pub input: usize,
    pub low: i32,
    /// Not below the low end.
    pub high: i32,
    /// Where the range itself stands.
    pub span: Span,
}

impl RangedInput {
    /// The fault of a range where single values are needed.
    pub fn fault(&self) -> Fault {
        let text = format!("`{}..{}` is a range", self.low, self.high);
        Fault::new(self.span.clone(), text).hint("only `dayomlak ranges` takes one")
    }
}

/// What stands behind `=`.
#[derive(Clone, Debug)]
pub enum Value {
    Number(i32),
    Range { low: i32, high: i32, span: Span },
}

impl Value {
    /// The number, or the low end.
    pub fn low(&self) -> i32 {
        match self {
            Value::Number(number) => *number,
            Value::Range { low, .. } => *low,
        }
    }

    /// The range of an input of this value, if it is one.
    pub fn ranged(&self, input: usize) -> Option<RangedInput> {
        match self {
            Value::Number(_) => None,
            Value::Range { low, high, span } => Some(RangedInput {
                input,
                low: *low,
                high: *high,
                span: span.clone(),
            }),
        }
    }
}

/// `value` or `low..high`.
pub fn parse_value(word: Word) -> Result<Value, Fault> {
    let Some(points) = word.text.find("..") else {
        let number = parse_number(word, NUMBER);
        return number
            .map(Value::Number)
            .map_err(|fault| fault.maybe(meant(word.text)));
    };
    let end = |from: usize, to: usize| -> Result<i32, Fault> {
        let end = word.part(from, to);
        if end.text.is_empty() {
            let fault = Fault::new(word.span(), format!("`{}` lacks an end", word.text));
            return Err(fault.hint("a range is `low..high`, both included"));
        }
        parse_number(end, NUMBER).map_err(|fault| fault.maybe(meant(word.text)))
    };
    let (low, high) = (end(0, points)?, end(points + 2, word.text.len())?);
    if low > high {
        let text = format!("`{}` has its low end above its high end", word.text);
        let hint = format!("the low end stands first: `{high}..{low}`");
        return Err(Fault::new(word.span(), text).hint(hint));
    }
    let span = word.span();
    Ok(Value::Range { low, high, span })
}

/// What stands between the ends of a range elsewhere, and between a number and its margin.
const OTHER_POINTS: [&str; 5] = ["...", "..=", "…", "to", "-"];
const MARGINS: [&str; 3] = ["+/-", "±", "+-"];

/// The range that was probably meant.
fn meant(text: &str) -> Option<String> {
    let two = |marks: &[&str]| {
        let (one, other) = marks.iter().find_map(|mark| text.split_once(mark))?;
        Some((one.parse::<i32>().ok()?, other.parse::<i32>().ok()?))
    };
    let (low, high) = match (two(&OTHER_POINTS), two(&MARGINS)) {
        (Some(ends), _) => ends,
        (None, Some((middle, margin))) => {
            (middle.checked_sub(margin)?, middle.checked_add(margin)?)
        }
        (None, None) => return None,
    };
    (low <= high).then(|| format!("a range is `low..high`, both included: `{low}..{high}`"))
}

/// What to write where a range was typed in several words.
pub fn with_spaces(words: &[Word]) -> Option<String> {
    let behind = words.iter().skip_while(|word| word.text != "=").skip(1);
    let text: String = behind.map(|word| word.text).collect();
    match ends(&text) {
        Some((low, high)) => Some(format!("a range has no spaces: `{low}..{high}`")),
        None => meant(&text),
    }
}

/// The ends of a range, whichever is the low one.
fn ends(text: &str) -> Option<(i32, i32)> {
    let (low, high) = text.split_once("..")?;
    Some((low.parse().ok()?, high.parse().ok()?))
}

/// What to do where a range stands in the place of a constant.
pub fn as_constant(text: &str) -> Option<String> {
    let (low, high) = ends(text)?;
    Some(format!(
        "a constant is one number; a range comes by `input name = {low}..{high}`"
    ))
}
