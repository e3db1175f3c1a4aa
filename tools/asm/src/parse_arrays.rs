//! The words of arrays: their lines, the lines that load an element, and the names behind FETCH and STORE.

use layout::widths::MOST_CELLS;

use crate::errors::Fault;
use crate::hints;
use crate::operations::Operation;
use crate::parse::{check_name, parse_bytes, parse_number};
use crate::ranges::{self, parse_value};
use crate::statement::{Element, Extent, Statement};
use crate::words::{span_of, Word};

const ARRAY_FORM: &str = "an array is `array name = length`, or `array name = length at cell`";
const ELEMENT_FORM: &str = "an element is loaded by `name[index] = value`";

/// Whether a word names an element, as `a[3]`, or tries to.
pub fn is_element(word: &str) -> bool {
    word.contains('[')
}

/// `array name = length`, with `at cell` or without, or `array name raw BYTES`.
pub fn parse_array<'t>(first: Word<'t>, rest: &[Word<'t>]) -> Result<Statement<'t>, Fault> {
    let (name, length, at) = match rest {
        [name, raw, bytes @ ..] if raw.text == "raw" => {
            let record = parse_bytes(*raw, bytes)?;
            return Ok(Statement::RawArray(check_name(*name)?, record));
        }
        [name, equals, length] if equals.text == "=" => (name, length, None),
        [name, equals, length, at, cell] if equals.text == "=" && at.text == "at" => {
            (name, length, Some(cell))
        }
        _ => {
            let span = first.start..rest.last().map_or(first.span(), Word::span).end;
            return Err(Fault::new(span, ARRAY_FORM).maybe(length_in_brackets(rest)));
        }
    };
    let name = check_name(*name)?;
    let most = |word: Word, what: String| match parse_number(word, &what) {
        Ok(number) if usize::from(number) > MOST_CELLS => {
            let text = format!("`{number}` is not {what}");
            Err(Fault::new(word.span(), text))
        }
        number => number,
    };
    let extent = Extent {
        length: most(*length, format!("a length, 0 to {MOST_CELLS}"))?,
        at: at
            .map(|cell| most(*cell, "the number of a cell, 0 to 1023".to_string()))
            .transpose()?,
        span: span_of(rest),
    };
    Ok(Statement::Array(name, extent))
}

/// `array a[8]`, as other languages have it.
fn length_in_brackets(rest: &[Word]) -> Option<String> {
    let (name, length) = rest.first()?.text.split_once('[')?;
    let length = length.strip_suffix(']')?;
    Some(format!("`array {name} = {length}`"))
}

/// `name[index] = value`.
pub fn parse_load<'t>(first: Word<'t>, rest: &[Word<'t>]) -> Result<Statement<'t>, Fault> {
    let span = first.start..rest.last().map_or(first.span(), Word::span).end;
    let form = || Fault::new(span.clone(), ELEMENT_FORM).maybe(ranges::with_spaces(rest));
    let [equals, value] = rest else {
        return Err(form());
    };
    let (open, end) = (first.text.find('['), first.text.len());
    let Some(open) = open.filter(|_| equals.text == "=" && first.text.ends_with(']')) else {
        return Err(form());
    };
    let element = Element {
        array: check_name(first.part(0, open))?,
        index: parse_number(first.part(open + 1, end - 1), "an index")?,
        word: first,
    };
    Ok(Statement::Element(element, parse_value(*value)?))
}

/// The array of a line with a fault, as far as it can be told.
pub fn named_array<'t>(words: &[Word<'t>]) -> Option<Word<'t>> {
    match words {
        [array, name, ..] if array.text == "array" => {
            let end = name.text.find('[').unwrap_or(name.text.len());
            check_name(name.part(0, end)).ok()
        }
        _ => None,
    }
}

/// The array between FETCH or STORE and the arrow, if there is one.
pub fn parse_array_name<'t>(
    operation: &Operation,
    words: &[Word<'t>],
) -> Result<Option<Word<'t>>, Fault> {
    let Some(array) = words.first() else {
        return Ok(None);
    };
    let (name, text) = (operation.name, array.text);
    let texts: Vec<&str> = words.iter().map(|word| word.text).collect();
    let followed = format!("{name} is followed by `{}`", texts.join(" "));
    let fault = Fault::new(span_of(words), followed);
    match text.split_once('[') {
        _ if text.parse::<i32>().is_ok() => Err(fault.maybe(hints::constant(name, &texts))),
        Some((known, index)) => {
            let index = index.trim_end_matches(']');
            Err(fault.hint(format!(
                "the index comes by port 0: `{name} {known}`, and `input name = {index}` or an arc"
            )))
        }
        None if words.len() > 1 => Err(fault.hint(hints::array_or_arrow(name, &texts))),
        None => check_name(*array).map(Some),
    }
}
