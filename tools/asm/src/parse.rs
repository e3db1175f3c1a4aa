//! From the words of a line to a statement.

use layout::widths::MOST_CELLS;

use crate::errors::Fault;
use crate::hints;
use crate::operations::{by_name, is_arithmetic, with_constant, Constant, Operation};
use crate::parse_arrays::{is_element, named_array, parse_array, parse_array_name, parse_load};
use crate::ranges::{self, parse_value};
use crate::statement::{Line, Statement, Target, Typed};
use crate::words::{span_of, Word};

const ENTER_FORM: &str = "ENTER is `ENTER site N -> name.port return name`";
pub const NUMBER: &str = "a signed number of 32 bits";

/// Parses the words of one line; `None` for one without a statement.
pub fn parse_line<'t>(
    number: usize,
    words: &[Word<'t>],
    faults: &mut Vec<Fault>,
) -> Option<Line<'t>> {
    if words.is_empty() {
        return None;
    }
    let (name, rest) = parse_label(words, faults);
    let statement = parse_statement(words, name.is_some(), rest).unwrap_or_else(|fault| {
        faults.push(fault);
        let targets = named_targets(rest);
        match (
            name.is_none() && is_other(words[0].text),
            named_array(words),
        ) {
            (true, Some(array)) => Statement::FaultyArray(array),
            (true, None) => Statement::Faulty(targets),
            (false, _) => Statement::FaultyInstruction(targets),
        }
    });
    Some(Line {
        number,
        column: 1,
        name,
        statement,
        span: span_of(words),
    })
}

/// The targets of a line with a fault, as far as they can be told.
fn named_targets<'t>(words: &[Word<'t>]) -> Vec<Target<'t>> {
    let arrow = words.iter().position(|word| word.text == "->");
    let ends: &[Word] = match (words, arrow) {
        ([input, target, ..], _) if input.text == "input" => std::slice::from_ref(target),
        (_, Some(arrow)) => &words[arrow + 1..],
        (_, None) => &[],
    };
    ends.iter()
        .filter_map(|word| parse_target(*word).ok())
        .collect()
}

/// Whether a word begins a line that is no instruction.
fn is_other(word: &str) -> bool {
    matches!(word, "input" | "picks" | "cell" | "array" | "order") || is_element(word)
}

/// The name before a colon, and the words behind it.
fn parse_label<'t, 'w>(
    words: &'w [Word<'t>],
    faults: &mut Vec<Fault>,
) -> (Option<Word<'t>>, &'w [Word<'t>]) {
    let Some(colon) = words.iter().position(|word| word.text == ":") else {
        return forgotten_colon(words, faults);
    };
    let before = &words[..colon];
    let name = match before {
        [name] => check_name(*name),
        [] => Err(Fault::new(words[0].span(), "a colon without a name")),
        // No label: the colon stands among targets, or in a line of another kind.
        [first, ..] if before.iter().any(|word| word.text == "->") || is_other(first.text) => {
            return (None, words)
        }
        _ => {
            let texts: Vec<&str> = before.iter().map(|word| word.text).collect();
            Err(no_name(&texts.join(" "), span_of(before)))
        }
    };
    let name = name.map_err(|fault| faults.push(fault)).ok();
    (name, &words[colon + 1..])
}

/// A name whose colon is missing is a fault, and is taken for the name.
fn forgotten_colon<'t, 'w>(
    words: &'w [Word<'t>],
    faults: &mut Vec<Fault>,
) -> (Option<Word<'t>>, &'w [Word<'t>]) {
    match words {
        [name, next, ..] if is_operation(next.text) && !begins_line(name.text) => {
            let text = format!("`{}` is no operation", name.text);
            let hint = format!("a colon behind the name: `{}: {}`", name.text, next.text);
            faults.push(Fault::new(name.span(), text).hint(hint));
            (check_name(*name).ok(), &words[1..])
        }
        _ => (None, words),
    }
}

fn is_operation(word: &str) -> bool {
    by_name(word).is_some() || word == "raw"
}

fn begins_line(word: &str) -> bool {
    is_operation(word) || is_other(word)
}

fn parse_statement<'t>(
    words: &[Word<'t>],
    named: bool,
    rest: &[Word<'t>],
) -> Result<Statement<'t>, Fault> {
    match rest {
        [] => {
            let name = words[0].text;
            let fault = Fault::new(span_of(words), format!("{name} has no instruction"));
            Err(fault.hint(format!("for example `{name}: COPY -> other.0`")))
        }
        [first, rest @ ..] if !named => match first.text {
            "input" => parse_input(*first, rest),
            "picks" => parse_picks(rest),
            "cell" => parse_cell(*first, rest),
            "order" => parse_order(*first, rest),
            "array" => parse_array(*first, rest),
            "raw" => parse_bytes(*first, rest).map(Statement::Raw),
            word if is_element(word) => parse_load(*first, rest),
            _ => parse_instruction(*first, rest),
        },
        [first, rest @ ..] => match first.text {
            "raw" => parse_bytes(*first, rest).map(Statement::Raw),
            word if is_other(word) => {
                let fault = Fault::new(first.span(), format!("`{word}` is no operation"));
                Err(fault.hint("such a line has no name and colon before it"))
            }
            _ => parse_instruction(*first, rest),
        },
    }
}

fn no_name(name: &str, span: crate::Span) -> Fault {
    let text = format!("`{name}` is no name: letters, digits and _, no digit first");
    Fault::new(span, text)
}

pub fn check_name(word: Word) -> Result<Word, Fault> {
    let mut letters = word.text.chars();
    let first = letters
        .next()
        .is_some_and(|c| c.is_ascii_alphabetic() || c == '_');
    if !first || !letters.all(|c| c.is_ascii_alphanumeric() || c == '_') {
        return Err(no_name(word.text, word.span()));
    }
    if ["input", "picks", "raw", "return", "site"].contains(&word.text) {
        let text = format!("`{}` cannot be a name", word.text);
        return Err(Fault::new(word.span(), text).hint("it begins a line of its own or a clause"));
    }
    Ok(word)
}

pub fn parse_number<T: std::str::FromStr>(word: Word, what: &str) -> Result<T, Fault> {
    word.text
        .parse()
        .map_err(|_| Fault::new(word.span(), format!("`{}` is not {what}", word.text)))
}

/// `name.port`, or `name` alone for port 0.
fn parse_target(word: Word) -> Result<Target, Fault> {
    if word.text == ":" {
        let fault = Fault::new(word.span(), "a colon among the targets");
        return Err(fault.hint("a port is written with a point: `name.0`"));
    }
    if is_element(word.text) {
        let array = word.text.split('[').next().unwrap_or_default();
        let fault = Fault::new(word.span(), format!("`{}` is no target", word.text));
        return Err(fault.hint(format!(
            "an element is written by `STORE {array}`: port 0 takes its index, port 1 its value"
        )));
    }
    let (name, port) = match word.text.find('.') {
        None => (word, 0),
        Some(point) => {
            let port = word.part(point + 1, word.text.len());
            (word.part(0, point), parse_number(port, "a port")?)
        }
    };
    let name = check_name(name)?;
    Ok(Target { name, port, word })
}

/// `input name.port = value` or `input raw BYTES`.
fn parse_input<'t>(first: Word<'t>, rest: &[Word<'t>]) -> Result<Statement<'t>, Fault> {
    match rest {
        [raw, bytes @ ..] if raw.text == "raw" => parse_bytes(*raw, bytes).map(Statement::RawInput),
        [element, equals, value] if equals.text == "=" && is_element(element.text) => {
            let (text, value) = (element.text, value.text);
            let fault = Fault::new(first.start..element.span().end, "an element is no target");
            Err(fault.hint(format!("it is loaded without `input`: `{text} = {value}`")))
        }
        [target, equals, value] if equals.text == "=" => {
            let value = parse_value(*value)?;
            Ok(Statement::Input(parse_target(*target)?, value))
        }
        _ => {
            let span = first.start..rest.last().map_or(first.span(), Word::span).end;
            let fault = Fault::new(span, "an input is `input name.port = value`");
            Err(fault.maybe(ranges::with_spaces(rest)))
        }
    }
}

/// `cell number = value`.
fn parse_cell<'t>(first: Word<'t>, rest: &[Word<'t>]) -> Result<Statement<'t>, Fault> {
    match rest {
        [cell, equals, value] if equals.text == "=" => {
            let what = format!("the number of a cell, 0 to {}", MOST_CELLS - 1);
            let element = is_element(cell.text).then(|| {
                let (text, value) = (cell.text, value.text);
                format!("an element is loaded without `cell`: `{text} = {value}`")
            });
            let number: u16 = parse_number(*cell, &what).map_err(|fault| fault.maybe(element))?;
            if usize::from(number) >= MOST_CELLS {
                let text = format!("`{number}` is not {what}");
                return Err(Fault::new(cell.span(), text));
            }
            Ok(Statement::Cell(i32::from(number), parse_value(*value)?))
        }
        _ => {
            let span = first.start..rest.last().map_or(first.span(), Word::span).end;
            let text = "a cell is loaded by `cell number = value`";
            Err(Fault::new(span, text).maybe(ranges::with_spaces(rest)))
        }
    }
}

fn parse_picks<'t>(words: &[Word<'t>]) -> Result<Statement<'t>, Fault> {
    let pick = |word: &Word| parse_number(*word, "a pick, 0 to 65535");
    let picks: Result<Vec<u16>, Fault> = words.iter().map(pick).collect();
    picks.map(Statement::Picks)
}

/// `order name[0] name[1] ...`, whatever is enabled then.
fn parse_order<'t>(first: Word<'t>, rest: &[Word<'t>]) -> Result<Statement<'t>, Fault> {
    if rest.is_empty() {
        let fault = Fault::new(first.span(), "an order without an activity");
        return Err(fault.hint("for example `order sum[0] total[0]`"));
    }
    Ok(Statement::Order(rest.to_vec()))
}

pub fn parse_bytes<const N: usize>(first: Word, words: &[Word]) -> Result<[u8; N], Fault> {
    let byte = |word: &Word| {
        let digits = word.text.len() == 2 && word.text.bytes().all(|b| b.is_ascii_hexdigit());
        match u8::from_str_radix(word.text, 16) {
            Ok(byte) if digits => Ok(byte),
            _ => {
                let text = format!("`{}` is not a byte of two hexadecimal digits", word.text);
                Err(Fault::new(word.span(), text))
            }
        }
    };
    let bytes: Vec<u8> = words.iter().map(byte).collect::<Result<_, _>>()?;
    let count = bytes.len();
    bytes.try_into().map_err(|_| {
        let span = first.start..words.last().map_or(first.span(), Word::span).end;
        let s = if count == 1 { "" } else { "s" };
        Fault::new(span, format!("{count} byte{s} instead of {N}"))
    })
}

fn parse_instruction<'t>(first: Word<'t>, rest: &[Word<'t>]) -> Result<Statement<'t>, Fault> {
    let operation = by_name(first.text).ok_or_else(|| {
        let text = format!("`{}` is no operation", first.text);
        let behind: Vec<&str> = rest.iter().map(|word| word.text).collect();
        Fault::new(first.span(), text).maybe(hints::line(first.text, &behind))
    })?;
    let (head, tail) = match rest.iter().position(|word| word.text == "->") {
        Some(at) => (&rest[..at], &rest[at + 1..]),
        None => (rest, &[][..]),
    };
    let array = match operation.constant {
        Constant::Array => parse_array_name(&operation, head)?,
        _ => None,
    };
    let (operation, constant) = parse_constant(first, operation, head)?;
    let arcs = parse_arcs(first, &operation, tail)?;
    check_fan_out(first, &operation, tail, arcs.len()).map_err(|fault| match array {
        Some(array) if arcs.is_empty() => {
            fault.hint(hints::array_or_arrow(operation.name, &[array.text]))
        }
        _ => fault,
    })?;
    Ok(Statement::Typed(Typed {
        operation,
        constant,
        array,
        arcs,
    }))
}

fn check_fan_out(
    first: Word,
    operation: &Operation,
    tail: &[Word],
    count: usize,
) -> Result<(), Fault> {
    if u8::try_from(count).is_ok_and(|count| operation.fan_outs().contains(&count)) {
        return Ok(());
    }
    let (low, high) = operation.fan_outs().into_inner();
    let allowed = match (low, high) {
        (0, 0) => "no destinations".to_string(),
        (0, _) => format!("at most {high} destinations, not {count}"),
        _ if low == high => format!("{low} destinations, not {count}"),
        _ => format!("{low} or {high} destinations, not {count}"),
    };
    let span = if tail.is_empty() {
        first.span()
    } else {
        span_of(tail)
    };
    let text = format!("{} has {allowed}", operation.name);
    let hint = match (operation.name, count) {
        ("OUT" | "SINK" | "LEAVE", _) => "an arc ends here",
        ("SWITCH", 0 | 1) => "the second one is taken if port 1 is 0; a SINK swallows it",
        (_, 0) => "where does its token go? `-> name.port`",
        _ => "let one arc go to a COPY, which sends to two",
    };
    Err(Fault::new(span, text).hint(hint))
}

/// The words between the operation's name and its arrow.
fn parse_constant(
    first: Word,
    operation: Operation,
    words: &[Word],
) -> Result<(Operation, i32), Fault> {
    let name = operation.name;
    let texts: Vec<&str> = words.iter().map(|word| word.text).collect();
    let takes_number = operation.constant == Constant::Value || is_arithmetic(&operation);
    let arrow = || hints::arrow(name, &texts, takes_number);
    match (operation.constant, words) {
        (Constant::Unused, []) => Ok((operation, 0)),
        (Constant::Unused, [word]) if is_arithmetic(&operation) => {
            let hint = || ranges::as_constant(word.text).or_else(arrow);
            let constant = parse_number(*word, NUMBER).map_err(|fault| fault.maybe(hint()))?;
            Ok((with_constant(operation), constant))
        }
        (Constant::Value, [word]) => {
            let hint = |fault: Fault| fault.maybe(ranges::as_constant(word.text));
            Ok((operation, parse_number(*word, NUMBER).map_err(hint)?))
        }
        (Constant::Site, [site, word]) if site.text == "site" => {
            let site = parse_byte(*word, 1, "a site, 1 to 255")?;
            Ok((operation, site))
        }
        (Constant::Offset, [word]) => {
            let offset = parse_byte(*word, 0, "a LEAVE constant, 0 to 255")?;
            Ok((operation, offset))
        }
        (Constant::Unused, _) => {
            let text = format!("{name} is followed by `{}`", texts.join(" "));
            let hint = arrow().or_else(|| hints::constant(name, &texts));
            Err(Fault::new(span_of(words), text).maybe(hint))
        }
        (Constant::Value, _) => {
            let fault = Fault::new(first.span(), format!("{name} needs one constant"));
            let example = || format!("for example `{name} 5 -> name.port`");
            let arrow = arrow().filter(|_| words.len() > 1);
            Err(fault.hint(arrow.unwrap_or_else(example)))
        }
        (Constant::Site, _) => Err(Fault::new(first.span(), ENTER_FORM)),
        // Its name is parsed apart.
        (Constant::Array, _) => Ok((operation, 0)),
        (Constant::Offset, _) => {
            let fault = Fault::new(first.span(), "LEAVE needs one constant, 0 to 255");
            Err(fault.hint("`LEAVE 0` sends to the return instruction itself"))
        }
    }
}

fn parse_byte(word: Word, least: i32, what: &str) -> Result<i32, Fault> {
    match word.text.parse() {
        Ok(number) if (least..=255).contains(&number) => Ok(number),
        _ => {
            let text = format!("`{}` is not {what}", word.text);
            Err(Fault::new(word.span(), text))
        }
    }
}

/// The words behind the arrow; ENTER has its return instruction there too.
fn parse_arcs<'t>(
    first: Word<'t>,
    operation: &Operation,
    words: &[Word<'t>],
) -> Result<Vec<Target<'t>>, Fault> {
    if operation.constant != Constant::Site {
        return words.iter().map(|word| parse_target(*word)).collect();
    }
    match words {
        [target, clause, back] if clause.text == "return" => {
            let back = parse_target(*back)?;
            if back.port != 0 {
                return Err(Fault::new(back.word.span(), "a return is to port 0"));
            }
            Ok(vec![parse_target(*target)?, back])
        }
        _ => Err(Fault::new(first.span(), ENTER_FORM)),
    }
}
