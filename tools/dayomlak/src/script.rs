//! What scripts read: `--json`, one object on one line, whose form docs/JSON.md gives, and `--csv`.

use asm::Span;
use codespan_reporting::diagnostic::Severity;

use crate::answer::{Answer, Word};
use crate::diagnostics::Finding;
use crate::failure::Failure;
use crate::held::Held;
use crate::json::{list, maybe, object, string};
use crate::machine::{End, Machine};
use crate::output;
use crate::program::{Program, STANDARD_INPUT};
use crate::records::{Cell, State, Token};
use crate::value::Value;
use crate::{refusals, results, warnings};

/// Changes where a field goes or gets another meaning, and not where one comes.
const VERSION: usize = 1;

/// The fields of an object, whose values are JSON.
pub type Fields = Vec<(&'static str, String)>;

/// Prints what a command answers about a file.
pub fn print(command: &str, program: &Program, fields: Fields) -> Result<(), Failure> {
    let warnings = warnings::of(program);
    let warnings = warnings.iter().map(|w| finding(&program.text, w));
    let mut all = head(command);
    all.push(("file", string(&program.label)));
    all.push(("warnings", list(warnings)));
    all.extend(fields);
    line(&all)
}

/// Prints what a command answers about no file.
pub fn print_alone(command: &str, fields: Fields) -> Result<(), Failure> {
    line(&[head(command), fields].concat())
}

/// Prints why a command gives no answer.
pub fn print_failure(command: &str, file: &str, failure: &Failure) -> Result<(), Failure> {
    let file = match file {
        "-" => STANDARD_INPUT,
        file => file,
    };
    let findings = match failure {
        Failure::Faulty(faults) => {
            let findings = faults.findings.iter();
            findings.map(|f| finding(&faults.text, f)).collect()
        }
        _ => Vec::new(),
    };
    let text = failure.to_string();
    let message = text.strip_prefix("error: ").unwrap_or(&text);
    let error = [
        ("status", failure.status().to_string()),
        ("message", string(message)),
        ("findings", list(findings)),
    ];
    let mut all = head(command);
    all.push(("file", string(file)));
    all.push(("error", object(&error)));
    line(&all)
}

fn head(command: &str) -> Fields {
    vec![
        ("version", VERSION.to_string()),
        ("command", string(command)),
    ]
}

fn line(fields: &[(&'static str, String)]) -> Result<(), Failure> {
    output::print((object(fields) + "\n").as_bytes())
}

pub fn flag(value: bool) -> String {
    value.to_string()
}

/// The word, the refusal with its name, and the counts.
pub fn answer(answer: &Answer) -> String {
    let (word, refusal) = match answer.word {
        Word::Completed => ("completed", None),
        Word::Hung => ("hung", None),
        Word::Spent => ("spent", None),
        Word::Refused(number) => ("refused", Some(number)),
    };
    let name = refusal.map_or("null".to_string(), |n| string(refusals::word(n)));
    object(&[
        ("word", string(word)),
        ("refusal", maybe(refusal.map(usize::from))),
        ("name", name),
        ("firings", answer.firings.to_string()),
        ("tokens", answer.tokens.to_string()),
        ("place", answer.place.to_string()),
    ])
}

/// What a run was lent.
pub fn lent(machine: &Machine) -> Fields {
    vec![
        ("capacity", machine.sizes.capacity.to_string()),
        ("cell_count", machine.sizes.cells.to_string()),
        ("bound", machine.bound.to_string()),
    ]
}

/// Activities that the bound holds back, each with the tokens that hold it.
pub fn held(program: &Program, held: &[Held], ranged: bool) -> String {
    list(held.iter().map(|held| {
        let by = held.by.iter().map(|holder| token(program, holder, ranged));
        object(&[
            ("name", string(&program.tag(&held.tag))),
            ("path", string(&held.tag.path.to_string())),
            ("iteration", held.tag.iteration.to_string()),
            ("instruction", held.tag.instruction.to_string()),
            ("line", maybe(program.line(held.tag.instruction))),
            ("by", list(by)),
        ])
    }))
}

/// The counts of the saved state that a run went on from, if it did.
pub fn from(machine: &Machine) -> Option<(&'static str, String)> {
    let (firings, tokens) = machine.given();
    let counts = [
        ("firings", firings.to_string()),
        ("tokens", tokens.to_string()),
    ];
    machine.start.map(|_| ("from", object(&counts)))
}

/// Results, tokens that are neither results nor spent, and cells that are not absent.
pub fn left(program: &Program, end: &End) -> Fields {
    let (tokens, ranged) = (end.listed(), end.ranged);
    let unspent = tokens.iter().filter(|t| t.state != State::Spent);
    let (results, others): (Vec<&Token>, Vec<&Token>) =
        unspent.partition(|t| results::is_result(program, t));
    let all = |tokens: Vec<&Token>| list(tokens.into_iter().map(|t| token(program, t, ranged)));
    // What a run that did not begin was lent is nothing that it left.
    let begun = !end.answer.refused_at_once();
    let cells = (0..).zip(end.cells()).filter(|_| begun);
    let cells = cells.filter_map(|(number, c)| cell(program, number, c, ranged));
    vec![
        ("results", all(results)),
        ("left", all(others)),
        ("cells", list(cells)),
    ]
}

/// A token. Paths have up to 128 bits, and so are strings.
pub fn token(program: &Program, token: &Token, ranged: bool) -> String {
    let mut fields = vec![
        ("name", string(&program.port(&token.tag, token.port))),
        ("path", string(&token.tag.path.to_string())),
        ("iteration", token.tag.iteration.to_string()),
        ("instruction", token.tag.instruction.to_string()),
        ("port", token.port.to_string()),
    ];
    fields.extend(value(Some(token.value), ranged));
    fields.push(("state", string(token.state.word())));
    fields.push(("waits_for", awaited(program, token)));
    object(&fields)
}

/// One number, or, in a run of ranges, both ends; null where there is none.
fn value(value: Option<Value>, ranged: bool) -> Fields {
    let number = |end: fn(Value) -> i32| {
        let number = value.map(|value| end(value).to_string());
        number.unwrap_or("null".to_string())
    };
    match ranged {
        true => vec![
            ("low", number(|value| value.low)),
            ("high", number(|value| value.high)),
        ],
        false => vec![("value", number(|value| value.low))],
    }
}

/// The name of the cell that a deferred token waits for.
fn awaited(program: &Program, token: &Token) -> String {
    match token.state {
        State::Deferred => string(&program.cell(token.value.low)),
        State::Live | State::Spent => "null".to_string(),
    }
}

fn cell(program: &Program, number: i32, cell: Cell, ranged: bool) -> Option<String> {
    let (state, held) = match cell {
        Cell::Absent => return None,
        Cell::Waiting => ("waiting", None),
        Cell::Present(value) => ("present", Some(value)),
    };
    let mut fields = vec![
        ("cell", number.to_string()),
        ("name", string(&program.cell(number))),
        ("state", string(state)),
    ];
    fields.extend(value(held, ranged));
    Some(object(&fields))
}

/// A message, with its line and column, counted from 1, if it has a place.
pub fn finding(text: &str, finding: &Finding) -> String {
    let severity = match finding.severity {
        Severity::Warning => "warning",
        Severity::Note => "note",
        _ => "error",
    };
    let at = finding.at.as_ref();
    let place = at.map(|(span, _)| place(text, span));
    object(&[
        ("severity", string(severity)),
        ("message", string(&finding.title)),
        ("line", maybe(place.map(|(line, _)| line))),
        ("column", maybe(place.map(|(_, column)| column))),
        ("says", string(at.map_or("", |(_, words)| words))),
        ("notes", list(finding.notes.iter().map(|note| string(note)))),
    ])
}

fn place(text: &str, span: &Span) -> (usize, usize) {
    let before = text.get(..span.start).unwrap_or(text);
    let column = before.rsplit('\n').next().unwrap_or("").chars().count();
    (before.matches('\n').count() + 1, column + 1)
}

/// A line of CSV. A field with a comma, a quote or a line end is quoted.
pub fn csv(fields: &[String]) -> String {
    let field = |field: &String| match field.contains([',', '"', '\n']) {
        true => format!("\"{}\"", field.replace('"', "\"\"")),
        false => field.clone(),
    };
    fields.iter().map(field).collect::<Vec<_>>().join(",") + "\n"
}

#[cfg(test)]
mod tests {
    use super::*;

    #[test]
    fn places_count_from_one_in_characters() {
        assert_eq!(place("a\nbé c\n", &(6..7)), (2, 4));
        assert_eq!(place("", &(0..0)), (1, 1));
    }

    #[test]
    fn fields_of_csv_are_quoted_where_needed() {
        let fields = ["a b", "a,b", "say \"x\""].map(str::to_string);
        assert_eq!(csv(&fields), "a b,\"a,b\",\"say \"\"x\"\"\"\n");
    }
}
