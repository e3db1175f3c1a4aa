//! `dayomlak expression`: an expression in one line, its value and its graph.

use std::collections::{BTreeMap, BTreeSet};

use ttda::widths::INSTRUCTION;

use super::{answer, status};
use crate::answer::{count, Word};
use crate::cli;
use crate::diagnostics::{self, Finding};
use crate::expression::{self, typed, Expression, Kind, Part, MOST_PARTS};
use crate::failure::Failure;
use crate::machine::{End, Machine, Sizes, WHOLE};
use crate::output::{self, Target};
use crate::program::Program;

/// How messages call the text.
const LABEL: &str = "expression";
/// Records that are enough for the run of every expression (02, R-14).
const LEDGER: usize = 300;

pub fn expression(args: &cli::Expression) -> Result<u8, Failure> {
    let expression = read(&args.text)?;
    let values = values(&expression, &args.values)?;
    let target = args.output.as_deref().map(|path| Target::new(path, &[]));
    let target = target.transpose()?;
    let graph = graph(&expression)?;
    let text = typed::text(&expression, &values);
    let program = Program::typed(LABEL, text.clone().into_bytes())?;
    if program.files.graph != graph {
        return Err(inconsistent("its typed graph is another one"));
    }
    let sizes = Sizes {
        capacity: LEDGER,
        cells: 0,
    };
    let machine = Machine::new(&program, sizes);
    let end = machine.run(&[], WHOLE);
    let said = said(&expression, &values, &machine, &end)?;
    match target {
        None => output::print(said.as_bytes())?,
        Some(target) => {
            target.write(text.as_bytes())?;
            target.say(&said)?;
        }
    }
    Ok(status(&end))
}

fn faulty(text: &str, findings: Vec<Finding>) -> Failure {
    Failure::faulty(LABEL, text, findings)
}

/// The parts of a text.
fn read(text: &str) -> Result<Expression, Failure> {
    let expression = expression::parse(text).map_err(|fault| {
        let finding = Finding::error(fault.title).at(Some(fault.span), fault.hint);
        faulty(text, vec![finding])
    })?;
    let parts = expression.parts.len();
    if parts > MOST_PARTS {
        let variables = count(expression.variables().count(), "name");
        let operations = count(expression.operations().count(), "operation");
        return Err(Failure::Wrong(format!(
            "the expression has {parts} records, {variables} or constants and {operations}, and {MOST_PARTS} are the most\n  \
             give a part of it a name, and its value behind the expression"
        )));
    }
    Ok(expression)
}

/// The value of each variable record; names without one are all shown.
fn values(expression: &Expression, given: &[cli::Value]) -> Result<Vec<i32>, Failure> {
    let known = known(expression, given)?;
    let missing = missing(expression, &known);
    if !missing.is_empty() {
        return Err(faulty(&expression.text, missing));
    }
    let value = |part: &Part| match &part.kind {
        Kind::Name(name) => known.get(name.as_str()).copied(),
        Kind::Constant(value) => Some(*value),
        Kind::Operation(..) => None,
    };
    Ok(expression.variables().filter_map(value).collect())
}

/// The values by name: each name has one, and is in the expression.
fn known<'v>(
    expression: &Expression,
    given: &'v [cli::Value],
) -> Result<BTreeMap<&'v str, i32>, Failure> {
    let mut known = BTreeMap::new();
    for cli::Value { name, value } in given {
        let named = |part: &Part| matches!(&part.kind, Kind::Name(other) if other == name);
        let fault = if known.insert(name.as_str(), *value).is_some() {
            "has two values; give it one"
        } else if !expression.parts.iter().any(named) {
            "has a value, and is not in the expression"
        } else {
            continue;
        };
        return Err(Failure::Wrong(format!("`{name}` {fault}")));
    }
    Ok(known)
}

/// A question for each name without a value, where it stands first.
fn missing(expression: &Expression, known: &BTreeMap<&str, i32>) -> Vec<Finding> {
    let mut asked = BTreeSet::new();
    let mut findings = Vec::new();
    for part in expression.variables() {
        match &part.kind {
            Kind::Name(name) if !known.contains_key(name.as_str()) && asked.insert(name) => {
                findings.push(without_value(name, part));
            }
            _ => (),
        }
    }
    findings
}

fn without_value(name: &str, part: &Part) -> Finding {
    let words = format!("give it behind the expression: {name}=5");
    Finding::error(format!("what is the value of `{name}`?")).at(Some(part.span.clone()), words)
}

/// The graph that the engine makes.
fn graph(expression: &Expression) -> Result<Vec<u8>, Failure> {
    let records = expression.records();
    let mut graph = vec![0; INSTRUCTION * (expression.parts.len() + 1)];
    match ttda::expression(&records, &mut graph).word() {
        Word::Completed => Ok(graph),
        word => Err(inconsistent(&format!("its records give {word:?}"))),
    }
}

/// The value and the answer, or why there is none. What OUT received is the value.
fn said(
    expression: &Expression,
    values: &[i32],
    machine: &Machine,
    end: &End,
) -> Result<String, Failure> {
    let values: Vec<u8> = values
        .iter()
        .flat_map(|value| value.to_le_bytes())
        .collect();
    let value = ttda::expression_value(&expression.records(), &values);
    let out = end
        .tokens()
        .into_iter()
        .find(|t| usize::from(t.tag.instruction) == expression.parts.len());
    match (value.word(), end.answer.word, out) {
        (Word::Completed, Word::Completed, Some(out)) if out.value.low == value.value() => {
            let text = expression::one_line(&expression.text);
            let answer = answer(machine, end, "oldest first");
            Ok(format!("{text} = {}\n{answer}", out.value))
        }
        (Word::Refused(12), Word::Refused(12), None) => {
            let finding = out_of_range(expression, end)
                .ok_or_else(|| inconsistent("no operation is at fault"))?;
            Ok(diagnostics::plain(LABEL, &expression.text, &[finding]))
        }
        _ => Err(inconsistent("its value is not what the run gives")),
    }
}

/// Which part of the text is out of range, and with which operands.
fn out_of_range(expression: &Expression, end: &End) -> Option<Finding> {
    let tokens = end.tokens();
    let tag = tokens.get(end.answer.place)?.tag;
    let part = expression.part(tag.instruction.into())?;
    let operand = |port| {
        let token = tokens.iter().find(|t| t.tag == tag && t.port == port);
        token.map(|token| token.value.low)
    };
    let (left, right) = (operand(0)?, operand(1)?);
    let Kind::Operation(operator, ..) = part.kind else {
        return None;
    };
    let why = match right == 0 && operator.divides() {
        true => "the divisor is 0",
        false => "values are -2,147,483,648 to 2,147,483,647",
    };
    let words = format!("{left} {} {right}: {why}", operator.sign());
    let title = format!("{}, in `{}`", end.answer.words(), expression.words(part));
    Some(
        Finding::error(title)
            .at(Some(part.span.clone()), words)
            .note(format!("before it: {}, oldest first", end.answer.counts()))
            .note("`dayomlak explain 12` says more"),
    )
}

fn inconsistent(text: &str) -> Failure {
    Failure::Inconsistent(format!("the expression: {text}"))
}
