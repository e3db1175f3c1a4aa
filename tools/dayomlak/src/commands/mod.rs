//! The commands, a file each. Each answers the exit status.

pub mod check;
pub mod compare;
pub mod convert;
pub mod diff;
pub mod draw;
pub mod explain;
pub mod expression;
pub mod files;
pub mod install;
pub mod logs;
pub mod profile;
pub mod ranges;
pub mod report;
pub mod run;
pub mod show;
pub mod step;
pub mod studio;
pub mod timeline;
pub mod trace;

use crate::answer::Word;
use crate::diagnostics::{self, Finding};
use crate::failure::{self, Failure};
use crate::machine::{End, Machine};
use crate::program::Program;
use crate::saved::conditions;
use crate::script::{self, Fields};
use crate::{held, json, refused, results, warnings};

/// Loads a program and shows its warnings.
fn load(file: &str) -> Result<Program, Failure> {
    let program = Program::load(file)?;
    diagnostics::complain(&program.text_label, &program.text, &warnings::of(&program));
    Ok(program)
}

/// The answer of a run in words: why it was refused, or its first line, and why it hung on held activities.
pub fn answer(machine: &Machine, end: &End, order: &str) -> String {
    let first = match end.answer.word {
        Word::Refused(_) => String::new(),
        _ => results::headline(machine, end, order) + "\n",
    };
    first + &why(machine, end, order).unwrap_or_default()
}

/// Why a run was refused or hung on held activities, with the place in the text; `None` for another one.
pub fn why(machine: &Machine, end: &End, order: &str) -> Option<String> {
    let program = machine.program;
    let finding = refusal(machine, end, order).or_else(|| held::explain(machine, end))?;
    let text = diagnostics::plain(&program.text_label, &program.text, &[finding]);
    Some(text)
}

/// Why a run was refused; `None` for another one.
pub fn refusal(machine: &Machine, end: &End, order: &str) -> Option<Finding> {
    let finding = refused::explain(machine.program, end, machine.sizes, order)?;
    match end.answer.word {
        Word::Refused(24) => Some(conditions::explain(finding, machine)),
        _ => Some(finding),
    }
}

/// The answer and what the run left.
fn summary(machine: &Machine, end: &End, order: &str) -> String {
    answer(machine, end, order) + &left(machine, end)
}

/// What the run left, a line each.
fn left(machine: &Machine, end: &End) -> String {
    let lines = results::lines(machine, end).into_iter();
    lines.map(|line| line + "\n").collect()
}

/// How a run ended, for scripts: its order and answer, why it was refused, and what it left.
fn ended(machine: &Machine, end: &End, order: &str) -> Fields {
    let program = machine.program;
    let refused = refusal(machine, end, order);
    let said = |finding: Option<Finding>| {
        let finding = finding.map(|finding| script::finding(&program.text, &finding));
        finding.unwrap_or("null".to_string())
    };
    let held = held::of(machine, end);
    let mut fields = vec![
        ("order", json::string(order)),
        ("answer", script::answer(&end.answer)),
        ("refused", said(refused)),
        ("hung", said(held::explain(machine, end))),
        ("held", script::held(program, &held, end.ranged)),
    ];
    fields.extend(script::left(program, end));
    fields
}

/// The exit status of an answer.
fn status(end: &End) -> u8 {
    match end.answer.completed() {
        true => failure::COMPLETED,
        false => failure::NOT_COMPLETED,
    }
}
