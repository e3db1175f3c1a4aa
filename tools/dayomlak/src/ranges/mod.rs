//! Runs whose inputs are known only between limits (02, R-11): what they cannot decide, samples of plain runs within the limits,
//! and the picture of both.

pub mod origins;
pub mod run;
pub mod sample;
pub mod strip;
pub mod undecided;

use asm::RangedInput;

use crate::diagnostics::Finding;
use crate::program::Program;
use crate::records;

/// The most ranges that are shown with their lines.
const SHOWN: usize = 4;

const WHO_TAKES_IT: &str =
    "`dayomlak ranges` runs the graph for all values between the limits; no other command takes a range";
const WHAT_TO_DO: &str = "for a plain run write one value in its place";

/// The ranges of a program, where single values are needed: each with its place, and what to do.
pub fn findings(program: &Program) -> Vec<Finding> {
    let mut findings: Vec<Finding> = program.ranges.iter().take(SHOWN).map(finding).collect();
    let more = program.ranges.len().saturating_sub(SHOWN);
    if let Some(last) = findings.last_mut() {
        if more > 0 {
            last.notes.push(format!("and {more} more"));
        }
        last.notes.push(WHO_TAKES_IT.to_string());
        last.notes.push(WHAT_TO_DO.to_string());
    }
    findings
}

fn finding(range: &RangedInput) -> Finding {
    let title = format!("`{}..{}` is a range", range.low, range.high);
    Finding::error(title).at(Some(range.span.clone()), "known only between these limits")
}

/// An input by its name as it is typed.
pub fn input_name(program: &Program, input: usize) -> String {
    let token = records::tokens(&program.files.inputs)[input];
    let instruction = token.tag.instruction;
    let name = program.name(instruction);
    let operands = program.graph.get(instruction).map_or(0, |i| i.operands());
    match program.is_load_line(instruction) || operands < 2 {
        true => name,
        false => format!("{name}.{}", token.port),
    }
}
