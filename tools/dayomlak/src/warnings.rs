//! What is probably wrong with a graph, found before it runs.

use std::collections::HashSet;

use ttda::widths::MOST_INSTRUCTIONS;

use crate::diagnostics::Finding;
use crate::graph::{OUT, SWITCH};
use crate::program::Program;
use crate::{circles, indices, meetings, records};

/// All warnings, in the order of the instructions.
pub fn of(program: &Program) -> Vec<Finding> {
    // A longer graph is refused at once, whatever else is wrong with it.
    if program.graph.instructions.len() > MOST_INSTRUCTIONS {
        return Vec::new();
    }
    let mut found: Vec<(usize, Finding)> = Vec::new();
    found.extend(indices::overlaps(program));
    found.extend(indices::of_inputs(program));
    found.extend(indices::of_constants(program));
    found.extend(indices::cells(program));
    found.extend(circles::without_next(program));
    found.extend(circles::with_many(program));
    found.extend(meetings::of(program));
    found.extend(unfed(program));
    found.extend(twins(program));
    found.sort_by_key(|(instruction, _)| *instruction);
    found.into_iter().map(|(_, finding)| finding).collect()
}

/// Ports that no arc, input or LEAVE sends to.
fn unfed(program: &Program) -> Vec<(usize, Finding)> {
    let graph = &program.graph;
    let mut fed: HashSet<(u16, u8)> = HashSet::new();
    let arcs = graph
        .instructions
        .iter()
        .flat_map(|i| i.arcs().iter().copied());
    fed.extend(
        arcs.chain(graph.returns())
            .map(|arc| (arc.instruction, arc.port)),
    );
    let inputs = records::tokens(&program.files.inputs);
    fed.extend(
        inputs
            .iter()
            .map(|input| (input.tag.instruction, input.port)),
    );
    let mut found = Vec::new();
    for (number, instruction) in graph.instructions.iter().enumerate() {
        let missing = |port: &u8| !fed.contains(&(number as u16, *port));
        let ports: Vec<u8> = (0..instruction.operands()).filter(missing).collect();
        if ports.is_empty() {
            continue;
        }
        let name = program.name(number as u16);
        let names: Vec<String> = ports
            .iter()
            .map(|port| format!("`{name}.{port}`"))
            .collect();
        let finding = Finding::warning(format!("nothing sends to {}", names.join(" and ")))
            .at(program.span(number), unfed_words(instruction.code));
        found.push((number, finding));
    }
    found
}

fn unfed_words(code: u8) -> &'static str {
    match code {
        OUT => "no result comes here",
        _ => "it never fires",
    }
}

/// Instructions whose two destinations are one port. A SWITCH sends to one of them only.
fn twins(program: &Program) -> Vec<(usize, Finding)> {
    let mut found = Vec::new();
    for (number, instruction) in program.graph.instructions.iter().enumerate() {
        if matches!(instruction.arcs(), [first, second] if first == second) {
            found.push((number, twin_warning(program, number, instruction.code)));
        }
    }
    found
}

fn twin_warning(program: &Program, number: usize, code: u8) -> Finding {
    let name = program.name(number as u16);
    let finding = Finding::warning(format!("both destinations of `{name}` are the same port"));
    let note = match code {
        SWITCH => "the value goes there whatever the condition is",
        _ => "two tokens come to one port, and its firing is refused by 9",
    };
    finding
        .at(program.arc_span(number, 1), "the same as the first")
        .note(note)
}
