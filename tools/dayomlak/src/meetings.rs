//! Ports that are sure to get two tokens under one tag, found before a run.

use std::collections::HashMap;

use crate::diagnostics::Finding;
use crate::graph::{ENTER, FETCH, LEAVE, NEXT, SWITCH};
use crate::program::Program;
use crate::records;

/// Who sends to a port: an arc of an instruction, or an input.
#[derive(Clone, Copy, PartialEq)]
enum Sender {
    Arc(usize, usize),
    Input(usize),
}

/// A port of an instruction.
type Port = (u16, u8);

/// A warning for each port that an input or an instruction sends to beside another, where both are sure to.
pub fn of(program: &Program) -> Vec<(usize, Finding)> {
    let mut senders: HashMap<Port, Vec<Sender>> = HashMap::new();
    for (place, input) in (0..).zip(records::tokens(&program.files.inputs)) {
        let port = (input.tag.instruction, input.port);
        senders.entry(port).or_default().push(Sender::Input(place));
    }
    let sure = sure(program, &senders);
    for (number, instruction) in program.graph.instructions.iter().enumerate() {
        if !sure[number] || !sends_always(instruction.code) {
            continue;
        }
        for (arc, end) in instruction.arcs().iter().enumerate() {
            let port = (end.instruction, end.port);
            senders
                .entry(port)
                .or_default()
                .push(Sender::Arc(number, arc));
        }
    }
    let mut found: Vec<(usize, Finding)> = Vec::new();
    for (port, senders) in senders {
        found.extend(meeting(program, port, &senders));
    }
    found
}

/// Whether a firing sends along all its arcs under its own tag, and at once.
fn sends_always(code: u8) -> bool {
    !matches!(code, SWITCH | NEXT | ENTER | LEAVE | FETCH)
}

/// Which instructions are sure to fire at the root in iteration 0: every port has an input, or an arc of one that is.
fn sure(program: &Program, inputs: &HashMap<Port, Vec<Sender>>) -> Vec<bool> {
    let instructions = &program.graph.instructions;
    let mut fed: Vec<Vec<bool>> = Vec::new();
    for (number, instruction) in instructions.iter().enumerate() {
        let has_input = |port| inputs.contains_key(&(number as u16, port));
        fed.push((0..instruction.operands()).map(has_input).collect());
    }
    let mut sure = vec![false; instructions.len()];
    loop {
        let ready = |at: &usize| !sure[*at] && !fed[*at].is_empty() && fed[*at].iter().all(|f| *f);
        let Some(number) = (0..instructions.len()).find(ready) else {
            return sure;
        };
        sure[number] = true;
        if sends_always(instructions[number].code) {
            for end in instructions[number].arcs() {
                let ports = fed.get_mut(usize::from(end.instruction));
                if let Some(fed) = ports.and_then(|p| p.get_mut(usize::from(end.port))) {
                    *fed = true;
                }
            }
        }
    }
}

/// The warning about a port with two senders. Two inputs are refused before the run, and two arcs of one instruction
/// have a warning of their own.
fn meeting(program: &Program, port: Port, senders: &[Sender]) -> Option<(usize, Finding)> {
    let apart = |first: &Sender, second: &Sender| match (first, second) {
        (Sender::Input(_), Sender::Input(_)) => false,
        (Sender::Arc(one, _), Sender::Arc(two, _)) => one != two,
        _ => true,
    };
    let first = senders.first()?;
    let second = senders.iter().find(|second| apart(first, second))?;
    let span = |sender: &Sender| match sender {
        Sender::Arc(number, arc) => program.arc_span(*number, *arc),
        Sender::Input(place) => program.input_span(*place),
    };
    let name = program.name(port.0);
    let finding = Finding::warning(format!("two tokens come to `{name}.{}`", port.1))
        .at(span(second), "the second one")
        .also(span(first), "the first one")
        .note("a port takes one token under a tag: every order is refused, by 9 unless something else is refused first");
    Some((usize::from(port.0), finding))
}
