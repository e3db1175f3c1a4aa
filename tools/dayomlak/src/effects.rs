//! What a firing takes and does, in words.

use crate::history::{Firing, History, Touch};
use crate::program::Program;
use crate::value::Value;

/// The values of its operands, by port.
pub fn operands(history: &History, firing: &Firing) -> String {
    let operand = |place: &usize| history.tokens[*place].value.to_string();
    let operands: Vec<String> = firing.operands.iter().map(operand).collect();
    operands.join(" ")
}

/// What the firing does: its outputs, and the cell that it touches.
pub fn of(program: &Program, history: &History, firing: &Firing) -> String {
    let name = |place: usize| {
        let token = &history.tokens[place];
        program.port(&token.tag, token.port)
    };
    let names =
        |places: &mut dyn Iterator<Item = usize>| places.map(name).collect::<Vec<_>>().join(", ");
    // A deferred output has its value later; by now the ledger may hold it.
    if let Some(Touch::Deferred(cell)) = firing.touch {
        let outputs = names(&mut firing.outputs.clone());
        let cell = program.touched(firing.tag.instruction, cell);
        return format!("-> {outputs} deferred: {cell} has no value yet");
    }
    let sent = |place: usize| format!("{} = {}", name(place), history.tokens[place].value);
    let outputs: Vec<String> = firing.outputs.clone().map(sent).collect();
    let mut parts = Vec::new();
    if !outputs.is_empty() {
        parts.push(format!("-> {}", outputs.join(", ")));
    }
    let touched = |cell: &i32| program.touched(firing.tag.instruction, *cell);
    match &firing.touch {
        Some(Touch::Read(cell)) => parts.push(format!("reads {}", touched(cell))),
        Some(Touch::Written(cell, woken)) => {
            let value = firing
                .operands
                .get(1)
                .map_or(Value::of(0), |place| history.tokens[*place].value);
            parts.push(format!("{} := {value}", touched(cell)));
            if !woken.is_empty() {
                parts.push(format!("wakes {}", names(&mut woken.iter().copied())));
            }
        }
        _ => {}
    }
    parts.join("; ")
}

/// Operation, operands and what they lead to.
pub fn sentence(program: &Program, history: &History, firing: &Firing) -> String {
    let operation = program.graph.get(firing.tag.instruction);
    let operation = operation.map_or(String::new(), |i| i.words());
    let operands = operands(history, firing).replace(' ', " and ");
    let effects = of(program, history, firing);
    let join = match effects.chars().next() {
        None => "",
        Some('-') => " ",
        Some(_) => ": ",
    };
    format!("{operation} with {operands}{join}{effects}")
}
