//! Arrays that share cells, and indices that no element has, found before a run.

use crate::diagnostics::Finding;
use crate::graph::Instruction;
use crate::loads::Loads;
use crate::program::Program;
use crate::records;

/// The code of CONST.
const CONST: u8 = 4;

/// A finding about an instruction, or about the whole graph by 0.
type Found = Vec<(usize, Finding)>;

/// Arrays that have a cell of one above them. Rules allow it.
pub fn overlaps(program: &Program) -> Found {
    let arrays = program.arrays.all();
    let mut found = Vec::new();
    for (number, array) in arrays.iter().enumerate() {
        let shared = |other| Some((other, array.shared(other)?));
        let Some((other, cell)) = arrays[..number].iter().find_map(shared) else {
            continue;
        };
        let element = |of: &crate::arrays::Array| of.element(cell).unwrap_or_default();
        let (own, others) = (element(array), element(other));
        let finding =
            Finding::warning(format!("`{}` and `{}` share cells", other.name, array.name))
                .at(array.span.clone(), array.cells())
                .also(other.span.clone(), other.cells())
                .note(format!(
                    "`{own}` is `{others}`: what is written to one is the other's value"
                ));
        found.push((0, finding));
    }
    found
}

/// Inputs that are indices which their array does not have.
pub fn of_inputs(program: &Program) -> Found {
    let mut found = Vec::new();
    for (place, input) in records::tokens(&program.files.inputs).iter().enumerate() {
        let number = input.tag.instruction;
        let is_index = input.port == 0 && program.range(place).is_none();
        let Some(instruction) = program.graph.get(number).filter(|_| is_index) else {
            continue;
        };
        if let Some(finding) = outside(program, number, instruction, input.value.low) {
            let finding = finding.at(program.input_span(place), "the index");
            found.push((number.into(), finding));
        }
    }
    found
}

/// Constants that are sent as indices which their array does not have.
pub fn of_constants(program: &Program) -> Found {
    let mut found = Vec::new();
    for (number, sender) in program.graph.instructions.iter().enumerate() {
        let arcs = sender.arcs().iter().enumerate();
        for (side, arc) in arcs.filter(|(_, arc)| sender.code == CONST && arc.port == 0) {
            let to = arc.instruction;
            let finding = program.graph.get(to);
            let finding = finding.and_then(|i| outside(program, to, i, sender.constant));
            let span = program.arc_span(number, side);
            found.extend(finding.map(|finding| (number, finding.at(span, "the index goes here"))));
        }
    }
    found
}

/// The warning about an index that the array of an instruction does not have.
fn outside(
    program: &Program,
    number: u16,
    instruction: &Instruction,
    index: i32,
) -> Option<Finding> {
    let array = instruction.array.as_ref()?;
    if array.cell(index).is_some() {
        return None;
    }
    let name = program.name(number);
    let finding = Finding::warning(array.lacks(index))
        .also(array.span.clone(), array.elements())
        .note(format!(
            "elements are counted from 1; the firing of `{name}` is refused by 10"
        ));
    Some(finding)
}

/// Cells that are loaded by their number and are elements of an array.
pub fn cells(program: &Program) -> Found {
    let mut found = Vec::new();
    for (number, (cell, value)) in Loads::of(program).cells {
        let is_numbered = program.name(number) == format!("cell {cell}");
        let arrays = program.arrays.all().iter();
        let element = arrays
            .filter(|_| is_numbered)
            .find_map(|a| Some((a, a.element(cell)?)));
        let Some((array, element)) = element else {
            continue;
        };
        let name = &array.name;
        let finding = Finding::warning(format!("cell {cell} is an element of `{name}`"))
            .at(program.span(number.into()), format!("this is `{element}`"))
            .also(array.span.clone(), array.cells())
            .note(format!(
                "write `{element} = {value}`, or let `{name}` begin at another cell"
            ));
        found.push((number.into(), finding));
    }
    found
}
