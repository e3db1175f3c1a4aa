//! The named arrays of a text, in the order of their lines, and the cells that they take.

use layout::fields::array;
use layout::unsigned;
use layout::widths::{MOST_ARRAYS, MOST_CELLS};

use crate::errors::{Error, Fault};
use crate::statement::{Extent, Line, Statement};
use crate::Array;

/// The arrays of the lines. One with a fault has a place in the table, so that the numbers of the others do not change.
pub fn of(lines: &[Line], errors: &mut Vec<Error>) -> Vec<Array> {
    errors.extend(too_many(lines));
    let mut arrays: Vec<Array> = Vec::new();
    for line in lines {
        let array = |name: &str, first: usize, length: u16| Array {
            name: name.to_string(),
            // What does not fit is a fault.
            first: u16::try_from(first).unwrap_or(u16::MAX),
            length,
            place: line.place(),
        };
        let next = match &line.statement {
            Statement::Array(name, extent) => {
                let first = extent.at.map_or_else(|| next_free(&arrays), usize::from);
                let fault = past_the_cells(name.text, first, extent);
                errors.extend(fault.map(|fault| fault.on_line(line.number)));
                array(name.text, first, extent.length)
            }
            Statement::RawArray(name, record) => {
                let (first, length) = (
                    unsigned(record, array::FIRST),
                    unsigned(record, array::LENGTH),
                );
                array(name.text, first.into(), length)
            }
            Statement::FaultyArray(name) => array(name.text, next_free(&arrays), 0),
            _ => continue,
        };
        arrays.push(next);
    }
    arrays
}

/// The cell behind the last one that an array has so far.
fn next_free(arrays: &[Array]) -> usize {
    let taken = arrays.iter().filter(|array| array.length > 0);
    let ends = taken.map(|array| usize::from(array.first) + usize::from(array.length));
    ends.max().unwrap_or(0)
}

/// Only cells of the store can be an array's; an empty one may stand behind the last.
fn past_the_cells(name: &str, first: usize, extent: &Extent) -> Option<Fault> {
    let end = first + usize::from(extent.length);
    if end <= MOST_CELLS {
        return None;
    }
    let (last, most) = (end - 1, MOST_CELLS - 1);
    let text = format!("`{name}` would have cells {first} to {last}, and {most} is the last");
    let fault = Fault::new(extent.span.clone(), text);
    Some(match extent.at {
        None => fault.hint(format!(
            "it begins behind the arrays above it, at cell {first}"
        )),
        Some(_) => fault,
    })
}

/// More arrays than a table may have: how many, at the first typed one that is too many.
fn too_many(lines: &[Line]) -> Option<Error> {
    let is_array = |line: &&Line| {
        use Statement::{Array, FaultyArray, RawArray};
        matches!(line.statement, Array(..) | RawArray(..) | FaultyArray(_))
    };
    let count = lines.iter().filter(is_array).count();
    let mut beyond = lines.iter().filter(is_array).skip(MOST_ARRAYS);
    let first = beyond.find(|line| !matches!(line.statement, Statement::RawArray(..)))?;
    let text = format!("there are {count} arrays, and {MOST_ARRAYS} is the most");
    let fault = Fault::new(first.span.clone(), text).hint("the first that is too many");
    Some(fault.on_line(first.number))
}
