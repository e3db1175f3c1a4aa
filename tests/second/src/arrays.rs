//! Named arrays (02, R-10): the table that comes with a run, and the cell that an index
//! means.

use crate::graph::{Graph, Instruction};
use crate::{fits, Refusal, ARRAY_RECORD, MOST_ARRAYS};

/// The cells of an array.
#[derive(Clone, Copy, Debug)]
struct NamedArray {
    first: usize,
    length: usize,
}

impl NamedArray {
    fn parse(record: &[u8]) -> NamedArray {
        let number = |at: usize| usize::from(u16::from_le_bytes([record[at], record[at + 1]]));
        NamedArray {
            first: number(0),
            length: number(2),
        }
    }
}

/// A checked table, and how many cells its store has.
pub struct Arrays {
    table: Vec<NamedArray>,
    cell_count: usize,
}

impl Arrays {
    /// No table over no cells.
    pub fn none() -> Arrays {
        Arrays {
            table: Vec::new(),
            cell_count: 0,
        }
    }

    /// The table, or 22: at place 0 for a fault of the table, else at the first FETCH or
    /// STORE whose constant names no array of it.
    pub fn parse(table: &[u8], cell_count: usize, graph: &Graph) -> Result<Arrays, Refusal> {
        let refuse = |place| Refusal { number: 22, place };
        if !fits(table.len(), ARRAY_RECORD, MOST_ARRAYS) {
            return Err(refuse(0));
        }
        let arrays = Arrays {
            table: table
                .chunks_exact(ARRAY_RECORD)
                .map(NamedArray::parse)
                .collect(),
            cell_count,
        };
        let inside = |array: &NamedArray| array.first + array.length <= cell_count;
        if !arrays.table.iter().all(inside) {
            return Err(refuse(0));
        }
        let unnamed = |instruction: &Instruction| {
            instruction.operation.reaches_a_cell() && !arrays.names(instruction.constant)
        };
        match graph.instructions.iter().position(unnamed) {
            Some(place) => Err(refuse(place)),
            None => Ok(arrays),
        }
    }

    /// Whether a constant is 0, for the whole store, or the number of an array, counted
    /// from 1.
    fn names(&self, constant: i32) -> bool {
        usize::try_from(constant).is_ok_and(|number| number <= self.table.len())
    }

    /// The number of the cell that an operand means under a constant of the table, or
    /// `None` for refusal 10. The whole store counts from 0, an array's cells from 1.
    pub fn cell(&self, constant: i32, operand: i32) -> Option<usize> {
        let (first, lowest, length) = match usize::try_from(constant).ok()?.checked_sub(1) {
            None => (0, 0, self.cell_count),
            Some(number) => {
                let array = self.table[number];
                (array.first, 1, array.length)
            }
        };
        let offset = usize::try_from(i64::from(operand) - lowest).ok()?;
        (offset < length).then_some(first + offset)
    }
}
