//! The records of a graph, read for names, pictures and warnings. A graph that the engine refuses is read too, as far as it
//! goes.

use std::collections::BTreeSet;

use asm::{by_code, Operation};
use ttda::layout::fields::instruction;
pub use ttda::layout::operations::*;
use ttda::layout::{arcs, signed};
use ttda::widths;

use crate::arrays::{Array, Arrays};

/// The end of an arc.
#[derive(Clone, Copy, Debug, PartialEq, Eq, PartialOrd, Ord)]
pub struct Destination {
    pub instruction: u16,
    pub port: u8,
}

#[derive(Clone, Debug)]
pub struct Instruction {
    pub code: u8,
    /// `None` for an unknown code.
    operation: Option<Operation>,
    /// Those in use. The second of an ENTER is where the call returns to, and no arc.
    pub destinations: Vec<Destination>,
    pub constant: i32,
    /// The array that FETCH or STORE names, if the table has it.
    pub array: Option<Array>,
}

impl Instruction {
    fn of(record: &[u8], arrays: &Arrays) -> Instruction {
        let code = record[instruction::CODE];
        let constant = signed(record, instruction::CONSTANT);
        let array = arrays.get(constant).filter(|_| touches(code));
        Instruction {
            code,
            operation: by_code(code),
            destinations: arcs(record)
                .take(2)
                .map(|(instruction, port)| Destination { instruction, port })
                .collect(),
            constant,
            array: array.cloned(),
        }
    }

    /// The cell that its first operand is the number or the index of, of a FETCH or a STORE; `None` for an index that its
    /// array does not have.
    pub fn cell(&self, operand: i32) -> Option<i32> {
        match (&self.array, self.constant) {
            _ if !touches(self.code) => None,
            (Some(array), _) => array.cell(operand),
            (None, 0) => Some(operand),
            (None, _) => None,
        }
    }

    pub fn operands(&self) -> u8 {
        self.operation.map_or(0, |operation| operation.operands)
    }

    /// How many tokens a firing sends.
    pub fn outputs(&self) -> usize {
        match self.code {
            SWITCH | ENTER | LEAVE => 1,
            _ => self.destinations.len(),
        }
    }

    /// The arcs that tokens go along under the same path and iteration, or the next one.
    pub fn arcs(&self) -> &[Destination] {
        match self.code {
            ENTER => &self.destinations[..self.destinations.len().min(1)],
            _ => &self.destinations,
        }
    }

    /// Of an ENTER, where it sends to and where the call returns to.
    fn call(&self) -> Option<&[Destination; 2]> {
        match self.code {
            ENTER => self.destinations.first_chunk(),
            _ => None,
        }
    }

    /// An operation with the array that it names.
    fn array_words(&self, operation: &str) -> String {
        match (&self.array, self.constant) {
            (Some(array), _) => format!("{operation} {}", array.name),
            (None, 0) => operation.to_string(),
            (None, number) => format!("{operation} of array {number}"),
        }
    }

    /// The operation with its constant, as it is typed.
    pub fn words(&self) -> String {
        let Some(operation) = self.operation else {
            return format!("code {}", self.code);
        };
        match operation.constant {
            asm::Constant::Unused => operation.name.to_string(),
            asm::Constant::Site => format!("{} site {}", operation.name, self.constant),
            asm::Constant::Array => self.array_words(operation.name),
            asm::Constant::Value | asm::Constant::Offset => {
                format!("{} {}", operation.name, self.constant)
            }
        }
    }
}

/// Whether an operation touches a cell.
fn touches(code: u8) -> bool {
    matches!(code, FETCH | STORE)
}

#[derive(Clone, Debug)]
pub struct Graph {
    pub instructions: Vec<Instruction>,
}

impl Graph {
    pub fn of(bytes: &[u8], arrays: &Arrays) -> Graph {
        let records = bytes.chunks_exact(widths::INSTRUCTION);
        let instructions = records.map(|record| Instruction::of(record, arrays));
        Graph {
            instructions: instructions.collect(),
        }
    }

    pub fn get(&self, number: u16) -> Option<&Instruction> {
        self.instructions.get(usize::from(number))
    }

    /// The first ENTER of a site.
    pub fn enter(&self, site: u8) -> Option<u16> {
        let is = |i: &Instruction| i.code == ENTER && i.constant == i32::from(site);
        self.instructions
            .iter()
            .position(is)
            .map(|number| number as u16)
    }

    /// Where tokens that LEAVE in any call may go.
    pub fn returns(&self) -> Vec<Destination> {
        let returns = (0..self.instructions.len()).flat_map(|number| self.returns_of(number));
        let to = |instruction| Destination {
            instruction,
            port: 0,
        };
        returns.map(to).collect()
    }

    /// The instructions that the call of an ENTER may return to: its return instruction plus the constant of each LEAVE
    /// that can be reached in the call.
    pub fn returns_of(&self, number: usize) -> BTreeSet<u16> {
        let Some([first, back]) = self.instructions.get(number).and_then(Instruction::call) else {
            return BTreeSet::new();
        };
        let reached = self.reached(first.instruction);
        let constants = reached.into_iter().filter_map(|number| self.leave(number));
        constants
            .filter_map(|constant| self.behind(back.instruction, constant))
            .collect()
    }

    /// The constant of a LEAVE.
    pub fn leave(&self, number: u16) -> Option<i32> {
        let instruction = self.get(number).filter(|i| i.code == LEAVE)?;
        Some(instruction.constant)
    }

    /// The instruction at this distance behind another, if there is one.
    fn behind(&self, instruction: u16, constant: i32) -> Option<u16> {
        let number = i32::from(instruction).checked_add(constant)?;
        let number = u16::try_from(number).ok()?;
        self.get(number).map(|_| number)
    }

    /// What can be reached from an instruction within its call. An inner call is passed over: it may return by any LEAVE
    /// of the graph.
    pub fn reached(&self, from: u16) -> BTreeSet<u16> {
        let leaves: BTreeSet<i32> = (0..self.instructions.len() as u16)
            .filter_map(|number| self.leave(number))
            .collect();
        closure(from, |number| {
            match self.get(number).map(|i| (i.call(), i.arcs())) {
                Some((Some([_, back]), _)) => {
                    let back = back.instruction;
                    let ends = leaves.iter().filter_map(|leave| self.behind(back, *leave));
                    ends.collect()
                }
                Some((None, arcs)) => arcs.iter().map(|arc| arc.instruction).collect(),
                None => Vec::new(),
            }
        })
    }

    /// What tokens can come to from an instruction under its own tag: no further than to a NEXT, and past the calls that
    /// return.
    pub fn reached_under_one_tag(&self, from: u16) -> BTreeSet<u16> {
        closure(from, |number| match self.get(number) {
            Some(i) if i.code == ENTER => self.returns_of(number.into()).into_iter().collect(),
            Some(i) if i.code != NEXT => i.arcs().iter().map(|arc| arc.instruction).collect(),
            _ => Vec::new(),
        })
    }
}

/// All that follows an instruction, itself included.
fn closure(from: u16, next: impl Fn(u16) -> Vec<u16>) -> BTreeSet<u16> {
    let mut reached = BTreeSet::from([from]);
    let mut open = vec![from];
    while let Some(number) = open.pop() {
        open.extend(next(number).into_iter().filter(|end| reached.insert(*end)));
    }
    reached
}
