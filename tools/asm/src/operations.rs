//! The operations of 01 ("Graph records") by name.

use std::ops::RangeInclusive;

use layout::operations::*;

/// What the constant of an operation means in the text.
#[derive(Clone, Copy, Debug, PartialEq, Eq)]
pub enum Constant {
    /// The operation has none.
    Unused,
    /// A number behind the operation's name.
    Value,
    /// `site` and a number, 1 to 255.
    Site,
    /// A number, 0 to 255, that is added to the return instruction.
    Offset,
    /// The name of an array, or none for the whole store.
    Array,
}

#[derive(Clone, Copy, Debug)]
pub struct Operation {
    pub code: u8,
    pub name: &'static str,
    pub operands: u8,
    fan_out: (u8, u8),
    pub constant: Constant,
}

impl Operation {
    pub fn fan_outs(&self) -> RangeInclusive<u8> {
        self.fan_out.0..=self.fan_out.1
    }
}

const fn operation(
    code: u8,
    name: &'static str,
    operands: u8,
    fan_out: (u8, u8),
    constant: Constant,
) -> Operation {
    Operation {
        code,
        name,
        operands,
        fan_out,
        constant,
    }
}

const OPERATIONS: [Operation; 19] = [
    operation(COPY, "COPY", 1, (1, 2), Constant::Unused),
    operation(SINK, "SINK", 1, (0, 0), Constant::Unused),
    operation(OUT, "OUT", 1, (0, 0), Constant::Unused),
    operation(CONST, "CONST", 1, (1, 2), Constant::Value),
    operation(SWITCH, "SWITCH", 2, (2, 2), Constant::Unused),
    operation(GATE, "GATE", 2, (1, 2), Constant::Unused),
    operation(NEXT, "NEXT", 1, (1, 2), Constant::Unused),
    operation(ENTER, "ENTER", 1, (2, 2), Constant::Site),
    operation(LEAVE, "LEAVE", 1, (0, 0), Constant::Offset),
    operation(FETCH, "FETCH", 1, (1, 2), Constant::Array),
    operation(STORE, "STORE", 2, (0, 2), Constant::Array),
    operation(ADD, "ADD", 2, (1, 2), Constant::Unused),
    operation(SUB, "SUB", 2, (1, 2), Constant::Unused),
    operation(MUL, "MUL", 2, (1, 2), Constant::Unused),
    operation(DIV, "DIV", 2, (1, 2), Constant::Unused),
    operation(REM, "REM", 2, (1, 2), Constant::Unused),
    operation(LT, "LT", 2, (1, 2), Constant::Unused),
    operation(LE, "LE", 2, (1, 2), Constant::Unused),
    operation(EQ, "EQ", 2, (1, 2), Constant::Unused),
];

/// The codes of arithmetic with a constant on the right.
const FIRST_WITH_CONSTANT: u8 = ADD + WITH_CONSTANT;
const LAST_WITH_CONSTANT: u8 = EQ + WITH_CONSTANT;

/// The operation of a code, `None` for an unknown one.
pub fn by_code(code: u8) -> Option<Operation> {
    match code {
        FIRST_WITH_CONSTANT..=LAST_WITH_CONSTANT => {
            by_code(code - WITH_CONSTANT).map(with_constant)
        }
        _ => OPERATIONS
            .into_iter()
            .find(|operation| operation.code == code),
    }
}

/// The operation of a name in either case.
pub fn by_name(name: &str) -> Option<Operation> {
    OPERATIONS
        .into_iter()
        .find(|operation| operation.name.eq_ignore_ascii_case(name))
}

/// The names of all operations.
pub fn names() -> impl Iterator<Item = &'static str> {
    OPERATIONS.into_iter().map(|operation| operation.name)
}

/// Whether a constant may stand behind the name, which makes the operation one
/// with a single operand.
pub fn is_arithmetic(operation: &Operation) -> bool {
    (ADD..=EQ).contains(&operation.code)
}

pub fn with_constant(operation: Operation) -> Operation {
    Operation {
        code: operation.code + WITH_CONSTANT,
        operands: 1,
        constant: Constant::Value,
        ..operation
    }
}

/// The operand count of a code, 0 for an unknown one.
pub fn operand_count(code: u8) -> u8 {
    by_code(code).map_or(0, |operation| operation.operands)
}
