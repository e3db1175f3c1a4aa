//! Operation codes and records in bytes, as docs/FORMATS.md lays them out: what is lent to the engine, and what it leaves. Every
//! width, offset and limit that Rust uses stands here. The second emulator does not use it.

pub mod fields;
pub mod operations;
pub mod widths;

pub use operations::*;

use fields::{array, cell, expression, instruction, logged, token};
use std::ops::Range;

/// The unsigned number in a field of 16 bits.
pub fn unsigned(record: &[u8], field: Range<usize>) -> u16 {
    u16::from_le_bytes(bytes(record, field))
}

/// The signed number in a field of 32 bits.
pub fn signed(record: &[u8], field: Range<usize>) -> i32 {
    i32::from_le_bytes(bytes(record, field))
}

/// The path in a token record or in one of a log.
pub fn path(record: &[u8]) -> u128 {
    u128::from_le_bytes(bytes(record, token::PATH))
}

/// The instruction that a token record or one of a log names.
pub fn instruction_of(record: &[u8]) -> usize {
    usize::from(unsigned(record, token::INSTRUCTION))
}

/// Whether two records, of tokens or of a log, name one activity.
pub fn same_tag(one: &[u8], other: &[u8]) -> bool {
    one[..token::PORT] == other[..token::PORT]
        && one[token::INSTRUCTION] == other[token::INSTRUCTION]
}

fn bytes<const N: usize>(record: &[u8], field: Range<usize>) -> [u8; N] {
    let mut bytes = [0; N];
    bytes.copy_from_slice(&record[field]);
    bytes
}

/// A record of a graph by its number.
pub fn record(graph: &[u8], number: usize) -> &[u8] {
    &graph[widths::INSTRUCTION * number..][..widths::INSTRUCTION]
}

/// The operation of the instruction that a token record, or one of a log, names in a graph.
pub fn code_of(graph: &[u8], token: &[u8]) -> u8 {
    record(graph, instruction_of(token))[instruction::CODE]
}

/// A graph record with its arcs, each an instruction and a port, and its constant.
pub fn instruction(code: u8, arcs: &[(u16, u8)], constant: i32) -> [u8; widths::INSTRUCTION] {
    let mut record = [0; widths::INSTRUCTION];
    record[instruction::CODE] = code;
    for &(target, port) in arcs {
        add_arc(&mut record, target, port);
    }
    record[instruction::CONSTANT].copy_from_slice(&constant.to_le_bytes());
    record
}

/// Draws the next arc of a graph record.
pub fn add_arc(record: &mut [u8], target: u16, port: u8) {
    let destination = usize::from(record[instruction::FAN_OUT]);
    record[instruction::FAN_OUT] += 1;
    record[instruction::port(destination)] = port;
    record[instruction::target(destination)].copy_from_slice(&target.to_le_bytes());
}

/// The arcs of a graph record, each an instruction and a port.
pub fn arcs(record: &[u8]) -> impl Iterator<Item = (u16, u8)> + '_ {
    let fan_out = usize::from(record[instruction::FAN_OUT]);
    (0..fan_out).map(|destination| {
        let target = unsigned(record, instruction::target(destination));
        (target, record[instruction::port(destination)])
    })
}

/// A record of the table of named arrays.
pub fn array(first: u16, length: u16) -> [u8; widths::ARRAY] {
    let mut record = [0; widths::ARRAY];
    record[array::FIRST].copy_from_slice(&first.to_le_bytes());
    record[array::LENGTH].copy_from_slice(&length.to_le_bytes());
    record
}

/// A token record.
pub fn token(
    path: u128,
    iteration: u8,
    instruction: u16,
    port: u8,
    value: i32,
    state: u8,
) -> [u8; widths::TOKEN] {
    let mut record = [0; widths::TOKEN];
    record[token::PATH].copy_from_slice(&path.to_le_bytes());
    record[token::ITERATION] = iteration;
    record[token::PORT] = port;
    record[token::INSTRUCTION].copy_from_slice(&instruction.to_le_bytes());
    record[token::VALUE].copy_from_slice(&value.to_le_bytes());
    record[token::STATE] = state;
    record
}

/// An input: a live token of the root tag.
pub fn input(instruction: u16, port: u8, value: i32) -> [u8; widths::TOKEN] {
    token(0, 0, instruction, port, value, 0)
}

/// A cell record.
pub fn cell(value: i32, state: u8) -> [u8; widths::CELL] {
    let mut record = [0; widths::CELL];
    record[cell::VALUE].copy_from_slice(&value.to_le_bytes());
    record[cell::STATE] = state;
    record
}

/// A record of a log.
pub fn logged(path: u128, iteration: u8, instruction: u16) -> [u8; widths::LOGGED] {
    let mut record = [0; widths::LOGGED];
    record[logged::PATH].copy_from_slice(&path.to_le_bytes());
    record[logged::ITERATION] = iteration;
    record[logged::INSTRUCTION].copy_from_slice(&instruction.to_le_bytes());
    record
}

/// A record of an expression: an operation of two records before it, or 0 and zeros for a variable.
pub fn term(kind: u8, left: u8, right: u8) -> [u8; widths::EXPRESSION] {
    let mut record = [0; widths::EXPRESSION];
    record[expression::KIND] = kind;
    record[expression::LEFT] = left;
    record[expression::RIGHT] = right;
    record
}
