//! From files to text. A record that cannot be typed otherwise is written as
//! raw bytes, so that assembling the text gives the same files.

use std::collections::HashMap;

use layout::fields::{array, instruction, token};
use layout::widths::{self, ARRAY, MOST_ARRAYS, MOST_CELLS, PICK, TOKEN};
use layout::{signed, unsigned};

use crate::operations::{by_code, operand_count, Constant, Operation};
use crate::Files;

/// Picks on one line of the text.
const PICKS_ON_A_LINE: usize = 16;
/// Records of a graph that instruction numbers can tell apart.
const MOST_RECORDS: usize = 65_536;

/// The text of files of whole records.
pub fn disassemble(files: &Files) -> Result<String, String> {
    let whole = [
        ("graph", files.graph.len(), widths::INSTRUCTION),
        ("arrays", files.arrays.len(), ARRAY),
        ("inputs", files.inputs.len(), TOKEN),
        ("picks", files.picks.len(), PICK),
    ];
    for (name, length, record) in whole {
        if length % record != 0 {
            return Err(format!("{name} is not whole records of {record} bytes"));
        }
    }
    if files.graph.len() / widths::INSTRUCTION > MOST_RECORDS {
        return Err("graph has more than 65,536 records".to_string());
    }
    let records: Vec<&[u8]> = files.graph.chunks_exact(widths::INSTRUCTION).collect();
    let mut text = String::new();
    let arrays = files.arrays.chunks_exact(ARRAY);
    let count = arrays.len() as i32;
    for (number, record) in (1..).zip(arrays) {
        text += &format!(
            "array {} {}\n",
            array_name(number),
            typed_array(number, record)
        );
    }
    let mut returns = HashMap::new();
    for (number, record) in records.iter().enumerate() {
        let line = typed(record, &records, count, &mut returns)
            .unwrap_or_else(|| format!("raw {}", hexadecimal(record)));
        text += &format!("{}: {line}\n", name_of(number, record));
    }
    for record in files.inputs.chunks_exact(TOKEN) {
        let line =
            typed_input(record, &records).unwrap_or_else(|| format!("raw {}", hexadecimal(record)));
        text += &format!("input {line}\n");
    }
    for picks in files.picks.chunks(PICK * PICKS_ON_A_LINE) {
        let numbers: Vec<String> = picks
            .chunks_exact(PICK)
            .map(|pick| unsigned(pick, 0..PICK).to_string())
            .collect();
        text += &format!("picks {}\n", numbers.join(" "));
    }
    Ok(text)
}

fn name_of(number: usize, record: &[u8]) -> String {
    let word = by_code(record[instruction::CODE]).map_or("raw_", |operation| operation.name);
    format!("{}{number}", word.to_lowercase())
}

/// No instruction has such a name.
fn array_name(number: i32) -> String {
    format!("array{number}")
}

/// What stands behind an array's name. What no table may have is written in bytes.
fn typed_array(number: i32, record: &[u8]) -> String {
    let (first, length) = (
        unsigned(record, array::FIRST),
        unsigned(record, array::LENGTH),
    );
    let end = usize::from(first) + usize::from(length);
    match number as usize <= MOST_ARRAYS && end <= MOST_CELLS {
        true => format!("= {length} at {first}"),
        false => format!("raw {}", hexadecimal(record)),
    }
}

fn hexadecimal(bytes: &[u8]) -> String {
    let words: Vec<String> = bytes.iter().map(|byte| format!("{byte:02x}")).collect();
    words.join(" ")
}

/// The typed form of a record, or `None` if the assembler would refuse it or
/// make other bytes of it.
fn typed(
    record: &[u8],
    records: &[&[u8]],
    arrays: i32,
    returns: &mut HashMap<i32, u16>,
) -> Option<String> {
    let operation = by_code(record[instruction::CODE])?;
    let fan_out = record[instruction::FAN_OUT];
    let constant = signed(record, instruction::CONSTANT);
    let zeros = record[instruction::ZEROS] == [0; 4]
        && (operation.constant != Constant::Unused || constant == 0);
    if !operation.fan_outs().contains(&fan_out) || !zeros {
        return None;
    }
    let mut arcs = Vec::new();
    for number in 0..2 {
        let end = unsigned(record, instruction::target(number));
        let port = record[instruction::port(number)];
        if number < usize::from(fan_out) {
            arcs.push(target(end, port, records)?);
        } else if (end, port) != (0, 0) {
            return None;
        }
    }
    match operation.constant {
        Constant::Site => typed_enter(record, constant, &arcs, records, returns),
        Constant::Offset => (0..=255)
            .contains(&constant)
            .then(|| format!("LEAVE {constant}")),
        Constant::Array if !(0..=arrays).contains(&constant) => None,
        _ => Some(typed_plain(&operation, constant, &arcs)),
    }
}

fn typed_plain(operation: &Operation, constant: i32, arcs: &[String]) -> String {
    let mut line = operation.name.to_string();
    match operation.constant {
        Constant::Value => line += &format!(" {constant}"),
        Constant::Array if constant != 0 => line += &format!(" {}", array_name(constant)),
        _ => {}
    }
    if !arcs.is_empty() {
        line += &format!(" -> {}", arcs.join(" "));
    }
    line
}

fn typed_enter(
    record: &[u8],
    site: i32,
    arcs: &[String],
    records: &[&[u8]],
    returns: &mut HashMap<i32, u16>,
) -> Option<String> {
    let back = unsigned(record, instruction::target(1));
    if !(1..=255).contains(&site) || record[instruction::port(1)] != 0 {
        return None;
    }
    // A raw ENTER does not count for the assembler, so it does not here.
    if *returns.entry(site).or_insert(back) != back {
        return None;
    }
    let back = name_of(usize::from(back), records[usize::from(back)]);
    Some(format!("ENTER site {site} -> {} return {back}", arcs[0]))
}

/// `name.port` of an instruction and port that exist.
fn target(instruction: u16, port: u8, records: &[&[u8]]) -> Option<String> {
    let number = usize::from(instruction);
    let record = records.get(number)?;
    (port < operand_count(record[instruction::CODE]))
        .then(|| format!("{}.{port}", name_of(number, record)))
}

fn typed_input(record: &[u8], records: &[&[u8]]) -> Option<String> {
    let (end, port) = (unsigned(record, token::INSTRUCTION), record[token::PORT]);
    let target = target(end, port, records)?;
    let value = signed(record, token::VALUE);
    (record == layout::input(end, port, value)).then(|| format!("{target} = {value}"))
}
