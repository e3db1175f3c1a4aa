//! Damaged bytes and lengths.

use layout::fields::{instruction, token};
use layout::widths::{CELL, INSTRUCTION, MOST_CELLS, MOST_INSTRUCTIONS, MOST_RECORDS, PICK, TOKEN};
use layout::{instruction, SINK};

use crate::arrays;
use crate::case::Case;
use crate::prng::Prng;

/// Damages a run in one to three ways.
pub fn damage(case: &mut Case, prng: &mut Prng) {
    case.kind = "damaged";
    let times = if prng.one_in(2) { 1 } else { 1 + prng.below(3) };
    for _ in 0..times {
        match prng.below(14) {
            0..=3 => damage_graph(&mut case.graph, prng),
            4..=6 => damage_inputs(&mut case.inputs, prng),
            7 => damage_picks(&mut case.picks, prng),
            8 | 9 => case.ledger_bytes = length(case.ledger_bytes, TOKEN, MOST_RECORDS, prng),
            10 => case.cells_bytes = length(case.cells_bytes, CELL, MOST_CELLS, prng),
            11 | 12 => arrays::damage(case, prng),
            _ => case.budget = prng.word() as u16,
        }
    }
}

pub fn flip(bytes: &mut [u8], prng: &mut Prng) {
    if !bytes.is_empty() {
        let at = prng.below(bytes.len());
        bytes[at] ^= 1 << prng.below(8);
    }
}

pub fn overwrite(bytes: &mut [u8], prng: &mut Prng) {
    if !bytes.is_empty() {
        let at = prng.below(bytes.len());
        bytes[at] = match prng.below(3) {
            0 => 0,
            1 => prng.below(8) as u8,
            _ => prng.word() as u8,
        };
    }
}

/// Sets one field of a random record, so that refusals of every field come up.
pub fn set_field(bytes: &mut [u8], record: usize, field: usize, value: u8, prng: &mut Prng) {
    if bytes.len() >= record {
        let number = prng.below(bytes.len() / record);
        bytes[record * number + field] = value;
    }
}

pub fn damage_graph(graph: &mut Vec<u8>, prng: &mut Prng) {
    match prng.below(12) {
        0 | 1 => flip(graph, prng),
        2 | 3 => overwrite(graph, prng),
        4 => set_field(
            graph,
            INSTRUCTION,
            instruction::CODE,
            prng.below(48) as u8,
            prng,
        ),
        5 => set_field(
            graph,
            INSTRUCTION,
            instruction::FAN_OUT,
            prng.below(4) as u8,
            prng,
        ),
        6 => set_field(
            graph,
            INSTRUCTION,
            instruction::port(0) + prng.below(6),
            prng.below(3) as u8,
            prng,
        ),
        7 => set_field(
            graph,
            INSTRUCTION,
            instruction::CONSTANT.start + prng.below(8),
            prng.word() as u8,
            prng,
        ),
        8 => graph.truncate(prng.below(graph.len() + 1)),
        9 => graph.truncate(graph.len() / INSTRUCTION / 2 * INSTRUCTION),
        10 => {
            let sink = instruction(SINK, &[], 0);
            while graph.len() < INSTRUCTION * (MOST_INSTRUCTIONS + 1) {
                graph.extend(&sink);
            }
            graph.truncate(INSTRUCTION * (MOST_INSTRUCTIONS - 1 + prng.below(3)));
        }
        _ => {
            let mut more = vec![0; 1 + prng.below(40)];
            prng.fill(&mut more);
            graph.extend(more);
        }
    }
}

fn damage_inputs(inputs: &mut Vec<u8>, prng: &mut Prng) {
    match prng.below(10) {
        0 | 1 => flip(inputs, prng),
        2 | 3 => overwrite(inputs, prng),
        4 => set_field(
            inputs,
            TOKEN,
            token::ITERATION + prng.below(4),
            prng.below(3) as u8,
            prng,
        ),
        5 => set_field(
            inputs,
            TOKEN,
            token::STATE + prng.below(4),
            prng.below(4) as u8,
            prng,
        ),
        6 => inputs.truncate(prng.below(inputs.len() + 1)),
        7 => inputs.resize(TOKEN * (MOST_RECORDS - 1 + prng.below(3)), 0),
        8 => {
            // The same token once more.
            let count = inputs.len() / TOKEN;
            if count > 0 {
                let number = prng.below(count);
                inputs.extend_from_within(TOKEN * number..TOKEN * number + TOKEN);
            }
        }
        _ => inputs.extend([0; TOKEN]),
    }
}

pub fn damage_picks(picks: &mut Vec<u8>, prng: &mut Prng) {
    match prng.below(4) {
        0 => picks.resize(PICK * (MOST_RECORDS - 1 + prng.below(3)), 1),
        1 => picks.push(1),
        2 => picks.truncate(prng.below(picks.len() + 1)),
        _ => flip(picks, prng),
    }
}

/// Another length of a buffer: a byte off, few records, or about the most.
fn length(before: usize, record: usize, most: usize, prng: &mut Prng) -> usize {
    match prng.below(5) {
        0 => before + 1,
        1 => before.saturating_sub(1),
        2 => record * prng.below(6),
        3 => record * prng.below(before / record + 1),
        _ => record * (most - 1 + prng.below(3)),
    }
}
