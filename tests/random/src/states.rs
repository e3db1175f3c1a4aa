//! Changes of a saved state: one condition of 02's list broken by itself, any bytes, and
//! states that no run leaves though the list lets them by.

use layout::fields::{cell, instruction, token};
use layout::widths::{CELL, INSTRUCTION, MOST_RECORDS, TOKEN};
use layout::{code_of, ENTER, LEAVE, OUT};

use crate::case::State;
use crate::damage;
use crate::prng::Prng;

/// One change; it may leave the state as it was where there is nothing to change.
pub fn change(graph: &[u8], state: &mut State, prng: &mut Prng) {
    match prng.below(20) {
        0 => too_many_tokens(state, prng),
        1 | 2 => field(state, prng),
        3 => twice(state, prng),
        4 | 5 => path(graph, state, prng),
        6 | 7 => spend_one(graph, state, prng),
        8 => unspend_one(state, prng),
        9 => defer(state, prng),
        10 => cell_state(state, prng),
        11 => cell_value(state, prng),
        12 => firings(state, prng),
        13 => damage::flip(&mut state.ledger, prng),
        14 => damage::flip(&mut state.cells, prng),
        15 => length(state, prng),
        16 => shuffle(state, prng),
        17 | 18 => add(graph, state, prng),
        _ => fill(graph, state, prng),
    }
}

impl State {
    fn count(&self) -> usize {
        usize::from(self.saved.tokens).min(self.ledger.len() / TOKEN)
    }

    fn token(&mut self, position: usize) -> &mut [u8] {
        &mut self.ledger[TOKEN * position..][..TOKEN]
    }

    /// A token that is as asked for, if there is one.
    fn find(&self, prng: &mut Prng, suits: impl Fn(&[u8]) -> bool) -> Option<usize> {
        let records = self.ledger.chunks_exact(TOKEN).take(self.count());
        let positions: Vec<usize> = records
            .enumerate()
            .filter(|(_, record)| suits(record))
            .map(|(position, _)| position)
            .collect();
        (!positions.is_empty()).then(|| positions[prng.below(positions.len())])
    }

    /// Puts a record behind the tokens, if the ledger has room for it.
    fn append(&mut self, record: &[u8]) {
        let count = self.count();
        if TOKEN * (count + 1) <= self.ledger.len() {
            self.token(count).copy_from_slice(record);
            self.saved.tokens += 1;
        }
    }
}

fn too_many_tokens(state: &mut State, prng: &mut Prng) {
    if prng.one_in(2) {
        let capacity = (state.ledger.len() / TOKEN) as u16;
        state.saved.tokens = capacity.saturating_add(1 + prng.below(3) as u16);
    } else {
        state
            .ledger
            .truncate(TOKEN * state.count().saturating_sub(1));
    }
}

/// A field that is not allowed, of a token or of a cell.
fn field(state: &mut State, prng: &mut Prng) {
    let used = TOKEN * state.count();
    let ledger = &mut state.ledger[..used];
    let value = 1 + prng.below(255) as u8;
    match prng.below(6) {
        0 => damage::set_field(ledger, TOKEN, token::STATE, 3 + value / 2, prng),
        1 => damage::set_field(ledger, TOKEN, 25 + prng.below(3), value, prng),
        2 => damage::set_field(ledger, TOKEN, 18 + prng.below(2), value, prng),
        3 => damage::set_field(ledger, TOKEN, token::PORT, value, prng),
        4 => damage::set_field(&mut state.cells, CELL, cell::STATE, 3 + value / 2, prng),
        _ => damage::set_field(&mut state.cells, CELL, 5 + prng.below(3), value, prng),
    }
}

fn twice(state: &mut State, prng: &mut Prng) {
    if let Some(position) = state.find(prng, |record| record[token::STATE] != token::DEFERRED) {
        let record = state.token(position).to_vec();
        state.append(&record);
    }
}

/// Puts a token under another path: sites of the graph, or one that is none, or with a
/// level left out.
fn path(graph: &[u8], state: &mut State, prng: &mut Prng) {
    let made = made_path(graph, prng);
    let path = match prng.below(5) {
        0 => made << 16,
        1 => 1 + prng.below(255) as u128,
        2 => u128::from(prng.word()) << prng.below(64),
        3 => made ^ 1 << prng.below(128),
        _ => made,
    };
    if let Some(position) = state.find(prng, |record| record[token::STATE] == token::LIVE) {
        state.token(position)[token::PATH].copy_from_slice(&path.to_le_bytes());
    }
}

/// A path of up to eight levels by the graph's sites, with any iterations.
fn made_path(graph: &[u8], prng: &mut Prng) -> u128 {
    let enters = graph
        .chunks_exact(INSTRUCTION)
        .filter(|record| record[instruction::CODE] == ENTER);
    let sites: Vec<u8> = enters
        .map(|record| record[instruction::CONSTANT.start])
        .collect();
    let levels = if sites.is_empty() { 0 } else { prng.below(9) };
    (0..levels).fold(0, |path, _| {
        let site = u128::from(sites[prng.below(sites.len())]);
        path << 16 | site << 8 | prng.below(256) as u128
    })
}

/// Spends a live token, often a result, and counts a firing for it.
fn spend_one(graph: &[u8], state: &mut State, prng: &mut Prng) {
    let result = prng.one_in(2);
    let suits = |record: &[u8]| {
        record[token::STATE] == token::LIVE
            && (!result || matches!(code_of(graph, record), OUT | LEAVE))
    };
    if let Some(position) = state.find(prng, suits) {
        state.token(position)[token::STATE] = token::SPENT;
        state.saved.firings = state.saved.firings.wrapping_add(1);
    }
}

/// Makes one spent token live again, mostly one of two operands.
fn unspend_one(state: &mut State, prng: &mut Prng) {
    let second = |record: &[u8]| record[token::STATE] == token::SPENT && record[token::PORT] == 1;
    if let Some(position) = state.find(prng, second) {
        state.token(position)[token::STATE] = token::LIVE;
    }
}

/// Defers a live token on any cell, or on none.
fn defer(state: &mut State, prng: &mut Prng) {
    let cells = (state.cells.len() / CELL) as i32;
    let number = match prng.below(4) {
        0 => -1,
        1 => cells,
        2 => prng.word() as i32,
        _ => prng.below(cells as usize + 1) as i32,
    };
    if let Some(position) = state.find(prng, |record| record[token::STATE] == token::LIVE) {
        let record = state.token(position);
        record[token::STATE] = token::DEFERRED;
        record[token::VALUE].copy_from_slice(&number.to_le_bytes());
        let at = CELL * number.max(0) as usize + cell::STATE;
        if at < state.cells.len() && state.cells[at] == 0 && prng.one_in(2) {
            state.cells[at] = 1;
        }
    }
}

fn cell_state(state: &mut State, prng: &mut Prng) {
    let kind = prng.below(3) as u8;
    damage::set_field(&mut state.cells, CELL, 4, kind, prng);
}

fn cell_value(state: &mut State, prng: &mut Prng) {
    let (field, value) = (prng.below(4), prng.word() as u8);
    damage::set_field(&mut state.cells, CELL, field, value, prng);
}

fn firings(state: &mut State, prng: &mut Prng) {
    let firings = state.saved.firings;
    state.saved.firings = match prng.below(4) {
        0 => firings.wrapping_sub(1),
        1 => firings.wrapping_add(1),
        2 => prng.word() as u16,
        _ => 0,
    };
}

fn length(state: &mut State, prng: &mut Prng) {
    match prng.below(4) {
        0 => state.ledger.push(0),
        1 => state.cells.push(0),
        2 => state.ledger.resize(TOKEN * (2047 + prng.below(3)), 0),
        _ => state.cells.resize(CELL * (1023 + prng.below(3)), 0),
    }
}

/// The order of the ledger is no condition.
fn shuffle(state: &mut State, prng: &mut Prng) {
    let used = TOKEN * state.count();
    let mut records: Vec<Vec<u8>> = state.ledger[..used]
        .chunks_exact(TOKEN)
        .map(<[u8]>::to_vec)
        .collect();
    prng.shuffle(&mut records);
    state.ledger[..used].copy_from_slice(&records.concat());
}

/// A live token that no firing sent, at any instruction and under any path of sites.
fn live_token(graph: &[u8], iteration: u8, prng: &mut Prng) -> [u8; TOKEN] {
    let instruction = prng.below(graph.len() / INSTRUCTION);
    let ports = second::operand_count(layout::record(graph, instruction)[instruction::CODE]);
    let port = prng.below(usize::from(ports.max(1))) as u8;
    let path = made_path(graph, prng);
    layout::token(
        path,
        iteration,
        instruction as u16,
        port,
        prng.between(-2, 9),
        token::LIVE,
    )
}

fn add(graph: &[u8], state: &mut State, prng: &mut Prng) {
    let capacity = (state.count() + 8).min(MOST_RECORDS) * TOKEN;
    if state.ledger.len() < capacity {
        state.ledger.resize(capacity, 0);
    }
    for _ in 0..1 + prng.below(4) {
        let token = live_token(graph, prng.word() as u8, prng);
        state.append(&token);
    }
}

/// Now and then as many tokens as a ledger can have, each under an iteration or a path of
/// its own.
fn fill(graph: &[u8], state: &mut State, prng: &mut Prng) {
    if !prng.one_in(4) {
        return add(graph, state, prng);
    }
    state.ledger.resize(TOKEN * MOST_RECORDS, 0);
    let instructions = graph.len() / INSTRUCTION;
    let mut place = 0;
    while state.count() < MOST_RECORDS && place < 256 * instructions {
        let (iteration, instruction) = ((place / instructions) as u8, place % instructions);
        let token = layout::token(0, iteration, instruction as u16, 0, 1, token::LIVE);
        let free = |record: &[u8]| record[token::KEY] == token[token::KEY];
        if iteration > 0 || state.find(prng, free).is_none() {
            state.append(&token);
        }
        place += 1;
    }
}
