//! Two tokens at one port while the first is deferred: a shape of graphs of its own, and
//! what is tallied of it.

use layout::fields::{instruction, token};
use layout::widths::TOKEN;
use layout::{arcs, instruction_of};

use crate::case::{Case, Left};
use crate::prng::Prng;
use crate::records::*;

/// A read of a cell that is written late or never, and often a second sender to the port
/// that it goes to. Answers the number of cells.
pub fn draft(prng: &mut Prng) -> (Draft, usize) {
    let mut draft = Draft::default();
    let cells = 1 + prng.below(3);
    for _ in 0..1 + prng.below(2) {
        let (target, port) = target(&mut draft, prng);
        let cell = prng.below(cells) as i32;
        let read = draft.add(FETCH, 1, 0);
        draft.arc(read, 0, target, port);
        feed(&mut draft, read, cell, prng);
        if !prng.one_in(3) {
            let other = sender(&mut draft, cells, prng);
            draft.arc(other, 0, target, port);
        }
    }
    for cell in 0..cells as i32 {
        if prng.one_in(2) {
            write(&mut draft, cell, prng);
        }
    }
    (draft, cells)
}

/// An instruction and one of its ports; its other port mostly has its token, and what it
/// sends goes to an OUT.
fn target(draft: &mut Draft, prng: &mut Prng) -> (u16, u8) {
    const CODES: [u8; 8] = [OUT, LEAVE, SINK, COPY, ADD, GATE, SWITCH, NEXT];
    let code = CODES[prng.below(CODES.len())];
    let fan_out = match code {
        OUT | LEAVE | SINK => 0,
        SWITCH => 2,
        _ => 1,
    };
    let target = draft.add(code, fan_out, 0);
    for destination in 0..fan_out {
        let out = draft.add(OUT, 0, 0);
        draft.arc(target, destination, out, 0);
    }
    let ports = usize::from(second::operand_count(code));
    let port = prng.below(ports) as u8;
    if ports == 2 && !prng.one_in(4) {
        draft.inputs.push((target, 1 - port, prng.between(-2, 9)));
    }
    (target, port)
}

/// An instruction of one output that fires in some order before, between or behind what
/// the read waits for.
fn sender(draft: &mut Draft, cells: usize, prng: &mut Prng) -> u16 {
    match prng.below(5) {
        0 | 1 => {
            let read = draft.add(FETCH, 1, 0);
            feed(draft, read, prng.below(cells) as i32, prng);
            read
        }
        2 => {
            let store = draft.add(STORE, 1, 0);
            let cell = prng.below(cells) as i32;
            draft.inputs.extend([(store, 0, cell), (store, 1, 7)]);
            store
        }
        3 => {
            let code = [ADD, SUB, EQ][prng.below(3)] + WITH_CONSTANT;
            let number = draft.add(code, 1, 2);
            feed(draft, number, 1, prng);
            number
        }
        _ => {
            let copy = draft.add(COPY, 1, 0);
            feed(draft, copy, 5, prng);
            copy
        }
    }
}

/// Feeds a value to port 0 through up to three COPYs.
fn feed(draft: &mut Draft, to: u16, value: i32, prng: &mut Prng) {
    let mut entry = to;
    for _ in 0..prng.below(4) {
        let copy = draft.add(COPY, 1, 0);
        draft.arc(copy, 0, entry, 0);
        entry = copy;
    }
    draft.inputs.push((entry, 0, value));
}

fn write(draft: &mut Draft, cell: i32, prng: &mut Prng) {
    let store = draft.add(STORE, 0, 0);
    feed(draft, store, cell, prng);
    draft.inputs.push((store, 1, prng.between(-2, 9)));
}

/// Whether a run was refused by 9 where an output's port is taken by a token that is
/// deferred. Only outputs under the activity's own path and iteration are looked at.
pub fn meets_deferred(case: &Case, left: &Left) -> bool {
    if left.answer.refusal() != Some(9) || left.answer.refused_at_once() {
        return false;
    }
    let activity = &left.used()[TOKEN * left.answer.place()..][..TOKEN];
    let record = layout::record(&case.graph, instruction_of(activity));
    if matches!(record[instruction::CODE], NEXT | ENTER | LEAVE) {
        return false;
    }
    arcs(record).any(|(target, port)| {
        let mut key = activity[token::KEY].to_vec();
        key[token::PORT] = port;
        key[token::INSTRUCTION].copy_from_slice(&target.to_le_bytes());
        let taken = |t: &[u8]| t[token::KEY] == key && t[token::STATE] == token::DEFERRED;
        left.used().chunks_exact(TOKEN).any(taken)
    })
}
