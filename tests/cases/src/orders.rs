//! Two faults at once. 01's order: 1; records in turn, each 2 to 5; 7; inputs in
//! turn for 6; then 8; then 9 by input in turn. In a firing: 10 to 17 in rising
//! order, then 8, then 9.
//!
//! In a firing these pairs can meet: each of 10, 11, 12, 13, 14 and 17 with 8;
//! 10, 11 and 12 with 9; and 8 with 9. No others can: 10 speaks of a cell that is
//! not there and 11 of one that is present; 11, 12, 13, 14 and 17 belong to
//! different operations; and where one of 13 to 17 is given, there is no output
//! whose tag could be taken.

use crate::lent::*;
use crate::paper::{turning, two_stores};
use crate::refusals::{plain, plain_with};
use crate::{case, Case};

pub fn cases() -> Vec<Case> {
    let mut cases = one_record();
    cases.extend(records_in_turn());
    cases.extend(graph_before_stores());
    cases.extend(stores_before_inputs());
    cases.extend(inputs_in_turn());
    cases.extend(firings());
    cases
}

fn at_once(number: u8, place: usize) -> String {
    format!("refused {number} 0 0 {place}")
}

fn of(graph: &[Instruction]) -> Lent {
    lend(graph, &[token(0, 0, 1)]).capacity(3).cells(1)
}

/// A record with a fault that is refused by 2, 3, 4 or 5, and no fault before.
fn fault(number: u8) -> Instruction {
    match number {
        2 => op(13, &[]),
        3 => byte(op(SINK, &[]), instruction::ZEROS.start + 2, 1),
        4 => op(COPY, &[(9, 0)]),
        _ => with(LEAVE, 256, &[]),
    }
}

/// One record with the faults 2 to 5, which go one by one.
fn one_record() -> Vec<Case> {
    let (code, last) = (instruction::CODE, instruction::ZEROS.end - 1);
    let all = byte(byte(with(ENTER, 0, &[(9, 0), (9, 1)]), last, 1), code, 77);
    let from_3 = byte(all, code, ENTER);
    let from_4 = byte(from_3, last, 0);
    let from_5 = with(ENTER, 0, &[(2, 0), (2, 0)]);
    let count = byte(op(COPY, &[(9, 0), (9, 0)]), instruction::FAN_OUT, 3);
    vec![
        case(
            "order: 1 before 2",
            of(&[fault(2)]).graph_bytes(17),
            at_once(1, 0),
        ),
        case(
            "order: 1 before 3",
            of(&plain_with(3, fault(3))).graph_bytes(65),
            at_once(1, 0),
        ),
        case(
            "order: 2 before 3, 4 and 5 of one record",
            of(&plain_with(0, all)),
            at_once(2, 0),
        ),
        case(
            "order: 4 at record 0, by its arc to an unknown code, before 2 there",
            of(&plain_with(1, all)),
            at_once(4, 0),
        ),
        case(
            "order: 3 before 4 and 5 of one record",
            of(&plain_with(0, from_3)),
            at_once(3, 0),
        ),
        case(
            "order: 3, a count, before 4 of one record",
            of(&plain_with(0, count)),
            at_once(3, 0),
        ),
        case(
            "order: 4 before 5 of one record",
            of(&plain_with(0, from_4)),
            at_once(4, 0),
        ),
        case(
            "order: 5 of that record at last",
            of(&plain_with(0, from_5)),
            at_once(5, 0),
        ),
    ]
}

/// A fault of an earlier record comes before any of a later one.
fn records_in_turn() -> Vec<Case> {
    let mut cases = Vec::new();
    for first in 2..=5 {
        for second in 2..=5 {
            let graph = [op(SINK, &[]), fault(first), fault(second), op(SINK, &[])];
            let name = format!("order: {first} at record 1 before {second} at record 2");
            cases.push(case(name, of(&graph), at_once(first, 1)));
        }
    }
    cases
}

/// 1 to 5 before 7, 6, 8 and 9.
fn graph_before_stores() -> Vec<Case> {
    let mut cases = vec![case(
        "order: 1 before 7",
        of(&plain()).graph_bytes(0).cell_bytes(9),
        at_once(1, 0),
    )];
    for number in 2..=5 {
        let graph = [op(SINK, &[]), op(SINK, &[]), fault(number)];
        let name = format!("order: {number} at the last record before 7");
        cases.push(case(name, of(&graph).cell_bytes(9), at_once(number, 2)));
    }
    let graph = [op(SINK, &[]), fault(5)];
    let inputs = [token(0, 0, 1), token(0, 0, 1), token(9, 0, 1)];
    cases.push(case(
        "order: 5 before 6, 8 and 9",
        lend(&graph, &inputs).capacity(1),
        at_once(5, 1),
    ));
    cases
}

/// 7, of each store, before 6, 8 and 9.
fn stores_before_inputs() -> Vec<Case> {
    let bad = || lend(&plain(), &[token(9, 0, 1), token(0, 0, 1), token(0, 0, 1)]).capacity(1);
    vec![
        case(
            "order: 7 of the inputs before 6",
            bad().input_bytes(61),
            at_once(7, 0),
        ),
        case(
            "order: 7 of the picks before 6",
            bad().pick_bytes(3),
            at_once(7, 0),
        ),
        case(
            "order: 7 of the ledger before 6 and 8",
            bad().ledger_bytes(19),
            at_once(7, 0),
        ),
        case(
            "order: 7 of the cells before 6, 8 and 9",
            bad().cell_bytes(7),
            at_once(7, 0),
        ),
        case(
            "order: 7 of the ledger before 8",
            of(&plain()).ledger_bytes(19),
            at_once(7, 0),
        ),
        case(
            "order: 7 of the picks before 9",
            lend(&plain(), &[token(0, 0, 1); 2]).pick_bytes(1),
            at_once(7, 0),
        ),
        case(
            "order: 6 before 8 and 9 once the stores are whole",
            bad(),
            at_once(6, 0),
        ),
    ]
}

/// 6 in turn, before 8, before 9 in turn.
fn inputs_in_turn() -> Vec<Case> {
    let (a, b, bad) = (token(0, 0, 1), token(1, 1, 2), token(2, 1, 3));
    let at = |inputs: &[Token]| lend(&plain(), inputs);
    vec![
        case(
            "order: 6 at input 1 before 6 at input 2",
            at(&[a, bad, bad]),
            at_once(6, 1),
        ),
        case(
            "order: 6 at input 2 before 8 at input 1",
            at(&[a, b, bad]).capacity(1),
            at_once(6, 2),
        ),
        case(
            "order: 6 at input 2 before 9 at input 1",
            at(&[a, a, bad]),
            at_once(6, 2),
        ),
        case(
            "order: 8 at input 2 before 9 at input 1",
            at(&[a, a, b]).capacity(2),
            at_once(8, 2),
        ),
        case(
            "order: 9 at input 1 once they fit",
            at(&[a, a, b]).capacity(3),
            at_once(9, 1),
        ),
        case(
            "order: 9 at input 2 before 9 at input 3",
            at(&[a, b, b, a]),
            at_once(9, 2),
        ),
        case(
            "order: 9 at input 1 before 9 at input 2",
            at(&[a, a, a]),
            at_once(9, 1),
        ),
        case(
            "order: 9 of the inputs before a refusal in a firing",
            at(&[token(3, 0, 1), a, a]).capacity(3),
            at_once(9, 2),
        ),
    ]
}

/// 10 to 17, then 8, then 9.
fn firings() -> Vec<Case> {
    let fetch = || lend(&[op(FETCH, &[(0, 0), (0, 0)])], &[token(0, 0, 2)]);
    let divide = || {
        lend(
            &[with(DIV + WITH_CONSTANT, 0, &[(0, 0)])],
            &[token(0, 0, 1)],
        )
    };
    let copy = || {
        lend(
            &[op(COPY, &[(1, 0), (1, 0)]), op(OUT, &[])],
            &[token(0, 0, 1)],
        )
    };
    let stores = |arcs: &[(u16, u8)]| {
        let mut lent = two_stores();
        lent.graph.given[GRAPH_RECORD..2 * GRAPH_RECORD].copy_from_slice(&op(STORE, arcs));
        lent
    };
    let deep =
        |records| lend(&[with(ENTER, 1, &[(0, 0), (0, 0)])], &[token(0, 0, 1)]).capacity(records);
    let past = |records| {
        let graph = [
            with(ENTER, 1, &[(1, 0), (2, 0)]),
            with(LEAVE, 9, &[]),
            op(OUT, &[]),
        ];
        lend(&graph, &[token(0, 0, 1)]).capacity(records)
    };
    vec![
        case(
            "order: 10 before 8 and 9",
            fetch().cells(2).capacity(1),
            "refused 10 0 1 0",
        ),
        case("order: 10 before 9", fetch().cells(2), "refused 10 0 1 0"),
        case(
            "order: 8 before 9 at FETCH",
            fetch().cells(3).capacity(2),
            "refused 8 0 1 0",
        ),
        case(
            "order: 9 at FETCH, and the cell stays absent",
            fetch().cells(3).capacity(3),
            "refused 9 0 1 0",
        ),
        case(
            "order: 11 before 8",
            stores(&[(0, 0)]).capacity(4),
            "refused 11 1 4 2",
        ),
        case("order: 11 before 9", stores(&[(0, 0)]), "refused 11 1 4 2"),
        case(
            "order: 8 before 9 at STORE",
            stores(&[(0, 0)]).picks(&[1]).capacity(4),
            "refused 8 0 4 2",
        ),
        case(
            "order: 9 at STORE, and the cell stays absent",
            stores(&[(0, 0)]).picks(&[1]),
            "refused 9 0 4 2",
        ),
        case(
            "order: 12 before 8 and 9",
            divide().capacity(1),
            "refused 12 0 1 0",
        ),
        case("order: 12 before 9", divide(), "refused 12 0 1 0"),
        case(
            "order: 13 before 8",
            turning().capacity(256).from(255),
            "refused 13 255 256 255",
        ),
        case(
            "order: 8 at iteration 254",
            turning().capacity(255).from(254),
            "refused 8 254 255 254",
        ),
        case("order: 14 before 8", deep(9), "refused 14 8 9 8"),
        case("order: 8 at seven levels", deep(8), "refused 8 7 8 7"),
        case("order: 17 before 8", past(2), "refused 17 1 2 1"),
        case(
            "order: 8 before 9 at COPY",
            copy().capacity(2),
            "refused 8 0 1 0",
        ),
        case(
            "order: 9 at COPY once they fit",
            copy().capacity(3),
            "refused 9 0 1 0",
        ),
    ]
}
