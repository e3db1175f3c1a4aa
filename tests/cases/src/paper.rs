//! The cases of 01 itself: its list "Cases" (those with a star have one in their
//! name), its printed example, the numbers that its rules name, and every code of
//! its table at work.

use crate::lent::*;
use crate::{case, Case};

pub fn cases() -> Vec<Case> {
    let mut cases = listed();
    cases.extend(numbers());
    cases.extend(codes());
    cases.extend(arithmetic());
    cases.extend(calls());
    cases.extend(cells());
    cases
}

/// 0 is the operation, of two operands, to 1 port 0; 1 is OUT.
fn binary(code: u8, left: i32, right: i32) -> Lent {
    lend(
        &[op(code, &[(1, 0)]), op(OUT, &[])],
        &[token(0, 0, left), token(0, 1, right)],
    )
}

/// The same with the constant on the right.
fn constant(code: u8, left: i32, right: i32) -> Lent {
    lend(
        &[with(code + WITH_CONSTANT, right, &[(1, 0)]), op(OUT, &[])],
        &[token(0, 0, left)],
    )
}

/// The graph of the printed example.
pub fn sum() -> Lent {
    binary(ADD, 7, -9)
}

/// FETCH of cell 5 to OUT, STORE of 40 to cell 5.
fn fetch_and_store() -> Lent {
    lend(
        &[op(FETCH, &[(1, 0)]), op(OUT, &[]), op(STORE, &[])],
        &[token(0, 0, 5), token(2, 0, 5), token(2, 1, 40)],
    )
    .cells(6)
}

/// Two STOREs to one cell, operands in ledger order.
pub fn two_stores() -> Lent {
    lend(
        &[op(STORE, &[]), op(STORE, &[])],
        &[
            token(0, 0, 1),
            token(0, 1, 10),
            token(1, 0, 1),
            token(1, 1, 20),
        ],
    )
}

/// 0 is NEXT to itself: token i has iteration i.
pub fn turning() -> Lent {
    lend(&[op(NEXT, &[(0, 0)])], &[token(0, 0, 6)]).capacity(MOST_RECORDS)
}

/// 01's list of cases, in its order.
fn listed() -> Vec<Case> {
    let alike = [op(COPY, &[(1, 0), (1, 0)]), op(OUT, &[])];
    let call = [
        op(NEXT, &[(1, 0)]),
        op(NEXT, &[(2, 0)]),
        with(ENTER, 3, &[(3, 0), (4, 0)]),
        op(LEAVE, &[]),
        op(OUT, &[]),
    ];
    vec![
        case("01 the printed example", sum(), "completed 1 3 0"),
        case("01 * that graph, budget 0", sum().budget(0), "spent 0 2 0"),
        case("01 * budget 1", sum().budget(1), "completed 1 3 0"),
        case("01 * capacity 2", sum().capacity(2), "refused 8 0 2 0"),
        case("01 * capacity 1", sum().capacity(1), "refused 8 0 0 1"),
        case("01 * no inputs", sum().input_bytes(0), "completed 0 0 0"),
        case(
            "01 * COPY with both destinations alike",
            lend(&alike, &[token(0, 0, 5)]),
            "refused 9 0 1 0",
        ),
        case(
            "01 * FETCH of cell 5 and STORE of 40 to it, FETCH first",
            fetch_and_store(),
            "completed 2 4 0",
        ),
        case(
            "01 * FETCH of cell 5 and STORE of 40 to it, STORE first",
            fetch_and_store().picks(&[1]),
            "completed 2 4 0",
        ),
        case(
            "01 * two STOREs to one cell",
            two_stores(),
            "refused 11 1 4 2",
        ),
        case(
            "01 * two STOREs to one cell, first pick 1",
            two_stores().picks(&[1]),
            "refused 11 1 4 0",
        ),
        case("01 * -7 DIV 2 is -3", binary(DIV, -7, 2), "completed 1 3 0"),
        case("01 * -7 REM 2 is -1", binary(REM, -7, 2), "completed 1 3 0"),
        case("01 * 7 DIV -2 is -3", binary(DIV, 7, -2), "completed 1 3 0"),
        case(
            "01 * -2147483648 DIV -1",
            binary(DIV, i32::MIN, -1),
            "refused 12 0 2 0",
        ),
        case(
            "01 * ENTER site 3 at path 0, iteration 2: path 770",
            lend(&call, &[token(0, 0, 11)]),
            "completed 4 5 0",
        ),
        case(
            "01 * NEXT at 254 gives 255",
            turning().budget(255).from(253),
            "spent 255 256 0",
        ),
    ]
}

/// Numbers that 01's rules name outside its list of cases.
fn numbers() -> Vec<Case> {
    let sinks = |count: usize| vec![op(SINK, &[]); count];
    let three = [token(0, 0, 1), token(1, 0, 2), token(2, 0, 3)];
    vec![
        case(
            "01 -2147483648 REM -1 is 0",
            binary(REM, i32::MIN, -1),
            "completed 1 3 0",
        ),
        case(
            "01 a graph of 1 record",
            lend(&sinks(1), &[token(0, 0, 8)]),
            "completed 1 1 0",
        ),
        case(
            "01 a graph of 256 records",
            lend(&sinks(256), &[token(255, 0, 8)]),
            "completed 1 1 0",
        ),
        case(
            "01 a pick is taken mod the number enabled: 65535 of 3, then 7 of 2",
            lend(&sinks(3), &three).picks(&[65535, 7]).budget(2),
            "spent 2 3 0",
        ),
        case(
            "01 once picks run out, the first is taken",
            lend(&sinks(3), &three).picks(&[2]).budget(2),
            "spent 2 3 0",
        ),
        case(
            "01 picks 1 and 1 of 3 sinks",
            lend(&sinks(3), &three).picks(&[1, 1]).budget(2),
            "spent 2 3 0",
        ),
        case(
            "01 OUT never fires: an input at OUT stays live",
            lend(&[op(OUT, &[])], &[token(0, 0, 4)]),
            "completed 0 1 0",
        ),
        case(
            "01 one operand of two does not fire",
            lend(&[op(ADD, &[(1, 0)]), op(OUT, &[])], &[token(0, 1, 4)]),
            "hung 0 1 0",
        ),
    ]
}

/// Every code of the table that is not arithmetic, with each fan-out.
fn codes() -> Vec<Case> {
    let out = op(OUT, &[]);
    let two = [(1, 0), (2, 0)];
    let one = [token(0, 0, 5)];
    let both = |right| [token(0, 0, 5), token(0, 1, right)];
    vec![
        case(
            "code 1 COPY to one",
            lend(&[op(COPY, &[(1, 0)]), out], &one),
            "completed 1 2 0",
        ),
        case(
            "code 1 COPY to two, destination 1 first",
            lend(&[op(COPY, &[(2, 0), (1, 0)]), out, out], &one),
            "completed 1 3 0",
        ),
        case(
            "code 2 SINK",
            lend(&[op(SINK, &[])], &one),
            "completed 1 1 0",
        ),
        case(
            "code 4 CONST to one",
            lend(&[with(CONST, -8, &[(1, 0)]), out], &one),
            "completed 1 2 0",
        ),
        case(
            "code 4 CONST to two",
            lend(&[with(CONST, i32::MIN, &two), out, out], &one),
            "completed 1 3 0",
        ),
        case(
            "code 5 SWITCH on 1",
            lend(&[op(SWITCH, &two), out, out], &both(1)),
            "completed 1 3 0",
        ),
        case(
            "code 5 SWITCH on -1",
            lend(&[op(SWITCH, &two), out, out], &both(-1)),
            "completed 1 3 0",
        ),
        case(
            "code 5 SWITCH on 0",
            lend(&[op(SWITCH, &two), out, out], &both(0)),
            "completed 1 3 0",
        ),
        case(
            "code 6 GATE to one",
            lend(&[op(GATE, &[(1, 0)]), out], &both(9)),
            "completed 1 3 0",
        ),
        case(
            "code 6 GATE to two, port 1 first",
            lend(
                &[op(GATE, &two), out, out],
                &[token(0, 1, 9), token(0, 0, 5)],
            ),
            "completed 1 4 0",
        ),
        case(
            "code 7 NEXT to one",
            lend(&[op(NEXT, &[(1, 0)]), out], &one),
            "completed 1 2 0",
        ),
        case(
            "code 7 NEXT to two",
            lend(&[op(NEXT, &two), out, out], &one),
            "completed 1 3 0",
        ),
        case(
            "code 8 ENTER sends one token",
            lend(&[with(ENTER, 1, &two), out, out], &one),
            "completed 1 2 0",
        ),
        case(
            "code 10 FETCH to two",
            lend(&[op(FETCH, &two), out, out], &[token(0, 0, 1)]),
            "hung 1 3 0",
        ),
        case(
            "code 11 STORE to none",
            lend(&[op(STORE, &[])], &[token(0, 0, 1), token(0, 1, -6)]),
            "completed 1 2 0",
        ),
        case(
            "code 11 STORE to one: the signal is 0",
            lend(
                &[op(STORE, &[(1, 0)]), out],
                &[token(0, 0, 1), token(0, 1, -6)],
            ),
            "completed 1 3 0",
        ),
        case(
            "code 11 STORE to two",
            lend(
                &[op(STORE, &two), out, out],
                &[token(0, 1, -6), token(0, 0, 1)],
            ),
            "completed 1 4 0",
        ),
    ]
}

/// Codes 16-23 and 32-39, at the ends of their ranges.
fn arithmetic() -> Vec<Case> {
    let rows = [
        (ADD, "ADD", i32::MAX, -1, Some(i32::MAX - 1)),
        (ADD, "ADD", i32::MAX, 1, None),
        (ADD, "ADD", i32::MIN, -1, None),
        (SUB, "SUB", -1, i32::MAX, Some(i32::MIN)),
        (SUB, "SUB", i32::MIN, 1, None),
        (SUB, "SUB", 0, i32::MIN, None),
        (MUL, "MUL", -65536, 32768, Some(i32::MIN)),
        (MUL, "MUL", 65536, 32768, None),
        (MUL, "MUL", i32::MIN, i32::MIN, None),
        (DIV, "DIV", -7, -2, Some(3)),
        (DIV, "DIV", 6, 0, None),
        (DIV, "DIV", i32::MIN, -1, None),
        (REM, "REM", 7, -2, Some(1)),
        (REM, "REM", -7, -2, Some(-1)),
        (REM, "REM", i32::MIN, -1, Some(0)),
        (REM, "REM", 0, 0, None),
        (LT, "LT", i32::MIN, i32::MAX, Some(1)),
        (LT, "LT", 2, 2, Some(0)),
        (LE, "LE", 2, 2, Some(1)),
        (LE, "LE", 0, -1, Some(0)),
        (EQ, "EQ", -3, -3, Some(1)),
        (EQ, "EQ", -3, 3, Some(0)),
    ];
    let mut cases = Vec::new();
    for (code, word, left, right, result) in rows {
        let gives = match result {
            Some(value) => format!("gives {value}"),
            None => "is out of range".to_string(),
        };
        let says = |operands| match result {
            Some(_) => format!("completed 1 {} 0", operands + 1),
            None => format!("refused 12 0 {operands} 0"),
        };
        let number = code + WITH_CONSTANT;
        cases.push(case(
            format!("code {code} {left} {word} {right} {gives}"),
            binary(code, left, right),
            says(2),
        ));
        cases.push(case(
            format!("code {number} {left} {word} constant {right} {gives}"),
            constant(code, left, right),
            says(1),
        ));
    }
    cases
}

/// ENTER and LEAVE.
fn calls() -> Vec<Case> {
    let nested = [
        with(ENTER, 255, &[(1, 0), (4, 0)]),
        op(NEXT, &[(2, 0)]),
        with(ENTER, 1, &[(3, 0), (4, 0)]),
        op(LEAVE, &[]),
        op(LEAVE, &[]),
    ];
    let results = [
        with(ENTER, 7, &[(2, 0), (6, 0)]),
        with(ENTER, 7, &[(2, 1), (6, 0)]),
        op(ADD, &[(3, 0)]),
        op(COPY, &[(4, 0), (5, 0)]),
        op(LEAVE, &[]),
        with(LEAVE, 1, &[]),
        op(OUT, &[]),
        op(OUT, &[]),
    ];
    let dropped = [
        with(ENTER, 9, &[(1, 0), (3, 0)]),
        op(NEXT, &[(2, 0)]),
        op(LEAVE, &[]),
        op(OUT, &[]),
    ];
    vec![
        case(
            "calls: site 255, then site 1 at iteration 1: path 65280 * 65536 + 257",
            lend(&nested, &[token(0, 0, 5)]).budget(3),
            "spent 3 4 0",
        ),
        case(
            "calls: the outer LEAVE returns to a LEAVE at iteration 0 of the root, a result",
            lend(&nested, &[token(0, 0, 5)]).capacity(8),
            "completed 5 6 0",
        ),
        case(
            "calls: two arguments and two results of one site",
            lend(&results, &[token(0, 0, 2), token(1, 0, 3)]).capacity(9),
            "completed 6 9 0",
        ),
        case(
            "calls: LEAVE drops its own iteration",
            lend(&dropped, &[token(0, 0, 5)]),
            "completed 3 4 0",
        ),
    ]
}

/// FETCH and STORE.
fn cells() -> Vec<Case> {
    let out = op(OUT, &[]);
    let readers = [
        op(FETCH, &[(3, 0)]),
        op(FETCH, &[(4, 0), (5, 0)]),
        op(STORE, &[(6, 0)]),
        out,
        out,
        out,
        out,
    ];
    let tokens = [
        token(0, 0, 1),
        token(1, 0, 1),
        token(2, 0, 1),
        token(2, 1, -77),
    ];
    let reads = lend(&readers, &tokens).capacity(9);
    let meeting = [
        op(FETCH, &[(2, 0)]),
        op(FETCH, &[(2, 1)]),
        op(ADD, &[(4, 0)]),
        op(STORE, &[]),
        out,
    ];
    let meet = lend(
        &meeting,
        &[
            token(0, 0, 0),
            token(1, 0, 0),
            token(3, 0, 0),
            token(3, 1, 21),
        ],
    )
    .capacity(8);
    vec![
        case(
            "cells: FETCH of an absent cell is deferred, and the cell waiting",
            reads.clone().budget(1),
            "spent 1 5 0",
        ),
        case(
            "cells: FETCH of a waiting cell is deferred too",
            reads.clone().budget(2),
            "spent 2 7 0",
        ),
        case(
            "cells: STORE wakes every record deferred on it, then sends its signal",
            reads.clone(),
            "completed 3 8 0",
        ),
        case(
            "cells: STORE between two FETCHes",
            reads.clone().picks(&[0, 1]),
            "completed 3 8 0",
        ),
        case(
            "cells: STORE first, and FETCH of a present cell",
            reads.picks(&[2]),
            "completed 3 8 0",
        ),
        case(
            "cells: two deferred reads meet at ADD, which is enabled by the STORE",
            meet.clone(),
            "completed 4 7 0",
        ),
        case(
            "cells: one read is deferred and one not, and they meet",
            meet.picks(&[1, 1]),
            "completed 4 7 0",
        ),
        case(
            "cells: a deferred read without a STORE stays deferred",
            lend(&[op(FETCH, &[(1, 0)]), op(SINK, &[])], &[token(0, 0, 1)]),
            "hung 1 2 0",
        ),
        case(
            "cells: FETCH reaches only its own cell",
            lend(
                &[op(FETCH, &[(2, 0)]), op(STORE, &[]), out],
                &[token(0, 0, 0), token(1, 0, 1), token(1, 1, 9)],
            ),
            "hung 2 4 0",
        ),
    ]
}
