//! R-2 of document 02: with nothing enabled a run is completed only if every live
//! token is a result and none is deferred; else it hangs.

use crate::lent::*;
use crate::paper::sum;
use crate::{case, Case};

pub fn cases() -> Vec<Case> {
    let mut cases = figures();
    cases.extend(tokens_at_rest());
    cases
}

/// FETCH of cell 5 to OUT.
fn read() -> Lent {
    let graph = [op(FETCH, &[(1, 0)]), op(OUT, &[])];
    lend(&graph, &[token(0, 0, 5)]).cells(6)
}

/// One operand of the printed example's ADD.
fn one_operand() -> Lent {
    sum().input_bytes(TOKEN_RECORD)
}

fn figures() -> Vec<Case> {
    vec![
        case(
            "hung: FETCH of cell 5 to OUT, nobody stores",
            read(),
            "hung 1 2 0",
        ),
        case("hung: ADD with one operand", one_operand(), "hung 0 1 0"),
        case(
            "hung: ADD with one operand, budget 0",
            one_operand().budget(0),
            "hung 0 1 0",
        ),
        case(
            "hung: the budget is just used up",
            read().budget(1),
            "hung 1 2 0",
        ),
        case(
            "hung: one firing short of it is spent",
            read().budget(0),
            "spent 0 1 0",
        ),
        case(
            "hung not: results alone",
            lend(&[op(OUT, &[]); 2], &[token(0, 0, 1), token(1, 0, 2)]),
            "completed 0 2 0",
        ),
    ]
}

/// Which tokens are proper in a completed run.
fn tokens_at_rest() -> Vec<Case> {
    let entered = [
        with(ENTER, 4, &[(1, 0), (2, 0)]),
        op(OUT, &[]),
        op(OUT, &[]),
    ];
    let apart = [
        op(COPY, &[(1, 0), (2, 0)]),
        op(NEXT, &[(2, 1)]),
        op(ADD, &[(3, 0)]),
        op(OUT, &[]),
    ];
    let reads = [
        op(FETCH, &[(3, 0)]),
        op(FETCH, &[(4, 0)]),
        op(STORE, &[]),
        op(OUT, &[]),
        op(OUT, &[]),
    ];
    let mut meeting = reads;
    meeting[4] = op(SUB, &[(3, 0)]);
    let stored = [token(2, 0, 1), token(2, 1, 7)];
    let both = [&[token(0, 0, 0), token(1, 0, 1)], &stored[..]].concat();
    let woken = [&[token(1, 0, 1)], &stored[..]].concat();
    vec![
        case(
            "hung not: an OUT in an entered path is a result too",
            lend(&entered, &[token(0, 0, 3)]),
            "completed 1 2 0",
        ),
        case(
            "hung: two operands of ADD under two iterations",
            lend(&apart, &[token(0, 0, 3)]),
            "hung 2 4 0",
        ),
        case(
            "hung: one read is woken and another waits",
            lend(&reads, &both).capacity(7),
            "hung 3 6 0",
        ),
        case(
            "hung: the same, the other order",
            lend(&reads, &both).capacity(7).picks(&[2, 1]),
            "hung 3 6 0",
        ),
        case(
            "hung: a woken read without its partner",
            lend(&meeting, &woken),
            "hung 2 4 0",
        ),
    ]
}
