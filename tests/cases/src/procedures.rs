//! R-5 of document 02: a procedure graph run by itself. A token at a LEAVE under
//! path 0 is a result like one at an OUT: live, never enabled, and proper in a
//! completed run.

use crate::lent::*;
use crate::{case, Case};

pub fn cases() -> Vec<Case> {
    let mut cases = figures();
    cases.extend(tags());
    cases.extend(factorial());
    cases
}

fn figures() -> Vec<Case> {
    let plus_one = [with(ADD + WITH_CONSTANT, 1, &[(1, 0)]), op(LEAVE, &[])];
    let read = [op(FETCH, &[(1, 0)]), op(LEAVE, &[]), op(STORE, &[])];
    let reads = |inputs: &[Token]| lend(&read, inputs).cells(8);
    let stored = [token(0, 0, 7), token(2, 0, 7), token(2, 1, -3)];
    vec![
        case(
            "procedure: ADD 1 to LEAVE at the root",
            lend(&plus_one, &[token(0, 0, 4)]),
            "completed 1 2 0",
        ),
        case(
            "procedure: FETCH of cell 7 to LEAVE, nobody stores",
            reads(&stored[..1]),
            "hung 1 2 0",
        ),
        case(
            "procedure: that read is woken and is a result",
            reads(&stored),
            "completed 2 4 0",
        ),
        case(
            "procedure: an input at a LEAVE",
            lend(&plus_one, &[token(1, 0, 4)]).budget(0),
            "completed 0 1 0",
        ),
        case(
            "procedure: no 17 at the root, whatever the constant",
            lend(&[with(LEAVE, 255, &[])], &[token(0, 0, 4)]).capacity(1),
            "completed 0 1 0",
        ),
    ]
}

/// Paths, iterations, and the order of the enabled.
fn tags() -> Vec<Case> {
    let sinks = [op(LEAVE, &[]), op(SINK, &[]), op(SINK, &[])];
    let three = [token(0, 0, 1), token(1, 0, 2), token(2, 0, 3)];
    let later = [op(NEXT, &[(1, 0)]), with(LEAVE, 9, &[])];
    let twice = [op(COPY, &[(1, 0), (1, 0)]), op(LEAVE, &[])];
    let waiting = [op(GATE, &[(1, 0)]), op(LEAVE, &[])];
    vec![
        case(
            "procedure: picks count without a LEAVE at the root",
            lend(&sinks, &three).picks(&[3]).budget(1),
            "spent 1 3 0",
        ),
        case(
            "procedure: a LEAVE at a later iteration of the root",
            lend(&later, &[token(0, 0, 6)]),
            "completed 1 2 0",
        ),
        case(
            "procedure: a second token at a LEAVE of the root",
            lend(&twice, &[token(0, 0, 6)]),
            "refused 9 0 1 0",
        ),
        case(
            "procedure: beside a result an operand waits",
            lend(&waiting, &[token(1, 0, 6), token(0, 1, 5)]),
            "hung 0 2 0",
        ),
    ]
}

/// The factorial as a procedure, with a call of it from the root at 9.
fn factorial() -> Vec<Case> {
    let graph = [
        op(COPY, &[(1, 0), (2, 0)]),
        with(LE + WITH_CONSTANT, 0, &[(2, 1)]),
        op(SWITCH, &[(3, 0), (4, 0)]),
        with(CONST, 1, &[(8, 0)]),
        op(COPY, &[(5, 0), (7, 1)]),
        with(SUB + WITH_CONSTANT, 1, &[(6, 0)]),
        with(ENTER, 2, &[(0, 0), (7, 0)]),
        op(MUL, &[(8, 0)]),
        op(LEAVE, &[]),
        with(ENTER, 1, &[(0, 0), (10, 0)]),
        op(OUT, &[]),
    ];
    let of = |inputs: &[Token]| lend(&graph, inputs).capacity(100);
    let (alone, called) = (token(0, 0, 3), token(9, 0, 3));
    vec![
        case(
            "procedure: the factorial of 3 by itself",
            of(&[alone]),
            "completed 28 36 0",
        ),
        case(
            "procedure: called, it leaves to its caller",
            of(&[called]),
            "completed 30 38 0",
        ),
        case(
            "procedure: by itself and called, in one run",
            of(&[alone, called]).from(60),
            "completed 58 74 0",
        ),
        case(
            "procedure: by itself it goes one level deeper",
            of(&[token(0, 0, 8)]).from(76),
            "completed 68 86 0",
        ),
        case(
            "procedure: called with 8, it is too deep",
            of(&[token(9, 0, 8)]).from(56),
            "refused 14 48 65 64",
        ),
    ]
}
