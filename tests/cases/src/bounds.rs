//! R-3 of document 02: what a graph will need, before it runs, through the C functions.

use crate::lent::*;
use crate::paper::sum;

/// A case of bounds: what is lent, the bounds of firings and tokens or the refusal with
/// its place, and what the run answers.
pub struct BoundsCase {
    pub name: &'static str,
    pub lent: Lent,
    pub says: &'static str,
    pub run: &'static str,
}

fn bounds(name: &'static str, lent: Lent, says: &'static str, run: &'static str) -> BoundsCase {
    BoundsCase {
        name,
        lent: lent.capacity(MOST_RECORDS),
        says,
        run,
    }
}

pub fn cases() -> Vec<BoundsCase> {
    let mut cases = figures();
    cases.extend(reached());
    cases.extend(counted());
    cases.extend(refused());
    cases
}

/// COPY to NEXT to OUT.
fn loops(input: Token) -> Lent {
    let graph = [op(COPY, &[(1, 0)]), op(NEXT, &[(2, 0)]), op(OUT, &[])];
    lend(&graph, &[input])
}

fn figures() -> Vec<BoundsCase> {
    let switch = [
        op(SWITCH, &[(1, 0), (2, 0)]),
        op(COPY, &[(3, 0)]),
        op(COPY, &[(3, 0)]),
        op(OUT, &[]),
    ];
    let read = [op(FETCH, &[(1, 0)]), op(COPY, &[(2, 0)]), op(OUT, &[])];
    vec![
        bounds("the sum", sum(), "1 3", "completed 1 3 0"),
        bounds("no inputs", sum().input_bytes(0), "0 0", "completed 0 0 0"),
        bounds(
            "one operand",
            sum().input_bytes(TOKEN_RECORD),
            "0 1",
            "hung 0 1 0",
        ),
        bounds(
            "SWITCH to two COPYs to one OUT",
            lend(&switch, &[token(0, 0, 5), token(0, 1, 1)]),
            "3 5",
            "completed 2 4 0",
        ),
        bounds(
            "FETCH of a cell that nobody writes",
            lend(&read, &[token(0, 0, 1)]),
            "2 3",
            "hung 1 2 0",
        ),
        bounds(
            "COPY to NEXT to OUT",
            loops(token(0, 0, 1)),
            "refused 19 1",
            "completed 2 3 0",
        ),
        bounds(
            "the same, an input to instruction 9",
            loops(token(9, 0, 1)),
            "refused 6 0",
            "refused 6 0 0 0",
        ),
    ]
}

/// Which instructions are reached.
fn reached() -> Vec<BoundsCase> {
    let ring = [
        op(ADD, &[(1, 0)]),
        op(COPY, &[(0, 1), (2, 0)]),
        op(OUT, &[]),
    ];
    let mut chain = vec![op(OUT, &[])];
    chain.extend((0..255).map(|number| op(COPY, &[(number, 0)])));
    let mut forward: Vec<Instruction> = (1..256).map(|number| op(COPY, &[(number, 0)])).collect();
    forward.push(op(OUT, &[]));
    let both = [
        op(COPY, &[(1, 0), (1, 1)]),
        op(SUB, &[(2, 0)]),
        op(OUT, &[]),
    ];
    vec![
        bounds(
            "a ring that waits for itself is not reached",
            lend(&ring, &[token(0, 0, 1)]),
            "0 1",
            "hung 0 1 0",
        ),
        bounds(
            "a ring that an input feeds",
            lend(&ring, &[token(0, 0, 1), token(1, 0, 2)]),
            "2 5",
            "refused 9 1 4 0",
        ),
        bounds(
            "a chain of 255, the last record first",
            lend(&chain, &[token(255, 0, 1)]),
            "255 256",
            "completed 255 256 0",
        ),
        bounds(
            "a chain of 255, the first record first",
            lend(&forward, &[token(0, 0, 1)]),
            "255 256",
            "completed 255 256 0",
        ),
        bounds(
            "both ports from one COPY",
            lend(&both, &[token(0, 0, 1)]),
            "2 4",
            "completed 2 4 0",
        ),
    ]
}

/// What is counted of a reached instruction.
fn counted() -> Vec<BoundsCase> {
    let out = op(OUT, &[]);
    let stores = [op(STORE, &[]), op(SINK, &[]), out];
    let inputs = [
        token(0, 0, 1),
        token(0, 1, 5),
        token(1, 0, 3),
        token(2, 0, 3),
    ];
    let alike = [op(COPY, &[(1, 0), (1, 0)]), out];
    let both = |next: u16| op(COPY, &[(next % 256, 0), (0, 0)]);
    let most: Vec<Instruction> = (1..=256).map(both).collect();
    vec![
        bounds(
            "STORE and SINK fire, and OUT does not",
            lend(&stores, &inputs),
            "2 4",
            "completed 2 4 0",
        ),
        bounds(
            "COPY with both destinations alike counts two",
            lend(&alike, &[token(0, 0, 1)]),
            "1 3",
            "refused 9 0 1 0",
        ),
        bounds(
            "two inputs on one port count twice",
            lend(&alike, &[token(1, 0, 1); 2]),
            "0 2",
            "refused 9 0 0 1",
        ),
        bounds(
            "256 firings and 2560 tokens",
            lend(&most, &[]).input_bytes(MOST_RECORDS * TOKEN_RECORD),
            "256 2560",
            "refused 9 0 0 1",
        ),
    ]
}

/// 1; records in turn, each 2 to 5; 7; 6; 19 at the first such record, reached or not.
fn refused() -> Vec<BoundsCase> {
    let after = |record| lend(&[op(OUT, &[]), record], &[token(0, 0, 1)]);
    let enter = with(ENTER, 1, &[(0, 0), (0, 0)]);
    let twice = [op(SINK, &[]), op(LEAVE, &[]), enter, op(NEXT, &[(0, 0)])];
    let zero = "refused 7 0 0 0";
    vec![
        bounds(
            "NEXT, not reached",
            after(op(NEXT, &[(0, 0)])),
            "refused 19 1",
            "completed 0 1 0",
        ),
        bounds(
            "ENTER, not reached",
            after(enter),
            "refused 19 1",
            "completed 0 1 0",
        ),
        bounds(
            "LEAVE, not reached",
            after(op(LEAVE, &[])),
            "refused 19 1",
            "completed 0 1 0",
        ),
        bounds(
            "the first of three",
            lend(&twice, &[]),
            "refused 19 1",
            "completed 0 0 0",
        ),
        bounds(
            "a bad graph",
            sum().graph_bytes(17),
            "refused 1 0",
            "refused 1 0 0 0",
        ),
        bounds(
            "a bad arc",
            lend(&[op(NEXT, &[(1, 0)])], &[]),
            "refused 4 0",
            "refused 4 0 0 0",
        ),
        bounds(
            "19 bytes of inputs",
            sum().input_bytes(19),
            "refused 7 0",
            zero,
        ),
        bounds(
            "2049 inputs",
            sum().input_bytes((MOST_RECORDS + 1) * TOKEN_RECORD),
            "refused 7 0",
            zero,
        ),
        bounds(
            "7 before 19",
            loops(token(0, 0, 1)).input_bytes(21),
            "refused 7 0",
            zero,
        ),
        bounds(
            "6 at the second input",
            lend(&[op(OUT, &[])], &[token(0, 0, 1), token(0, 1, 1)]),
            "refused 6 1",
            "refused 6 0 0 1",
        ),
    ]
}
