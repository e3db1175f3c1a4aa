//! R-1 of document 02: profiles in ideal steps, through the C functions.

use crate::lent::*;
use crate::paper::{sum, two_stores};

/// A case of a profile: what is lent, the profile's length, the answer's line, and
/// the records, each as firings/tokens.
pub struct ProfileCase {
    pub name: &'static str,
    pub lent: Lent,
    pub bytes: usize,
    pub says: &'static str,
    pub steps: String,
}

/// A case with a profile, by the number of its records.
fn profile(
    name: &'static str,
    lent: Lent,
    records: usize,
    says: &'static str,
    steps: impl Into<String>,
) -> ProfileCase {
    ProfileCase {
        name,
        lent,
        bytes: STEP * records,
        says,
        steps: steps.into(),
    }
}

/// Another length of the profile.
fn of_bytes(bytes: usize, case: ProfileCase) -> ProfileCase {
    ProfileCase { bytes, ..case }
}

pub fn cases() -> Vec<ProfileCase> {
    let mut cases = figures();
    cases.extend(refused());
    cases.extend(within_a_step());
    cases.extend(cells());
    cases.extend(order());
    cases.extend(inner_products());
    cases
}

fn result() -> Lent {
    lend(&[op(OUT, &[])], &[token(0, 0, 8)])
}

fn figures() -> Vec<ProfileCase> {
    let waiting = sum().input_bytes(TOKEN_RECORD);
    vec![
        profile("the sum", sum(), 1, "completed 1 3 0", "1/1"),
        profile("more records", sum(), 5, "completed 1 3 0", "1/1"),
        profile("2,049 records", sum(), 2049, "completed 1 3 0", "1/1"),
        profile("no record", sum(), 0, "refused 18 0 2 0", ""),
        profile("no record, a result", result(), 0, "completed 0 1 0", ""),
        profile("no record, one operand", waiting, 0, "hung 0 1 0", ""),
        of_bytes(3, profile("3 bytes", sum(), 0, "refused 7 0 0 0", "")),
        of_bytes(9, profile("9 bytes", sum(), 0, "refused 7 0 0 0", "")),
        profile(
            "picks and budget are not looked at",
            sum().pick_bytes(3).budget(0),
            1,
            "completed 1 3 0",
            "1/1",
        ),
    ]
}

/// COPY to OUT, and COPY to DIV 0: the second step is refused.
fn refused() -> Vec<ProfileCase> {
    let graph = [
        op(COPY, &[(1, 0)]),
        op(OUT, &[]),
        op(COPY, &[(3, 0)]),
        with(DIV + WITH_CONSTANT, 0, &[(1, 0)]),
    ];
    let lent = || lend(&graph, &[token(0, 0, 1), token(2, 0, 2)]);
    vec![
        profile(
            "refused in the second step",
            lent(),
            2,
            "refused 12 2 4 3",
            "2/2",
        ),
        profile("18 before that step", lent(), 1, "refused 18 2 4 0", "2/2"),
        profile(
            "refused within a step: a firing of it stays done, without a record",
            two_stores(),
            1,
            "refused 11 1 4 2",
            "",
        ),
        profile("18 before it", two_stores(), 0, "refused 18 0 4 0", ""),
    ]
}

/// What becomes enabled within a step fires in the next one at the earliest.
fn within_a_step() -> Vec<ProfileCase> {
    let chain = [
        op(COPY, &[(1, 0)]),
        op(COPY, &[(2, 0)]),
        op(COPY, &[(3, 0)]),
        op(OUT, &[]),
    ];
    let later = [
        op(FETCH, &[(1, 0)]),
        op(SINK, &[]),
        op(COPY, &[(3, 1)]),
        op(STORE, &[(4, 0)]),
        op(OUT, &[]),
    ];
    let earlier = [
        op(FETCH, &[(1, 0)]),
        op(SINK, &[]),
        op(COPY, &[(4, 0)]),
        op(COPY, &[(4, 1)]),
        op(STORE, &[]),
    ];
    vec![
        profile(
            "a chain of three",
            lend(&chain, &[token(0, 0, 4)]),
            3,
            "completed 3 4 0",
            "1/1 1/1 1/1",
        ),
        profile(
            "a read woken behind the STORE's place waits for the next step",
            lend(&later, &[token(0, 0, 1), token(3, 0, 1), token(2, 0, 9)]),
            3,
            "completed 4 6 0",
            "2/3 1/2 1/1",
        ),
        profile(
            "a read woken before the STORE's place waits for the next step",
            lend(&earlier, &[token(0, 0, 1), token(2, 0, 1), token(3, 0, 9)]),
            3,
            "completed 5 6 0",
            "3/3 1/1 1/0",
        ),
    ]
}

/// FETCH and STORE in one step, and what counts after a step.
fn cells() -> Vec<ProfileCase> {
    let out = op(OUT, &[]);
    let graph = [op(FETCH, &[(2, 0)]), op(STORE, &[]), out, out];
    let (fetch, cell, value) = (token(0, 0, 1), token(1, 0, 1), token(1, 1, 5));
    let of = |inputs: &[Token]| lend(&graph, inputs);
    vec![
        profile(
            "FETCH and STORE of one cell in one step, FETCH first",
            of(&[fetch, cell, value]),
            1,
            "completed 2 4 0",
            "2/1",
        ),
        profile(
            "the same, STORE first",
            of(&[cell, value, fetch]),
            1,
            "completed 2 4 0",
            "2/1",
        ),
        profile(
            "a deferred token counts, and a result",
            of(&[fetch, token(3, 0, 3)]),
            1,
            "hung 1 3 0",
            "1/2",
        ),
        profile(
            "a deferred token counts, and an operand that waits",
            of(&[fetch, cell]),
            1,
            "hung 1 3 0",
            "1/2",
        ),
    ]
}

/// The order of refusals before any firing: 1 to 5, 7, 6, 8, 9.
fn order() -> Vec<ProfileCase> {
    let of = |name, lent, says| of_bytes(5, profile(name, lent, 0, says, ""));
    let bad = || lend(&[op(COPY, &[(9, 0)])], &[token(0, 0, 1)]);
    vec![
        of("1 before 7", sum().graph_bytes(3), "refused 1 0 0 0"),
        of("4 before 7", bad(), "refused 4 0 0 0"),
        of(
            "7 before 6",
            lend(&[op(OUT, &[])], &[token(5, 0, 1)]),
            "refused 7 0 0 0",
        ),
        of("7 before 8", sum().capacity(1), "refused 7 0 0 0"),
        profile(
            "6 before 8",
            lend(&[op(OUT, &[])], &[token(5, 0, 1)]).capacity(0),
            0,
            "refused 6 0 0 0",
            "",
        ),
        profile("8 before 18", sum().capacity(1), 0, "refused 8 0 0 1", ""),
        profile(
            "9 before 18",
            lend(&[op(OUT, &[])], &[token(0, 0, 1); 2]),
            0,
            "refused 9 0 0 1",
            "",
        ),
        profile(
            "18 before 8 in a firing",
            sum().capacity(2),
            0,
            "refused 18 0 2 0",
            "",
        ),
    ]
}

/// The inner product of Memo 280 in 01's operations: the sum of A[i] * B[i] for i
/// from 1 to n, A[i] in cell i and B[i] in cell n + i. The memo's eight operators do
/// it in 3 steps a pass; here a SWITCH sends one token, FETCH has no base and NEXT is
/// an operator, so that there are twelve and 4 steps a pass.
fn inner_product(n: u16) -> Lent {
    let mut graph = vec![
        with(LT + WITH_CONSTANT, i32::from(n), &[(1, 1), (2, 1)]),
        op(SWITCH, &[(10, 0), (12, 0)]),
        op(SWITCH, &[(3, 0), (13, 0)]),
        with(ADD + WITH_CONSTANT, 1, &[(4, 0), (5, 0)]),
        op(NEXT, &[(0, 0), (2, 0)]),
        op(COPY, &[(6, 0), (7, 0)]),
        op(FETCH, &[(9, 0)]),
        with(ADD + WITH_CONSTANT, i32::from(n), &[(8, 0)]),
        op(FETCH, &[(9, 1)]),
        op(MUL, &[(10, 1)]),
        op(ADD, &[(11, 0)]),
        op(NEXT, &[(1, 0)]),
        op(OUT, &[]),
        op(SINK, &[]),
    ];
    let mut inputs = vec![token(1, 0, 0), token(0, 0, 0), token(2, 0, 0)];
    for cell in 1..=2 * n {
        let store = 13 + cell;
        graph.push(op(STORE, &[]));
        inputs.push(token(store, 0, i32::from(cell)));
        inputs.push(token(store, 1, i32::from(cell % 5)));
    }
    lend(&graph, &inputs)
        .capacity(MOST_RECORDS)
        .cells(MOST_CELLS)
}

/// The steps of the inner product of n, all but the last. The first one also writes
/// the 2n cells; in between four steps come again with each pass.
fn all_but_the_last(n: u16) -> String {
    let first = format!("{}/4 2/2 1/3 2/5 3/6 2/5 2/5", 2 * n + 1);
    let passes = " 3/6 4/7 3/5 2/5".repeat(usize::from(n) - 2);
    first + &passes + " 3/6 4/7 3/5 2/3 1/2 1/2"
}

fn inner_products() -> Vec<ProfileCase> {
    let whole = |n| all_but_the_last(n) + " 1/1";
    vec![
        profile(
            "inner product of 4",
            inner_product(4),
            22,
            "completed 60 87 0",
            whole(4),
        ),
        profile(
            "inner product of 4, one record too few",
            inner_product(4),
            21,
            "refused 18 59 86 0",
            all_but_the_last(4),
        ),
        profile(
            "inner product of 20",
            inner_product(20),
            86,
            "completed 284 407 0",
            whole(20),
        ),
        profile(
            "inner product of 100",
            inner_product(100),
            406,
            "completed 1404 2007 0",
            whole(100),
        ),
    ]
}
