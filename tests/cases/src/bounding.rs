//! R-9 of document 02: loop bounding, through the C functions. Each case is run and
//! logged, what its bound holds back in the end is counted, and where the papers
//! claim it, its end is that of the run without a bound.

use crate::lent::*;
use crate::RunCase;

fn case(
    name: impl Into<String>,
    lent: Lent,
    bound: u16,
    says: &'static str,
    held: usize,
) -> RunCase {
    RunCase {
        name: name.into(),
        lent,
        table: Vec::new(),
        bound,
        says: says.to_string(),
        held,
    }
}

pub fn cases() -> Vec<RunCase> {
    let mut cases = late_entries();
    cases.extend(waiting_at_the_root());
    cases.extend(bad_bounds());
    cases
}

/// A path entered twice: by j, which counts to 3 and then writes cell 9, and by a read
/// of cell 9.
fn late_entry() -> Lent {
    let graph = [
        with(ENTER, 1, &[(2, 0), (10, 0)]),
        with(ENTER, 1, &[(8, 0), (10, 0)]),
        op(COPY, &[(3, 0), (4, 0)]),
        with(LT + WITH_CONSTANT, 3, &[(4, 1)]),
        op(SWITCH, &[(5, 0), (7, 0)]),
        with(ADD + WITH_CONSTANT, 1, &[(6, 0)]),
        op(NEXT, &[(2, 0)]),
        op(COPY, &[(9, 1), (11, 0)]),
        op(FETCH, &[(12, 0)]),
        op(STORE, &[]),
        op(OUT, &[]),
        with(CONST, 9, &[(9, 0)]),
        with(LEAVE, 0, &[]),
    ];
    let tokens = [token(0, 0, 0), token(1, 0, 9)];
    lend(&graph, &tokens).capacity(40).cells(10)
}

/// The read's token, deferred at iteration 0, holds the loop that would write its cell,
/// unless j is done before the read enters.
fn late_entries() -> Vec<RunCase> {
    let mut j_first = [1; 30];
    j_first[0] = 0;
    let completed = "completed 25 31 0";
    let mut cases = Vec::new();
    for (bound, says, held) in [
        (0, completed, 0),
        (2, "hung 12 16 0", 1),
        (3, "hung 17 22 0", 1),
        (4, completed, 0),
    ] {
        let name = format!("late_entry, bound {bound}, oldest first");
        cases.push(case(name, late_entry(), bound, says, held));
        let name = format!("late_entry, bound {bound}, j first");
        let lent = late_entry().picks(&j_first);
        cases.push(case(name, lent, bound, completed, 0));
    }
    for (budget, says, held) in [(11, "spent 11 15 0", 0), (12, "hung 12 16 0", 1)] {
        let name = format!("late_entry, bound 2, budget {budget}");
        let lent = late_entry().budget(budget);
        cases.push(case(name, lent, 2, says, held));
    }
    cases
}

/// A loop at the root that goes on for ever, and one operand of a GATE beside it: 0 NEXT
/// to 1 COPY to 0; 2 GATE to 3 OUT.
fn waiting_at_the_root() -> Vec<RunCase> {
    let graph = [
        op(NEXT, &[(1, 0)]),
        op(COPY, &[(0, 0)]),
        op(GATE, &[(3, 0)]),
        op(OUT, &[]),
    ];
    let held = lend(&graph, &[token(0, 0, 5), token(2, 1, 0)]).capacity(600);
    let free = lend(&graph, &[token(0, 0, 5), token(3, 0, 0)]).capacity(600);
    vec![
        case(
            "an operand that waits holds the loop",
            held.clone(),
            2,
            "hung 2 4 0",
            1,
        ),
        case(
            "NEXT at 255 is held like others",
            held.clone(),
            256,
            "hung 510 512 0",
            1,
        ),
        case(
            "13 NEXT at 255, nothing older",
            free.clone(),
            256,
            "refused 13 510 512 511",
            0,
        ),
        case(
            "13 a result does not hold",
            free,
            2,
            "refused 13 510 512 511",
            0,
        ),
        case(
            "hung on a held one, budget used up",
            held.budget(2),
            2,
            "hung 2 4 0",
            1,
        ),
    ]
}

fn bad_bounds() -> Vec<RunCase> {
    let mut cases = Vec::new();
    for bound in [1, 257, 65535] {
        let name = format!("21 bound {bound}");
        cases.push(case(name, late_entry(), bound, "refused 21 0 0 0", 0));
    }
    let lent = late_entry().ledger_bytes(27);
    cases.push(case("7 before 21", lent, 1, "refused 7 0 0 0", 0));
    cases
}
