//! Budgets, capacities, cells and picks at their ends, the order of the enabled,
//! and what ledger and cells held beforehand.

use crate::lent::*;
use crate::paper::{sum, two_stores};
use crate::{case, Case};

pub fn cases() -> Vec<Case> {
    let mut cases = budgets();
    cases.extend(capacities());
    cases.extend(taken());
    cases.extend(full());
    cases.extend(cell_counts());
    cases.extend(enabled());
    cases.extend(beforehand());
    cases
}

/// A loop from instruction `at` on that counts up to a number of passes n and
/// leaves the counter at OUT: 5n + 3 firings, and 6n + 5 tokens with its input.
fn counter(at: u16, passes: i32) -> Vec<Instruction> {
    vec![
        op(COPY, &[(at + 1, 0), (at + 2, 0)]),
        with(LT + WITH_CONSTANT, passes, &[(at + 2, 1)]),
        op(SWITCH, &[(at + 3, 0), (at + 5, 0)]),
        with(ADD + WITH_CONSTANT, 1, &[(at + 4, 0)]),
        op(NEXT, &[(at, 0)]),
        op(OUT, &[]),
    ]
}

/// Three passes: 18 firings and 23 tokens.
fn three() -> Lent {
    lend(&counter(0, 3), &[token(0, 0, 0)]).capacity(24)
}

fn budgets() -> Vec<Case> {
    let divide = || {
        lend(
            &[with(DIV + WITH_CONSTANT, 0, &[(0, 0)])],
            &[token(0, 0, 1)],
        )
    };
    vec![
        case("budget 0 of 18", three().budget(0), "spent 0 1 0"),
        case("budget 1 of 18", three().budget(1), "spent 1 3 0"),
        case(
            "budget 17, one less than enough",
            three().budget(17).from(16),
            "spent 17 22 0",
        ),
        case(
            "budget 18, exactly enough",
            three().budget(18),
            "completed 18 23 0",
        ),
        case(
            "budget 19, one more than enough",
            three().budget(19).from(16),
            "completed 18 23 0",
        ),
        case(
            "budget 65535",
            three().budget(65535).from(16),
            "completed 18 23 0",
        ),
        case(
            "budget 0 and nothing enabled",
            sum().input_bytes(0).budget(0),
            "completed 0 0 0",
        ),
        case(
            "budget 0 does not try a firing that would be refused",
            divide().budget(0),
            "spent 0 1 0",
        ),
        case("budget 1 tries it", divide().budget(1), "refused 12 0 1 0"),
        case(
            "budget 65535 tries it",
            divide().budget(65535),
            "refused 12 0 1 0",
        ),
        case(
            "budget 1 before the firing that would be refused",
            two_stores().budget(1),
            "spent 1 4 0",
        ),
        case(
            "budget 2 tries that firing",
            two_stores().budget(2),
            "refused 11 1 4 2",
        ),
        case(
            "budget 0 and a refusal at once",
            sum().budget(0).capacity(1),
            "refused 8 0 0 1",
        ),
    ]
}

fn capacities() -> Vec<Case> {
    vec![
        case(
            "capacity 0, one input",
            three().capacity(0),
            "refused 8 0 0 0",
        ),
        case(
            "capacity 0, no inputs",
            three().input_bytes(0).capacity(0),
            "completed 0 0 0",
        ),
        case("capacity 1", three().capacity(1), "refused 8 0 1 0"),
        case(
            "capacity 22, one less than enough",
            three().capacity(22).from(16),
            "refused 8 17 22 20",
        ),
        case(
            "capacity 23, exactly enough",
            three().capacity(23).from(16),
            "completed 18 23 0",
        ),
        case(
            "capacity 24, one more than enough",
            three().capacity(24).from(16),
            "completed 18 23 0",
        ),
        case(
            "capacity 2048",
            three().capacity(MOST_RECORDS).from(16),
            "completed 18 23 0",
        ),
    ]
}

/// The ledger that a run really takes (02, R-12): with fewer records every order is
/// refused by 8.
fn taken() -> Vec<Case> {
    let read = [op(FETCH, &[(1, 0)]), op(ADD, &[(2, 0)]), op(OUT, &[])];
    let hangs = |capacity| lend(&read, &[token(0, 0, 1), token(1, 1, 4)]).capacity(capacity);
    let copy = |to| op(COPY, &[(to, 0)]);
    let copies = [copy(2), copy(3), op(OUT, &[]), op(OUT, &[])];
    let completes = |capacity| lend(&copies, &[token(0, 0, 1), token(1, 0, 2)]).capacity(capacity);
    vec![
        case("takes 3 and hangs, capacity 3", hangs(3), "hung 1 3 0"),
        case(
            "takes 3 and hangs, capacity 2048",
            hangs(MOST_RECORDS),
            "hung 1 3 0",
        ),
        case("takes 3 and hangs, capacity 2", hangs(2), "refused 8 0 2 0"),
        case("takes 3 and hangs, capacity 1", hangs(1), "refused 8 0 0 1"),
        case("takes 4, capacity 4", completes(4), "completed 2 4 0"),
        case("takes 4, capacity 3", completes(3), "refused 8 1 3 1"),
        case(
            "takes 4, capacity 3, the other order",
            completes(3).picks(&[1]),
            "refused 8 1 3 0",
        ),
        case("takes 4, capacity 0", completes(0), "refused 8 0 0 0"),
    ]
}

/// Runs of 2,048 tokens: 255 passes, 84 passes, and inputs at OUT.
fn full() -> Vec<Case> {
    let lent = |outs: u16, capacity: usize| {
        let mut graph = counter(0, 255);
        graph.extend(counter(6, 84));
        graph.extend([op(OUT, &[]); 5]);
        let mut inputs = vec![token(0, 0, 0), token(6, 0, 0)];
        inputs.extend((12..12 + outs).map(|number| token(number, 0, -1)));
        lend(&graph, &inputs).capacity(capacity).from(capacity - 6)
    };
    let alike = lend(&[op(SINK, &[])], &[]).input_bytes(MOST_RECORDS * TOKEN_RECORD);
    vec![
        case(
            "2048 tokens, capacity 2048",
            lent(4, MOST_RECORDS),
            "completed 1701 2048 0",
        ),
        case(
            "2048 tokens, capacity 2048, budget 1701",
            lent(4, MOST_RECORDS).budget(1701),
            "completed 1701 2048 0",
        ),
        case(
            "2048 tokens, capacity 2048, budget 1700",
            lent(4, MOST_RECORDS).budget(1700),
            "spent 1700 2047 0",
        ),
        case(
            "2048 tokens, capacity 2048, 2048 picks",
            lent(4, MOST_RECORDS).picks(&[1; MOST_RECORDS]),
            "completed 1701 2048 0",
        ),
        case(
            "2048 tokens, capacity 2047",
            lent(4, 2047),
            "refused 8 1700 2047 2045",
        ),
        case(
            "2049 tokens, capacity 2048",
            lent(5, MOST_RECORDS),
            "refused 8 1700 2048 2046",
        ),
        case(
            "2048 inputs are accepted, and alike",
            alike.capacity(MOST_RECORDS),
            "refused 9 0 0 1",
        ),
    ]
}

fn cell_counts() -> Vec<Case> {
    let out = op(OUT, &[]);
    let graph = [op(FETCH, &[(1, 0)]), out, op(STORE, &[])];
    let at = |cell| {
        lend(
            &graph,
            &[token(0, 0, cell), token(2, 0, cell), token(2, 1, i32::MIN)],
        )
    };
    let stores = vec![op(STORE, &[]); 64];
    let mut tokens = Vec::new();
    for number in 0..64 {
        tokens.push(token(number, 0, i32::from(number)));
        tokens.push(token(number, 1, -i32::from(number)));
    }
    vec![
        case("0 cells, none used", sum().cells(0), "completed 1 3 0"),
        case("0 cells, one used", at(0).cells(0), "refused 10 0 3 0"),
        case("1 cell", at(0).cells(1), "completed 2 4 0"),
        case(
            "1024 cells, the last used",
            at(1023).cells(MOST_CELLS),
            "completed 2 4 0",
        ),
        case(
            "1024 cells, the last waiting",
            at(1023).cells(MOST_CELLS).budget(1),
            "spent 1 4 0",
        ),
        case(
            "1024 cells, one past the last",
            at(1024).cells(MOST_CELLS),
            "refused 10 0 3 0",
        ),
        case(
            "64 cells, each written",
            lend(&stores, &tokens).cells(64).capacity(128).from(126),
            "completed 64 128 0",
        ),
    ]
}

/// The order of the enabled: by place, each counted once.
fn enabled() -> Vec<Case> {
    let graph = [
        op(GATE, &[(3, 0)]),
        op(SINK, &[]),
        op(SINK, &[]),
        op(OUT, &[]),
    ];
    let inputs = [
        token(0, 1, 9),
        token(1, 0, 1),
        token(0, 0, 8),
        token(2, 0, 2),
    ];
    let gate = || lend(&graph, &inputs).budget(1);
    let woken = [
        op(FETCH, &[(1, 0)]),
        op(SINK, &[]),
        op(STORE, &[]),
        op(SINK, &[]),
    ];
    let tokens = [
        token(0, 0, 1),
        token(3, 0, 4),
        token(2, 0, 1),
        token(2, 1, 40),
    ];
    let wake = |picks: &[u16]| lend(&woken, &tokens).picks(picks).budget(3);
    let ready = [
        op(ADD, &[(2, 0)]),
        op(COPY, &[(0, 1)]),
        op(OUT, &[]),
        op(SINK, &[]),
    ];
    let late = [token(1, 0, 3), token(3, 0, 5), token(0, 0, 4)];
    vec![
        case(
            "enabled: GATE counts once, at its earliest operand, and is number 0",
            gate(),
            "spent 1 5 0",
        ),
        case(
            "enabled: number 1 is the sink behind it",
            gate().picks(&[1]),
            "spent 1 4 0",
        ),
        case(
            "enabled: number 2 is the last sink",
            gate().picks(&[2]),
            "spent 1 4 0",
        ),
        case(
            "enabled: number 3 of 3 is GATE again",
            gate().picks(&[3]),
            "spent 1 5 0",
        ),
        case(
            "enabled: a woken read stands at its own place, behind the sink",
            wake(&[0, 1, 0]),
            "spent 3 5 0",
        ),
        case(
            "enabled: a woken read is number 1",
            wake(&[0, 1, 1]),
            "spent 3 5 0",
        ),
        case(
            "enabled: an operand that comes late enables ADD behind the sink",
            lend(&ready, &late).picks(&[0, 1]).budget(2),
            "spent 2 5 0",
        ),
        case(
            "enabled: the sink is before ADD",
            lend(&ready, &late).picks(&[0, 0]).budget(2),
            "spent 2 4 0",
        ),
    ]
}

/// What ledger and cells held before a run is not seen by it, and stays past what
/// it writes.
fn beforehand() -> Vec<Case> {
    let likely = [
        token(0, 0, 1),
        token(0, 1, 2),
        token(1, 0, 3),
        token(0, 0, 4),
        token(0, 1, 5),
    ];
    let spent = likely.map(|record| byte(record, token::STATE, token::SPENT));
    let deferred = likely.map(|record| byte(record, token::STATE, token::DEFERRED));
    let waiting = cell(0, cell::WAITING);
    let held = [present(9), waiting];
    let graph = [op(FETCH, &[(2, 0)]), op(STORE, &[]), op(OUT, &[])];
    let read = || lend(&graph, &[token(0, 0, 0)]);
    let write = || lend(&graph, &[token(1, 0, 0), token(1, 1, 7)]);
    vec![
        case(
            "beforehand: tokens of the same tags, live",
            sum().ledger_of(&likely).cells_of(&held),
            "completed 1 3 0",
        ),
        case(
            "beforehand: tokens of the same tags, spent",
            sum().ledger_of(&spent),
            "completed 1 3 0",
        ),
        case(
            "beforehand: tokens of the same tags, deferred",
            sum().ledger_of(&deferred),
            "completed 1 3 0",
        ),
        case(
            "beforehand: tokens and cells, no inputs",
            sum().input_bytes(0).ledger_of(&likely).cells_of(&held),
            "completed 0 0 0",
        ),
        case(
            "beforehand: tokens and cells, budget 0",
            sum().budget(0).ledger_of(&likely).cells_of(&held),
            "spent 0 2 0",
        ),
        case(
            "beforehand: tokens and cells, refused at once",
            sum().graph_bytes(31).ledger_of(&likely).cells_of(&held),
            "refused 1 0 0 0",
        ),
        case(
            "beforehand: tokens and cells, refused by 7",
            sum().pick_bytes(1).ledger_of(&likely).cells_of(&held),
            "refused 7 0 0 0",
        ),
        case(
            "beforehand: tokens and cells, inputs refused",
            sum().ledger_of(&likely[..1]).cells_of(&held),
            "refused 8 0 0 1",
        ),
        case(
            "beforehand: tokens and cells, refused in the first firing",
            sum().ledger_of(&likely[..2]).cells_of(&held),
            "refused 8 0 2 0",
        ),
        case(
            "beforehand: tokens and cells, refused in a later firing",
            two_stores().ledger_of(&likely).cells_of(&held),
            "refused 11 1 4 2",
        ),
        case(
            "beforehand: a present cell is absent to a FETCH",
            read().cells_of(&held),
            "hung 1 2 0",
        ),
        case(
            "beforehand: a present cell is absent to a STORE",
            write().cells_of(&held),
            "completed 1 2 0",
        ),
        case(
            "beforehand: a waiting cell wakes nothing",
            write().ledger_of(&deferred).cells_of(&[waiting, waiting]),
            "completed 1 2 0",
        ),
        case(
            "beforehand: zeros",
            sum()
                .ledger_of(&[[0; TOKEN_RECORD]; 5])
                .cells_of(&[cell(0, cell::ABSENT); 2]),
            "completed 1 3 0",
        ),
    ]
}
