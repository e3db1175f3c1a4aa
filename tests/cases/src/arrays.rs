//! R-10 of document 02: named arrays, through the C functions. Each case is run, logged,
//! replayed, profiled and carried on from what it leaves.

use crate::lent::*;
use crate::RunCase;

fn case(
    name: impl Into<String>,
    lent: Lent,
    table: &[(u16, u16)],
    says: impl Into<String>,
) -> RunCase {
    let records = table.iter();
    RunCase {
        name: name.into(),
        lent,
        table: records
            .flat_map(|&(first, length)| layout::array(first, length))
            .collect(),
        bound: 0,
        says: says.into(),
        held: 0,
    }
}

const BAD_TABLE: &str = "refused 22 0 0 0";

/// 0 FETCH of an array to 1 OUT, 2 STORE of 40 to it; 12 cells.
fn read_and_write(name: i32, read: i32, written: i32) -> Lent {
    let graph = [
        with(FETCH, name, &[(1, 0)]),
        op(OUT, &[]),
        with(STORE, name, &[]),
    ];
    let tokens = [token(0, 0, read), token(2, 0, written), token(2, 1, 40)];
    lend(&graph, &tokens).cells(12)
}

/// Cells 4 to 8.
const FIVE: (u16, u16) = (4, 5);

pub fn cases() -> Vec<RunCase> {
    let mut cases = indices();
    cases.extend(names());
    cases.extend(tables());
    cases.extend(constants());
    cases.extend(orders());
    cases
}

fn indices() -> Vec<RunCase> {
    let mut cases = Vec::new();
    for index in [1, 3, 5] {
        let lent = read_and_write(1, index, index);
        let name = format!("index {index} of 5");
        cases.push(case(name, lent, &[FIVE], "completed 2 4 0"));
    }
    for index in [0, 6, -1, 9, i32::MIN, i32::MAX] {
        let name = format!("10 index {index} of 5, at FETCH");
        let lent = read_and_write(1, index, 1);
        cases.push(case(name, lent, &[FIVE], "refused 10 0 3 0"));
        let name = format!("10 index {index} of 5, at STORE");
        let lent = read_and_write(1, 1, index);
        cases.push(case(name, lent, &[FIVE], "refused 10 1 4 1"));
    }
    cases
}

fn names() -> Vec<RunCase> {
    let store = |name| with(STORE, name, &[]);
    let tokens = [
        token(0, 0, 3),
        token(0, 1, 1),
        token(1, 0, 1),
        token(1, 1, 2),
    ];
    let two_stores = |one, other| lend(&[store(one), store(other)], &tokens).cells(12);
    vec![
        case(
            "a deferred token holds the number of its cell",
            read_and_write(1, 3, 2),
            &[FIVE],
            "hung 2 4 0",
        ),
        case(
            "the same index of two arrays",
            two_stores(2, 1).picks(&[1]),
            &[(0, 1), FIVE],
            "completed 2 4 0",
        ),
        case(
            "11 two names of one cell",
            two_stores(1, 2),
            &[FIVE, (6, 2)],
            "refused 11 1 4 2",
        ),
        case(
            "11 an array and the whole store",
            two_stores(0, 1),
            &[(3, 2)],
            "refused 11 1 4 2",
        ),
        case(
            "constant 0 counts from 0, with a table",
            read_and_write(0, 0, 0),
            &[FIVE],
            "completed 2 4 0",
        ),
        case(
            "constant 0 ends with the cells",
            read_and_write(0, 0, 12),
            &[FIVE],
            "refused 10 1 4 1",
        ),
        case(
            "the last of 64 arrays",
            read_and_write(64, 1, 1),
            &[(11, 1); 64],
            "completed 2 4 0",
        ),
    ]
}

fn tables() -> Vec<RunCase> {
    let lent = || read_and_write(0, 1, 1);
    let mut cases = Vec::new();
    for (first, length) in [(0, 12), (11, 1), (12, 0), (0, 0)] {
        let name = format!("{length} cells from cell {first} of 12");
        cases.push(case(name, lent(), &[(first, length)], "completed 2 4 0"));
    }
    for (first, length) in [(0, 13), (12, 1), (13, 0), (65535, 65535), (1, 65535)] {
        let name = format!("22 {length} cells from cell {first} of 12");
        cases.push(case(name, lent(), &[FIVE, (first, length)], BAD_TABLE));
    }
    for index in [0, 1] {
        let name = format!("10 index {index} of an empty array");
        let lent = read_and_write(1, index, 1);
        cases.push(case(name, lent, &[(12, 0)], "refused 10 0 3 0"));
    }
    for length in [
        1,
        2,
        3,
        5,
        ARRAY * MOST_ARRAYS - 1,
        ARRAY * MOST_ARRAYS + 1,
        ARRAY * (MOST_ARRAYS + 1),
    ] {
        let mut case = case(
            format!("22 a table of {length} bytes"),
            lent(),
            &[],
            BAD_TABLE,
        );
        case.table = vec![0; length];
        cases.push(case);
    }
    cases
}

/// 22 at the first FETCH or STORE whose constant names no array, though none fires.
fn constants() -> Vec<RunCase> {
    let graph = [
        op(OUT, &[]),
        with(FETCH, 1, &[(0, 0)]),
        with(STORE, 2, &[(0, 0)]),
        with(FETCH, 3, &[(0, 0)]),
        with(STORE, -1, &[(0, 0)]),
    ];
    let named = |count| {
        let arrays = vec![(0, 1); count];
        let says = format!("refused 22 0 0 {}", 1 + count);
        let lent = lend(&graph, &[]).cells(12);
        case(format!("22 behind {count} names"), lent, &arrays, says)
    };
    let mut cases: Vec<RunCase> = (0..4).map(named).collect();
    let lent = lend(&graph, &[]).cells(12);
    cases.push(case("22 of the table first", lent, &[(0, 13)], BAD_TABLE));
    cases
}

/// 1 to 5, 7, 22, then the inputs.
fn orders() -> Vec<RunCase> {
    let bad = || read_and_write(2, 1, 1);
    let mut unknown = bad();
    unknown.graph.given[2 * GRAPH_RECORD] = 0;
    let mut odd = bad();
    odd.inputs.length += 1;
    let mut input = bad();
    input.inputs.given[token::ITERATION] = 1;
    let row = |name, lent, says| case(name, lent, &[FIVE], says);
    vec![
        row("2 before 22", unknown, "refused 2 0 0 2"),
        row("7 of the inputs before 22", odd, "refused 7 0 0 0"),
        row(
            "7 of the ledger before 22",
            bad().ledger_bytes(27),
            "refused 7 0 0 0",
        ),
        row(
            "7 of the cells before 22",
            bad().cell_bytes(97),
            "refused 7 0 0 0",
        ),
        row("22 before 6", input, "refused 22 0 0 0"),
        row("22 before 8", bad().capacity(2), "refused 22 0 0 0"),
    ]
}
