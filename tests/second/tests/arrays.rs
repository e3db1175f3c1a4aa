//! Named arrays (02, R-10): which cell an index means, and refusal 22 with its places.

mod common;

use common::*;
use second::{broken_conditions, carry_on, profile, replay, run_logged, Counts, Schedule};

/// 0 FETCH of the array to 1 OUT, 2 STORE to it, with a read at one index and a write of
/// 40 at another.
fn read_and_write(name: i32, read: i32, written: i32) -> Lent {
    let records = [
        instruction(FETCH, &[(1, 0)], name),
        instruction(OUT, &[], 0),
        instruction(STORE, &[], name),
    ];
    let tokens = [input(0, 0, read), input(2, 0, written), input(2, 1, 40)];
    lend(&records, &tokens).cells(12)
}

/// The answer of a STORE under a name with a table.
fn store_at(name: i32, index: i32, table: &[(u16, u16)]) -> second::Answer {
    let records = [instruction(STORE, &[], name)];
    let tokens = [input(0, 0, index), input(0, 1, 7)];
    lend(&records, &tokens).cells(12).arrays(table).answer()
}

fn at_once(number: u8, place: usize) -> second::Answer {
    refused(number, 0, 0, place)
}

#[test]
fn index_1_is_the_first_cell() {
    let lent = read_and_write(2, 1, 1).arrays(&[(0, 3), (4, 5)]);
    for first in [0, 1] {
        let left = lent.clone().picks(&[first]).run();
        assert_eq!(left.answer, completed(2, 4));
        assert_eq!(left.record(3), token(0, 0, 1, 0, 40, 0));
        assert_eq!(left.cell(4), [40, 0, 0, 0, 2, 0, 0, 0]);
    }
}

#[test]
fn the_last_index_is_the_length() {
    let left = read_and_write(1, 5, 5).arrays(&[(4, 5)]).run();
    assert_eq!(left.answer, completed(2, 4));
    assert_eq!(left.cell(8), [40, 0, 0, 0, 2, 0, 0, 0]);
}

#[test]
fn an_index_outside_its_array_is_no_cell() {
    for index in [0, 6, -1, 9, i32::MIN, i32::MAX] {
        assert_eq!(store_at(1, index, &[(4, 5)]), refused(10, 0, 2, 0));
    }
    for index in [1, 5] {
        assert_eq!(store_at(1, index, &[(4, 5)]), completed(1, 2));
    }
    let read = read_and_write(1, 6, 1).arrays(&[(4, 5)]);
    assert_eq!(read.answer(), refused(10, 0, 3, 0));
}

#[test]
fn constant_0_keeps_the_whole_store() {
    let table = [(4, 5)];
    for index in [0, 3, 11] {
        assert_eq!(store_at(0, index, &table), completed(1, 2));
    }
    for index in [-1, 12] {
        assert_eq!(store_at(0, index, &table), refused(10, 0, 2, 0));
    }
    let left = read_and_write(0, 4, 4).arrays(&table).run();
    assert_eq!(left.cell(4), [40, 0, 0, 0, 2, 0, 0, 0]);
}

#[test]
fn a_deferred_token_holds_the_number_of_its_cell() {
    let left = read_and_write(1, 3, 2).arrays(&[(4, 5)]).run();
    assert_eq!(left.answer, hung(2, 4));
    assert_eq!(left.record(3), token(0, 0, 1, 0, 6, 2));
    assert_eq!(left.cell(6), [0, 0, 0, 0, 1, 0, 0, 0]);
    assert_eq!(left.cell(5), [40, 0, 0, 0, 2, 0, 0, 0]);
}

#[test]
fn two_names_of_one_cell() {
    let records = [instruction(STORE, &[], 1), instruction(STORE, &[], 2)];
    let tokens = [
        input(0, 0, 3),
        input(0, 1, 1),
        input(1, 0, 1),
        input(1, 1, 2),
    ];
    let lent = lend(&records, &tokens)
        .cells(12)
        .arrays(&[(4, 5), (6, 2), (4, 5)]);
    assert_eq!(lent.answer(), refused(11, 1, 4, 2));
}

#[test]
fn an_array_ends_inside_the_cells() {
    for table in [(0, 12), (11, 1), (12, 0), (0, 0), (4, 8)] {
        assert_eq!(store_at(0, 0, &[table]), completed(1, 2));
    }
    for table in [
        (0, 13),
        (12, 1),
        (13, 0),
        (4, 9),
        (65535, 65535),
        (1, 65535),
    ] {
        assert_eq!(store_at(0, 0, &[(0, 1), table]), at_once(22, 0));
    }
    // No index is inside an empty array.
    for index in [0, 1] {
        assert_eq!(store_at(1, index, &[(12, 0)]), refused(10, 0, 2, 0));
    }
}

#[test]
fn a_table_has_whole_records_and_64_at_most() {
    let mut lent = read_and_write(0, 1, 1);
    for length in [1, 2, 3, 5, 4 * 65, 4 * 64 + 1, 4 * 63 + 3] {
        lent.arrays = vec![0; length];
        assert_eq!(lent.answer(), at_once(22, 0), "length {length}");
    }
    lent.arrays = vec![0; 4 * 64];
    assert_eq!(lent.answer(), completed(2, 4));
    assert_eq!(store_at(64, 1, &[(3, 1); 64]), completed(1, 2));
}

#[test]
fn a_constant_that_names_no_array() {
    for name in [-1, 3, 65, 256, i32::MIN, i32::MAX] {
        assert_eq!(store_at(name, 1, &[(0, 5), (5, 5)]), at_once(22, 0));
    }
    assert_eq!(store_at(1, 1, &[]), at_once(22, 0));
    // The first such instruction, though none fires; every fault of the table before it.
    let records = [
        instruction(OUT, &[], 0),
        instruction(FETCH, &[(0, 0)], 1),
        instruction(STORE, &[(0, 0)], 2),
        instruction(FETCH, &[(0, 0)], 3),
    ];
    let lent = lend(&records, &[]).cells(12);
    assert_eq!(lent.clone().arrays(&[(0, 5)]).answer(), at_once(22, 2));
    assert_eq!(lent.clone().arrays(&[(0, 5); 2]).answer(), at_once(22, 3));
    assert_eq!(lent.clone().arrays(&[(0, 5); 3]).answer(), completed(0, 0));
    assert_eq!(lent.arrays(&[(0, 13)]).answer(), at_once(22, 0));
}

#[test]
fn behind_7_and_before_the_inputs() {
    let bad = || read_and_write(1, 1, 1);
    assert_eq!(bad().answer(), at_once(22, 0));
    let mut lent = bad();
    lent.picks = vec![0];
    assert_eq!(lent.answer(), at_once(7, 0));
    let mut lent = bad();
    lent.inputs.pop();
    assert_eq!(lent.answer(), at_once(7, 0));
    // 6, 8 and 9 of the inputs.
    let mut lent = bad();
    lent.inputs[16] = 1;
    assert_eq!(lent.answer(), at_once(22, 0));
    assert_eq!(bad().capacity(0).answer(), at_once(22, 0));
    let mut lent = bad();
    lent.inputs.extend(input(0, 0, 1));
    assert_eq!(lent.answer(), at_once(22, 0));
    // 3 and 4 of a record behind the constant.
    for (record, number) in [
        (instruction(OUT, &[(1, 0)], 0), 3),
        (instruction(COPY, &[(9, 0)], 0), 4),
    ] {
        let mut lent = bad();
        lent.graph.extend(record);
        assert_eq!(lent.answer(), at_once(number, 3));
    }
}

#[test]
fn bounds_let_the_constant_by() {
    let lent = read_and_write(70, 1, 1);
    let bounds = second::bounds(&lent.graph, &lent.inputs).unwrap();
    assert_eq!((bounds.firings, bounds.tokens), (2, 4));
}

/// Logged run, replay and profile take the table as a run does.
#[test]
fn every_call_takes_the_table() {
    for (table, at_once) in [(vec![(4, 5)], false), (vec![(8, 5)], true)] {
        let lent = read_and_write(1, 3, 3).arrays(&table);
        let due = lent.run();
        assert_eq!(due.answer.refusal() == Some(22), at_once);
        let program = lent.program();
        let stores = || (vec![0xa5; lent.ledger_bytes], vec![0xa5; lent.cells_bytes]);

        let (mut ledger, mut cells) = stores();
        let mut log = vec![0; 20 * 2048];
        let schedule = Schedule::new(&[], 2048);
        let answer = run_logged(
            program,
            &lent.inputs,
            schedule,
            &mut ledger,
            &mut cells,
            &mut log,
        );
        assert_eq!(answer, due.answer);
        assert!(ledger == due.ledger && cells == due.cells);

        let (mut ledger, mut cells) = stores();
        log.truncate(20 * answer.firings);
        let answer = replay(program, &lent.inputs, &log, &mut ledger, &mut cells);
        assert_eq!(answer, due.answer);
        assert!(ledger == due.ledger && cells == due.cells);

        let (mut ledger, mut cells) = stores();
        let mut steps = [0; 40];
        let profiled = profile(program, &lent.inputs, &mut ledger, &mut cells, &mut steps);
        assert_eq!(profiled.answer, due.answer);
        assert!(ledger == due.ledger && cells == due.cells);
    }
}

/// The read waits for cell 6 under any table; the table is lent again.
#[test]
fn a_saved_state_is_carried_on_under_its_table() {
    let lent = read_and_write(1, 3, 3).arrays(&[(4, 5)]);
    let part = lent.clone().budget(1).run();
    assert_eq!(part.answer, spent(1, 4));
    let saved = Counts {
        firings: 1,
        tokens: 4,
    };
    let carried = |lent: &Lent| {
        let (mut ledger, mut cells) = (part.ledger.clone(), part.cells.clone());
        let schedule = Schedule::new(&[], 9);
        let answer = carry_on(lent.program(), schedule, saved, &mut ledger, &mut cells);
        (answer, ledger, cells)
    };
    let uncut = lent.run();
    assert_eq!(carried(&lent), (uncut.answer, uncut.ledger, uncut.cells));
    // Index 3 of another array is cell 3, and the read waits on.
    let (answer, ledger, cells) = carried(&lent.clone().arrays(&[(1, 5)]));
    assert_eq!(answer, hung(2, 4));
    assert_eq!(ledger[28 * 3..28 * 4], token(0, 0, 1, 0, 6, 2));
    assert_eq!((cells[8 * 3 + 4], cells[8 * 6 + 4]), (2, 1));
    let (answer, ledger, cells) = carried(&lent.clone().arrays(&[]));
    assert_eq!(answer, at_once(22, 0));
    assert!(ledger == part.ledger && cells == part.cells);
    // 22 comes before 24.
    let damaged = Counts {
        firings: 2,
        tokens: 4,
    };
    let broken = |lent: &Lent| {
        broken_conditions(lent.program(), damaged, &part.ledger, &part.cells)
            .map(|conditions| conditions.len())
    };
    assert_eq!(broken(&lent), Some(1));
    assert_eq!(broken(&lent.arrays(&[])), None);
}
