//! Every refusal with its place, and the order of refusals.

mod common;
use common::*;

/// A graph that passes the check, for one fault to be put in.
fn plain() -> Vec<[u8; 16]> {
    vec![
        instruction(COPY, &[(1, 0), (2, 0)], 0),
        instruction(ADD, &[(2, 0)], 0),
        instruction(OUT, &[], 0),
        instruction(CONST, &[(1, 1)], -4),
    ]
}

/// The answer for the plain graph with one record put in its place.
fn with_record(number: usize, record: [u8; 16]) -> second::Answer {
    let mut records = plain();
    records[number] = record;
    lend(&records, &[]).answer()
}

fn at_once(number: u8, place: usize) -> second::Answer {
    refused(number, 0, 0, place)
}

#[test]
fn graph_length() {
    for length in [0, 1, 15, 17, 257 * 16, 256 * 16 + 1] {
        let mut lent = lend(&[], &[]);
        lent.graph = vec![0; length];
        assert_eq!(lent.answer(), at_once(1, 0), "length {length}");
    }
    let most = vec![instruction(SINK, &[], 0); 256];
    assert_eq!(lend(&most, &[input(255, 0, 1)]).answer(), completed(1, 1));
}

#[test]
fn unknown_operation() {
    for code in [0, 12, 15, 24, 31, 40, 255] {
        assert_eq!(with_record(3, instruction(code, &[], 0)), at_once(2, 3));
    }
    let known = (0..=255)
        .filter(|&code| second::operand_count(code) > 0)
        .count();
    assert_eq!(known, 27);
}

#[test]
fn fan_out() {
    let allowed: [(u8, &[usize]); 13] = [
        (1, &[1, 2]),
        (2, &[0]),
        (3, &[0]),
        (4, &[1, 2]),
        (5, &[2]),
        (6, &[1, 2]),
        (7, &[1, 2]),
        (8, &[2]),
        (9, &[0]),
        (10, &[1, 2]),
        (11, &[0, 1, 2]),
        (23, &[1, 2]),
        (39, &[1, 2]),
    ];
    for (code, counts) in allowed {
        for count in 0..=2 {
            let constant = i32::from(code == ENTER);
            let record = instruction(code, &vec![(2, 0); count], constant);
            let answer = with_record(0, record);
            let expected = if counts.contains(&count) {
                completed(0, 0)
            } else {
                at_once(3, 0)
            };
            assert_eq!(answer, expected, "code {code} with {count} destinations");
        }
        let mut record = instruction(code, &[], 0);
        record[1] = 3;
        assert_eq!(with_record(2, record), at_once(3, 2));
    }
}

#[test]
fn unused_fields() {
    for byte in 12..16 {
        let mut record = instruction(OUT, &[], 0);
        record[byte] = 1;
        assert_eq!(with_record(2, record), at_once(3, 2));
    }
    for byte in [3, 6, 7] {
        let mut record = instruction(COPY, &[(1, 0)], 0);
        record[byte] = 1;
        assert_eq!(with_record(0, record), at_once(3, 0));
    }
    for byte in [2, 3, 4, 5, 6, 7] {
        let mut record = instruction(STORE, &[], 0);
        record[byte] = 1;
        assert_eq!(with_record(0, record), at_once(3, 0));
    }
    for code in [1, 2, 3, 5, 6, 7, 16, 23] {
        let arcs = match code {
            2 | 3 => vec![],
            _ => vec![(2, 0); 2],
        };
        assert_eq!(with_record(1, instruction(code, &arcs, 256)), at_once(3, 1));
    }
    assert_eq!(with_record(1, instruction(LEAVE, &[], 256)), at_once(5, 1));
}

#[test]
fn bad_arc() {
    for arc in [
        (4, 0),
        (65_535, 0),
        (256, 0),
        (1, 2),
        (0, 1),
        (2, 1),
        (2, 255),
    ] {
        assert_eq!(with_record(0, instruction(COPY, &[arc], 0)), at_once(4, 0));
        assert_eq!(
            with_record(0, instruction(COPY, &[(2, 0), arc], 0)),
            at_once(4, 0)
        );
        // The return of ENTER is an arc too.
        assert_eq!(
            with_record(0, instruction(ENTER, &[(2, 0), arc], 1)),
            at_once(4, 0)
        );
    }
    // A later record of unknown code has no operands, an earlier one is refused first.
    let mut records = plain();
    records[3] = instruction(0, &[], 0);
    records[1] = instruction(ADD, &[(3, 0)], 0);
    assert_eq!(lend(&records, &[]).answer(), at_once(4, 1));
    records[0] = instruction(0, &[], 0);
    assert_eq!(lend(&records, &[]).answer(), at_once(2, 0));
}

#[test]
fn bad_site() {
    for site in [0, 256, -1, i32::MIN, i32::MAX] {
        let record = instruction(ENTER, &[(2, 0), (2, 0)], site);
        assert_eq!(with_record(0, record), at_once(5, 0));
    }
    for constant in [256, -1, i32::MIN, i32::MAX] {
        assert_eq!(
            with_record(3, instruction(LEAVE, &[], constant)),
            at_once(5, 3)
        );
    }
    for constant in [0, 255] {
        assert_eq!(
            with_record(3, instruction(LEAVE, &[], constant)),
            completed(0, 0)
        );
    }
    let record = instruction(ENTER, &[(2, 0), (1, 1)], 1);
    assert_eq!(with_record(0, record), at_once(5, 0));
    let mut records = plain();
    records[0] = instruction(ENTER, &[(2, 0), (1, 0)], 9);
    records[3] = instruction(ENTER, &[(1, 1), (1, 0)], 9);
    assert_eq!(lend(&records, &[]).answer(), completed(0, 0));
    records[3] = instruction(ENTER, &[(1, 1), (2, 0)], 9);
    assert_eq!(lend(&records, &[]).answer(), at_once(5, 3));
}

#[test]
fn bad_input() {
    let good = input(0, 0, -1);
    for byte in [0, 3, 7, 8, 15, 16, 24, 25, 26, 27] {
        let mut record = input(1, 0, 5);
        record[byte] = 1;
        assert_eq!(
            lend(&plain(), &[good, record]).answer(),
            at_once(6, 1),
            "byte {byte}"
        );
    }
    for (number, port) in [(0, 1), (1, 2), (4, 0), (256, 0), (0, 255)] {
        let record = input(number, port, 5);
        assert_eq!(lend(&plain(), &[record, good]).answer(), at_once(6, 0));
    }
}

#[test]
fn bad_store() {
    let lent = lend(&plain(), &[input(0, 0, 1)]);
    let mut cases = Vec::new();
    for (inputs, picks, ledger, cells) in [
        (29, 0, 56, 8),
        (28, 1, 56, 8),
        (28, 0, 57, 8),
        (28, 0, 56, 9),
        (2049 * 28, 0, 56, 8),
        (28, 2049 * 2, 56, 8),
        (28, 0, 2049 * 28, 8),
        (28, 0, 56, 1025 * 8),
        (2048 * 28 + 1, 0, 56, 8),
    ] {
        let mut case = lent.clone();
        case.inputs.resize(inputs, 0);
        case.picks.resize(picks, 0);
        case.ledger_bytes = ledger;
        case.cells_bytes = cells;
        cases.push(case);
    }
    for case in cases {
        assert_eq!(case.answer(), at_once(7, 0));
    }
    let mut most = lent.clone().picks(&[0; 2048]);
    most.budget = 1;
    assert_eq!(most.answer(), hung(1, 3));
    assert_eq!(lent.cells(0).budget(1).answer(), hung(1, 3));
}

#[test]
fn ledger_full() {
    let tokens = [input(0, 0, 1), input(1, 1, 2), input(3, 0, 0)];
    for capacity in 0..3 {
        assert_eq!(
            lend(&plain(), &tokens).capacity(capacity).answer(),
            at_once(8, capacity)
        );
    }
    // Two outputs of COPY don't fit with one record left.
    let left = lend(&plain(), &tokens).capacity(4).run();
    assert_eq!(left.answer, refused(8, 0, 3, 0));
    assert_eq!(left.record(0), tokens[0]);
    // SWITCH, ENTER and LEAVE send one token.
    let records = [
        instruction(SWITCH, &[(2, 0), (1, 0)], 0),
        instruction(ENTER, &[(3, 0), (2, 0)], 1),
        instruction(OUT, &[], 0),
        instruction(LEAVE, &[], 0),
    ];
    let tokens = [input(0, 0, 6), input(0, 1, 0)];
    assert_eq!(
        lend(&records, &tokens).capacity(5).answer(),
        completed(3, 5)
    );
    assert_eq!(
        lend(&records, &tokens).capacity(4).answer(),
        refused(8, 2, 4, 3)
    );
    assert_eq!(
        lend(&records, &tokens).capacity(3).answer(),
        refused(8, 1, 3, 2)
    );
}

#[test]
fn second_token() {
    let tokens = [
        input(0, 0, 1),
        input(3, 0, 2),
        input(0, 0, 3),
        input(0, 0, 4),
    ];
    assert_eq!(lend(&plain(), &tokens).answer(), at_once(9, 2));
    // COPY to itself meets its own operand.
    let records = [instruction(COPY, &[(0, 0)], 0)];
    assert_eq!(
        lend(&records, &[input(0, 0, 1)]).answer(),
        refused(9, 0, 1, 0)
    );
    // A spent token holds its tag and port.
    let records = [
        instruction(CONST, &[(2, 0)], 5),
        instruction(CONST, &[(2, 0)], 6),
        instruction(SINK, &[], 0),
    ];
    let lent = lend(&records, &[input(0, 0, 0), input(1, 0, 0)]);
    assert_eq!(lent.clone().picks(&[0, 1]).answer(), refused(9, 2, 3, 1));
    assert_eq!(lent.answer(), refused(9, 1, 3, 1));
    // A deferred token does, at the fetch and not at the write.
    let records = [
        instruction(FETCH, &[(2, 0)], 0),
        instruction(FETCH, &[(2, 0)], 0),
        instruction(SINK, &[], 0),
    ];
    let left = lend(&records, &[input(0, 0, 4), input(1, 0, 6)]).run();
    assert_eq!(left.answer, refused(9, 1, 3, 1));
    assert_eq!((left.cell(4)[4], left.cell(6)[4]), (1, 0));
}

#[test]
fn no_such_cell_and_second_write() {
    let records = [
        instruction(FETCH, &[(2, 0)], 0),
        instruction(STORE, &[], 0),
        plain()[2],
    ];
    for (value, cells) in [(3, 3), (-1, 3), (0, 0), (i32::MIN, 1024), (1024, 1024)] {
        let lent = lend(&records, &[input(0, 0, value)]).cells(cells);
        assert_eq!(lent.answer(), refused(10, 0, 1, 0));
        let tokens = [input(1, 1, 5), input(1, 0, value)];
        assert_eq!(
            lend(&records, &tokens).cells(cells).answer(),
            refused(10, 0, 2, 0)
        );
    }
    let lent = lend(&records, &[input(0, 0, 1023)]);
    assert_eq!(lent.answer(), hung(1, 2));
    assert_eq!(
        lent.run().text().lines().last(),
        Some("cell 1023 waiting 0")
    );
}

#[test]
fn too_deep() {
    let records = [
        instruction(ENTER, &[(0, 0), (1, 0)], 255),
        instruction(LEAVE, &[], 0),
    ];
    let left = lend(&records, &[input(0, 0, 1)]).run();
    assert_eq!(left.answer, refused(14, 8, 9, 8));
    let path = 0xff00_ff00_ff00_ff00_ff00_ff00_ff00_ff00;
    assert_eq!(left.record(8), token(path, 0, 0, 0, 1, 0));
}

#[test]
fn no_return() {
    let records = [
        instruction(ENTER, &[(1, 0), (2, 0)], 1),
        instruction(LEAVE, &[], 2),
        instruction(OUT, &[], 0),
    ];
    assert_eq!(
        lend(&records, &[input(0, 0, 1)]).answer(),
        refused(17, 1, 2, 1)
    );
    let records = [
        instruction(ENTER, &[(1, 0), (2, 0)], 1),
        instruction(LEAVE, &[], 1),
        instruction(COPY, &[(3, 0)], 0),
        instruction(OUT, &[], 0),
    ];
    assert_eq!(lend(&records, &[input(0, 0, 1)]).answer(), completed(2, 3));
}

#[test]
fn two_faults_before_the_first_firing() {
    // 3 before 4 and 5 of one record, 4 before 5, an earlier record before a later one.
    let mut record = instruction(ENTER, &[(9, 0), (9, 1)], 0);
    assert_eq!(with_record(0, record), at_once(4, 0));
    record[15] = 1;
    assert_eq!(with_record(0, record), at_once(3, 0));
    record[0] = 99;
    assert_eq!(with_record(0, record), at_once(2, 0));
    let mut records = plain();
    records[1] = instruction(LEAVE, &[], 256);
    records[2] = instruction(99, &[], 0);
    assert_eq!(lend(&records, &[]).answer(), at_once(4, 0));
    records[0] = instruction(SINK, &[], 0);
    assert_eq!(lend(&records, &[]).answer(), at_once(5, 1));
    // The graph before 7, 7 before 6, 6 before 8, 8 before 9.
    let mut lent = lend(&records, &[input(99, 0, 0)]).capacity(0);
    lent.cells_bytes = 1;
    assert_eq!(lent.answer(), at_once(5, 1));
    lent.graph = graph(&plain());
    assert_eq!(lent.answer(), at_once(7, 0));
    lent.cells_bytes = 8;
    assert_eq!(lent.answer(), at_once(6, 0));
    let tokens = [input(0, 0, 1), input(0, 0, 2), input(1, 0, 3)];
    assert_eq!(lend(&plain(), &tokens).capacity(2).answer(), at_once(8, 2));
    assert_eq!(lend(&plain(), &tokens).capacity(3).answer(), at_once(9, 1));
    let tokens = [input(0, 0, 1), input(0, 0, 2), input(9, 0, 3)];
    assert_eq!(lend(&plain(), &tokens).capacity(1).answer(), at_once(6, 2));
}

#[test]
fn range_before_room_before_second_token() {
    let records = [
        instruction(35, &[(0, 0)], 0),
        instruction(COPY, &[(1, 0)], 0),
    ];
    assert_eq!(
        lend(&records, &[input(0, 0, 1)]).capacity(1).answer(),
        refused(12, 0, 1, 0)
    );
    assert_eq!(
        lend(&records, &[input(1, 0, 1)]).capacity(1).answer(),
        refused(8, 0, 1, 0)
    );
    assert_eq!(
        lend(&records, &[input(1, 0, 1)]).capacity(2).answer(),
        refused(9, 0, 1, 0)
    );
}

#[test]
fn cells_before_room_before_second_token() {
    // 11 before 8 and 9: the second STORE finds a full ledger.
    let records = [instruction(STORE, &[], 0), instruction(STORE, &[(1, 0)], 0)];
    let tokens = [
        input(0, 0, 0),
        input(0, 1, 1),
        input(1, 0, 0),
        input(1, 1, 2),
    ];
    assert_eq!(
        lend(&records, &tokens).capacity(4).answer(),
        refused(11, 1, 4, 2)
    );
    let tokens = [input(1, 0, 0), input(1, 1, 2)];
    let left = lend(&records, &tokens).capacity(2).run();
    assert_eq!(left.answer, refused(8, 0, 2, 0));
    assert!(left.cells.iter().all(|&byte| byte == 0));
    // 10 before 8 at FETCH.
    let records = [instruction(FETCH, &[(0, 0), (0, 0)], 0)];
    assert_eq!(
        lend(&records, &[input(0, 0, 9)])
            .cells(9)
            .capacity(1)
            .answer(),
        refused(10, 0, 1, 0)
    );
    assert_eq!(
        lend(&records, &[input(0, 0, 9)]).capacity(2).answer(),
        refused(8, 0, 1, 0)
    );
    assert_eq!(
        lend(&records, &[input(0, 0, 9)]).capacity(3).answer(),
        refused(9, 0, 1, 0)
    );
}

#[test]
fn levels_before_room() {
    // 14 before 8.
    let records = [instruction(ENTER, &[(0, 0), (0, 0)], 1)];
    let lent = lend(&records, &[input(0, 0, 0)]);
    assert_eq!(lent.clone().capacity(9).answer(), refused(14, 8, 9, 8));
    assert_eq!(lent.capacity(8).answer(), refused(8, 7, 8, 7));
}

#[test]
fn budget_zero_does_not_try_a_firing() {
    let records = [instruction(35, &[(0, 0)], 0)];
    assert_eq!(
        lend(&records, &[input(0, 0, 1)]).budget(0).answer(),
        spent(0, 1)
    );
    assert_eq!(
        lend(&records, &[input(0, 0, 1)]).budget(1).answer(),
        refused(12, 0, 1, 0)
    );
    assert_eq!(
        lend(&records, &[input(0, 0, 1)]).budget(65_535).answer(),
        refused(12, 0, 1, 0)
    );
}

#[test]
fn a_full_ledger_of_2048_inputs() {
    let records = vec![instruction(GATE, &[(0, 0)], 0); 256];
    let mut tokens = Vec::new();
    for number in 0..256 {
        tokens.push(input(number, 1, 0));
    }
    assert_eq!(lend(&records, &tokens).capacity(256).answer(), hung(0, 256));
    let mut lent = lend(&records, &tokens);
    lent.inputs.resize(28 * 2048, 0);
    // 2,048 records are allowed; the rest of them are alike, at instruction 0, port 0.
    assert_eq!(lent.answer(), at_once(9, 257));
}
