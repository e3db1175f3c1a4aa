//! The cases of 01, with and without a star.

mod common;
use common::*;

fn sum_graph() -> Vec<[u8; 16]> {
    vec![instruction(ADD, &[(1, 0)], 0), instruction(OUT, &[], 0)]
}

fn sum() -> Lent {
    lend(&sum_graph(), &[input(0, 0, 7), input(0, 1, -9)])
}

#[test]
fn the_whole_output_of_the_sum() {
    let left = sum().run();
    let lines = "completed 1 3 0\n0 0 0 0 7 spent\n0 0 0 1 -9 spent\n0 0 1 0 -2 live\n";
    assert_eq!(left.text(), lines);
}

#[test]
fn budgets_of_the_sum() {
    assert_eq!(sum().budget(0).answer(), spent(0, 2));
    assert_eq!(sum().budget(1).answer(), completed(1, 3));
    assert_eq!(sum().budget(65535).answer(), completed(1, 3));
}

#[test]
fn capacities_of_the_sum() {
    assert_eq!(sum().capacity(3).answer(), completed(1, 3));
    let left = sum().capacity(2).run();
    assert_eq!(left.answer, refused(8, 0, 2, 0));
    assert_eq!(left.record(0), input(0, 0, 7));
    assert_eq!(left.record(1), input(0, 1, -9));
    assert_eq!(sum().capacity(1).answer(), refused(8, 0, 0, 1));
    assert_eq!(sum().capacity(0).answer(), refused(8, 0, 0, 0));
}

#[test]
fn no_inputs_complete() {
    let left = lend(&sum_graph(), &[]).run();
    assert_eq!(left.answer, completed(0, 0));
    assert!(left.cells.iter().all(|&byte| byte == 0));
    assert_eq!(left.text(), "completed 0 0 0\n");
    assert_eq!(
        lend(&sum_graph(), &[]).capacity(0).cells(0).answer(),
        completed(0, 0)
    );
}

#[test]
fn copy_with_both_destinations_alike() {
    let records = [
        instruction(COPY, &[(1, 0), (1, 0)], 0),
        instruction(OUT, &[], 0),
    ];
    let left = lend(&records, &[input(0, 0, 5)]).run();
    assert_eq!(left.answer, refused(9, 0, 1, 0));
    assert_eq!(left.record(0), input(0, 0, 5));
}

#[test]
fn a_fetch_and_a_store_in_both_orders() {
    let records = [
        instruction(FETCH, &[(1, 0)], 0),
        instruction(OUT, &[], 0),
        instruction(STORE, &[], 0),
    ];
    let tokens = [input(0, 0, 5), input(2, 0, 5), input(2, 1, 40)];
    for first in [0, 1] {
        let left = lend(&records, &tokens).picks(&[first]).run();
        assert_eq!(left.answer, completed(2, 4));
        assert_eq!(left.record(3), token(0, 0, 1, 0, 40, 0));
        assert_eq!(left.cell(5), [40, 0, 0, 0, 2, 0, 0, 0]);
    }
    let left = lend(&records, &tokens).budget(1).run();
    assert_eq!(left.answer, spent(1, 4));
    assert_eq!(left.record(3), token(0, 0, 1, 0, 5, 2));
    assert_eq!(left.cell(5), [0, 0, 0, 0, 1, 0, 0, 0]);
}

#[test]
fn two_stores_to_one_cell() {
    let records = [instruction(STORE, &[], 0), instruction(STORE, &[], 0)];
    let tokens = [
        input(0, 0, 3),
        input(0, 1, 10),
        input(1, 0, 3),
        input(1, 1, 20),
    ];
    let left = lend(&records, &tokens).run();
    assert_eq!(left.answer, refused(11, 1, 4, 2));
    assert_eq!(left.record(2), tokens[2]);
    assert_eq!(left.cell(3), [10, 0, 0, 0, 2, 0, 0, 0]);
    let left = lend(&records, &tokens).picks(&[1]).run();
    assert_eq!(left.answer, refused(11, 1, 4, 0));
    assert_eq!(left.cell(3), [20, 0, 0, 0, 2, 0, 0, 0]);
}

#[test]
fn a_run_hangs_while_a_token_waits() {
    let records = [instruction(FETCH, &[(1, 0)], 0), instruction(OUT, &[], 0)];
    let left = lend(&records, &[input(0, 0, 5)]).run();
    let lines = "hung 1 2 0\n0 0 0 0 5 spent\n0 0 1 0 5 deferred\ncell 5 waiting 0\n";
    assert_eq!(left.text(), lines);
    let alone = lend(&sum_graph(), &[input(0, 1, 4)]);
    assert_eq!(alone.answer(), hung(0, 1));
    assert_eq!(alone.budget(0).answer(), hung(0, 1));
}

#[test]
fn a_leave_at_the_root_is_a_result() {
    let records = [
        instruction(ADD + WITH_CONSTANT, &[(1, 0)], 1),
        instruction(LEAVE, &[], 255),
        instruction(FETCH, &[(1, 0)], 0),
    ];
    let left = lend(&records, &[input(0, 0, 4)]).run();
    assert_eq!(left.answer, completed(1, 2));
    assert_eq!(left.record(1), token(0, 0, 1, 0, 5, 0));
    assert_eq!(lend(&records, &[input(2, 0, 7)]).answer(), hung(1, 2));
}

/// The result of a two-operand code, or the refusal's number; the code with the
/// constant on the right has to agree.
fn arithmetic(code: u8, left: i32, right: i32) -> Result<i32, u8> {
    let records = [instruction(code, &[(1, 0)], 0), instruction(OUT, &[], 0)];
    let both = lend(&records, &[input(0, 0, left), input(0, 1, right)]).run();
    let records = [
        instruction(code + 16, &[(1, 0)], right),
        instruction(OUT, &[], 0),
    ];
    let one = lend(&records, &[input(0, 0, left)]).run();
    assert_eq!(both.answer.refusal(), one.answer.refusal());
    match both.answer.refusal() {
        Some(number) => Err(number),
        None => {
            assert_eq!(both.record(2), one.record(1));
            Ok(i32::from_le_bytes(
                both.record(2)[20..24].try_into().unwrap(),
            ))
        }
    }
}

#[test]
fn quotients_go_toward_zero() {
    assert_eq!(arithmetic(DIV, -7, 2), Ok(-3));
    assert_eq!(arithmetic(REM, -7, 2), Ok(-1));
    assert_eq!(arithmetic(DIV, 7, -2), Ok(-3));
    assert_eq!(arithmetic(REM, 7, -2), Ok(1));
    assert_eq!(arithmetic(DIV, i32::MIN, -1), Err(12));
    assert_eq!(arithmetic(REM, i32::MIN, -1), Ok(0));
    assert_eq!(arithmetic(DIV, 1, 0), Err(12));
    assert_eq!(arithmetic(REM, 0, 0), Err(12));
}

#[test]
fn sums_products_and_comparisons() {
    assert_eq!(arithmetic(16, i32::MAX, 1), Err(12));
    assert_eq!(arithmetic(16, i32::MAX, -1), Ok(i32::MAX - 1));
    assert_eq!(arithmetic(17, i32::MIN, 1), Err(12));
    assert_eq!(arithmetic(17, -1, i32::MAX), Ok(i32::MIN));
    assert_eq!(arithmetic(18, 65_536, 32_768), Err(12));
    assert_eq!(arithmetic(18, -65_536, 32_768), Ok(i32::MIN));
    assert_eq!(arithmetic(18, i32::MIN, i32::MIN), Err(12));
    for (left, right) in [(1, 2), (2, 2), (3, 2), (-1, 0), (i32::MIN, i32::MAX)] {
        assert_eq!(arithmetic(21, left, right), Ok(i32::from(left < right)));
        assert_eq!(arithmetic(22, left, right), Ok(i32::from(left <= right)));
        assert_eq!(arithmetic(23, left, right), Ok(i32::from(left == right)));
    }
}

#[test]
fn enter_at_iteration_two_gives_path_770() {
    let records = [
        instruction(NEXT, &[(1, 0)], 0),
        instruction(NEXT, &[(2, 0)], 0),
        instruction(ENTER, &[(3, 0), (4, 0)], 3),
        instruction(LEAVE, &[], 0),
        instruction(OUT, &[], 0),
    ];
    let left = lend(&records, &[input(0, 0, 11)]).run();
    assert_eq!(left.answer, completed(4, 5));
    assert_eq!(left.record(3), token(770, 0, 3, 0, 11, 1));
    assert_eq!(left.record(4), token(0, 2, 4, 0, 11, 0));
}

/// A loop that counts up to the given number of passes and leaves the counter
/// at OUT.
fn counting(passes: i32) -> Lent {
    let records = [
        instruction(COPY, &[(1, 0), (2, 0)], 0),
        instruction(37, &[(2, 1)], passes),
        instruction(SWITCH, &[(3, 0), (5, 0)], 0),
        instruction(ADD + WITH_CONSTANT, &[(4, 0)], 1),
        instruction(NEXT, &[(0, 0)], 0),
        instruction(OUT, &[], 0),
    ];
    lend(&records, &[input(0, 0, 0)])
}

#[test]
fn next_at_254_gives_255_and_no_more() {
    let left = counting(255).run();
    let last = left.answer.tokens - 1;
    assert_eq!(left.answer, completed(255 * 5 + 3, 255 * 6 + 5));
    assert_eq!(left.record(last), token(0, 255, 5, 0, 255, 0));
    let left = counting(256).run();
    assert_eq!(left.answer.refusal(), Some(13));
    assert_eq!(left.answer.firings, 255 * 5 + 4);
}

#[test]
fn a_pick_past_the_enabled_is_taken_modulo() {
    let records = [
        instruction(SINK, &[], 0),
        instruction(SINK, &[], 0),
        instruction(SINK, &[], 0),
    ];
    let tokens = [input(0, 0, 1), input(1, 0, 2), input(2, 0, 3)];
    let left = lend(&records, &tokens).picks(&[65_535, 7]).budget(2).run();
    // 65,535 mod 3 is 0 and 7 mod 2 is 1: places 0 and 2.
    assert_eq!(left.answer, spent(2, 3));
    assert_eq!(
        left.text(),
        "spent 2 3 0\n0 0 0 0 1 spent\n0 0 1 0 2 live\n0 0 2 0 3 spent\n"
    );
}

#[test]
fn a_two_operand_activity_counts_once_at_its_earliest_operand() {
    let records = [
        instruction(GATE, &[(3, 0)], 0),
        instruction(SINK, &[], 0),
        instruction(SINK, &[], 0),
        instruction(OUT, &[], 0),
    ];
    // GATE's port 1 comes first, so its place is 0 and the sinks are numbers 1 and 2.
    let tokens = [
        input(0, 1, 9),
        input(1, 0, 1),
        input(0, 0, 8),
        input(2, 0, 2),
    ];
    let left = lend(&records, &tokens).picks(&[2]).budget(1).run();
    assert_eq!(left.record(3), token(0, 0, 2, 0, 2, 1));
    let left = lend(&records, &tokens).budget(1).run();
    assert_eq!(left.record(4), token(0, 0, 3, 0, 8, 0));
    assert_eq!((left.record(0)[24], left.record(2)[24]), (1, 1));
}

#[test]
fn deferred_reads_are_woken_together() {
    // Two reads of cell 2 meet at ADD, which is enabled once, by one STORE.
    let records = [
        instruction(FETCH, &[(2, 0), (4, 0)], 0),
        instruction(FETCH, &[(2, 1)], 0),
        instruction(ADD, &[(4, 1)], 0),
        instruction(STORE, &[(5, 0)], 0),
        instruction(GATE, &[(5, 1)], 0),
        instruction(ADD, &[(6, 0)], 0),
        instruction(OUT, &[], 0),
    ];
    let tokens = [
        input(0, 0, 2),
        input(1, 0, 2),
        input(3, 0, 2),
        input(3, 1, 21),
    ];
    for choices in [&[][..], &[1], &[2], &[2, 1], &[0, 1, 2]] {
        let left = lend(&records, &tokens).picks(choices).cells(3).run();
        assert_eq!(left.answer, completed(6, 11));
        assert!(left
            .text()
            .ends_with("0 0 6 0 21 live\ncell 2 present 21\n"));
    }
}

#[test]
fn a_call_with_two_arguments_and_two_results() {
    let records = [
        instruction(ENTER, &[(2, 0), (6, 0)], 7),
        instruction(ENTER, &[(2, 1), (6, 0)], 7),
        instruction(ADD, &[(3, 0)], 0),
        instruction(COPY, &[(4, 0), (5, 0)], 0),
        instruction(LEAVE, &[], 0),
        instruction(LEAVE, &[], 1),
        instruction(OUT, &[], 0),
        instruction(OUT, &[], 0),
    ];
    let left = lend(&records, &[input(0, 0, 2), input(1, 0, 3)]).run();
    assert_eq!(left.answer, completed(6, 9));
    let text = left.text();
    assert!(text.contains("0 0 6 0 5 live\n0 0 7 0 5 live\n1792 0 2 0 2 spent\n"));
}

#[test]
fn an_input_at_out_stays_live() {
    let left = lend(&sum_graph(), &[input(1, 0, 4)]).run();
    assert_eq!(left.answer, completed(0, 1));
    assert_eq!(left.text(), "completed 0 1 0\n0 0 1 0 4 live\n");
}

#[test]
fn the_listing_is_a_stable_sort_by_four_fields() {
    let records = [
        token(1, 0, 0, 0, 1, 0),
        token(0, 1, 0, 1, 2, 1),
        token(0, 1, 0, 0, 3, 2),
        token(0, 0, 300, 0, 4, 0),
        token(0, 0, 299, 1, 5, 0),
        token(1, 0, 0, 0, 6, 0),
    ];
    let ledger = records.concat();
    let mut out = vec![0xee; ledger.len()];
    assert_eq!(second::list(&ledger, &mut out), 0);
    let order = [4, 3, 2, 1, 0, 5]
        .map(|number: usize| records[number])
        .concat();
    assert_eq!(out, order);
    let mut empty = [];
    assert_eq!(second::list(&[], &mut empty), 0);
}

#[test]
fn lengths_of_the_listing() {
    for (ledger, out) in [
        (28, 56),
        (56, 28),
        (27, 27),
        (0, 28),
        (28 * 2049, 28 * 2049),
    ] {
        let mut buffer = vec![0xee; out];
        assert_eq!(second::list(&vec![1; ledger], &mut buffer), 7);
        assert!(buffer.iter().all(|&byte| byte == 0xee));
    }
    let mut buffer = vec![0xee; 28 * 2048];
    assert_eq!(second::list(&vec![1; 28 * 2048], &mut buffer), 0);
}

#[test]
fn a_run_that_fills_its_ledger() {
    let tokens = 255 * 6 + 5;
    assert_eq!(
        counting(255).capacity(tokens).answer(),
        completed(255 * 5 + 3, tokens)
    );
    let answer = counting(255).capacity(tokens - 1).answer();
    assert_eq!((answer.refusal(), answer.tokens), (Some(8), tokens - 1));
    assert_eq!(
        counting(255).budget(255 * 5 + 3).answer(),
        completed(255 * 5 + 3, tokens)
    );
    assert_eq!(
        counting(255).budget(255 * 5 + 2).answer(),
        spent(255 * 5 + 2, tokens - 1)
    );
}

#[test]
fn a_run_of_2048_tokens() {
    // Two loops of 169 passes use 2,038 records; ten inputs at OUT use the rest.
    let one = counting(169);
    let mut lent = one.clone();
    for record in one.graph.chunks(16) {
        let mut moved = record.to_vec();
        for byte in (4..4 + 2 * usize::from(record[1])).step_by(2) {
            moved[byte] += 6;
        }
        lent.graph.extend(moved);
    }
    lent.inputs.extend(input(6, 0, 0));
    for number in 12..22 {
        lent.graph.extend(instruction(OUT, &[], 0));
        lent.inputs.extend(input(number, 0, -1));
    }
    let firings = 2 * (169 * 5 + 3);
    assert_eq!(lent.answer(), completed(firings, 2048));
    let newest = second::picks_newest_first(lent.program(), &lent.inputs, 2048, 1024);
    assert_eq!(newest.len(), 2 * firings);
    let text = lent.run().text();
    lent.picks = newest;
    assert_eq!(lent.run().text(), text);
    lent.inputs.extend(input(5, 0, 0));
    assert_eq!(lent.answer().refusal(), Some(8));
}
