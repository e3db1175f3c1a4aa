//! Loop bounding (02, R-9): what is held back and by what, the answers of bounded runs,
//! and refusal 21. The figures of the memos' graphs are those of hand-made examples.

mod common;

use common::*;
use second::{carry_on, held, run_logged, Answer, Counts, Held, Outcome};

/// Memo 271's a[j] = 2 * a[j + 1] for j from 1 to 9: each pass waits for the next one.
fn backwards() -> Lent {
    let records = [
        instruction(COPY, &[(1, 0), (2, 0)], 0),
        instruction(LE + WITH_CONSTANT, &[(2, 1)], 9),
        instruction(SWITCH, &[(3, 0), (10, 0)], 0),
        instruction(COPY, &[(4, 0), (6, 0)], 0),
        instruction(ADD + WITH_CONSTANT, &[(5, 0)], 1),
        instruction(NEXT, &[(0, 0)], 0),
        instruction(COPY, &[(9, 0), (7, 0)], 0),
        instruction(ADD + WITH_CONSTANT, &[(8, 0)], 1),
        instruction(FETCH, &[(11, 0)], 0),
        instruction(STORE, &[], 0),
        instruction(SINK, &[], 0),
        instruction(MUL + WITH_CONSTANT, &[(9, 1)], 2),
        instruction(STORE, &[], 0),
    ];
    let tokens = [input(12, 0, 10), input(12, 1, 1), input(0, 0, 1)];
    lend(&records, &tokens)
}

/// Five passes, each of which calls a procedure that reads cell 9.
fn call_in_loop(written: bool) -> Lent {
    let records = [
        instruction(COPY, &[(1, 0), (2, 0)], 0),
        instruction(LT + WITH_CONSTANT, &[(2, 1)], 5),
        instruction(SWITCH, &[(3, 0), (9, 0)], 0),
        instruction(COPY, &[(6, 0), (4, 0)], 0),
        instruction(ADD + WITH_CONSTANT, &[(5, 0)], 1),
        instruction(NEXT, &[(0, 0)], 0),
        instruction(ENTER, &[(7, 0), (11, 0)], 2),
        instruction(CONST, &[(8, 0)], 9),
        instruction(FETCH, &[(10, 0)], 0),
        instruction(SINK, &[], 0),
        instruction(LEAVE, &[], 0),
        instruction(OUT, &[], 0),
        instruction(STORE, &[], 0),
    ];
    let mut tokens = vec![input(0, 0, 0)];
    if written {
        tokens.extend([input(12, 0, 9), input(12, 1, 7)]);
    }
    lend(&records, &tokens)
}

/// A path entered twice: by j, which counts to 3 and then writes cell 9, and by a read of
/// cell 9.
fn late_entry() -> Lent {
    let records = [
        instruction(ENTER, &[(2, 0), (10, 0)], 1),
        instruction(ENTER, &[(8, 0), (10, 0)], 1),
        instruction(COPY, &[(3, 0), (4, 0)], 0),
        instruction(LT + WITH_CONSTANT, &[(4, 1)], 3),
        instruction(SWITCH, &[(5, 0), (7, 0)], 0),
        instruction(ADD + WITH_CONSTANT, &[(6, 0)], 1),
        instruction(NEXT, &[(2, 0)], 0),
        instruction(COPY, &[(9, 1), (11, 0)], 0),
        instruction(FETCH, &[(12, 0)], 0),
        instruction(STORE, &[], 0),
        instruction(OUT, &[], 0),
        instruction(CONST, &[(9, 0)], 9),
        instruction(LEAVE, &[], 0),
    ];
    lend(&records, &[input(0, 0, 0), input(1, 0, 9)])
}

/// The picks that let j run before the read enters.
const J_FIRST: [u16; 30] = {
    let mut picks = [1; 30];
    picks[0] = 0;
    picks
};

/// A loop at the root that counts while j is below a number.
fn counting_to(end: i32) -> Lent {
    let records = [
        instruction(COPY, &[(1, 0), (2, 0)], 0),
        instruction(LT + WITH_CONSTANT, &[(2, 1)], end),
        instruction(SWITCH, &[(3, 0), (5, 0)], 0),
        instruction(ADD + WITH_CONSTANT, &[(4, 0)], 1),
        instruction(NEXT, &[(0, 0)], 0),
        instruction(OUT, &[], 0),
        instruction(GATE, &[(5, 0)], 0),
    ];
    lend(&records, &[input(0, 0, 0)])
}

/// The same, with one operand of the GATE at the root.
fn with_gate(end: i32) -> Lent {
    let mut lent = counting_to(end);
    lent.inputs.extend(input(6, 1, 0));
    lent
}

/// What the end of a run holds, by the iterations of the activities.
fn held_iterations(lent: &Lent, left: &Left) -> Vec<u8> {
    held_of(lent, left)
        .iter()
        .map(|held| left.record(held.place)[16])
        .collect()
}

fn held_of(lent: &Lent, left: &Left) -> Vec<Held> {
    let used = &left.ledger[..28 * left.answer.tokens];
    held(&lent.graph, lent.bound, used).unwrap()
}

/// Runs under a bound: the answer, and the iterations of what is left held.
fn under(lent: &Lent, bound: u16) -> (Answer, Vec<u8>) {
    let lent = lent.clone().bound(bound);
    let left = lent.run();
    (left.answer, held_iterations(&lent, &left))
}

#[test]
fn a_pass_that_waits_for_a_later_one_hangs_on_held_ones() {
    for (bound, firings, tokens) in [(2, 18, 26), (3, 27, 38), (5, 45, 62), (8, 72, 98)] {
        let due = (hung(firings, tokens), vec![bound as u8 - 1]);
        assert_eq!(under(&backwards(), bound), due);
    }
    for bound in [0, 9, 10, 256] {
        assert_eq!(under(&backwards(), bound), (completed(104, 124), vec![]));
        let left = backwards().bound(bound).run();
        assert_eq!(left.cell(1), [0, 2, 0, 0, 2, 0, 0, 0]);
    }
}

#[test]
fn a_path_entered_from_an_old_iteration_holds() {
    for (bound, firings, tokens) in [(2, 17, 22), (3, 26, 33), (5, 44, 55)] {
        let due = (hung(firings, tokens), vec![bound as u8 - 1]);
        assert_eq!(under(&call_in_loop(false), bound), due);
    }
    for bound in [0, 6] {
        assert_eq!(under(&call_in_loop(false), bound), (hung(49, 60), vec![]));
    }
    for bound in [0, 2, 3, 5, 6] {
        let due = (completed(55, 67), vec![]);
        assert_eq!(under(&call_in_loop(true), bound), due);
    }
}

#[test]
fn under_one_bound_two_orders_may_differ() {
    let j_first = late_entry().picks(&J_FIRST);
    for bound in [0, 2, 3, 4] {
        assert_eq!(under(&j_first, bound), (completed(25, 31), vec![]));
    }
    assert_eq!(under(&late_entry(), 0), (completed(25, 31), vec![]));
    assert_eq!(under(&late_entry(), 2), (hung(12, 16), vec![1]));
    assert_eq!(under(&late_entry(), 3), (hung(17, 22), vec![2]));
    assert_eq!(under(&late_entry(), 4), (completed(25, 31), vec![]));
}

#[test]
fn next_at_255_is_held_like_others() {
    for bound in [2, 256] {
        assert_eq!(under(&counting_to(255), bound).0, completed(1278, 1535));
    }
    for bound in [0, 2] {
        let answer = counting_to(256).bound(bound).answer();
        assert_eq!(answer, refused(13, 1279, 1536, 1535));
    }
    let gate = with_gate(256);
    assert_eq!(gate.answer(), refused(13, 1279, 1537, 1536));
    assert_eq!(under(&gate, 255), (hung(1274, 1531), vec![254]));
    assert_eq!(under(&gate, 256), (hung(1279, 1537), vec![255]));
}

#[test]
fn a_bound_is_0_or_2_to_256() {
    for bound in [1, 257, 300, 65535] {
        let answer = counting_to(3).bound(bound).answer();
        assert_eq!(answer, refused(21, 0, 0, 0), "bound {bound}");
    }
    for bound in [0, 2, 255, 256] {
        assert_eq!(counting_to(3).bound(bound).answer(), completed(18, 23));
    }
}

#[test]
fn behind_7_and_before_22() {
    let bad = || counting_to(3).bound(1);
    let mut lent = bad();
    lent.picks = vec![0];
    assert_eq!(lent.answer(), refused(7, 0, 0, 0));
    let mut lent = bad();
    lent.graph[0] = 0;
    assert_eq!(lent.answer().refusal(), Some(2));
    let mut lent = bad().arrays(&[(0, 1025)]);
    assert_eq!(lent.answer(), refused(21, 0, 0, 0));
    lent.inputs[16] = 1;
    assert_eq!(lent.answer(), refused(21, 0, 0, 0));
    assert_eq!(bad().capacity(0).answer(), refused(21, 0, 0, 0));
}

/// A NEXT at the root, with a value on its way to iteration 1 and then 2.
/// 0 NEXT to 1 NEXT to 2 OUT; further records are added for what may hold it.
fn two_nexts(further: &[[u8; 16]], tokens: &[[u8; 28]]) -> Lent {
    let mut records = vec![
        instruction(NEXT, &[(1, 0)], 0),
        instruction(NEXT, &[(2, 0)], 0),
        instruction(OUT, &[], 0),
    ];
    records.extend(further);
    let mut all = vec![input(0, 0, 5)];
    all.extend(tokens);
    lend(&records, &all).bound(2)
}

#[test]
fn results_do_not_hold() {
    let leave = instruction(LEAVE, &[], 0);
    let copy = instruction(COPY, &[(2, 0)], 0);
    let lent = two_nexts(&[leave, copy], &[input(3, 0, 1), input(2, 0, 1)]);
    assert_eq!(lent.answer(), completed(2, 5));
}

#[test]
fn an_operand_that_waits_holds() {
    let gate = instruction(GATE, &[(2, 0)], 0);
    let lent = two_nexts(&[gate], &[input(3, 0, 1)]);
    let left = lent.run();
    assert_eq!(left.answer, hung(1, 3));
    let due = Held {
        place: 2,
        holders: vec![1],
    };
    assert_eq!(held_of(&lent, &left), [due]);
    // At m - k and below it holds, and not above.
    assert_eq!(lent.bound(3).answer(), hung(2, 4));
}

#[test]
fn a_deferred_token_holds_wherever_it_is() {
    for end in [instruction(OUT, &[], 0), instruction(LEAVE, &[], 0)] {
        let read = instruction(FETCH, &[(4, 0)], 0);
        let lent = two_nexts(&[read, end], &[input(3, 0, 7)]);
        let left = lent.run();
        assert_eq!(left.answer, hung(2, 4));
        let due = Held {
            place: 2,
            holders: vec![3],
        };
        assert_eq!(held_of(&lent, &left), [due]);
    }
}

/// From the root a path is entered, and from there another one, where a token waits.
#[test]
fn any_depth_holds() {
    let deep = [
        instruction(ENTER, &[(4, 0), (2, 0)], 1),
        instruction(ENTER, &[(5, 0), (2, 0)], 2),
        instruction(GATE, &[(2, 0)], 0),
    ];
    let lent = two_nexts(&deep, &[input(3, 0, 7)]);
    let left = lent.run();
    assert_eq!(left.answer, hung(3, 5));
    assert_eq!(held_of(&lent, &left)[0].holders, [4]);
}

/// What lies deeper counts whatever its own iteration is; the level right below counts.
#[test]
fn the_level_right_below_decides() {
    let graph = graph(&[
        instruction(NEXT, &[(1, 0)], 0),
        instruction(OUT, &[], 0),
        instruction(GATE, &[(1, 0)], 0),
        instruction(ENTER, &[(2, 0), (1, 0)], 3),
    ]);
    let next_at = |path, iteration| token(path, iteration, 0, 0, 5, 0);
    let waiting_at = |path, iteration| token(path, iteration, 2, 0, 5, 0);
    let holds = |next: [u8; 28], waiting: [u8; 28], bound| {
        let held = held(&graph, bound, &[next, waiting].concat()).unwrap();
        !held.is_empty()
    };
    // The NEXT makes iteration 6: with bound 4, iterations up to 2 hold it.
    let entered_from = |iteration: u128| 0x300 + iteration;
    for (old, held) in [(0, true), (2, true), (3, false), (6, false), (200, false)] {
        assert_eq!(holds(next_at(0, 5), waiting_at(0, old), 4), held);
        let path = entered_from(u128::from(old));
        assert_eq!(holds(next_at(0, 5), waiting_at(path, 0), 4), held);
        assert_eq!(holds(next_at(0, 5), waiting_at(path, 250), 4), held);
        for deeper in [0x300, 0x3ff] {
            let path = path << 16 | deeper;
            assert_eq!(holds(next_at(0, 5), waiting_at(path, 0), 4), held);
        }
        // The same one level down, and beside it.
        let inner = 0x301 << 16 | path;
        assert_eq!(holds(next_at(0x301, 5), waiting_at(inner, 9), 4), held);
        let beside = 0x302 << 16 | path;
        assert!(!holds(next_at(0x301, 5), waiting_at(beside, 0), 4));
    }
    // Tokens of the parent path never hold.
    assert!(!holds(next_at(0x300, 5), waiting_at(0, 0), 2));
    // Eight levels.
    let eight = (0..8).fold(0, |path: u128, _| path << 16 | 0x300);
    assert!(holds(next_at(0, 5), waiting_at(eight, 9), 6));
    assert!(holds(next_at(eight >> 16, 5), waiting_at(eight, 9), 6));
    assert!(!holds(next_at(eight >> 16, 5), waiting_at(eight, 9), 7));
    assert!(holds(next_at(eight, 5), waiting_at(eight, 0), 6));
    assert!(!holds(next_at(eight, 5), waiting_at(eight, 0), 0));
}

#[test]
fn what_is_no_ledger_of_the_graph_has_no_held_activities() {
    let graph = graph(&[instruction(NEXT, &[(1, 0)], 0), instruction(OUT, &[], 0)]);
    let next = input(0, 0, 5);
    assert_eq!(held(&graph, 2, &next), Some(vec![]));
    assert_eq!(held(&graph, 2, &next[1..]), None);
    assert_eq!(held(&graph, 2, &[next, next].concat()), None);
    assert_eq!(held(&graph, 2, &input(0, 1, 5)), None);
    assert_eq!(held(&graph, 2, &input(2, 0, 5)), None);
    assert_eq!(held(&graph[1..], 2, &next), None);
}

/// The held NEXT is the first enabled activity, and pick 0 takes the one behind it.
#[test]
fn picks_count_without_held_activities() {
    let further = [
        instruction(GATE, &[(2, 0)], 0),
        instruction(COPY, &[(5, 0)], 0),
        instruction(COPY, &[(6, 0)], 0),
        instruction(COPY, &[(3, 1)], 0),
    ];
    let lent = two_nexts(&further, &[input(3, 0, 1), input(4, 0, 1)]);
    // The second NEXT is at place 3, held by the GATE's operand and the COPYs.
    assert_eq!(lent.answer(), completed(6, 9));
    let part = lent.clone().budget(2).run();
    assert_eq!(part.answer, spent(2, 5));
    assert_eq!(held_iterations(&lent, &part), [1]);
    let left = lent.clone().budget(3).picks(&[0, 0, 7]).run();
    assert_eq!(left.record(5), token(0, 0, 6, 0, 1, 0));
}

#[test]
fn hung_on_held_ones_before_spent() {
    let gate = instruction(GATE, &[(2, 0)], 0);
    let lent = two_nexts(&[gate], &[input(3, 0, 1)]);
    assert_eq!(lent.clone().budget(0).answer(), spent(0, 2));
    for budget in [1, 2, 65535] {
        assert_eq!(lent.clone().budget(budget).answer(), hung(1, 3));
    }
    assert_eq!(lent.bound(0).budget(1).answer(), spent(1, 3));
}

#[test]
fn a_log_of_a_bounded_run() {
    let lent = late_entry().bound(2);
    let due = lent.run();
    let mut stores = (vec![0xa5; lent.ledger_bytes], vec![0xa5; lent.cells_bytes]);
    let mut log = vec![0; 20 * 2048];
    let (ledger, cells) = (&mut stores.0, &mut stores.1);
    let (program, schedule) = (lent.program(), lent.schedule());
    let answer = run_logged(program, &lent.inputs, schedule, ledger, cells, &mut log);
    assert_eq!(answer, due.answer);
    assert!(stores.0 == due.ledger && stores.1 == due.cells);
    // A replay has no bound: an activity is still enabled.
    let mut stores = (vec![0xa5; lent.ledger_bytes], vec![0xa5; lent.cells_bytes]);
    let (ledger, cells) = (&mut stores.0, &mut stores.1);
    let log = &log[..20 * answer.firings];
    let again = second::replay(program, &lent.inputs, log, ledger, cells);
    assert_eq!(again, spent(12, 16));
    assert!(stores.0 == due.ledger && stores.1 == due.cells);
}

/// A bounded run cut at every firing ends as the uncut one under the same bound.
#[test]
fn a_bounded_run_is_carried_on() {
    for lent in [
        late_entry().bound(2),
        late_entry().bound(3).picks(&J_FIRST),
        backwards().bound(5),
        call_in_loop(true).bound(3),
    ] {
        let uncut = lent.run();
        let mut left = lent.clone().budget(0).run();
        while left.answer.outcome == Outcome::Spent {
            let saved = Counts {
                firings: left.answer.firings as u16,
                tokens: left.answer.tokens as u16,
            };
            let mut part = lent.clone().budget(1);
            part.picks = lent.picks[(2 * left.answer.firings).min(lent.picks.len())..].to_vec();
            let (program, schedule) = (part.program(), part.schedule());
            let (ledger, cells) = (&mut left.ledger, &mut left.cells);
            left.answer = carry_on(program, schedule, saved, ledger, cells);
        }
        assert_eq!(left.answer, uncut.answer);
        assert!(left.ledger == uncut.ledger && left.cells == uncut.cells);
        let saved = Counts {
            firings: 0,
            tokens: 0,
        };
        let bad = lent.clone().bound(1);
        let (program, schedule) = (bad.program(), bad.schedule());
        // 21 comes before 24.
        let answer = carry_on(program, schedule, saved, &mut left.ledger, &mut left.cells);
        assert_eq!(answer, refused(21, 0, 0, 0));
    }
}
