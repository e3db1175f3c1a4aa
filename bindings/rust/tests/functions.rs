//! Every function once, on 01's example: 7 and -9 go to an ADD, and the sum to an OUT. A test here fails where a
//! declaration has other parameters than the library.

use ttda::layout::fields::{instruction, token};
use ttda::layout::{
    input, instruction, signed, term, token, ADD, COPY, GATE, NEXT, OUT, STORE, SUB,
};
use ttda::widths::{
    CELL, INSTRUCTION, LOGGED, OLD_LOGGED, OLD_TOKEN, RANGE_CELL, RANGE_TOKEN, STEP, TOKEN,
    TOKEN_LINE, WHOLE_BUDGET,
};
use ttda::{Answer, Limits, NotPrinted, Word};

const TEXT: &str = "completed 1 3 0\n0 0 0 0 7 spent\n0 0 0 1 -9 spent\n0 0 1 0 -2 live\n";

fn graph() -> Vec<u8> {
    [instruction(ADD, &[(1, 0)], 0), instruction(OUT, &[], 0)].concat()
}

fn inputs() -> Vec<u8> {
    [input(0, 0, 7), input(0, 1, -9)].concat()
}

/// Graph and inputs, and buffers for a few tokens and cells.
fn lent() -> (Vec<u8>, Vec<u8>, [u8; 4 * TOKEN], [u8; 2 * CELL]) {
    (graph(), inputs(), [0; 4 * TOKEN], [0; 2 * CELL])
}

/// What is printed of an answer.
fn printed(answer: Answer, ledger: &[u8], cells: &[u8]) -> String {
    let used = TOKEN * answer.tokens();
    let mut listing = vec![0; used];
    assert!(ttda::list(&ledger[..used], &mut listing).is_done());
    let mut room = vec![0; ttda::widths::printed(answer.tokens(), cells.len() / CELL)];
    let length = ttda::print(answer, &listing, cells, &mut room)
        .length()
        .unwrap();
    String::from_utf8(room[..length].to_vec()).unwrap()
}

#[test]
fn a_run_is_listed_and_printed() {
    let (graph, inputs, mut ledger, mut cells) = lent();
    let answer = ttda::run(&graph, &[], &inputs, &[], 9, 0, &mut ledger, &mut cells);
    assert_eq!(answer, Answer::of(Word::COMPLETED, 1, 3, 0));
    assert_eq!(
        (answer.word(), answer.firings(), answer.tokens()),
        (Word::Completed, 1, 3)
    );
    assert_eq!(printed(answer, &ledger, &cells), TEXT);
}

/// 7 to 8, and -9 to -5.
#[test]
fn inputs_between_limits() {
    let graph = graph();
    let range = |port, low, high: i32| [&input(0, port, low)[..], &high.to_le_bytes()].concat();
    let inputs = [range(0, 7, 8), range(1, -9, -5)].concat();
    let (mut ledger, mut cells) = ([0; 4 * RANGE_TOKEN], [1; 2 * RANGE_CELL]);
    let answer = ttda::run_ranges(&graph, &[], &inputs, &[], 9, 0, &mut ledger, &mut cells);
    assert_eq!(answer, Answer::of(Word::COMPLETED, 1, 3, 0));
    let sum = &ledger[2 * RANGE_TOKEN..3 * RANGE_TOKEN];
    assert_eq!(
        (signed(sum, token::VALUE), signed(sum, token::HIGH)),
        (-2, 3)
    );
    assert_eq!(cells, [0; 2 * RANGE_CELL]);
    let inputs = [range(0, 7, 6), range(1, -9, -5)].concat();
    let answer = ttda::run_ranges(&graph, &[], &inputs, &[], 9, 0, &mut ledger, &mut cells);
    assert_eq!(answer, Answer::of(23, 0, 0, 0));
}

#[test]
fn a_budget_that_is_used_up_is_carried_on() {
    let (graph, inputs, mut ledger, mut cells) = lent();
    let cut = ttda::run(&graph, &[], &inputs, &[], 0, 0, &mut ledger, &mut cells);
    assert_eq!(
        (cut.word(), cut.parts()),
        (Word::Spent, (Word::SPENT, 0, 2, 0))
    );
    let (firings, tokens) = (cut.parts().1, cut.parts().2);
    let answer = ttda::carry_on(
        &graph,
        &[],
        &[],
        9,
        0,
        firings,
        tokens,
        &mut ledger,
        &mut cells,
    );
    assert_eq!(printed(answer, &ledger, &cells), TEXT);
}

/// Two NEXTs in a row beside an operand that waits: a bound of 2 holds the second one back, and 1 is none.
#[test]
fn a_bound_holds_loops_back() {
    let to = |code, target| instruction(code, &[(target, 0)], 0);
    let graph = [
        to(NEXT, 1),
        to(NEXT, 2),
        instruction(OUT, &[], 0),
        to(GATE, 2),
    ]
    .concat();
    let inputs = [input(0, 0, 0), input(3, 0, 0)].concat();
    for (bound, due) in [
        (0, Answer::of(Word::HUNG, 2, 4, 0)),
        (2, Answer::of(Word::HUNG, 1, 3, 0)),
        (1, Answer::of(21, 0, 0, 0)),
    ] {
        let mut log = [0; 9 * LOGGED];
        let (_, _, mut ledger, mut cells) = lent();
        let mut run = |budget| {
            let (ledger, cells) = (&mut ledger, &mut cells);
            ttda::run(&graph, &[], &inputs, &[], budget, bound, ledger, cells)
        };
        assert_eq!(run(9), due, "bound {bound}");
        let cut = run(1);
        let (_, firings, tokens, _) = cut.parts();
        let (ledger, cells) = (&mut ledger, &mut cells);
        let carried = ttda::carry_on(&graph, &[], &[], 9, bound, firings, tokens, ledger, cells);
        assert_eq!(carried, due, "bound {bound}");
        let logged = ttda::run_logged(&graph, &[], &inputs, &[], 9, bound, ledger, cells, &mut log);
        assert_eq!(logged, due, "bound {bound}");
    }
}

#[test]
fn a_log_is_replayed() {
    let (graph, inputs, mut ledger, mut cells) = lent();
    let mut log = [0; LOGGED];
    let first = ttda::run_logged(
        &graph,
        &[],
        &inputs,
        &[],
        1,
        0,
        &mut ledger,
        &mut cells,
        &mut log,
    );
    assert_eq!(first.firings(), 1);
    let (_, _, mut ledger, mut cells) = lent();
    let answer = ttda::replay(&graph, &[], &inputs, &log, &mut ledger, &mut cells);
    assert_eq!(printed(answer, &ledger, &cells), TEXT);
}

#[test]
fn a_profile_has_a_record_for_each_step() {
    let (graph, inputs, mut ledger, mut cells) = lent();
    let (mut profile, mut records) = ([0; 2 * STEP], u64::MAX);
    let answer = ttda::profile(
        &graph,
        &[],
        &inputs,
        &mut ledger,
        &mut cells,
        &mut profile,
        &mut records,
    );
    assert_eq!((records, &profile), (1, &[1, 0, 1, 0, 0, 0, 0, 0]));
    assert_eq!(printed(answer, &ledger, &cells), TEXT);
}

#[test]
fn bounds_and_refusals() {
    let (graph, inputs, ..) = lent();
    assert_eq!(ttda::bounds(&graph, &inputs), Answer::of(0, 1, 3, 0));
    assert_eq!(ttda::bounds(&[], &inputs).word(), Word::Refused(1));
    let refused = ttda::bounds(&graph, &[&inputs[..TOKEN], &[9; TOKEN]].concat());
    assert_eq!((refused.word(), refused.place()), (Word::Refused(6), 1));
}

#[test]
fn an_expression_has_a_graph_and_a_value() {
    let difference = [term(0, 0, 0), term(0, 0, 0), term(SUB, 0, 1)].concat();
    let mut made = [0; 4 * INSTRUCTION];
    let answer = ttda::expression(&difference, &mut made);
    assert_eq!((answer.word(), answer.firings()), (Word::Completed, 4));
    let values = [5i32.to_le_bytes(), 12i32.to_le_bytes()].concat();
    let value = ttda::expression_value(&difference, &values);
    assert_eq!((value.word(), value.value()), (Word::Completed, -7));
    assert_eq!(
        ttda::expression_value(&difference, &[]).word(),
        Word::Refused(7)
    );
    assert_eq!(
        ttda::expression(&difference, &mut []).word(),
        Word::Refused(26)
    );
}

#[test]
fn old_records_are_made_new() {
    let mut new = [1; 2 * TOKEN];
    let inputs = inputs();
    let old = inputs
        .chunks(TOKEN)
        .flat_map(|input| &input[TOKEN - OLD_TOKEN..]);
    assert!(ttda::convert(&old.copied().collect::<Vec<_>>(), &mut new).is_done());
    assert_eq!(new.to_vec(), inputs);
    assert!(!ttda::convert(&[0; OLD_TOKEN - 1], &mut new).is_done());
    let (mut old, mut log) = ([0; OLD_LOGGED], [1; LOGGED]);
    old[0] = 7;
    assert!(ttda::convert_log(&old, &mut log).is_done());
    assert_eq!((log[0], &log[1..]), (7, &[0; LOGGED - 1][..]));
    assert!(!ttda::convert_log(&[0; OLD_LOGGED + 1], &mut log).is_done());
}

/// Tokens with every field as long as it can be: the path of 128 bits, the least value, the longest word.
#[test]
fn the_longest_lines_have_room() {
    let longest = token(
        u128::MAX,
        u8::MAX,
        u16::MAX,
        u8::MAX,
        i32::MIN,
        token::DEFERRED,
    );
    let text = printed(Answer::of(0, 0, 10, 0), &longest.repeat(10), &[]);
    let lengths: Vec<usize> = text.lines().skip(1).map(str::len).collect();
    assert_eq!(lengths, [TOKEN_LINE - 1; 10]);
}

#[test]
fn what_is_not_printed_says_why() {
    let printed = |answer| ttda::print(answer, &[], &[], &mut [0; 5]).length();
    assert_eq!(printed(Answer::of(0, 0, 0, 0)), Err(NotPrinted::TooSmall));
    assert_eq!(printed(Answer::of(99, 0, 0, 0)), Err(NotPrinted::NoAnswer));
}

/// Whether a completed run of 1 firing serves for another one, with one thing changed at a time.
#[test]
fn a_kept_run_serves_other_orders_and_no_other_run() {
    let (graph, inputs) = (graph(), inputs());
    let kept = Answer::of(Word::COMPLETED, 1, 3, 0);
    let kept_limits = Limits {
        budget: 9,
        bound: 0,
        ledger: 4 * TOKEN as u64,
        cells: 2 * CELL as u64,
    };
    let serves = |graph: &[u8], inputs: &[u8], picks: &[u8], limits, answer| {
        let (own, from) = (self::graph(), self::inputs());
        ttda::serves(
            &own,
            &[],
            &from,
            &[],
            &kept_limits,
            answer,
            0,
            graph,
            &[],
            inputs,
            picks,
            &limits,
        )
        .is_yes()
    };
    let same = kept_limits;
    let mut other = (graph.clone(), inputs.clone());
    other.0[instruction::CONSTANT.start] = 1;
    other.1[token::VALUE.start] = 8;
    assert!(serves(&graph, &inputs, &[], same, kept));
    let just = Limits { budget: 1, ..same };
    assert!(serves(&graph, &inputs, &[1, 0], just, kept));
    assert!(!serves(&other.0, &inputs, &[], same, kept));
    assert!(!serves(&graph, &other.1, &[], same, kept));
    assert!(!serves(&graph, &inputs, &[1], same, kept));
    for limits in [
        Limits { budget: 0, ..same },
        Limits { bound: 2, ..same },
        Limits {
            ledger: 5 * TOKEN as u64,
            ..same
        },
        Limits {
            cells: 3 * CELL as u64,
            ..same
        },
    ] {
        assert!(!serves(&graph, &inputs, &[], limits, kept), "{limits:?}");
    }
    let refused = Answer::of(9, 1, 3, 0);
    assert!(serves(&graph, &inputs, &[], same, refused));
    assert!(!serves(&graph, &inputs, &[1, 0], same, refused));
}

/// A root loop, 0 NEXT to 1, 1 COPY to 0, and a STORE that waits for its value at iteration 0: with a bound of 2 the NEXT of
/// iteration 1 is held, and the hang serves itself alone.
#[test]
fn a_hang_on_held_activities_is_told_and_serves_itself_alone() {
    let to = |code, arcs: &[(u16, u8)]| instruction(code, arcs, 0);
    let graph = [to(NEXT, &[(1, 0)]), to(COPY, &[(0, 0)]), to(STORE, &[])].concat();
    let inputs = [input(0, 0, 0), input(2, 0, 0)].concat();
    let (mut ledger, mut cells) = (vec![0; 600 * TOKEN], [0; CELL]);
    let hung = ttda::run(
        &graph,
        &[],
        &inputs,
        &[],
        WHOLE_BUDGET,
        2,
        &mut ledger,
        &mut cells,
    );
    assert_eq!(hung.word(), Word::Hung);
    let counts = |bound, tokens: usize| {
        let (firings, tokens) = (hung.firings() as u16, tokens as u16);
        ttda::held(&graph, bound, firings, tokens, &ledger, &cells)
    };
    let found = counts(2, hung.tokens());
    let parts = |held: ttda::Held| (held.word(), held.held(), held.enabled(), held.place());
    assert_eq!(parts(found), (Word::Completed, 1, 1, 0));
    assert_eq!(parts(counts(0, hung.tokens())), (Word::Completed, 0, 1, 0));
    assert_eq!(counts(1, hung.tokens()).word(), Word::Refused(21));
    assert_eq!(counts(2, hung.tokens() + 1).word(), Word::Refused(24));
    let bounded = Limits {
        budget: WHOLE_BUDGET.into(),
        bound: 2,
        ledger: ledger.len() as u64,
        cells: cells.len() as u64,
    };
    let serves = |held, limits: Limits| {
        let kept = (&graph, &inputs);
        ttda::serves(
            kept.0,
            &[],
            kept.1,
            &[],
            &bounded,
            hung,
            held,
            &graph,
            &[],
            &inputs,
            &[],
            &limits,
        )
        .is_yes()
    };
    let unbounded = Limits {
        bound: 0,
        ..bounded
    };
    let another = Limits {
        bound: 3,
        ..bounded
    };
    assert!(serves(found.held() as u64, bounded));
    assert!(!serves(found.held() as u64, unbounded));
    assert!(serves(0, unbounded));
    assert!(!serves(0, another));
}
