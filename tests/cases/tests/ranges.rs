//! The cases of range runs (02, R-11), by the second emulator and by the engine: what each answers, and its tokens and
//! cells in order, as low, high and state.

use std::ops::Range;

use layout::fields::{cell, token};
use layout::widths::{INSTRUCTION, RANGE_CELL, RANGE_TOKEN, WHOLE_BUDGET};
use layout::{
    input, instruction, signed, ADD, CONST, DIV, EQ, FETCH, GATE, MUL, NEXT, OUT, REM, STORE,
    SWITCH, WITH_CONSTANT,
};
use second::{Program, Schedule};

/// Where an input goes, and its limits.
type Input = (u16, u8, i32, i32);

struct Case {
    name: &'static str,
    graph: Vec<[u8; INSTRUCTION]>,
    inputs: Vec<Input>,
    bound: u16,
    /// Word, firings, tokens and place.
    says: [u64; 4],
    tokens: &'static str,
    cells: &'static str,
}

const CELLS: usize = 3;
const LENT: u8 = 0xa5;

fn case(
    name: &'static str,
    graph: &[[u8; INSTRUCTION]],
    inputs: &[Input],
    says: [u64; 4],
    tokens: &'static str,
) -> Case {
    Case {
        name,
        graph: graph.to_vec(),
        inputs: inputs.to_vec(),
        bound: 0,
        says,
        tokens,
        cells: "",
    }
}

fn out() -> [u8; INSTRUCTION] {
    instruction(OUT, &[], 0)
}

/// One operation whose result goes to an OUT.
fn to_out(code: u8, constant: i32) -> [[u8; INSTRUCTION]; 2] {
    [instruction(code, &[(1, 0)], constant), out()]
}

fn switch() -> [[u8; INSTRUCTION]; 3] {
    [instruction(SWITCH, &[(1, 0), (2, 0)], 0), out(), out()]
}

fn with_cells(cells: &'static str, case: Case) -> Case {
    Case { cells, ..case }
}

fn bounded(bound: u16, case: Case) -> Case {
    Case { bound, ..case }
}

fn arithmetic() -> Vec<Case> {
    let two = |code, a: (i32, i32), b: (i32, i32), name, says, tokens| {
        let inputs = [(0, 0, a.0, a.1), (0, 1, b.0, b.1)];
        case(name, &to_out(code, 0), &inputs, says, tokens)
    };
    vec![
        two(
            ADD,
            (1, 3),
            (10, 20),
            "a sum",
            [0, 1, 3, 0],
            "1 3 1|10 20 1|11 23 0",
        ),
        two(
            MUL,
            (-2, 3),
            (-5, 4),
            "a product by four corners",
            [0, 1, 3, 0],
            "-2 3 1|-5 4 1|-15 12 0",
        ),
        two(
            DIV,
            (1, 7),
            (-1, 1),
            "a divisor that may be 0",
            [12, 0, 2, 0],
            "1 7 0|-1 1 0",
        ),
        two(
            DIV,
            (i32::MIN, 0),
            (-1, -1),
            "a quotient past the end",
            [12, 0, 2, 0],
            "-2147483648 0 0|-1 -1 0",
        ),
        two(
            REM,
            (-7, 9),
            (3, 5),
            "a remainder by the divisor's magnitude",
            [0, 1, 3, 0],
            "-7 9 1|3 5 1|-4 4 0",
        ),
        two(
            REM,
            (-7, -7),
            (5, 5),
            "an exact remainder",
            [0, 1, 3, 0],
            "-7 -7 1|5 5 1|-2 -2 0",
        ),
        two(
            EQ,
            (1, 3),
            (3, 5),
            "ranges that overlap may be equal",
            [0, 1, 3, 0],
            "1 3 1|3 5 1|0 1 0",
        ),
        two(
            EQ,
            (1, 2),
            (3, 5),
            "ranges apart are not",
            [0, 1, 3, 0],
            "1 2 1|3 5 1|0 0 0",
        ),
        case(
            "a constant is a single value",
            &to_out(CONST, 7),
            &[(0, 0, 1, 9)],
            [0, 1, 2, 0],
            "1 9 1|7 7 0",
        ),
        case(
            "a constant on the right",
            &to_out(ADD + WITH_CONSTANT, -2),
            &[(0, 0, 1, 9)],
            [0, 1, 2, 0],
            "1 9 1|-1 7 0",
        ),
    ]
}

fn undecided() -> Vec<Case> {
    let switched = |control: (i32, i32), name, says, tokens| {
        let inputs = [(0, 0, 5, 6), (0, 1, control.0, control.1)];
        case(name, &switch(), &inputs, says, tokens)
    };
    vec![
        switched(
            (0, 1),
            "a control that may be zero or not",
            [23, 0, 2, 0],
            "5 6 0|0 1 0",
        ),
        switched(
            (-1, 1),
            "a control on both sides of 0",
            [23, 0, 2, 0],
            "5 6 0|-1 1 0",
        ),
        switched(
            (1, 2),
            "a control that is not 0",
            [0, 1, 3, 0],
            "5 6 1|1 2 1|5 6 0",
        ),
        switched(
            (0, 0),
            "a control that is 0",
            [0, 1, 3, 0],
            "5 6 1|0 0 1|5 6 0",
        ),
        case(
            "a cell that is not a single value",
            &to_out(FETCH, 0),
            &[(0, 0, 0, 1)],
            [23, 0, 1, 0],
            "0 1 0",
        ),
        case(
            "such a cell past the count",
            &to_out(FETCH, 0),
            &[(0, 0, 7, 8)],
            [23, 0, 1, 0],
            "7 8 0",
        ),
        case(
            "a single cell past the count",
            &to_out(FETCH, 0),
            &[(0, 0, 7, 7)],
            [10, 0, 1, 0],
            "7 7 0",
        ),
        case(
            "an input whose low exceeds its high",
            &to_out(ADD, 0),
            &[(0, 0, 1, 3), (0, 1, 9, 8)],
            [23, 0, 0, 1],
            "",
        ),
        case(
            "6 of all inputs before 23",
            &to_out(ADD, 0),
            &[(0, 0, 3, 1), (9, 0, 1, 1)],
            [6, 0, 0, 1],
            "",
        ),
        case(
            "23 before 9",
            &to_out(ADD, 0),
            &[(0, 0, 1, 1), (0, 0, 3, 1)],
            [23, 0, 0, 1],
            "",
        ),
    ]
}

fn cells_and_bounds() -> Vec<Case> {
    let store = [
        instruction(STORE, &[], 0),
        instruction(FETCH, &[(2, 0)], 0),
        out(),
    ];
    let loops = [
        instruction(NEXT, &[(1, 0)], 0),
        instruction(NEXT, &[(2, 0)], 0),
        out(),
        instruction(GATE, &[(2, 0)], 0),
    ];
    let held = [(0, 0, 4, 6), (3, 0, 1, 1)];
    vec![
        with_cells(
            "|2 4 2|",
            case(
                "a range is stored and fetched",
                &store,
                &[(0, 0, 1, 1), (0, 1, 2, 4), (1, 0, 1, 1)],
                [0, 2, 4, 0],
                "1 1 1|2 4 1|1 1 1|2 4 0",
            ),
        ),
        with_cells(
            "||0 0 1",
            case(
                "nobody stores",
                &to_out(FETCH, 0),
                &[(0, 0, 2, 2)],
                [101, 1, 2, 0],
                "2 2 1|2 2 2",
            ),
        ),
        bounded(
            2,
            case(
                "a token at iteration 0 holds a NEXT back",
                &loops,
                &held,
                [101, 1, 3, 0],
                "4 6 1|1 1 0|4 6 0",
            ),
        ),
        case(
            "and without a bound it does not",
            &loops,
            &held,
            [101, 2, 4, 0],
            "4 6 1|1 1 0|4 6 1|4 6 0",
        ),
        bounded(1, case("a bad bound", &loops, &held, [21, 0, 0, 0], "")),
    ]
}

/// Records as low, high and state, parted by bars; absent cells are empty.
fn shown(records: &[u8], width: usize, low: Range<usize>, state: usize, absent: bool) -> String {
    let show = |record: &[u8]| match record[state] {
        0 if absent => String::new(),
        state => format!(
            "{} {} {state}",
            signed(record, low.clone()),
            signed(record, width - low.len()..width)
        ),
    };
    let records: Vec<String> = records.chunks_exact(width).map(show).collect();
    records.join("|")
}

#[test]
fn range_runs_are_those_of_the_description() {
    for case in arithmetic()
        .into_iter()
        .chain(undecided())
        .chain(cells_and_bounds())
    {
        let (graph, name) = (case.graph.concat(), case.name);
        let widened = |&(to, port, low, high): &Input| {
            [&input(to, port, low)[..], &high.to_le_bytes()].concat()
        };
        let inputs: Vec<u8> = case.inputs.iter().flat_map(widened).collect();
        let program = Program {
            graph: &graph,
            arrays: &[],
        };
        let schedule = Schedule::new(&[], WHOLE_BUDGET).bounded(case.bound);
        let (mut ledger, mut cells) = (vec![LENT; RANGE_TOKEN * 8], vec![LENT; RANGE_CELL * CELLS]);
        let (mut same_ledger, mut same_cells) = (ledger.clone(), cells.clone());
        let answer = engine::run_ranges(program, &inputs, schedule, &mut ledger, &mut cells);
        let due = second::run_ranges(
            program,
            &inputs,
            schedule,
            &mut same_ledger,
            &mut same_cells,
        );
        let [word, firings, tokens, place] = case.says;
        assert_eq!(
            engine::unpacked(answer),
            (word, firings, tokens, place),
            "{name}"
        );
        assert_eq!(answer, engine::packed_answer(&due), "{name}");
        assert!(ledger == same_ledger && cells == same_cells, "{name}");
        let used = RANGE_TOKEN * tokens as usize;
        assert_eq!(
            shown(
                &ledger[..used],
                RANGE_TOKEN,
                token::VALUE,
                token::STATE,
                false
            ),
            case.tokens,
            "{name}"
        );
        assert!(ledger[used..].iter().all(|&byte| byte == LENT), "{name}");
        let left = match due.refused_at_once() {
            true => cells.iter().all(|&byte| byte == LENT),
            false if case.cells.is_empty() => cells.iter().all(|&byte| byte == 0),
            false => shown(&cells, RANGE_CELL, cell::VALUE, cell::STATE, true) == case.cells,
        };
        assert!(left, "{name}: cells");
    }
}
