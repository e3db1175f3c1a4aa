//! Plain runs with inputs chosen at random within their ranges, each compared with what the run of ranges promises.

use asm::RangedInput;

use super::input_name;
use crate::answer::count;
use crate::failure::Failure;
use crate::loads::Loads;
use crate::machine::{End, Machine};
use crate::program::Program;
use crate::random::Random;
use crate::records::{token, Cell, State, Token, TOKEN};
use crate::results;
use crate::value::Value;

/// Which value of a run it is: an input, a token of the ledger or a cell, by its number.
#[derive(Clone, Copy)]
enum Place {
    Input(usize),
    Token(usize),
    Cell(usize),
}

/// A value that ranges, with what it was in each sample.
pub struct Row {
    pub name: String,
    pub promised: Value,
    pub values: Vec<i32>,
    place: Place,
}

impl Row {
    fn new(name: String, promised: Value, place: Place) -> Row {
        Row {
            name,
            promised,
            values: Vec::new(),
            place,
        }
    }

    /// From the least to the most of the samples, of which there is one at least.
    pub fn spread(&self) -> Value {
        let end = |end: Option<&i32>| end.copied().unwrap_or(self.promised.low);
        Value {
            low: end(self.values.iter().min()),
            high: end(self.values.iter().max()),
        }
    }
}

/// How many samples, and by which random numbers.
#[derive(Clone, Copy)]
pub struct Wish {
    pub count: u32,
    pub seed: u64,
}

impl Wish {
    /// `1000 samples, seed 1`.
    pub fn words(&self) -> String {
        let samples = count(self.count as usize, "sample");
        format!("{samples}, seed {}", self.seed)
    }
}

pub struct Sampled {
    pub wish: Wish,
    /// The inputs that are ranges.
    pub inputs: Vec<Row>,
    /// Results, tokens that wait and cells that the run wrote, as far as they are no single values.
    pub left: Vec<Row>,
}

/// Takes samples of a run of ranges that completed or hung, in the same order. One that is not as promised is a fault of the
/// engine, and nothing else is shown then.
pub fn of(
    machine: &Machine,
    (picks, budget): (&[u8], u16),
    promised: &End,
    wish: Wish,
) -> Result<Sampled, Failure> {
    let program = machine.program;
    let ranges = program.ranges.iter();
    let mut sampled = Sampled {
        wish,
        inputs: ranges.map(|range| input_row(program, range)).collect(),
        left: left_rows(program, promised),
    };
    let mut random = Random::new(wish.seed);
    for number in 1..=wish.count {
        let inputs = chosen(program, &mut random, &mut sampled.inputs);
        let end = machine.run_inputs(&inputs, picks, budget);
        if let Some(why) = broken(program, promised, &end) {
            return Err(outside(&sampled, number, &why));
        }
        note(&mut sampled.left, &end);
    }
    Ok(sampled)
}

fn input_row(program: &Program, range: &RangedInput) -> Row {
    let name = input_name(program, range.input);
    let promised = Value {
        low: range.low,
        high: range.high,
    };
    Row::new(name, promised, Place::Input(range.input))
}

/// What is left and is no single value: results first, then tokens that wait, then cells that no line loads.
fn left_rows(program: &Program, end: &End) -> Vec<Row> {
    let tokens = end.tokens();
    let shown =
        |(_, token): &(usize, &Token)| token.state == State::Live && !token.value.is_single();
    let mut live: Vec<(usize, &Token)> = tokens.iter().enumerate().filter(shown).collect();
    live.sort_by_key(|(_, t)| (!results::is_result(program, t), t.tag, t.port));
    let row = |(place, token): (usize, &Token)| {
        let name = program.port(&token.tag, token.port);
        Row::new(name, token.value, Place::Token(place))
    };
    let loaded = Loads::of(program).done(&tokens);
    let cells = end.cells().into_iter().enumerate();
    let cell = |(number, cell): (usize, Cell)| match cell {
        Cell::Present(value) if !value.is_single() && !loaded.contains_key(&(number as i32)) => {
            let name = program.cell(number as i32);
            Some(Row::new(name, value, Place::Cell(number)))
        }
        _ => None,
    };
    let live = live.into_iter().map(row);
    live.chain(cells.filter_map(cell)).collect()
}

/// Inputs of which each is chosen within its range.
fn chosen(program: &Program, random: &mut Random, rows: &mut [Row]) -> Vec<u8> {
    let mut inputs = program.files.inputs.clone();
    for row in rows {
        let Place::Input(number) = row.place else {
            continue;
        };
        let value = random.within(row.promised);
        inputs[TOKEN * number..][token::VALUE].copy_from_slice(&value.to_le_bytes());
        row.values.push(value);
    }
    inputs
}

/// Notes what a sample left.
fn note(rows: &mut [Row], end: &End) {
    let (tokens, cells) = (end.tokens(), end.cells());
    for row in rows {
        let value = match row.place {
            Place::Token(place) => Some(tokens[place].value.low),
            Place::Cell(number) => present(&cells[number]),
            Place::Input(_) => None,
        };
        row.values.extend(value);
    }
}

fn present(cell: &Cell) -> Option<i32> {
    match cell {
        Cell::Present(value) => Some(value.low),
        Cell::Absent | Cell::Waiting => None,
    }
}

/// What a plain run does not keep of the promise, if it breaks it: the same answer, the same tokens place by place, each value
/// within its range, and cells likewise.
fn broken(program: &Program, promised: &End, plain: &End) -> Option<String> {
    let said = |end: &End| format!("{}: {}", end.answer.words(), end.answer.counts());
    if said(promised) != said(plain) {
        return Some(format!("{}, and not {}", said(plain), said(promised)));
    }
    let tokens = promised.tokens().into_iter().zip(plain.tokens());
    let cells = promised.cells().into_iter().zip(plain.cells()).enumerate();
    let token = |(wide, token): (Token, Token)| broken_token(program, &wide, &token);
    let cell = |(number, (wide, cell)): (usize, (Cell, Cell))| {
        let name = program.cell(number as i32);
        broken_cell(&wide, &cell).map(|why| format!("{name} {why}"))
    };
    let mut all = tokens.filter_map(token).chain(cells.filter_map(cell));
    all.next()
}

fn broken_token(program: &Program, wide: &Token, token: &Token) -> Option<String> {
    let name = |t: &Token| format!("{}, {}", program.port(&t.tag, t.port), t.state.word());
    let value = token.value.low;
    if (wide.tag, wide.port, wide.state) != (token.tag, token.port, token.state) {
        return Some(format!("a token {}, and not {}", name(token), name(wide)));
    }
    let is_within = wide.value.contains(value);
    (!is_within).then(|| {
        let name = program.port(&token.tag, token.port);
        format!("{name} = {value} is outside {}", wide.value)
    })
}

fn broken_cell(wide: &Cell, cell: &Cell) -> Option<String> {
    match (wide, cell) {
        (Cell::Present(range), Cell::Present(value)) if range.contains(value.low) => None,
        (Cell::Present(range), Cell::Present(value)) => {
            Some(format!("= {value} is outside {range}"))
        }
        _ if wide == cell => None,
        _ => Some("is in another state".to_string()),
    }
}

/// The failure of a sample, with the inputs that show it.
fn outside(sampled: &Sampled, number: u32, why: &str) -> Failure {
    let last = |row: &Row| format!("{} = {}", row.name, row.values[row.values.len() - 1]);
    let inputs: Vec<String> = sampled.inputs.iter().map(last).collect();
    let (words, inputs) = (sampled.wish.words(), inputs.join(", "));
    Failure::Inconsistent(format!(
        "sample {number} of {words} is outside what is promised: {why}\n  its inputs: {inputs}"
    ))
}

#[cfg(test)]
mod tests {
    use super::*;
    use crate::machine::{Sizes, WHOLE};

    const TEXT: &str =
        "a: ADD -> b\nb: COPY -> out store.1\nout: OUT\nstore: STORE\ngate: GATE -> out\n\
        input a.0 = 3..5\ninput a.1 = -2..2\ninput store.0 = 7\ninput gate.1 = 0..9\n";

    fn program(text: &str) -> Program {
        Program::typed_ranges("test", text.as_bytes().to_vec()).unwrap()
    }

    fn machine(program: &Program) -> Machine<'_> {
        Machine::new(program, Sizes::default()).ranged(true)
    }

    #[test]
    fn inputs_and_what_is_left() {
        let program = program(TEXT);
        let machine = machine(&program);
        let end = machine.run(&[], WHOLE);
        let wish = Wish { count: 50, seed: 1 };
        let sampled = of(&machine, (&[], WHOLE), &end, wish).unwrap();
        let names = |rows: &[Row]| -> Vec<String> {
            let row = |row: &Row| format!("{} {}", row.name, row.promised);
            rows.iter().map(row).collect()
        };
        assert_eq!(
            names(&sampled.inputs),
            ["a.0 3..5", "a.1 -2..2", "gate.1 0..9"]
        );
        let left = ["out[0] 1..7", "gate[0].1 0..9", "cell 7 1..7"];
        assert_eq!(names(&sampled.left), left);
        for row in sampled.inputs.iter().chain(&sampled.left) {
            assert_eq!(row.values.len(), 50);
            assert!(
                row.promised.contains(row.spread().low) && row.promised.contains(row.spread().high)
            );
        }
        let [a, b] = [0, 1].map(|row: usize| &sampled.inputs[row].values);
        let sums: Vec<i32> = a.iter().zip(b).map(|(a, b)| a + b).collect();
        assert_eq!(sampled.left[0].values, sums);
        assert_eq!(sampled.left[2].values, sums);
    }

    /// A promise that is too narrow, of another answer or of another state is noticed, and the inputs are named.
    #[test]
    fn a_sample_outside_is_a_failure() {
        let (whole, narrow) = (program(TEXT), TEXT.replace("-2..2", "-2..-1"));
        let other = |change: &str, to: &str| program(&TEXT.replace(change, to));
        let cases = [
            (program(&narrow), "is outside"),
            (other("gate: GATE", "gate: ADD"), ""),
            (other("input gate.1 = 0..9\n", ""), "and not"),
            (
                other("store.0 = 7", "store.0 = 8"),
                "store[0].0 = 7 is outside 8",
            ),
            (
                other("gate.1", "gate.0"),
                "a token gate[0].1, live, and not gate[0].0, live",
            ),
        ];
        for (promising, words) in &cases {
            let promised = machine(promising).run(&[], WHOLE);
            let wish = Wish { count: 20, seed: 1 };
            let sampled = of(&machine(&whole), (&[], WHOLE), &promised, wish);
            if words.is_empty() {
                assert!(sampled.is_ok());
                continue;
            }
            let failure = sampled.err().unwrap();
            assert_eq!(failure.status(), 1);
            let text = failure.to_string();
            assert!(text.contains("is outside what is promised: "), "{text}");
            assert!(
                text.contains(words) && text.contains("its inputs: a.0 = "),
                "{text}"
            );
        }
    }

    #[test]
    fn cells_are_compared() {
        let value = |low, high| Cell::Present(Value { low, high });
        assert_eq!(broken_cell(&value(1, 3), &value(3, 3)), None);
        assert_eq!(broken_cell(&Cell::Waiting, &Cell::Waiting), None);
        let outside = Some("= 4 is outside 1..3".to_string());
        assert_eq!(broken_cell(&value(1, 3), &value(4, 4)), outside);
        let state = Some("is in another state".to_string());
        assert_eq!(broken_cell(&value(1, 3), &Cell::Absent), state);
        assert_eq!(broken_cell(&Cell::Absent, &value(0, 0)), state);
    }
}
