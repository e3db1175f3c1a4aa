//! The cases of documents 01 and 02 for the engine, as a description that is read by
//! people: each has a name, what is lent to the run, and the answer that they
//! give. From it are made the input of the program `engine_main` and what the
//! program has to print. The second emulator makes the latter; the engine has no
//! part in it.
//!
//! - `paper`: the cases and the examples with numbers of 01 itself, and every
//!   code of its table;
//! - `refusals`: every refusal, with its places;
//! - `orders`: two faults at once, in 01's order of refusals;
//! - `limits`: budgets, capacities, cells, picks, and what buffers held before;
//! - `hung`: runs with nothing enabled that are not completed (02, R-2);
//! - `procedures`: a LEAVE under path 0 is a result (02, R-5);
//! - `sites`: every LEAVE in an entered path has its caller (02, R-6);
//! - `levels`: calls nest eight levels deep (02, R-8);
//! - `profiles`, `logs`, `bounds`, `bounding`, `arrays`, `expressions`, `saved`: profiles
//!   in ideal steps (02, R-1), logs and replays, bounds, loop bounding,
//!   named arrays, expressions and saved states, which the tests of
//!   these names call through the C functions, apart from the program;
//! - `apart`: which cases tell the wrong emulators of 01 and 02 from a right one.

pub mod apart;
pub mod arrays;
pub mod bounding;
pub mod bounds;
pub mod expressions;
mod hung;
pub mod lent;
mod levels;
mod limits;
pub mod logs;
mod orders;
mod paper;
mod procedures;
pub mod profiles;
mod refusals;
pub mod saved;
mod sites;

use lent::{Lent, Part, TOKEN_RECORD};
use second::{Answer, Program, Schedule};

/// A case: its name, what is lent, and the first line of what the run prints.
pub struct Case {
    pub name: String,
    pub lent: Lent,
    pub says: String,
}

/// A run with a table of named arrays or a bound of loops: what is lent, the answer's line, and
/// how many activities are held back in what it leaves.
#[derive(Clone)]
pub struct RunCase {
    pub name: String,
    pub lent: Lent,
    pub table: Vec<u8>,
    pub bound: u16,
    pub says: String,
    pub held: usize,
}

/// A case by its name, what is lent and its answer as a printed line.
pub fn case(name: impl Into<String>, lent: Lent, says: impl Into<String>) -> Case {
    Case {
        name: name.into(),
        lent,
        says: says.into(),
    }
}

/// All cases, in the order in which they are run.
pub fn all() -> Vec<Case> {
    let mut cases = paper::cases();
    cases.extend(refusals::cases());
    cases.extend(orders::cases());
    cases.extend(limits::cases());
    cases.extend(hung::cases());
    cases.extend(procedures::cases());
    cases.extend(sites::cases());
    cases.extend(levels::cases());
    cases
}

/// What a run answers and leaves.
#[derive(Clone, Debug, PartialEq, Eq)]
pub struct Left {
    pub answer: Answer,
    pub ledger: Vec<u8>,
    pub cells: Vec<u8>,
}

/// An emulator: it runs what is lent.
pub type Emulator = dyn Fn(&Lent) -> Left;

/// The run of the second emulator.
pub fn run(lent: &Lent) -> Left {
    let mut ledger = lent.ledger.bytes();
    let mut cells = lent.cells.bytes();
    let answer = second::run(
        Program::plain(&lent.graph.bytes()),
        &lent.inputs.bytes(),
        Schedule::new(&lent.picks.bytes(), lent.budget),
        &mut ledger,
        &mut cells,
    );
    Left {
        answer,
        ledger,
        cells,
    }
}

/// The first printed line of an answer.
pub fn line_of(answer: &Answer) -> String {
    let line = String::from_utf8(second::print(answer, &[], &[])).expect("the line is ASCII");
    line.trim_end().to_string()
}

/// The input of the program over these cases.
pub fn input(cases: &[Case]) -> Vec<u8> {
    let mut bytes = number(cases.len()).to_vec();
    for case in cases {
        let lent = &case.lent;
        bytes.push(b'\n');
        let numbers = [
            number(usize::from(lent.budget)),
            number(TOKEN_RECORD * lent.first),
        ];
        put(&mut bytes, &Part::of(case.name.clone().into_bytes()));
        put(&mut bytes, &lent.graph);
        put(&mut bytes, &lent.inputs);
        put(&mut bytes, &lent.picks);
        put(&mut bytes, &lent.ledger);
        put(&mut bytes, &lent.cells);
        put(&mut bytes, &Part::of(numbers.concat()));
    }
    bytes.push(b'\n');
    bytes
}

fn number(n: usize) -> [u8; 2] {
    u16::try_from(n)
        .expect("every number of the input has two bytes")
        .to_le_bytes()
}

fn put(bytes: &mut Vec<u8>, part: &Part) {
    bytes.extend(number(part.given.len()));
    bytes.extend(number(part.length));
    bytes.extend(&part.given);
}

/// What the program has to print over these cases, by an emulator.
pub fn output(cases: &[Case], emulator: &Emulator) -> Vec<u8> {
    let mut text = Vec::new();
    for case in cases {
        text.extend(lines(case, &emulator(&case.lent)));
    }
    text.extend(format!("cases {}, all\n", cases.len()).into_bytes());
    text
}

/// The lines of a case: its name, the printed lines with the ledger's records in
/// order of arrival, and what of ledger and cells is as lent.
pub fn lines(case: &Case, left: &Left) -> Vec<u8> {
    let used = (TOKEN_RECORD * left.answer.tokens).min(left.ledger.len());
    let first = (TOKEN_RECORD * case.lent.first).min(used);
    // Without a token no cell is waiting or present: the bytes are as lent, or zeros.
    let cells = if used == 0 { &[] } else { &left.cells[..] };
    let mut text = format!("{}\n", case.name).into_bytes();
    text.extend(second::print(
        &left.answer,
        &left.ledger[first..used],
        cells,
    ));
    text.extend(buffer_line("ledger", &left.ledger, &case.lent.ledger, used));
    text.extend(buffer_line("cells", &left.cells, &case.lent.cells, 0));
    text
}

fn buffer_line(word: &str, left: &[u8], lent: &Part, from: usize) -> Vec<u8> {
    let lent = lent.bytes();
    let kept = match (from..left.len()).find(|&i| left[i] != lent[i]) {
        None => format!("as lent from byte {from}"),
        Some(changed) => format!("changed at byte {changed}"),
    };
    let sum = left
        .iter()
        .fold(0, |sum, &byte| (sum * 257 + usize::from(byte) + 1) % 65521);
    format!("{word} {kept} of {}, sum {sum}\n", left.len()).into_bytes()
}
