//! One call of the engine beside the same call of the second emulator.

use std::time::{Duration, Instant};

use layout::widths::{CELL, LOGGED, MOST_CELLS, MOST_RECORDS, TOKEN};
use second::{Answer, Counts, Outcome, Program, Refusal, Schedule};

use crate::conversions::Records;
use crate::prng::Prng;

/// What is called.
#[derive(Clone)]
pub enum Call {
    Run,
    /// A run with a log of this length in bytes.
    Logged(usize),
    /// A profile of this length in bytes; picks and budget are not lent.
    Profile(usize),
    /// The replay of a log; picks and budget are not lent.
    Replay(Vec<u8>),
    /// A run from a saved state; no inputs are lent.
    CarryOn(State),
}

/// A saved state: ledger and cells with the counts.
#[derive(Clone)]
pub struct State {
    pub saved: Counts,
    pub ledger: Vec<u8>,
    pub cells: Vec<u8>,
}

impl Call {
    /// The call by its name, and the bytes of its log or profile.
    pub fn name(&self) -> String {
        match self {
            Call::Run => "run".to_string(),
            Call::Logged(bytes) => format!("run with a log of {bytes} bytes"),
            Call::Profile(bytes) => format!("profile of {bytes} bytes"),
            Call::Replay(log) => format!("replay of {} bytes", log.len()),
            Call::CarryOn(state) => format!("run from a state with {:?}", state.saved),
        }
    }
}

/// What is lent to a call. The buffers that it writes hold random bytes by a seed.
#[derive(Clone)]
pub struct Case {
    pub kind: &'static str,
    pub call: Call,
    pub graph: Vec<u8>,
    /// The table of named arrays.
    pub arrays: Vec<u8>,
    pub inputs: Vec<u8>,
    pub picks: Vec<u8>,
    pub budget: u16,
    /// The bound of loops, 0 for none.
    pub bound: u16,
    pub ledger_bytes: usize,
    pub cells_bytes: usize,
    pub garbage: u64,
}

/// What the second emulator leaves.
pub struct Left {
    pub answer: Answer,
    pub ledger: Vec<u8>,
    pub cells: Vec<u8>,
    /// The profile, or the log of a run.
    pub further: Vec<u8>,
    /// The number of records of the profile.
    pub records: usize,
    pub listing: Vec<u8>,
}

impl Left {
    /// The used records of the ledger.
    pub fn used(&self) -> &[u8] {
        &self.ledger[..TOKEN * self.answer.tokens]
    }

    /// The log of a logged run: a record for each firing.
    pub fn log(&self) -> &[u8] {
        &self.further[..LOGGED * self.answer.firings]
    }
}

/// The time that each emulator has taken.
#[derive(Default)]
pub struct Clock {
    pub engine: Duration,
    pub second: Duration,
}

/// A buffer with bytes around it that the engine has to leave alone.
pub struct Guarded {
    bytes: Vec<u8>,
    front: usize,
    length: usize,
}

const GUARD: u8 = 0xc3;

impl Guarded {
    /// The front varies, so that the engine meets every alignment.
    pub fn new(contents: &[u8], front: usize) -> Guarded {
        let mut bytes = vec![GUARD; front];
        bytes.extend_from_slice(contents);
        bytes.extend([GUARD; 32]);
        Guarded {
            bytes,
            front,
            length: contents.len(),
        }
    }

    pub fn lent(&mut self) -> &mut [u8] {
        &mut self.bytes[self.front..self.front + self.length]
    }

    fn contents(&self) -> &[u8] {
        &self.bytes[self.front..self.front + self.length]
    }

    fn intact(&self) -> bool {
        let behind = &self.bytes[self.front + self.length..];
        self.bytes[..self.front]
            .iter()
            .chain(behind)
            .all(|&byte| byte == GUARD)
    }

    /// The bytes are those that are due, and those around them are untouched.
    pub fn holds(&self, name: &str, due: &[u8]) -> Result<(), String> {
        if !self.intact() {
            return Err(format!("{name}: bytes outside the buffer were written"));
        }
        equal(name, self.contents(), due)
    }
}

/// The answer of a number, by the words of ttda.h: an unknown word is no answer's,
/// nor is a place where nothing is refused.
fn answer_of(number: u64) -> Option<Answer> {
    let (word, firings, tokens, place) = engine::unpacked(number);
    let outcome = match (word, place) {
        (engine::COMPLETED, 0) => Outcome::Completed,
        (engine::HUNG, 0) => Outcome::Hung,
        (engine::SPENT, 0) => Outcome::Spent,
        (word, _) if engine::is_refusal(word) => Outcome::Refused(Refusal {
            number: word as u8,
            place: place as usize,
        }),
        _ => return None,
    };
    Some(Answer {
        outcome,
        firings: firings as usize,
        tokens: tokens as usize,
    })
}

/// The buffers that a call writes; the further one is a profile or a log.
struct Buffers<B> {
    ledger: B,
    cells: B,
    further: B,
}

impl Case {
    pub fn program(&self) -> Program<'_> {
        Program {
            graph: &self.graph,
            arrays: &self.arrays,
        }
    }

    pub fn schedule(&self) -> Schedule<'_> {
        Schedule::new(&self.picks, self.budget).bounded(self.bound)
    }

    /// Whether inputs, ledger and cells are whole records and not too many.
    pub fn stores_fit(&self) -> bool {
        [
            (self.inputs.len(), TOKEN, MOST_RECORDS),
            (self.ledger_bytes, TOKEN, MOST_RECORDS),
            (self.cells_bytes, CELL, MOST_CELLS),
        ]
        .iter()
        .all(|&(bytes, record, most)| bytes % record == 0 && bytes / record <= most)
    }

    /// The buffers as they are lent.
    fn buffers(&self, prng: &mut Prng) -> Buffers<Vec<u8>> {
        let mut garbage = |length: usize| {
            let mut bytes = vec![0; length];
            prng.fill(&mut bytes);
            bytes
        };
        let further_bytes = match self.call {
            Call::Profile(bytes) | Call::Logged(bytes) => bytes,
            Call::Run | Call::Replay(_) | Call::CarryOn(_) => 0,
        };
        if let Call::CarryOn(state) = &self.call {
            return Buffers {
                ledger: state.ledger.clone(),
                cells: state.cells.clone(),
                further: Vec::new(),
            };
        }
        Buffers {
            ledger: garbage(self.ledger_bytes),
            cells: garbage(self.cells_bytes),
            further: garbage(further_bytes),
        }
    }

    /// The second emulator's answer, and the number of records of a profile.
    fn second(&self, lent: &mut Buffers<Vec<u8>>) -> (Answer, usize) {
        let (program, inputs, schedule) = (self.program(), &self.inputs, self.schedule());
        let (ledger, cells, further) = (&mut lent.ledger, &mut lent.cells, &mut lent.further);
        let answer = match &self.call {
            Call::Run => second::run(program, inputs, schedule, ledger, cells),
            Call::Logged(_) => {
                second::run_logged(program, inputs, schedule, ledger, cells, further)
            }
            Call::Profile(_) => {
                let profiled = second::profile(program, inputs, ledger, cells, further);
                return (profiled.answer, profiled.records);
            }
            Call::Replay(log) => second::replay(program, inputs, log, ledger, cells),
            Call::CarryOn(state) => second::carry_on(program, schedule, state.saved, ledger, cells),
        };
        (answer, 0)
    }

    /// The engine's answer, packed, and the number of records of a profile.
    fn engine(&self, lent: &mut Buffers<Guarded>) -> (u64, u64) {
        let (program, inputs, schedule) = (self.program(), &self.inputs, self.schedule());
        let (ledger, cells) = (lent.ledger.lent(), lent.cells.lent());
        let further = lent.further.lent();
        let answer = match &self.call {
            Call::Run => engine::run(program, inputs, schedule, ledger, cells),
            Call::Logged(_) => {
                engine::run_logged(program, inputs, schedule, ledger, cells, further)
            }
            Call::Profile(_) => return engine::profile(program, inputs, ledger, cells, further),
            Call::Replay(log) => engine::replay(program, inputs, log, ledger, cells),
            Call::CarryOn(state) => engine::carry_on(program, schedule, state.saved, ledger, cells),
        };
        (answer, 0)
    }
}

/// Calls both and compares answer, all bytes that are left, listing and printed lines.
pub fn compare(case: &Case, clock: &mut Clock) -> (Left, Result<(), String>) {
    let mut prng = Prng::new(case.garbage);
    let mut due = case.buffers(&mut prng);
    let front = 16 + prng.below(8);
    let mut found = Buffers {
        ledger: Guarded::new(&due.ledger, front),
        cells: Guarded::new(&due.cells, front + 1),
        further: Guarded::new(&due.further, front + 3),
    };
    let start = Instant::now();
    let (answer, records) = case.second(&mut due);
    clock.second += start.elapsed();
    let mut listing = vec![0; TOKEN * answer.tokens];
    let code = second::list(&due.ledger[..TOKEN * answer.tokens], &mut listing);
    assert_eq!(code, 0, "the second emulator lists its own ledger");
    let left = Left {
        answer,
        ledger: due.ledger,
        cells: due.cells,
        further: due.further,
        records,
        listing,
    };
    let start = Instant::now();
    let engine_answer = case.engine(&mut found);
    clock.engine += start.elapsed();
    let result = check_call(&left, engine_answer, &found)
        .and_then(|()| compare_listing(left.used(), left.used().len(), &mut prng))
        .and_then(|()| compare_printing(&left, &mut prng));
    (left, result)
}

fn check_call(
    left: &Left,
    (answer, records): (u64, u64),
    found: &Buffers<Guarded>,
) -> Result<(), String> {
    let due = engine::packed_answer(&left.answer);
    if answer != due {
        return Err(format!(
            "answer (word, firings, tokens, place): {:?}, due {:?}",
            engine::unpacked(answer),
            engine::unpacked(due)
        ));
    }
    if records != left.records as u64 {
        return Err(format!("profile: {records} records, due {}", left.records));
    }
    for (name, found, due) in [
        ("ledger", &found.ledger, &left.ledger),
        ("cells", &found.cells, &left.cells),
        ("profile or log", &found.further, &left.further),
    ] {
        found.holds(name, due)?;
    }
    Ok(())
}

fn equal(name: &str, found: &[u8], due: &[u8]) -> Result<(), String> {
    match (0..due.len()).find(|&at| found.get(at) != Some(&due[at])) {
        Some(at) => Err(format!(
            "{name}: byte {at} of {} is {:?}, due {}",
            due.len(),
            found.get(at),
            due[at]
        )),
        None if found.len() != due.len() => {
            Err(format!("{name}: {} bytes, due {}", found.len(), due.len()))
        }
        None => Ok(()),
    }
}

/// Compares the listings of any bytes lent as a ledger, with an output of any
/// length.
pub fn compare_listing(records: &[u8], out_bytes: usize, prng: &mut Prng) -> Result<(), String> {
    let mut due = vec![0; out_bytes];
    prng.fill(&mut due);
    let mut found = Guarded::new(&due, 16 + prng.below(8));
    let due_code = second::list(records, &mut due);
    let code = engine::list(records, found.lent());
    if code != due_code {
        return Err(format!("listing: answer {code}, due {due_code}"));
    }
    found.holds("listing", &due)
}

/// Compares what both converters make of any bytes, with an output of any length.
pub fn compare_conversion(
    records: Records,
    old: &[u8],
    out_bytes: usize,
    prng: &mut Prng,
) -> Result<(), String> {
    let mut due = vec![0; out_bytes];
    prng.fill(&mut due);
    let mut found = Guarded::new(&due, 16 + prng.below(8));
    let (due_code, code) = match records {
        Records::Tokens => (
            second::convert(old, &mut due),
            engine::convert(old, found.lent()),
        ),
        Records::Log => (
            second::convert_log(old, &mut due),
            engine::convert_log(old, found.lent()),
        ),
    };
    if code != due_code {
        return Err(format!("answer {code}, due {due_code}"));
    }
    if !found.intact() {
        return Err("bytes outside the output were written".to_string());
    }
    equal("output", found.contents(), &due)
}

/// Compares the lines that both print of a run, and now and then those of another
/// answer, which may be none.
fn compare_printing(left: &Left, prng: &mut Prng) -> Result<(), String> {
    // A run that is refused at once leaves the cells as lent, any bytes here; the
    // program lends zeros.
    let cells = match left.answer.refused_at_once() {
        true => vec![0; left.cells.len()],
        false => left.cells.clone(),
    };
    let number = engine::packed_answer(&left.answer);
    compare_text(number, &left.listing, &cells, prng)?;
    if prng.one_in(4) {
        let word = [prng.below(27), prng.below(65_536), 98 + prng.below(6)][prng.below(3)] as u64;
        let place = if prng.one_in(2) { 0 } else { prng.word() >> 48 };
        let counts = prng.word() >> 16 & 0xffff_ffff;
        let number = word | counts << 16 | place << 48;
        compare_text(number, &left.listing, &cells, prng)?;
    }
    Ok(())
}

fn compare_text(number: u64, listing: &[u8], cells: &[u8], prng: &mut Prng) -> Result<(), String> {
    let text = answer_of(number).map(|answer| second::print(&answer, listing, cells));
    let length = text.as_ref().map_or(100, Vec::len);
    let room = match prng.below(6) {
        0 => length - 1,
        1 => prng.below(length),
        2 | 3 => length,
        _ => length + prng.below(40),
    };
    let mut due = vec![0; room];
    prng.fill(&mut due);
    let mut found = Guarded::new(&due, 16 + prng.below(8));
    let due_code = match text {
        None => engine::NO_ANSWER,
        Some(text) if text.len() > room => engine::TOO_SMALL,
        Some(text) => {
            due[..text.len()].copy_from_slice(&text);
            text.len() as u64
        }
    };
    let code = engine::print(number, listing, cells, found.lent());
    if code != due_code {
        return Err(format!("printing {number}: answer {code}, due {due_code}"));
    }
    found.holds("printed text", &due)
}
