//! The calls beside a plain run: the same run under a table of named arrays, the profile
//! of a work, its run with a log, the replay of that log, and the check of the state that the run left, each against the engine's own
//! run in the same rounds; and the bounds of a graph of 256 records. Each call is made a block of times before the next,
//! so that what is compared is the calls, and not who finds more of its buffers in the
//! caches.

use super::{microseconds, middle, ratio, time, Kind, Lent, BLOCK, BUDGET, KINDS, SIZES};
use layout::widths;

use crate::work::{self, Work};
use second::{Program, Schedule};
use std::time::Duration;

/// A call of the engine on what it is lent; the further buffer is the table, the profile or
/// log, or has the counts of a saved state.
type Call = fn(&mut Lent, &mut [u8]) -> u64;

/// Each call with its name and, where there is one, the most that it may take of the
/// run's time.
const CALLS: [(&str, Call, Option<f64>); 6] = [
    ("run", run, None),
    ("run under a table", run_under_table, Some(1.03)),
    ("profile", profile, Some(1.5)),
    ("run with a log", run_logged, Some(1.1)),
    ("replay", replay, None),
    ("check of its state", carry_on, None),
];

fn run(lent: &mut Lent, _: &mut [u8]) -> u64 {
    lent.engine()
}

/// The run with named arrays that its graph does not use.
pub fn run_under_table(lent: &mut Lent, arrays: &mut [u8]) -> u64 {
    let program = Program {
        graph: &lent.work.graph,
        arrays,
    };
    let schedule = Schedule::new(&lent.picks, BUDGET);
    let (ledger, cells) = (&mut lent.ledger, &mut lent.cells);
    engine::run(program, &lent.work.inputs, schedule, ledger, cells)
}

/// The run with a loop bound.
pub fn run_bounded(lent: &mut Lent, bound: u16) -> u64 {
    let (program, inputs) = (lent.work.program(), &lent.work.inputs);
    let schedule = Schedule::new(&lent.picks, BUDGET).bounded(bound);
    engine::run(program, inputs, schedule, &mut lent.ledger, &mut lent.cells)
}

/// As many arrays as a table may have, all empty.
pub fn full_table() -> Vec<u8> {
    vec![0; widths::ARRAY * widths::MOST_ARRAYS]
}

fn profile(lent: &mut Lent, profile: &mut [u8]) -> u64 {
    let (program, inputs) = (lent.work.program(), &lent.work.inputs);
    engine::profile(program, inputs, &mut lent.ledger, &mut lent.cells, profile).0
}

fn run_logged(lent: &mut Lent, log: &mut [u8]) -> u64 {
    let (program, inputs) = (lent.work.program(), &lent.work.inputs);
    let (ledger, cells) = (&mut lent.ledger, &mut lent.cells);
    let schedule = Schedule::new(&lent.picks, BUDGET);
    engine::run_logged(program, inputs, schedule, ledger, cells, log)
}

fn replay(lent: &mut Lent, log: &mut [u8]) -> u64 {
    let (program, inputs) = (lent.work.program(), &lent.work.inputs);
    engine::replay(program, inputs, log, &mut lent.ledger, &mut lent.cells)
}

/// Carries on with a budget of 0, so that the state is checked and nothing fires.
fn carry_on(lent: &mut Lent, counts: &mut [u8]) -> u64 {
    let count = |at: usize| u16::from_le_bytes([counts[at], counts[at + 1]]);
    let saved = second::Counts {
        firings: count(0),
        tokens: count(2),
    };
    let (ledger, cells) = (&mut lent.ledger, &mut lent.cells);
    let (program, schedule) = (lent.work.program(), Schedule::new(&[], 0));
    engine::carry_on(program, schedule, saved, ledger, cells)
}

/// What a run that gave this answer counted, as `carry_on` takes it.
fn counts(answer: u64) -> Vec<u8> {
    answer.to_le_bytes()[2..6].to_vec()
}

/// A work of one size, with what each call is lent and its times.
pub struct Calls {
    name: &'static str,
    size: usize,
    lent: Vec<(Lent, Vec<u8>)>,
    times: [Vec<Duration>; CALLS.len()],
}

/// All works in all sizes.
pub fn all() -> Vec<Calls> {
    let of_kind = |kind: Kind| SIZES.map(|size| Calls::new(kind, size));
    KINDS.into_iter().flat_map(of_kind).collect()
}

impl Calls {
    pub fn new((name, work, newest): Kind, size: usize) -> Calls {
        let lent = || Lent::new(work(size), size, newest);
        let log = agreed(&mut lent());
        let profile = vec![0; widths::STEP * usize::from(BUDGET)];
        let room = vec![0; widths::LOGGED * usize::from(BUDGET)];
        let further = [Vec::new(), full_table(), profile, room, log];
        let mut all = Vec::from(further.map(|further| (lent(), further)));
        let mut ended = lent();
        let counts = counts(ended.engine());
        all.push((ended, counts));
        Calls {
            name,
            size,
            lent: all,
            times: Default::default(),
        }
    }

    /// Makes each call a block of times. Each block of calls begins with another one, so
    /// that all meet the same load of the computer.
    pub fn block(&mut self) {
        let first = self.times[0].len() / BLOCK;
        for turn in first..first + CALLS.len() {
            self.block_of(turn % CALLS.len());
        }
    }

    fn block_of(&mut self, number: usize) {
        let (lent, further) = &mut self.lent[number];
        for _ in 0..BLOCK {
            self.times[number].push(time(|| CALLS[number].1(lent, further)));
        }
    }

    /// How much of the run's time a call takes.
    fn share(&self, number: usize) -> f64 {
        let [run, call] = [0, number].map(|n| middle(&self.times[n]).as_secs_f64());
        call / run
    }

    fn print(&self) {
        let run = middle(&self.times[0]);
        print!("| {} | {} | {} |", self.name, self.size, microseconds(run));
        for times in &self.times[1..] {
            let call = middle(times);
            print!(" {} | {} |", microseconds(call), ratio(call, run));
        }
        println!();
    }
}

/// The log of the work's run, once profile, logged run and replay of the engine have
/// left what those of the second emulator leave, and the state has been taken as it is.
fn agreed(lent: &mut Lent) -> Vec<u8> {
    let (program, inputs) = (lent.work.program(), &lent.work.inputs);
    let (mut ledger, mut cells) = (lent.ledger.clone(), lent.cells.clone());
    let mut due = vec![0; widths::STEP * usize::from(BUDGET)];
    let mut found = due.clone();
    let profiled = second::profile(program, inputs, &mut ledger, &mut cells, &mut due);
    let answer = engine::packed_answer(&profiled.answer);
    assert_eq!(profile(lent, &mut found), answer, "profile");
    assert!(found == due && ledger == lent.ledger && cells == lent.cells);

    let (program, inputs) = (lent.work.program(), &lent.work.inputs);
    let schedule = Schedule::new(&lent.picks, BUDGET);
    let mut due = vec![0; widths::LOGGED * usize::from(BUDGET)];
    let mut found = due.clone();
    let (ledger, cells) = (&mut ledger, &mut cells);
    let answer = second::run_logged(program, inputs, schedule, ledger, cells, &mut due);
    let packed = engine::packed_answer(&answer);
    assert_eq!(run_logged(lent, &mut found), packed, "run with a log");
    assert!(found == due && *ledger == lent.ledger && *cells == lent.cells);

    assert_eq!(run_under_table(lent, &mut full_table()), packed, "table");
    assert!(*ledger == lent.ledger && *cells == lent.cells);

    found.truncate(widths::LOGGED * answer.firings);
    assert_eq!(replay(lent, &mut found), packed, "replay");
    assert!(*ledger == lent.ledger && *cells == lent.cells);
    let checked = carry_on(lent, &mut counts(packed));
    assert_eq!(checked, packed, "check of its state");
    assert!(*ledger == lent.ledger && *cells == lent.cells);
    found
}

/// Prints the table, and the largest share of the run's time for each call.
pub fn print(works: &[Calls]) {
    println!("The engine's other calls on the same work, against its run in the same rounds.");
    println!();
    print!("| work | size | run |");
    for (name, _, _) in &CALLS[1..] {
        print!(" {name} | {name} / run |");
    }
    println!("\n|---|---:|{}", "---:|".repeat(2 * CALLS.len() - 1));
    works.iter().for_each(Calls::print);
    println!();
    for (number, (name, _, most)) in CALLS.iter().enumerate().skip(1) {
        let largest = works
            .iter()
            .map(|work| work.share(number))
            .fold(0.0, f64::max);
        let limit = most.map_or(String::new(), |most| {
            format!(" (at most {most} is asked for)")
        });
        println!("- {name} / run, the largest: {largest:.2}{limit}");
    }
}

/// A call that fires nothing, on a graph or on the records of an expression.
type Made = fn(&Work) -> u64;

/// What such a call is made on, with the times of both emulators.
pub struct Bounds {
    name: &'static str,
    work: Work,
    calls: [Made; 2],
    times: [Vec<Duration>; 2],
}

/// Bytes of the longest graph.
const MOST_GRAPH: usize = widths::INSTRUCTION * widths::MOST_INSTRUCTIONS;

const BOUNDS: [Made; 2] = [
    |work| engine::bounds(&work.graph, &work.inputs),
    |work| engine::packed_bounds(&second::bounds(&work.graph, &work.inputs)),
];
const EXPRESSION: [Made; 2] = [
    |work| engine::expression(&work.graph, &mut [0; MOST_GRAPH]),
    |work| {
        let made = second::expression(&work.graph, &mut [0; MOST_GRAPH]);
        engine::packed_expression(&made)
    },
];

pub fn all_bounds() -> Vec<Bounds> {
    let made = [
        (
            "bounds: chain, the first record first",
            work::chain(false),
            BOUNDS,
        ),
        (
            "bounds: chain, the last record first",
            work::chain(true),
            BOUNDS,
        ),
        (
            "graph of an expression of 99 records",
            work::sum(50),
            EXPRESSION,
        ),
    ];
    made.map(|(name, work, calls)| {
        assert_eq!(calls[0](&work), calls[1](&work), "{name}");
        Bounds {
            name,
            work,
            calls,
            times: Default::default(),
        }
    })
    .into()
}

impl Bounds {
    pub fn runs(&mut self, times: usize) {
        for _ in 0..times {
            for (call, times) in self.calls.iter().zip(&mut self.times) {
                times.push(time(|| call(&self.work)));
            }
        }
    }
}

pub fn print_bounds(all: &[Bounds]) {
    println!("Calls that fire nothing: bounds of a graph of 256 records, all of them reached, and the graph of an expression.");
    println!();
    println!("| call | engine | second | engine / second |");
    println!("|---|---:|---:|---:|");
    for made in all {
        let [engine_time, second_time] = [0, 1].map(|n| middle(&made.times[n]));
        println!(
            "| {} | {} | {} | {} |",
            made.name,
            microseconds(engine_time),
            microseconds(second_time),
            ratio(engine_time, second_time),
        );
    }
}
