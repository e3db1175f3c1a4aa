//! Random and damaged runs of the engine against the second emulator.
//!
//! Usage: random [RUNS [SEED]] [--keep] [--first]. The same numbers give the same runs. The
//! last line is "N passed, M failed"; the exit status is 1 if a run failed or if
//! an answer, refusal or operation that can be reached never came up, so fewer
//! than a few thousand runs may fail for that. A failed run's files graph, arrays,
//! inputs and picks, and the log of a replay, are written to random-failures/SEED-RUN; with --keep every run's files
//! are written to random-failures/current beforehand, for an engine that crashes.
//! With --first the runs end with the group in which the first one failed.

mod arrays;
mod bounding;
mod bounds;
mod capacities;
mod case;
mod conversions;
mod damage;
mod expressions;
mod generate;
mod logs;
mod loops;
mod meetings;
mod orders;
mod prng;
mod profiles;
mod ranges;
mod records;
mod saved;
mod serves;
mod shapes;
mod states;
mod tally;

use std::fs;
use std::path::Path;
use std::process::ExitCode;

use layout::fields::token;
use layout::widths::{CELL, LOGGED, MOST_CELLS, MOST_RECORDS, PICK, STEP, TOKEN, WHOLE_BUDGET};

use case::{compare, compare_listing, Call, Case, Clock, Left};
use orders::End;
use prng::Prng;
use tally::Tally;

const DEFAULT_RUNS: u64 = 20_000;
const DEFAULT_SEED: u64 = 1;
/// Failures that are written out; later ones are only counted.
const WRITTEN_FAILURES: u64 = 10;

struct Harness {
    seed: u64,
    wanted: u64,
    keep: bool,
    first: bool,
    runs: u64,
    profiles: u64,
    replays: u64,
    carried: u64,
    bounds: u64,
    bounded: u64,
    ranges: u64,
    expressions: u64,
    groups: u64,
    listings: u64,
    requests: u64,
    conversions: u64,
    agreements: u64,
    profile_ends: u64,
    logs_compared: u64,
    failed: u64,
    tally: Tally,
    clock: Clock,
}

impl Harness {
    /// Compares one call and counts it.
    fn call(&mut self, case: &Case) -> Left {
        if self.keep {
            write_files(case, "random-failures/current");
        }
        let (left, result) = compare(case, &mut self.clock);
        if case.bound > 0 {
            self.bounded += 1;
        } else {
            self.count(case, &left);
        }
        if let Err(reason) = result {
            self.fail(case, &reason);
        }
        left
    }

    /// Counts a call without a bound by what it is and by what it came to.
    fn count(&mut self, case: &Case, left: &Left) {
        match case.call {
            Call::Run | Call::Logged(_) => self.runs += 1,
            Call::Profile(_) => self.profiles += 1,
            Call::Replay(_) => self.replays += 1,
            Call::CarryOn(_) => {
                self.runs += 1;
                self.carried += 1;
            }
        }
        self.tally.count(case, left);
    }

    /// All calls that were compared.
    fn calls(&self) -> u64 {
        self.bounded + self.runs + self.profiles + self.replays + self.bounds + self.expressions
    }

    fn fail(&mut self, case: &Case, reason: &str) {
        self.failed += 1;
        if self.failed > WRITTEN_FAILURES {
            return;
        }
        println!(
            "seed {}, group {}, run {}, {}:",
            self.seed,
            self.groups,
            self.calls(),
            case.kind
        );
        println!("  {reason}");
        println!(
            "  {}, budget {}, ledger {} bytes, cells {} bytes",
            case.call.name(),
            case.budget,
            case.ledger_bytes,
            case.cells_bytes
        );
        write_files(
            case,
            &format!("random-failures/{}-{}", self.seed, self.calls()),
        );
    }

    fn done(&self) -> bool {
        self.runs >= self.wanted || self.first && self.failed > 0
    }

    /// One graph under many orders, with other budgets, and damaged.
    fn group(&mut self, prng: &mut Prng) {
        self.groups += 1;
        let case = first_case(prng);
        let ends = self.all_orders(&case, prng);
        self.all_profiles(&case, &ends, prng);
        self.all_logs(&ends, prng);
        self.compare_bounds(&case, &ends);
        self.all_capacities(&ends, prng);
        self.all_conversions(&case, &ends[0].left);
        self.all_states(&ends, prng);
        self.all_requests(&ends, prng);
        self.all_bounded(&ends, prng);
        self.all_ranges(&ends, prng);
        for _ in 0..2 {
            let mut case = case.clone();
            case.budget = [0, 1, 2, prng.below(40) as u16, 65_535][prng.below(5)];
            case.garbage = prng.word();
            case.picks = vec![0; PICK * prng.below(30)];
            prng.fill(&mut case.picks);
            self.call(&case);
            case.call = Call::Logged(logs::bytes(case.budget, prng));
            let left = self.call(&case);
            self.replay_of(&case, &left);
        }
        for _ in 0..4 {
            let mut case = case.clone();
            case.garbage = prng.word();
            case.picks = vec![0; PICK * prng.below(30)];
            prng.fill(&mut case.picks);
            damage::damage(&mut case, prng);
            self.call(&case);
            self.compare_bounds(&case, &[]);
            case.call = match prng.below(4) {
                0 => Call::Profile(profiles::bytes(prng.below(30), prng)),
                1 => Call::Logged(logs::bytes(case.budget, prng)),
                2 => Call::Replay(ends[0].left.log().to_vec()),
                _ => continue,
            };
            self.call(&case);
        }
        if prng.one_in(4) {
            self.arbitrary_listing(&case, prng);
        }
        if prng.one_in(8) {
            self.all_expressions(prng);
        }
    }

    /// Every list of picks, then demand 3 between the first order and each other
    /// one, and the budget that is just enough or one too small. Answers what each
    /// order left.
    pub fn all_orders(&mut self, case: &Case, prng: &mut Prng) -> Vec<End> {
        let mut ends: Vec<End> = Vec::new();
        for picks in orders::pick_lists(case, prng) {
            let mut case = case.clone();
            case.picks = picks;
            case.garbage = prng.word();
            if ends.len() % 3 != 2 {
                case.call = Call::Logged(LOGGED * (MOST_RECORDS + prng.below(2)));
            }
            let left = self.call(&case);
            match ends.first() {
                None => self.short_budget(case.clone(), &left, prng),
                Some(first) => {
                    self.agreements += 1;
                    self.tally.count_pair(&case, &first.left, &left);
                    if let Err(reason) = orders::agree(&first.left, &left) {
                        self.fail(&case, &reason);
                    }
                }
            }
            ends.push(End { case, left });
        }
        ends
    }

    /// A run again with the budget that is just enough or one too small, and a log for it.
    fn short_budget(&mut self, mut case: Case, left: &Left, prng: &mut Prng) {
        let exact = left.answer.firings as u16;
        case.budget = exact.saturating_sub(prng.below(2) as u16);
        case.call = Call::Logged(LOGGED * usize::from(case.budget));
        let left = self.call(&case);
        self.replay_of(&case, &left);
    }

    /// A profile with room for every step ends as each order does; then profiles with
    /// just enough room, too little, or a length that is refused.
    fn all_profiles(&mut self, case: &Case, ends: &[End], prng: &mut Prng) {
        let mut case = case.clone();
        case.garbage = prng.word();
        case.call = Call::Profile(STEP * (MOST_RECORDS + prng.below(3)));
        let left = self.call(&case);
        for end in ends {
            self.profile_ends += 1;
            if let Err(reason) = orders::agree(&end.left, &left) {
                self.fail(&case, &format!("profile against a run: {reason}"));
            }
        }
        if let Err(reason) = profiles::add_up(&left) {
            self.fail(&case, &reason);
        }
        for _ in 0..2 {
            case.garbage = prng.word();
            case.call = Call::Profile(profiles::bytes(left.records, prng));
            self.call(&case);
        }
    }

    /// The listing of records that no run makes: equal keys, any bytes, and
    /// lengths that are refused.
    fn arbitrary_listing(&mut self, case: &Case, prng: &mut Prng) {
        self.listings += 1;
        let count = if prng.one_in(40) {
            2047 + prng.below(3)
        } else {
            prng.below(40)
        };
        let mut records = vec![0; TOKEN * count];
        prng.fill(&mut records);
        for record in records.chunks_exact_mut(TOKEN) {
            if prng.one_in(2) {
                record[token::KEY].fill(0);
                let key = [0, 1, 7, 8, 15, 16, 17, 18, 19][prng.below(9)];
                record[key] = prng.below(3) as u8;
            }
        }
        if prng.one_in(10) {
            records.truncate(prng.below(records.len() + 1));
        }
        let mut out = records.len();
        if prng.one_in(10) {
            out = [out + TOKEN, out.saturating_sub(TOKEN), out + 1][prng.below(3)];
        }
        if let Err(reason) = compare_listing(&records, out, prng) {
            self.fail(case, &format!("of arbitrary records: {reason}"));
        }
    }
}

/// Writes the files of a case, so that it can be run by hand.
fn write_files(case: &Case, folder: &str) {
    let path = Path::new(folder);
    let written = fs::create_dir_all(path)
        .and_then(|()| fs::write(path.join("graph"), &case.graph))
        .and_then(|()| fs::write(path.join("arrays"), &case.arrays))
        .and_then(|()| fs::write(path.join("inputs"), &case.inputs))
        .and_then(|()| fs::write(path.join("picks"), &case.picks))
        .and_then(|()| match &case.call {
            Call::Replay(log) => fs::write(path.join("log"), log),
            _ => Ok(()),
        });
    if let Err(error) = written {
        println!("  {folder} could not be written: {error}");
    }
}

/// A graph with no picks and budget 2,048. The capacity is mostly enough,
/// sometimes just enough or too small.
fn first_case(prng: &mut Prng) -> Case {
    let subject = shapes::subject(prng);
    let cells = match prng.below(12) {
        0 => prng.below(subject.cells + 1),
        1 | 2 => subject.cells,
        3 => MOST_CELLS,
        _ => subject.cells + prng.below(4),
    };
    let mut case = Case {
        kind: subject.kind,
        call: Call::Run,
        graph: subject.graph,
        arrays: subject.arrays,
        inputs: subject.inputs,
        picks: Vec::new(),
        budget: WHOLE_BUDGET,
        bound: 0,
        ledger_bytes: MOST_RECORDS * TOKEN,
        cells_bytes: CELL * cells.min(MOST_CELLS),
        garbage: prng.word(),
    };
    let mut ledger = vec![0; case.ledger_bytes];
    let mut room = vec![0; case.cells_bytes];
    let (program, schedule) = (case.program(), case.schedule());
    let used = second::run(program, &case.inputs, schedule, &mut ledger, &mut room).tokens;
    let capacity = match prng.below(16) {
        0 => MOST_RECORDS,
        1 | 2 => used,
        3 => used.saturating_sub(1 + prng.below(3)),
        4 => prng.below(used + 1),
        _ => used + prng.below(20),
    };
    case.ledger_bytes = TOKEN * capacity.min(MOST_RECORDS);
    if prng.one_in(50) {
        case.inputs.clear();
    }
    case
}

/// The number of runs and the seed, by default if they are not given.
fn numbers(arguments: &[String]) -> Result<(u64, u64), String> {
    let number = |text: &String| text.parse().map_err(|_| format!("not a number: {text}"));
    let numbers = arguments
        .iter()
        .map(number)
        .collect::<Result<Vec<u64>, _>>()?;
    match numbers[..] {
        [] => Ok((DEFAULT_RUNS, DEFAULT_SEED)),
        [runs] => Ok((runs, DEFAULT_SEED)),
        [runs, seed] => Ok((runs, seed)),
        _ => Err("too many numbers".to_string()),
    }
}

fn main() -> ExitCode {
    let (flags, arguments): (Vec<String>, Vec<String>) = std::env::args()
        .skip(1)
        .partition(|argument| argument == "--keep" || argument == "--first");
    let given = |name: &str| flags.iter().any(|flag| flag == name);
    let (wanted, seed) = match numbers(&arguments) {
        Ok(numbers) => numbers,
        Err(error) => {
            eprintln!("{error}\nusage: random [RUNS [SEED]] [--keep] [--first]");
            return ExitCode::from(2);
        }
    };
    let mut harness = Harness {
        seed,
        wanted,
        keep: given("--keep"),
        first: given("--first"),
        runs: 0,
        profiles: 0,
        replays: 0,
        carried: 0,
        bounds: 0,
        bounded: 0,
        ranges: 0,
        expressions: 0,
        groups: 0,
        listings: 0,
        requests: 0,
        conversions: 0,
        agreements: 0,
        profile_ends: 0,
        logs_compared: 0,
        failed: 0,
        tally: Tally::new(),
        clock: Clock::default(),
    };
    let mut prng = Prng::new(seed);
    while !harness.done() {
        harness.group(&mut prng);
    }
    report(&harness)
}

fn report(harness: &Harness) -> ExitCode {
    println!(
        "seed {}: {} graphs, {} runs, {} of them from a saved state",
        harness.seed, harness.groups, harness.runs, harness.carried
    );
    println!("pairs of orders compared: {}", harness.agreements);
    println!(
        "profiles: {}; pairs of a profile and an order compared: {}",
        harness.profiles, harness.profile_ends
    );
    println!(
        "replays: {}; pairs of logs compared: {}",
        harness.replays, harness.logs_compared
    );
    println!("bounds: {}", harness.bounds);
    println!("runs with a bound: {}", harness.bounded);
    println!("range runs: {}", harness.ranges);
    println!("expressions: {}", harness.expressions);
    println!("listings of arbitrary records: {}", harness.listings);
    println!("conversions: {}", harness.conversions);
    println!("runs asked of the cache: {}", harness.requests);
    println!(
        "time in the engine {:.2?}, in the second {:.2?}",
        harness.clock.engine, harness.clock.second
    );
    let missing = harness.tally.print();
    if missing > 0 {
        println!("{missing} that can be reached never came up");
    }
    let failed = harness.failed + missing as u64;
    println!(
        "{} passed, {} failed",
        harness.calls().saturating_sub(harness.failed),
        failed
    );
    ExitCode::from(u8::from(failed > 0))
}
