//! The engine and the second emulator on the same work, in one process. Prints a
//! table in Markdown: for every work and size the median time of both, the engine's
//! time for one firing, and firings in a second; and for every work how much the
//! time for one firing grows from 256 to 2,048 tokens.
//!
//! All works are run in turn, round after round. With the argument `repeated` each
//! is run a block of times before the next, so that it meets the caches that it
//! left; with `growth` only the growth is measured, of runs of one size that follow
//! each other (growth.rs). The figures of the three differ. `program` measures the
//! whole job of the printing program (program.rs). `once WORK`, `table WORK`, `bounded WORK K`,
//! `ranges WORK`, `calls WORK` and `folders DIR` are for the script `instructions`.

mod calls;
mod growth;
mod printing;
mod program;
mod work;

use std::time::{Duration, Instant};

use layout::widths::{self, MOST_CELLS, MOST_RECORDS, WHOLE_BUDGET};
use printing::Printing;
use second::{Answer, Outcome, Schedule};
use work::Work;

const SIZES: [usize; 5] = [128, 256, 512, 1024, MOST_RECORDS];
const CELLS: usize = MOST_CELLS;
const BUDGET: u16 = WHOLE_BUDGET;
/// How often each emulator runs each work.
const RUNS: usize = 400;
/// How often it does before the next work, where works are repeated, and how often a
/// call is made before the next.
const BLOCK: usize = 20;

/// A kind of work: its name, its graph by size, and whether the newest activity
/// is taken first.
type Kind = (&'static str, fn(usize) -> Work, bool);

const KINDS: [Kind; 5] = [
    ("vector sum", work::vector_sum, false),
    ("vector sum, newest first", work::vector_sum, true),
    ("loop", work::long_loop, false),
    ("waiting tokens", work::waiting, false),
    ("recursion", work::recursion, false),
];

fn main() {
    let words: Vec<String> = std::env::args().skip(1).collect();
    let words: Vec<&str> = words.iter().map(String::as_str).collect();
    match words[..] {
        [] => compare(1),
        ["repeated"] => compare(BLOCK),
        ["growth"] => growth::print(),
        ["program"] => program::print(),
        ["once", work] => program::once(work),
        ["table", work] => program::table_once(work),
        ["bounded", work, bound] => {
            program::bounded_once(work, bound.parse().expect("a bound is a number"))
        }
        ["ranges", work] => program::ranges_once(work),
        ["calls", work] => program::calls_once(work),
        ["folders", folder] => program::write_folders(folder.as_ref()),
        _ => eprintln!(
            "repeated, growth, program, once WORK, table WORK, bounded WORK K, ranges WORK, calls WORK, folders DIR, or nothing"
        ),
    }
}

/// Measures all works, each run a block of times before the next, and prints the tables.
fn compare(block: usize) {
    let mut works: Vec<Measured> = Vec::new();
    for kind in KINDS {
        works.extend(SIZES.map(|size| Measured::new(kind, size)));
    }
    let mut listings: Vec<Listing> = Vec::new();
    for arrangement in ARRANGEMENTS {
        listings.extend(SIZES.map(|size| Listing::new(arrangement, size)));
    }
    let mut printings: Vec<Printing> = Vec::new();
    for kind in KINDS.into_iter().filter(|(_, _, newest)| !newest) {
        printings.extend(SIZES.map(|size| Printing::new(kind, size)));
    }
    let (mut calls, mut bounds) = (calls::all(), calls::all_bounds());
    for _ in 0..RUNS / block {
        works.iter_mut().for_each(|work| work.runs(block));
        listings.iter_mut().for_each(|listing| listing.runs(block));
        printings
            .iter_mut()
            .for_each(|printing| printing.runs(block));
        bounds.iter_mut().for_each(|graph| graph.runs(block));
    }
    for _ in 0..RUNS / BLOCK {
        calls.iter_mut().for_each(calls::Calls::block);
    }
    print_works(&works);
    print_listings(&listings);
    Printing::print_head();
    printings.iter().for_each(Printing::print);
    println!();
    calls::print(&calls);
    println!();
    calls::print_bounds(&bounds);
}

fn print_works(works: &[Measured]) {
    println!("Time of one run, median of {RUNS} runs of each emulator. The buffers are not");
    println!("cleared: each run finds ledger and cells as the run before it left them. The");
    println!("second emulator allocates its tables in every run.");
    println!();
    println!(
        "| work | size | tokens | firings | engine | engine, a firing | second | engine / second | \
         engine firings/s | second firings/s |"
    );
    println!("|---|---:|---:|---:|---:|---:|---:|---:|---:|---:|");
    works.iter().for_each(Measured::print);
    println!();
    println!("The engine's time for one firing at 2,048 tokens against that at 256:");
    println!();
    for (name, _, _) in KINDS {
        println!("- {name}: {:.2}", growth_of(works, name));
    }
    println!();
}

fn print_listings(listings: &[Listing]) {
    println!("The listing, against a stable sort of parsed records by Rust's own library");
    println!("(parsing and writing included), of the vector sum's ledger.");
    println!();
    println!("| records | count | engine | stable sort | engine / stable sort |");
    println!("|---|---:|---:|---:|---:|");
    listings.iter().for_each(Listing::print);
    println!();
}

/// What both emulators are lent.
struct Lent {
    work: Work,
    picks: Vec<u8>,
    ledger: Vec<u8>,
    cells: Vec<u8>,
}

impl Lent {
    fn new(work: Work, size: usize, newest: bool) -> Lent {
        let picks = if newest {
            second::picks_newest_first(work.program(), &work.inputs, size, CELLS)
        } else {
            Vec::new()
        };
        Lent {
            work,
            picks,
            ledger: vec![0xa5; widths::TOKEN * size],
            cells: vec![0xa5; widths::CELL * CELLS],
        }
    }

    fn engine(&mut self) -> u64 {
        engine::run(
            self.work.program(),
            &self.work.inputs,
            Schedule::new(&self.picks, BUDGET),
            &mut self.ledger,
            &mut self.cells,
        )
    }

    fn second(&mut self) -> Answer {
        second::run(
            self.work.program(),
            &self.work.inputs,
            Schedule::new(&self.picks, BUDGET),
            &mut self.ledger,
            &mut self.cells,
        )
    }

    /// The answer, on which both have to agree, with all bytes that they leave.
    fn agreed(&mut self) -> Answer {
        let packed = self.engine();
        let (ledger, cells) = (self.ledger.clone(), self.cells.clone());
        self.ledger.fill(0xa5);
        self.cells.fill(0xa5);
        let answer = self.second();
        assert!(
            matches!(answer.outcome, Outcome::Completed | Outcome::Hung),
            "the work comes to rest"
        );
        let due = engine::packed_answer(&answer);
        assert_eq!(packed, due, "the engine answers otherwise");
        assert!(
            ledger == self.ledger && cells == self.cells,
            "the engine leaves other bytes"
        );
        answer
    }
}

/// A work of one size, with the times of both emulators on it.
struct Measured {
    name: &'static str,
    size: usize,
    answer: Answer,
    engine: (Lent, Vec<Duration>),
    second: (Lent, Vec<Duration>),
}

impl Measured {
    fn new((name, work, newest): Kind, size: usize) -> Measured {
        let mut lent = Lent::new(work(size), size, newest);
        let answer = lent.agreed();
        let same = Lent::new(work(size), size, newest);
        Measured {
            name,
            size,
            answer,
            engine: (lent, Vec::new()),
            second: (same, Vec::new()),
        }
    }

    /// Runs both emulators in turn, so that both meet the same load of the computer.
    fn runs(&mut self, times: usize) {
        for _ in 0..times {
            self.engine.1.push(time(|| self.engine.0.engine()));
            self.second.1.push(time(|| self.second.0.second()));
        }
    }

    /// The engine's nanoseconds for one firing.
    fn a_firing(&self) -> f64 {
        middle(&self.engine.1).as_secs_f64() * 1e9 / self.answer.firings as f64
    }

    fn print(&self) {
        let (engine_time, second_time) = (middle(&self.engine.1), middle(&self.second.1));
        let firings = self.answer.firings as f64;
        let rate = |time: Duration| format!("{:.0}", firings / time.as_secs_f64());
        println!(
            "| {} | {} | {} | {} | {} | {:.0} ns | {} | {} | {} | {} |",
            self.name,
            self.size,
            self.answer.tokens,
            self.answer.firings,
            microseconds(engine_time),
            self.a_firing(),
            microseconds(second_time),
            ratio(engine_time, second_time),
            rate(engine_time),
            rate(second_time),
        );
    }
}

/// How much the engine's time for one firing grows from 256 to 2,048 tokens.
fn growth_of(works: &[Measured], name: &str) -> f64 {
    let at = |size: usize| {
        let found = works
            .iter()
            .find(|work| work.name == name && work.size == size);
        found.expect("a measured size").a_firing()
    };
    at(MOST_RECORDS) / at(256)
}

fn time<A>(run: impl FnOnce() -> A) -> Duration {
    let start = Instant::now();
    run();
    start.elapsed()
}

fn middle(times: &[Duration]) -> Duration {
    let mut times = times.to_vec();
    times.sort();
    times[times.len() / 2]
}

fn microseconds(time: Duration) -> String {
    format!("{:.1} µs", time.as_secs_f64() * 1e6)
}

fn ratio(one: Duration, other: Duration) -> String {
    format!("{:.2}", one.as_secs_f64() / other.as_secs_f64())
}

/// How the records lie before they are listed.
type Arrangement = (&'static str, fn(&mut [[u8; widths::TOKEN]]));

const ARRANGEMENTS: [Arrangement; 3] = [
    ("in order of arrival", |_| {}),
    ("reversed", |records| records.reverse()),
    ("mixed", mix),
];

/// A fixed mixture: swaps by a linear congruential generator.
fn mix(records: &mut [[u8; widths::TOKEN]]) {
    let mut state: u64 = 1;
    for end in (1..records.len()).rev() {
        state = stepped(state);
        records.swap(end, (state >> 33) as usize % (end + 1));
    }
}

/// A step of a linear congruential generator.
fn stepped(state: u64) -> u64 {
    state
        .wrapping_mul(6_364_136_223_846_793_005)
        .wrapping_add(1)
}

/// The vector sum's ledger in one arrangement, with the times of both listings of it.
struct Listing {
    name: &'static str,
    ledger: Vec<u8>,
    engine: (Vec<u8>, Vec<Duration>),
    sorted: (Vec<u8>, Vec<Duration>),
}

impl Listing {
    fn new((name, arrange): Arrangement, size: usize) -> Listing {
        let mut lent = Lent::new(work::vector_sum(size), size, false);
        lent.agreed();
        let mut records = Vec::new();
        for record in lent.ledger.chunks_exact(widths::TOKEN) {
            records.push(<[u8; widths::TOKEN]>::try_from(record).expect("a whole record"));
        }
        arrange(&mut records);
        let ledger = records.concat();
        let mut out = vec![0; ledger.len()];
        let mut sorted = vec![0; ledger.len()];
        assert_eq!(
            engine::list(&ledger, &mut out),
            second::list(&ledger, &mut sorted)
        );
        assert!(out == sorted, "the engine lists otherwise");
        Listing {
            name,
            ledger,
            engine: (out, Vec::new()),
            sorted: (sorted, Vec::new()),
        }
    }

    fn runs(&mut self, times: usize) {
        for _ in 0..times {
            let (out, engine) = &mut self.engine;
            engine.push(time(|| engine::list(&self.ledger, out)));
            let (out, sorted) = &mut self.sorted;
            sorted.push(time(|| second::list(&self.ledger, out)));
        }
    }

    fn print(&self) {
        let (engine_time, sorted_time) = (middle(&self.engine.1), middle(&self.sorted.1));
        println!(
            "| {} | {} | {} | {} | {} |",
            self.name,
            self.ledger.len() / widths::TOKEN,
            microseconds(engine_time),
            microseconds(sorted_time),
            ratio(engine_time, sorted_time),
        );
    }
}
