//! How the time for a firing grows from 256 to 2,048 tokens when runs of one size
//! follow each other. Blocks of runs of the two sizes alternate, so that both meet
//! the same load of the computer; the first runs of a block are not counted, and
//! what is printed is the median over pairs of blocks. A block runs one graph again
//! and again; or graphs that differ in the numbers of their instructions, which
//! makes the tokens of each meet others in the matching store; or one graph in
//! firing orders at random, so that no run is like the one before it.

use super::{middle, stepped, time, Kind, Lent, BUDGET, KINDS};
use layout::fields::{instruction, token};
use layout::widths::{self, MOST_RECORDS};

use crate::work::Work;
use std::time::Duration;

const SIZES: [usize; 2] = [256, MOST_RECORDS];
const BLOCKS: usize = 25;
const BLOCK: usize = 32;
const UNCOUNTED: usize = 8;
/// How many graphs, or firing orders, take turns.
const TURNS: usize = 16;

/// What the runs of a block differ in: a name, and what they are lent for a work
/// of a size.
type Varied = (&'static str, fn(&Work, usize) -> Vec<Lent>);

const VARIED: [Varied; 3] = [
    ("nothing", same),
    ("numbers", other_numbers),
    ("firing order", other_orders),
];

/// Prints the growth of both emulators for every work. Instructions of the
/// recursion may not be renumbered, since LEAVE counts from a return.
pub fn print() {
    println!(
        "| work | runs differ in | engine at 256 | engine at 2,048 | engine, growth | \
         second, growth |"
    );
    println!("|---|---|---:|---:|---:|---:|");
    for kind in KINDS.into_iter().filter(|(_, _, newest)| !newest) {
        for varied in VARIED {
            if varied.0 != "numbers" || kind.0 != "recursion" {
                print_kind(kind, varied);
            }
        }
    }
}

fn print_kind((name, work, _): Kind, (differ, lent): Varied) {
    let mut sizes = SIZES.map(|size| Size::new(lent(&work(size), size)));
    for _ in 0..BLOCKS {
        sizes.iter_mut().for_each(Size::block);
    }
    let [small, large] = sizes;
    println!(
        "| {name} | {differ} | {:.0} ns | {:.0} ns | {:.2} | {:.2} |",
        middle_of(&small.engine),
        middle_of(&large.engine),
        growth(&small.engine, &large.engine),
        growth(&small.second, &large.second),
    );
}

/// What the runs of one size are lent, and for every block the nanoseconds that a
/// firing took.
struct Size {
    lent: Vec<Lent>,
    firings: usize,
    engine: Vec<f64>,
    second: Vec<f64>,
}

impl Size {
    fn new(mut lent: Vec<Lent>) -> Size {
        let firings = lent.iter_mut().map(|lent| lent.agreed().firings).max();
        Size {
            lent,
            firings: firings.expect("a graph"),
            engine: Vec::new(),
            second: Vec::new(),
        }
    }

    fn block(&mut self) {
        let engine = self.runs(|lent| time(|| lent.engine()));
        self.engine.push(engine);
        let second = self.runs(|lent| time(|| lent.second()));
        self.second.push(second);
    }

    /// Nanoseconds for one firing, the median of a block of runs.
    fn runs(&mut self, run: impl Fn(&mut Lent) -> Duration) -> f64 {
        let turns = self.lent.len();
        let times: Vec<Duration> = (0..BLOCK)
            .map(|number| run(&mut self.lent[number % turns]))
            .collect();
        middle(&times[UNCOUNTED..]).as_secs_f64() * 1e9 / self.firings as f64
    }
}

/// The median over pairs of blocks of the two sizes.
fn growth(small: &[f64], large: &[f64]) -> f64 {
    let ratios: Vec<f64> = small
        .iter()
        .zip(large)
        .map(|(small, large)| large / small)
        .collect();
    middle_of(&ratios)
}

fn middle_of(values: &[f64]) -> f64 {
    let mut values = values.to_vec();
    values.sort_by(f64::total_cmp);
    values[values.len() / 2]
}

fn same(work: &Work, size: usize) -> Vec<Lent> {
    vec![Lent::new(renumbered(work, 0), size, false)]
}

fn other_numbers(work: &Work, size: usize) -> Vec<Lent> {
    (0..TURNS)
        .map(|number| Lent::new(renumbered(work, number), size, false))
        .collect()
}

fn other_orders(work: &Work, size: usize) -> Vec<Lent> {
    (0..TURNS)
        .map(|number| {
            let mut lent = Lent::new(renumbered(work, 0), size, false);
            lent.picks = random_picks(number as u64);
            lent
        })
        .collect()
}

/// A pick for every firing of a budget.
fn random_picks(seed: u64) -> Vec<u8> {
    let mut state = seed;
    (0..BUDGET)
        .flat_map(|_| {
            state = stepped(state);
            ((state >> 33) as u16).to_le_bytes()
        })
        .collect()
}

/// The same work with its instructions in another order; number 0 keeps theirs.
fn renumbered(work: &Work, number: usize) -> Work {
    let count = work.graph.len() / widths::INSTRUCTION;
    let mut places: Vec<u16> = (0..count as u16).collect();
    let mut state = number as u64;
    for end in (1..count).rev().filter(|_| number > 0) {
        state = stepped(state);
        places.swap(end, (state >> 33) as usize % (end + 1));
    }
    let moved = |field: &mut [u8]| {
        let old = layout::unsigned(field, 0..2);
        field.copy_from_slice(&places[usize::from(old)].to_le_bytes());
    };
    let mut graph = vec![0; work.graph.len()];
    let records = work.graph.chunks_exact(widths::INSTRUCTION);
    for (record, &place) in records.zip(&places) {
        let at = widths::INSTRUCTION * usize::from(place);
        let new = &mut graph[at..][..widths::INSTRUCTION];
        new.copy_from_slice(record);
        for arc in 0..usize::from(record[instruction::FAN_OUT]) {
            moved(&mut new[instruction::target(arc)]);
        }
    }
    let mut inputs = work.inputs.clone();
    for token in inputs.chunks_exact_mut(widths::TOKEN) {
        moved(&mut token[token::INSTRUCTION]);
    }
    Work { graph, inputs }
}
