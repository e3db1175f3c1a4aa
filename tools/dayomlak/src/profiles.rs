//! Profiles in words, and their plots.

use plotter::{Cache, Library, Plot, Request, Run, Step};

use crate::answer::{count, Answer};
use crate::failure::Failure;
use crate::loads::Loads;
use crate::machine::Machine;
use crate::orders::Order;
use crate::program::Program;

/// What is said of a profile beside a run with a bound.
pub const NO_BOUND: &str = "ideal steps take no bound";

/// The plot of a machine fired in an order, from the user's cache where the engine says that what is kept serves.
pub fn plot(machine: &Machine, order: &Order, budget: u16) -> Result<Plot, Failure> {
    let files = &machine.program.files;
    let request = Request {
        graph: files.graph.clone(),
        arrays: files.arrays.clone(),
        inputs: files.inputs.clone(),
        picks: order.picks(machine)?,
        budget,
        bound: machine.bound,
        capacity: machine.sizes.capacity as u16,
        cells: machine.sizes.cells as u16,
    };
    let asked = Run {
        request,
        order: order.words(machine.program),
        seconds: plotter::now(),
    };
    let cache = Cache::of_user(env!("ENGINE"));
    Ok(Plot::of(&Library, cache.as_ref(), asked))
}

/// How a profile ended, and what stands before its first step.
pub fn words(program: &Program, steps: &[Step], answer: &Answer) -> Vec<String> {
    let words = [Some(ended(steps, answer)), loading(program, steps)];
    words.into_iter().flatten().collect()
}

/// What is loaded before step 1, in words. The engine fires it in step 1, where it would hide how much is computed.
fn loading(program: &Program, steps: &[Step]) -> Option<String> {
    let loads = Loads::of(program).cells.len();
    let (first, later) = steps.split_first().filter(|_| loads > 0)?;
    let first = usize::from(first.firings).saturating_sub(loads);
    let most = later.iter().map(|step| step.firings.into()).max();
    let (loads, most) = (count(loads, "cell"), most.unwrap_or(0).max(first));
    let are = if loads == "1 cell" { "is" } else { "are" };
    Some(format!(
        "{loads} {are} loaded before step 1; a step has at most {}",
        count(most, "firing")
    ))
}

/// How a profile ended, in words.
fn ended(steps: &[Step], answer: &Answer) -> String {
    let (words, counts) = (answer.words(), answer.counts());
    if answer.refused_at_once() {
        return format!("{words}, before the first ideal step");
    }
    let count = count(steps.len(), "ideal step");
    match answer.ended() {
        true => format!("{count}, then {words}: {counts}"),
        false if steps.is_empty() => format!("{words}, in the first ideal step: {counts}"),
        false => format!("{count}, then {words}, in the next step: {counts}"),
    }
}
