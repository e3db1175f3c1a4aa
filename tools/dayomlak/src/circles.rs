//! Circles of arcs, found before a run: those that no token can go round, and those that leave out iterations.

use std::cmp::Reverse;
use std::collections::{BinaryHeap, HashSet};

use crate::diagnostics::Finding;
use crate::graph::{ENTER, GATE, LEAVE, NEXT};
use crate::program::Program;

/// More than all arcs of a circle: one NEXT less is better than any number of arcs.
const NEXT_COST: usize = 1000;

/// An arc by the instructions at its ends.
type Arc = (usize, usize);

/// Circles without NEXT or ENTER: a token that goes round comes to its own tag again. Each is named by the arc that goes
/// back, and no arc twice.
pub fn without_next(program: &Program) -> Vec<(usize, Finding)> {
    let mut found = Vec::new();
    let mut named: HashSet<Arc> = HashSet::new();
    for start in 0..program.graph.instructions.len() {
        let under_one_tag = |at: usize| -> Vec<(usize, usize)> {
            let ends = ends(program, at, &[NEXT, ENTER, LEAVE]).into_iter();
            let new = ends.filter(|&end| !named.contains(&(at, end)));
            new.map(|end| (end, 1)).collect()
        };
        if let Some(circle) = cheapest(program, start, under_one_tag) {
            let back = back_arc(&circle);
            found.push((start, without_next_warning(program, &circle, back)));
            named.insert(back);
        }
    }
    found
}

/// Circles in which every token goes by more than one NEXT, so that iterations are left out. A circle through a GATE may be
/// one on purpose: it bounds how many iterations go on at once.
pub fn with_many(program: &Program) -> Vec<(usize, Finding)> {
    let is_next = |at: usize| program.graph.instructions[at].code == NEXT;
    let arcs = |at: usize| -> Vec<(usize, usize)> {
        let ends = ends(program, at, &[GATE, ENTER, LEAVE]).into_iter();
        let cost = if is_next(at) { NEXT_COST } else { 1 };
        ends.map(|end| (end, cost)).collect()
    };
    let mut found = Vec::new();
    let mut seen = HashSet::new();
    for start in (0..program.graph.instructions.len()).filter(|&at| is_next(at)) {
        let Some(circle) = cheapest(program, start, arcs) else {
            continue;
        };
        let nexts: Vec<usize> = circle.iter().copied().filter(|&at| is_next(at)).collect();
        if nexts.len() > 1 && seen.insert(nexts.iter().copied().min()) {
            found.push((start, with_many_warning(program, &circle, &nexts)));
        }
    }
    found
}

/// The instructions at the ends of an instruction's arcs; none if it is of one of the codes.
fn ends(program: &Program, at: usize, without: &[u8]) -> Vec<usize> {
    let instructions = &program.graph.instructions;
    let arcs = match without.contains(&instructions[at].code) {
        true => &[],
        false => instructions[at].arcs(),
    };
    let ends = arcs.iter().map(|arc| usize::from(arc.instruction));
    ends.filter(|&end| end < instructions.len()).collect()
}

/// The circle through an instruction, which is its first member, whose arcs cost least together.
fn cheapest(
    program: &Program,
    start: usize,
    arcs: impl Fn(usize) -> Vec<(usize, usize)>,
) -> Option<Vec<usize>> {
    // What it costs to come to an instruction from the start, and from which one.
    let mut least: Vec<Option<(usize, usize)>> = vec![None; program.graph.instructions.len()];
    let mut open = BinaryHeap::from([Reverse((0, start))]);
    while let Some(Reverse((cost, at))) = open.pop() {
        for (next, more) in arcs(at) {
            let cost = cost + more;
            if least[next].is_none_or(|(known, _)| cost < known) {
                least[next] = Some((cost, at));
                open.push(Reverse((cost, next)));
            }
        }
    }
    let mut circle = vec![least[start]?.1];
    while circle[0] != start {
        circle.insert(0, least[circle[0]]?.1);
    }
    Some(circle)
}

/// The arc that goes back in the text: the one that closes the loop, as a reader sees it.
fn back_arc(circle: &[usize]) -> Arc {
    let next = |at: usize| circle[(at + 1) % circle.len()];
    let back = (0..circle.len()).rev().find(|&at| next(at) <= circle[at]);
    let from = back.unwrap_or(circle.len() - 1);
    (circle[from], next(from))
}

/// The members of a circle by name, the first one at both ends.
fn names(program: &Program, circle: &[usize]) -> String {
    let all = circle.iter().chain(circle.first());
    let names: Vec<String> = all.map(|&at| program.name(at as u16)).collect();
    names.join(" -> ")
}

fn without_next_warning(program: &Program, circle: &[usize], (from, to): Arc) -> Finding {
    let arcs = &program.graph.instructions[from].destinations;
    let arc = arcs
        .iter()
        .position(|arc| usize::from(arc.instruction) == to);
    let words = format!("a circle without NEXT or ENTER: {}", names(program, circle));
    Finding::warning(words)
        .at(
            program.arc_span(from, arc.unwrap_or(0)),
            "this arc goes back under the same tag",
        )
        .note("a token that goes round meets its own tag: then every order is refused, by 9 unless something else is refused first")
        .note(format!(
            "let it go by a NEXT: `{}: ... -> n` and `n: NEXT -> {}`",
            program.name(from as u16),
            program.name(to as u16)
        ))
}

fn with_many_warning(program: &Program, circle: &[usize], nexts: &[usize]) -> Finding {
    let words = format!(
        "a circle with {} NEXTs: {}",
        nexts.len(),
        names(program, circle)
    );
    Finding::warning(words)
        .at(program.span(nexts[0]), "one of them")
        .also(program.span(nexts[1]), "another one")
        .note(format!(
            "a token that goes round comes to every {} iteration only, and what should meet it in the others waits",
            match nexts.len() {
                2 => "second".to_string(),
                3 => "third".to_string(),
                many => format!("{many}th"),
            }
        ))
        .note("a loop has one NEXT on each arc that goes round")
}
