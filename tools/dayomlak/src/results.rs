//! What a run leaves, by names.

use crate::answer::{count, Word};
use crate::graph::{LEAVE, OUT};
use crate::held;
use crate::loads::Loads;
use crate::machine::{End, Machine};
use crate::program::Program;
use crate::records::{Cell, State, Token};

/// How many iterations are named one by one.
const SHOWN: usize = 8;

/// Results, tokens that wait and cells, a line each. What the run itself wrote comes before what inputs alone wrote, and
/// the cells of lines such as `cell 3 = 7` and `a[3] = 7` are only counted: they hold what was typed. The tokens are those of the
/// listing, so that equal listings give equal lines. A run that did not begin left nothing.
pub fn lines(machine: &Machine, end: &End) -> Vec<String> {
    let program = machine.program;
    if end.answer.refused_at_once() {
        return Vec::new();
    }
    let tokens = end.listed();
    let left: Vec<&Token> = tokens.iter().filter(|t| t.state != State::Spent).collect();
    let results = left.iter().filter(|token| is_result(program, token));
    let mut lines: Vec<String> = results
        .map(|token| format!("{} = {}", program.tag(&token.tag), token.value))
        .collect();
    let others: Vec<&Token> = left
        .into_iter()
        .filter(|t| !is_result(program, t))
        .collect();
    if end.answer.ended() {
        let held = held::left(machine, end).unwrap_or_default();
        let line = |token: &&Token| match held.iter().find(|held| held.tag == token.tag) {
            Some(held) => held.line(program, token.value),
            None => waiting(program, token, &tokens),
        };
        lines.extend(others.iter().map(line));
    } else if !others.is_empty() {
        // Some of them may be enabled: they are under way and do not wait.
        lines.push(format!("({} under way)", count(others.len(), "token")));
    }
    lines.extend(cell_lines(program, end));
    lines
}

/// The cells that are not absent, a line each.
pub fn cell_lines(program: &Program, end: &End) -> Vec<String> {
    let loaded = Loads::of(program).done(&end.tokens());
    let is_typed = |cell: i32| {
        let store = loaded.get(&cell);
        store.is_some_and(|store| program.is_load_line(*store))
    };
    let (typed, mut cells): (Vec<_>, Vec<_>) =
        cells(program, end).partition(|(cell, _)| is_typed(*cell));
    cells.sort_by_key(|(cell, _)| loaded.contains_key(cell));
    let mut lines: Vec<String> = cells.into_iter().map(|(_, line)| line).collect();
    if !typed.is_empty() {
        lines.push(format!("({})", count(typed.len(), "loaded cell")));
    }
    lines
}

/// A token at an OUT, or at a LEAVE that has no caller.
pub fn is_result(program: &Program, token: &Token) -> bool {
    let code = program.graph.get(token.tag.instruction).map(|i| i.code);
    token.state == State::Live && (code == Some(OUT) || code == Some(LEAVE) && token.tag.path == 0)
}

/// A token of a run that has ended which is no result.
fn waiting(program: &Program, token: &Token, tokens: &[Token]) -> String {
    let name = program.port(&token.tag, token.port);
    match token.state {
        State::Deferred => {
            let cell = program.cell(token.value.low);
            format!("{name} waits for {cell}, which nothing wrote")
        }
        _ => {
            let other = 1 - token.port;
            format!(
                "{name} = {} waits: no token came to port {other}{}",
                token.value,
                elsewhere(token, other, tokens)
            )
        }
    }
}

/// In which iterations of the same call tokens did come to a port, if in any.
fn elsewhere(token: &Token, port: u8, tokens: &[Token]) -> String {
    let same = |t: &&Token| {
        let (one, two) = (t.tag, token.tag);
        t.port == port && (one.path, one.instruction) == (two.path, two.instruction)
    };
    let iterations: Vec<String> = tokens
        .iter()
        .filter(same)
        .map(|t| t.tag.iteration.to_string())
        .collect();
    match &iterations[..] {
        [] => String::new(),
        [one] => format!(" in this iteration, only in iteration {one}"),
        [some @ .., last] if some.len() < SHOWN => {
            format!(
                " in this iteration, only in iterations {} and {last}",
                some.join(", ")
            )
        }
        [some @ .., last] => format!(
            " in this iteration, only in iterations {}, ... and {last}",
            some[..SHOWN].join(", ")
        ),
    }
}

/// The cells that are not absent, with a line for each.
fn cells<'p>(program: &'p Program, end: &End) -> impl Iterator<Item = (i32, String)> + 'p {
    let line = |(number, cell): (i32, Cell)| {
        let name = program.cell(number);
        match cell {
            Cell::Absent => None,
            Cell::Waiting => Some((number, format!("{name} is read and not written"))),
            Cell::Present(value) => Some((number, format!("{name} = {value}"))),
        }
    };
    (0..).zip(end.cells()).filter_map(line)
}

/// The first line of an answer.
pub fn headline(machine: &Machine, end: &End, order: &str) -> String {
    let answer = &end.answer;
    let start = format!("{}: {}, {order}", answer.words(), answer.counts());
    if let Some(held) = held::left(machine, end) {
        return format!("{start}; {}", held::words(machine.program, &held));
    }
    match answer.word {
        Word::Hung => format!("{start}; nothing more can fire, and some tokens still wait"),
        Word::Spent => format!("{start}; more can fire"),
        Word::Completed | Word::Refused(_) => start,
    }
}
