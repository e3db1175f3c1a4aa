//! Tables of named arrays: damage, and what is tallied of them (02, R-10).

use std::collections::HashSet;

use layout::fields::{array, instruction, token};
use layout::widths::{ARRAY, CELL, INSTRUCTION, MOST_ARRAYS, TOKEN};
use layout::{code_of, instruction_of, same_tag, signed, unsigned, FETCH, STORE};

use crate::case::{Call, Case, Left};
use crate::damage::{flip, overwrite};
use crate::prng::Prng;
use crate::records::Draft;

/// Puts arrays behind those of a graph that no instruction names: some of its cells, or
/// none at the very end, now and then up to the most.
pub fn fill(draft: &mut Draft, cells: usize, prng: &mut Prng) {
    let more = match prng.below(16) {
        0 => MOST_ARRAYS - draft.arrays.len(),
        1..=4 => 1 + prng.below(3),
        _ => 0,
    };
    for _ in 0..more.min(MOST_ARRAYS - draft.arrays.len()) {
        let first = prng.below(cells + 1);
        let length = match prng.below(3) {
            0 => cells - first,
            _ => prng.below(cells - first + 1),
        };
        draft.arrays.push((first as u16, length as u16));
    }
}

/// Damages the table, or the constant of a FETCH or STORE.
pub fn damage(case: &mut Case, prng: &mut Prng) {
    let cells = case.cells_bytes / CELL;
    let arrays = &mut case.arrays;
    match prng.below(10) {
        0 => flip(arrays, prng),
        1 => overwrite(arrays, prng),
        2 => arrays.truncate(prng.below(arrays.len() + 1)),
        3 => arrays.clear(),
        4 => arrays.extend(vec![0; 1 + prng.below(3)]),
        5 => arrays.resize(ARRAY * (MOST_ARRAYS - 1 + prng.below(3)), 0),
        6 => arrays.truncate(arrays.len().saturating_sub(ARRAY) / ARRAY * ARRAY),
        7 => {
            // An array that ends with the cells, or one past them.
            let first = prng.below(cells + 2) as u16;
            let end = (cells + prng.below(2)) as u16;
            arrays.extend(layout::array(first, end.saturating_sub(first)));
        }
        _ => damage_name(case, prng),
    }
}

/// Gives a FETCH or STORE, if there is one, another constant.
fn damage_name(case: &mut Case, prng: &mut Prng) {
    let count = case.arrays.len() / ARRAY;
    let constant = match prng.below(6) {
        0 => -1,
        1 => count as i32 + 1,
        2 => prng.word() as i32,
        _ => prng.below(count + 1) as i32,
    };
    let code = |place: &usize| layout::record(&case.graph, *place)[instruction::CODE];
    let places: Vec<usize> = (0..case.graph.len() / INSTRUCTION)
        .filter(|place| matches!(code(place), FETCH | STORE))
        .collect();
    if !places.is_empty() {
        let place = places[prng.below(places.len())];
        case.graph[INSTRUCTION * place..][instruction::CONSTANT]
            .copy_from_slice(&constant.to_le_bytes());
    }
}

/// What has to come up of tables and names.
pub const NAMES: [&str; 25] = [
    "FETCH by name",
    "STORE by name",
    "FETCH of the whole store",
    "an array's first cell",
    "an array's last cell",
    "deferred by name",
    "10 at index 0",
    "10 one past the length",
    "10 below 0 by name",
    "10 of an empty array",
    "11 by name",
    "ends with the cells",
    "empty, at the end",
    "arrays that overlap",
    "64 arrays",
    "22 not whole",
    "22 more than 64",
    "22 one past the cells",
    "22 far past the cells",
    "22 name below 0",
    "22 name past the table",
    "22 without a table",
    "22 in a profile",
    "22 in a replay",
    "22 of a run with a log",
];

/// A table as far as it is whole records.
fn table(case: &Case) -> Vec<(usize, usize)> {
    let number = |record, field| usize::from(unsigned(record, field));
    let records = case.arrays.chunks_exact(ARRAY);
    records
        .map(|record| (number(record, array::FIRST), number(record, array::LENGTH)))
        .collect()
}

fn constant_at(case: &Case, instruction: usize) -> i32 {
    let record = layout::record(&case.graph, instruction);
    signed(record, instruction::CONSTANT)
}

/// Which of the names a call has.
pub fn names(case: &Case, left: &Left) -> Vec<&'static str> {
    match left.answer.refusal() {
        Some(22) => refused_names(case, left),
        Some(1..=7 | 24) => Vec::new(),
        _ => {
            let mut names = table_names(case);
            for record in left.used().chunks_exact(TOKEN) {
                names.extend(token_names(case, record));
            }
            names.extend(firing_name(case, left));
            names
        }
    }
}

fn refused_names(case: &Case, left: &Left) -> Vec<&'static str> {
    let cells = case.cells_bytes / CELL;
    let farthest = table(case)
        .iter()
        .map(|(first, length)| first + length)
        .max();
    let mut names = vec![match farthest.unwrap_or(0) {
        _ if case.arrays.len() % ARRAY != 0 => "22 not whole",
        _ if case.arrays.len() > ARRAY * MOST_ARRAYS => "22 more than 64",
        end if end == cells + 1 => "22 one past the cells",
        end if end > cells => "22 far past the cells",
        _ if case.arrays.is_empty() => "22 without a table",
        _ if constant_at(case, left.answer.place()) < 0 => "22 name below 0",
        _ => "22 name past the table",
    }];
    match case.call {
        Call::Profile(_) => names.push("22 in a profile"),
        Call::Replay(_) => names.push("22 in a replay"),
        Call::Logged(_) => names.push("22 of a run with a log"),
        Call::Run | Call::CarryOn(_) => {}
    }
    names
}

/// What an accepted table has.
fn table_names(case: &Case) -> Vec<&'static str> {
    let cells = case.cells_bytes / CELL;
    let arrays = table(case);
    let overlap = |(number, &(first, length)): (usize, &(usize, usize))| {
        let others = arrays[..number].iter();
        others.clone().any(|&(other, cells)| {
            length > 0 && cells > 0 && first < other + cells && other < first + length
        })
    };
    let ends = |&(first, length): &(usize, usize)| length > 0 && first + length == cells;
    let names = [
        ("ends with the cells", arrays.iter().any(ends)),
        ("empty, at the end", arrays.contains(&(cells, 0))),
        (
            "arrays that overlap",
            arrays.iter().enumerate().any(overlap),
        ),
        ("64 arrays", arrays.len() == MOST_ARRAYS),
    ];
    let has = |(name, has): (&'static str, bool)| has.then_some(name);
    names.into_iter().filter_map(has).collect()
}

/// The array that a token at port 0 of FETCH or STORE is an index of, and the index.
fn named(case: &Case, record: &[u8]) -> Option<((usize, usize), i32)> {
    let (instruction, code) = (instruction_of(record), code_of(&case.graph, record));
    let name = constant_at(case, instruction);
    if !matches!(code, FETCH | STORE) || record[token::PORT] != 0 || name == 0 {
        return None;
    }
    let index = signed(record, token::VALUE);
    Some((table(case)[name as usize - 1], index))
}

/// What the operand of a FETCH or STORE that has fired tells.
fn token_names(case: &Case, record: &[u8]) -> Vec<&'static str> {
    let code = code_of(&case.graph, record);
    if record[token::STATE] != token::SPENT {
        return Vec::new();
    }
    match named(case, record) {
        Some(((_, length), index)) => {
            let mut names = vec![match code {
                FETCH => "FETCH by name",
                _ => "STORE by name",
            }];
            if index == 1 {
                names.push("an array's first cell");
            }
            if index as usize == length {
                names.push("an array's last cell");
            }
            names
        }
        None if code == FETCH => vec!["FETCH of the whole store"],
        None => Vec::new(),
    }
}

/// Why a firing by name was refused, or that a read by name waits at the end.
fn firing_name(case: &Case, left: &Left) -> Option<&'static str> {
    let place = left.answer.place();
    let records = || left.used().chunks_exact(TOKEN);
    match left.answer.refusal() {
        Some(number @ (10 | 11)) => {
            // The place is that of the operand that came first, on either port.
            let activity = records().nth(place)?;
            let same = |t: &&[u8]| same_tag(t, activity);
            let operand = records().find(|t| same(t) && t[token::PORT] == 0)?;
            let ((_, length), index) = named(case, operand)?;
            Some(match index {
                _ if number == 11 => "11 by name",
                _ if length == 0 => "10 of an empty array",
                0 => "10 at index 0",
                index if index < 0 => "10 below 0 by name",
                index if index as usize == length + 1 => "10 one past the length",
                _ => return None,
            })
        }
        Some(_) => None,
        None => {
            let deferred = records().filter(|t| t[token::STATE] == token::DEFERRED);
            let cells: HashSet<&[u8]> = deferred.map(|t| &t[token::VALUE]).collect();
            let waits = |t: &[u8]| match named(case, t) {
                Some(((first, _), index)) if t[token::STATE] == token::SPENT => {
                    let cell = (first as i32).wrapping_add(index).wrapping_sub(1);
                    cells.contains(&cell.to_le_bytes()[..])
                }
                _ => false,
            };
            records().any(waits).then_some("deferred by name")
        }
    }
}
