//! Lists of picks for one graph, and what any two of them have to agree on.

use layout::widths::{CELL, MOST_RECORDS, PICK, TOKEN};
use second::{Answer, Outcome};

use crate::case::{Case, Left};
use crate::prng::Prng;

/// One order of a graph: what was lent to its run, and what the run left.
pub struct End {
    pub case: Case,
    pub left: Left,
}

/// At least eight lists of picks, oldest first and newest first among them.
pub fn pick_lists(case: &Case, prng: &mut Prng) -> Vec<Vec<u8>> {
    let (capacity, cells) = (case.ledger_bytes / TOKEN, case.cells_bytes / CELL);
    let chosen = |choose: &mut dyn FnMut(usize, usize) -> u16| {
        second::picks_of(case.program(), &case.inputs, capacity, cells, |f, e| {
            choose(f, e)
        })
    };
    let newest = second::picks_newest_first(case.program(), &case.inputs, capacity, cells);
    let middle = chosen(&mut |_, enabled| (enabled / 2) as u16);
    let alternating = chosen(&mut |f, e| if f % 2 == 0 { 0 } else { (e - 1) as u16 });
    let half = newest[..newest.len() / PICK / 2 * PICK].to_vec();
    let mut lists = vec![Vec::new(), newest, middle, alternating, half];
    for _ in 0..2 {
        lists.push(chosen(&mut |_, enabled| prng.below(enabled) as u16));
    }
    for length in [PICK * (1 + prng.below(20)), PICK * MOST_RECORDS] {
        let mut picks = vec![0; length];
        prng.fill(&mut picks);
        lists.push(picks);
    }
    lists
}

/// Demand 3 over two runs of one graph and inputs with budget 2,048, and equal
/// capacity and number of cells: they complete or hang alike, with everything else
/// equal (02, R-2), or both are refused.
pub fn agree(one: &Left, other: &Left) -> Result<(), String> {
    match (&one.answer.outcome, &other.answer.outcome) {
        (Outcome::Refused(_), Outcome::Refused(_)) => Ok(()),
        (Outcome::Completed, Outcome::Completed) | (Outcome::Hung, Outcome::Hung) => {
            agree_at_rest(one, other)
        }
        _ => Err(format!(
            "{} in one order, {} in another",
            line(one),
            line(other)
        )),
    }
}

fn agree_at_rest(one: &Left, other: &Left) -> Result<(), String> {
    let differ = |what: &str| Err(format!("two orders end with other {what}"));
    let counts = |answer: &Answer| (answer.firings, answer.tokens);
    if counts(&one.answer) != counts(&other.answer) {
        return differ("counts");
    }
    if one.cells != other.cells {
        return differ("cells");
    }
    if sorted_records(one) != sorted_records(other) {
        return differ("tokens");
    }
    if one.listing != other.listing {
        return differ("listings");
    }
    Ok(())
}

/// The records by all their bytes, so that equality means the same records in
/// some order.
fn sorted_records(left: &Left) -> Vec<&[u8]> {
    let mut records: Vec<&[u8]> = left.used().chunks_exact(TOKEN).collect();
    records.sort_unstable();
    records
}

/// The first line that is printed of a run.
fn line(left: &Left) -> String {
    let text = second::print(&left.answer, &[], &[]);
    String::from_utf8_lossy(&text).trim_end().to_string()
}
