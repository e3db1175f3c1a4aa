//! Orders by names: an activity for each firing, as answers name it. The engine fires them one by one, which shows the pick
//! of each.

use std::path::Path;

use asm::Named;

use crate::answer::Word;
use crate::diagnostics::Finding;
use crate::failure::Failure;
use crate::log_file;
use crate::machine::Machine;
use crate::orders;
use crate::program;
use crate::results;
use crate::saved;
use crate::walk::{self, Walk};

/// How many enabled activities are named.
const SHOWN: usize = 40;

/// The picks of an order in a file of its own.
pub fn of_file(machine: &Machine, path: &Path) -> Result<Vec<u16>, Failure> {
    let label = path.display().to_string();
    let bytes = std::fs::read(path).map_err(|error| Failure::file(path, error))?;
    if bytes.starts_with(log_file::START.as_bytes()) || saved::is_saved(&bytes) {
        let text = "is no order by names, but a log or a saved state";
        let advice = "`dayomlak replay` takes a log, `dayomlak carry-on` a saved state";
        return Err(Failure::Wrong(format!("{label} {text}\n  {advice}")));
    }
    let text = program::text(&label, bytes)?;
    match asm::read_order(&text) {
        Ok(order) => picks(machine, &label, &text, &order),
        Err(errors) => {
            let findings = errors.0.into_iter().map(Finding::from).collect();
            Err(Failure::faulty(&label, text, findings))
        }
    }
}

/// The picks that fire activities by their names. From a saved state they are those that are left: name i is for firing i
/// since the inputs. Behind a refused firing nothing fires, whatever is named there.
pub fn picks(
    machine: &Machine,
    label: &str,
    text: &str,
    order: &[Named],
) -> Result<Vec<u16>, Failure> {
    // A run of ranges and the run of their low ends go in step, as far as the former goes.
    let lows = machine.ranged(false);
    let mut walk = Walk::new(&lows)?;
    let mut picks = Vec::new();
    for (number, named) in (1..).zip(order).skip(machine.given().0) {
        if let Word::Refused(_) = walk.end.answer.word {
            break;
        }
        let names = walk.names();
        let Some(pick) = names.iter().position(|name| *name == named.name) else {
            if machine.ranged && is_refused(machine, &picks) {
                break;
            }
            let finding = not_enabled(&walk, names, number, named, order);
            return Err(Failure::faulty(label, text, vec![finding]));
        };
        walk.fire(pick)?;
        picks.push(pick as u16);
    }
    Ok(picks)
}

/// Whether a run by these picks is refused.
fn is_refused(machine: &Machine, picks: &[u16]) -> bool {
    let bytes = orders::bytes(picks.iter().copied());
    let end = machine.run(&bytes, picks.len() as u16);
    matches!(end.answer.word, Word::Refused(_))
}

/// Whether the instruction of an activity is there, whatever its iteration and calls.
fn is_instruction(walk: &Walk, activity: &str) -> bool {
    let last = activity.rsplit('/').next().unwrap_or_default();
    let name = last.split('[').next().unwrap_or_default();
    let program = walk.program();
    (0..program.graph.instructions.len() as u16).any(|number| program.name(number) == name)
}

/// A name that cannot fire, with what can.
fn not_enabled(
    walk: &Walk,
    mut names: Vec<String>,
    number: usize,
    named: &Named,
    order: &[Named],
) -> Finding {
    let name = &named.name;
    let before = order[..number - 1].iter().position(|n| n.name == *name);
    let (is, words) = match (before, walk.held_by(name)) {
        (Some(firing), _) => {
            let words = format!("it is fired already, in firing {}", firing + 1);
            ("not enabled", words)
        }
        (None, Some(by)) => ("held back", format!("bound {}, {by}", walk.machine().bound)),
        (None, None) if is_instruction(walk, name) => {
            ("not enabled", "not all its operands are there".to_string())
        }
        (None, None) => ("not enabled", "there is no such instruction".to_string()),
    };
    let finding = Finding::error(format!("`{name}` is {is} at firing {number}"))
        .at(Some(named.span.clone()), words);
    if names.is_empty() {
        let ended = results::headline(walk.machine(), &walk.end, "as ordered");
        return finding.note(format!("nothing is: {ended}"));
    }
    let more = names.len().saturating_sub(SHOWN);
    names.truncate(SHOWN);
    let more = match more {
        0 => String::new(),
        more => format!("  and {more} more"),
    };
    finding.note(format!("enabled then: {}{more}", walk::numbered(&names)))
}
