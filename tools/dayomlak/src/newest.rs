//! Picks that fire the newest first.
//!
//! Of e enabled activities the newest is number e - 1, and the engine does not say e. So e is foretold, and what is
//! foretold is tried: the run under picks e - 1 and the run under picks 2e - 1 have equal logs and answers exactly if
//! every firing took the newest. For let e be foretold and d activities be enabled. If d divides e, both picks are
//! d - 1 modulo d, the newest. If not, they differ modulo d by e, and two different activities are fired. So no picks
//! are used that the engine itself has not shown to be newest first.
//!
//! To foretell e, a run in another order is enough where nothing is refused: the same activities fire in every order and
//! send the same tokens (demand 3). Where a run is refused, what it fired before serves to foretell some more firings, and
//! a run under these picks shows more.

use std::collections::{BTreeMap, HashMap, HashSet};

use crate::answer::Word;
use crate::failure::Failure;
use crate::graph::{Graph, LEAVE, OUT};
use crate::history::{Firing, History, Touch};
use crate::machine::{End, Machine, WHOLE};
use crate::orders;
use crate::records::{self, Tag, MOST_RECORDS};
use crate::saved::view::View;
use crate::saved::State;

/// The picks of a whole run that fire the newest first.
pub fn picks(machine: &Machine) -> Result<Vec<u8>, Failure> {
    if machine.bound != 0 {
        return bounded_picks(machine);
    }
    let mut enabled: Vec<u16> = Vec::new();
    // Each round foretells one firing more at least.
    for _ in 0..=MOST_RECORDS {
        let (end, log) = machine.run_logged(&times(&enabled, 1), WHOLE);
        if shown(machine, &enabled, &end, &log) {
            return Ok(orders::bytes(enabled.iter().map(|e| e - 1)));
        }
        let history = History::of(machine, &end, &log)?;
        enabled = Schedule::new(&machine.program.graph, &history).newest_first();
    }
    let text = "the picks for newest first are not newest first";
    Err(Failure::Inconsistent(text.to_string()))
}

/// Under a bound an order in which less is held tells nothing of another, so that each state is asked for.
fn bounded_picks(machine: &Machine) -> Result<Vec<u8>, Failure> {
    let begun = machine.run(&[], 0);
    match begun.answer.refused_at_once() {
        true => Ok(Vec::new()),
        false => picks_from(machine, &State::of(&begun)),
    }
}

/// The picks of the firings from a saved state that fire the newest first. Here the state is at hand before each firing, so
/// that e is counted there; that it divides as it should is shown as above.
pub fn picks_from(machine: &Machine, state: &State) -> Result<Vec<u8>, Failure> {
    let (mut state, mut picks) = (state.clone(), Vec::new());
    loop {
        let tokens = records::tokens(&state.ledger);
        let enabled = View::of(machine, &tokens).enabled.len() as u16;
        let fire = |pick: u16| machine.carry_on(&state, &pick.to_le_bytes(), 1);
        let end = fire(enabled.saturating_sub(1));
        if end != fire((2 * enabled).saturating_sub(1)) {
            let text = "the picks for newest first are not newest first";
            return Err(Failure::Inconsistent(text.to_string()));
        }
        if enabled > 0 {
            picks.push(enabled - 1);
        }
        if end.answer.firings == usize::from(state.firings) || end.answer.refused_at_once() {
            return Ok(orders::bytes(picks.into_iter()));
        }
        state = State::of(&end);
    }
}

/// Whether a run under foretold numbers is newest first, as the engine itself shows.
fn shown(machine: &Machine, enabled: &[u16], end: &End, log: &[Tag]) -> bool {
    if tried(end) > enabled.len() {
        return false;
    }
    let (other_end, other_log) = machine.run_logged(&times(enabled, 2), WHOLE);
    end.answer == other_end.answer && log == other_log
}

/// Picks that are 1 less than a multiple of the foretold numbers, and then a guess.
fn times(enabled: &[u16], factor: u16) -> Vec<u8> {
    let known = enabled.iter().map(|e| factor * e - 1);
    let rest = std::iter::repeat(guess(enabled));
    orders::bytes(known.chain(rest).take(MOST_RECORDS))
}

/// A pick that takes the newest if about as many are enabled as were last: 1 less than a number that the last counts
/// divide, as many as 16 bits allow. At the beginning, any count up to 12.
fn guess(enabled: &[u16]) -> u16 {
    let small = (1..=12).rev();
    let counts = enabled
        .iter()
        .rev()
        .map(|count| u32::from(*count))
        .chain(small);
    let mut multiple: u32 = 1;
    for count in counts {
        let next = multiple / common_divisor(multiple, count) * count;
        if next > 65_536 {
            break;
        }
        multiple = next;
    }
    (65_536 / multiple * multiple - 1) as u16
}

fn common_divisor(one: u32, other: u32) -> u32 {
    match other {
        0 => one,
        _ => common_divisor(other, one % other),
    }
}

/// How many picks a run has used, that of a refused firing included.
fn tried(end: &End) -> usize {
    let refused = matches!(end.answer.word, Word::Refused(_)) && !end.answer.refused_at_once();
    end.answer.firings + usize::from(refused)
}

/// The firings of a known run put in another order. Tokens are named by their places in the known ledger.
struct Schedule<'h> {
    graph: &'h Graph,
    history: &'h History,
    known: HashMap<Tag, &'h Firing>,
    /// How many tokens there are so far, in order of arrival.
    arrived: usize,
    /// Where each token arrived.
    places: Vec<usize>,
    /// The live operands of a tag, how many and the earliest place.
    operands: HashMap<Tag, (u8, usize)>,
    /// Enabled activities by place.
    enabled: BTreeMap<usize, Tag>,
    written: HashSet<i32>,
    waiting: HashMap<i32, Vec<usize>>,
}

impl<'h> Schedule<'h> {
    fn new(graph: &'h Graph, history: &'h History) -> Schedule<'h> {
        let mut schedule = Schedule {
            graph,
            history,
            known: history.firings.iter().map(|f| (f.tag, f)).collect(),
            arrived: 0,
            places: vec![0; history.tokens.len()],
            operands: HashMap::new(),
            enabled: BTreeMap::new(),
            written: HashSet::new(),
            waiting: HashMap::new(),
        };
        for input in 0..history.given {
            schedule.arrive(input);
            schedule.wake(input);
        }
        schedule
    }

    /// How many activities are enabled before each firing, up to the first that the known run did not make.
    fn newest_first(mut self) -> Vec<u16> {
        let mut counts = Vec::new();
        while let Some((place, tag)) = self.enabled.pop_last() {
            counts.push(self.enabled.len() as u16 + 1);
            debug_assert!(place < self.arrived);
            match self.known.get(&tag) {
                Some(firing) => self.fire(firing),
                None => break,
            }
        }
        counts
    }

    fn fire(&mut self, firing: &Firing) {
        for output in firing.outputs.clone() {
            self.arrive(output);
        }
        match firing.touch {
            Some(Touch::Written(cell, _)) => {
                self.written.insert(cell);
                for token in self.waiting.remove(&cell).unwrap_or_default() {
                    self.wake(token);
                }
            }
            Some(Touch::Read(cell) | Touch::Deferred(cell)) if !self.written.contains(&cell) => {
                let waiting = self.waiting.entry(cell).or_default();
                waiting.extend(firing.outputs.clone());
                return;
            }
            _ => {}
        }
        for output in firing.outputs.clone() {
            self.wake(output);
        }
    }

    fn arrive(&mut self, token: usize) {
        self.places[token] = self.arrived;
        self.arrived += 1;
    }

    /// A token is live; its activity is enabled if it was the last operand to come.
    fn wake(&mut self, token: usize) {
        let tag = self.history.tokens[token].tag;
        let place = self.places[token];
        let Some(instruction) = self.graph.get(tag.instruction) else {
            return;
        };
        let (count, first) = self.operands.entry(tag).or_insert((0, place));
        *count += 1;
        *first = place.min(*first);
        let result = instruction.code == OUT || instruction.code == LEAVE && tag.path == 0;
        if *count == instruction.operands() && !result {
            self.enabled.insert(*first, tag);
        }
    }
}

#[cfg(test)]
mod tests {
    use super::*;
    use crate::machine::Sizes;
    use crate::program::Program;

    /// Three are enabled, then two, then one.
    const THREE: &str = "a: SINK\nb: SINK\nc: SINK\ninput a = 1\ninput b = 1\ninput c = 1\n";

    fn is_shown(text: &str, enabled: &[u16]) -> bool {
        let program = Program::typed("test", text.as_bytes().to_vec()).unwrap();
        let machine = Machine::new(&program, Sizes::default());
        let (end, log) = machine.run_logged(&times(enabled, 1), WHOLE);
        shown(&machine, enabled, &end, &log)
    }

    #[test]
    fn numbers_foretold_wrong_are_noticed() {
        assert!(is_shown(THREE, &[3, 2, 1]));
        // A multiple takes the newest as well.
        assert!(is_shown(THREE, &[6, 4, 1]));
        for wrong in [[1, 1, 1], [2, 2, 1], [3, 1, 1], [4, 2, 1], [3, 3, 1]] {
            assert!(!is_shown(THREE, &wrong), "{wrong:?}");
        }
        assert!(!is_shown(THREE, &[3, 2]));
    }

    #[test]
    fn guesses_take_the_newest_of_the_last_counts() {
        assert!((1..=12).all(|count| guess(&[]) % count == count - 1));
        let pick = u32::from(guess(&[5, 13, 40, 41])) + 1;
        assert_eq!((pick % 41, pick % 40, pick % 13), (0, 0, 0));
        assert_eq!(guess(&[2048, 2047]) % 2047, 2046);
    }

    #[test]
    fn a_refused_firing_is_looked_at_too() {
        let text = "a: COPY -> a\nb: COPY -> b\ninput a = 1\ninput b = 1\n";
        assert!(is_shown(text, &[2]));
        assert!(!is_shown(text, &[1]) && !is_shown(text, &[]));
    }
}
