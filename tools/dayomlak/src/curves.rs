//! What the curves of Memo 280 are drawn of: firings, tokens and tokens that wait, by steps or by firings. Every state is the
//! engine's; it is only counted here.

use std::collections::{HashSet, VecDeque};

use plotter::curves::Steps;
use plotter::Step;

use crate::answer::Word;
use crate::failure::Failure;
use crate::loads::Loads;
use crate::machine::{End, Machine};
use crate::records::{State, Tag};
use crate::saved::view::View;
use crate::walk::Walk;

/// How a run goes on in steps.
#[derive(Clone, Copy, Debug, PartialEq, Eq)]
pub enum Pace {
    /// All that is enabled at the start of a step fires in it.
    Ideal,
    /// At most this number of them, those first that were enabled first.
    Processors(u16),
}

impl Pace {
    /// What a step is, under an axis.
    pub fn step(self) -> String {
        match self {
            Pace::Ideal => "ideal step".to_string(),
            Pace::Processors(1) => "step of 1 firing".to_string(),
            Pace::Processors(most) => format!("step of at most {most} firings"),
        }
    }

    /// In which order a run at this pace fires, in words.
    pub fn words(self) -> String {
        match self {
            Pace::Ideal => "by ideal steps".to_string(),
            Pace::Processors(1) => "by steps of 1 firing".to_string(),
            Pace::Processors(most) => format!("by steps of at most {most} firings"),
        }
    }
}

/// The steps of a run, and what it answers and leaves.
pub struct Paced {
    pub steps: Steps,
    pub end: End,
}

/// The run of a machine at a pace. Cells are loaded before step 1.
pub fn paced(machine: &Machine, pace: Pace) -> Result<Paced, Failure> {
    match pace {
        Pace::Ideal => {
            let (end, whole) = machine.profile();
            let steps = ideal(machine, &whole)?;
            Ok(Paced { steps, end })
        }
        Pace::Processors(most) => processors(machine, most),
    }
}

/// The curves of a profile, by its whole steps.
pub fn ideal(machine: &Machine, whole: &[Step]) -> Result<Steps, Failure> {
    let mut steps = Steps {
        what: Pace::Ideal.step(),
        first: 1,
        ..Steps::default()
    };
    let loaded = loaded(machine)?.filter(|_| !whole.is_empty());
    let loads = loaded.as_ref().map_or(0, |(loads, _)| loads.len() as u32);
    if let Some((_, walk)) = loaded {
        steps.first = 0;
        add(&mut steps, machine, loads, &walk.end);
    }
    for (number, step) in (1..).zip(whole) {
        let (state, _) = machine.profile_within(number);
        let loads = if number == 1 { loads } else { 0 };
        let firings = u32::from(step.firings) - loads;
        add(&mut steps, machine, firings, &state);
    }
    Ok(steps)
}

/// Fires at most this number in a step.
fn processors(machine: &Machine, most: u16) -> Result<Paced, Failure> {
    let mut steps = Steps {
        what: Pace::Processors(most).step(),
        first: 1,
        ..Steps::default()
    };
    let (end, _) = march(machine, most, |number, firings, end| {
        steps.first = steps.first.min(number);
        add(&mut steps, machine, firings, end);
    })?;
    Ok(Paced { steps, end })
}

/// The activities of a run with the step of each, 0 for the loads of cells, and what it leaves.
pub fn in_steps(machine: &Machine, pace: Pace) -> Result<(End, Vec<(usize, Tag)>), Failure> {
    let most = match pace {
        Pace::Ideal => u16::MAX,
        Pace::Processors(most) => most,
    };
    march(machine, most, |_, _, _| {})
}

/// Fires at most this number in a step, in the order in which they were enabled; the engine fires each. Whole steps are shown, by
/// number, firings and what they leave.
fn march(
    machine: &Machine,
    most: u16,
    mut show: impl FnMut(usize, u32, &End),
) -> Result<(End, Vec<(usize, Tag)>), Failure> {
    let mut walk = Walk::new(machine)?;
    let mut log = Vec::new();
    if let Some((loads, after)) = loaded(machine)? {
        show(0, loads.len() as u32, &after.end);
        log.extend(loads.into_iter().map(|tag| (0, tag)));
        walk = after;
    }
    let (mut known, mut queue) = (HashSet::new(), VecDeque::new());
    let mut number = 0;
    while !walk.enabled.is_empty() {
        number += 1;
        queue.extend(walk.enabled.iter().filter(|tag| known.insert(**tag)));
        let now: Vec<Tag> = (0..most).map_while(|_| queue.pop_front()).collect();
        for tag in &now {
            let fired = walk.fire_tag(tag)? && !is_refused(&walk.end);
            log.extend(fired.then_some((number, *tag)));
        }
        // A refused step is not whole.
        if !is_refused(&walk.end) {
            show(number, now.len() as u32, &walk.end);
        }
    }
    Ok((walk.end, log))
}

fn is_refused(end: &End) -> bool {
    matches!(end.answer.word, Word::Refused(_))
}

/// Tokens after each firing of a run, and before the first.
pub fn by_firing(machine: &Machine, picks: &[u8], budget: u16) -> Result<Paced, Failure> {
    let (end, log) = machine.run_logged(picks, budget);
    let steps = match end.answer.refused_at_once() {
        true => Steps::default(),
        false => along(machine, &log)?,
    };
    let steps = Steps {
        what: "firing".to_string(),
        enabled: Vec::new(),
        ..steps
    };
    Ok(Paced { steps, end })
}

/// Tokens after each firing of a log, and before the first, with what can fire then.
pub fn along(machine: &Machine, log: &[Tag]) -> Result<Steps, Failure> {
    let mut steps = Steps {
        what: "firing".to_string(),
        ..Steps::default()
    };
    let mut walk = Walk::new(machine)?;
    let mut note = |walk: &Walk| {
        add(&mut steps, machine, 0, &walk.end);
        steps.enabled.push(walk.enabled.len() as u32);
    };
    note(&walk);
    for tag in log {
        walk.fire_tag(tag)?;
        note(&walk);
    }
    steps.firings.clear();
    Ok(steps)
}

/// The loads of cells, and the state after them; `None` where there are none, or one is refused.
fn loaded<'m>(machine: &'m Machine<'m>) -> Result<Option<(Vec<Tag>, Walk<'m>)>, Failure> {
    let loads = Loads::of(machine.program);
    let mut walk = Walk::new(machine)?;
    let tags = walk.enabled.clone().into_iter();
    let tags: Vec<Tag> = tags.filter(|tag| loads.contains(tag.instruction)).collect();
    for tag in &tags {
        walk.fire_tag(tag)?;
    }
    let is_there = !tags.is_empty() && !is_refused(&walk.end);
    Ok(is_there.then_some((tags, walk)))
}

/// Adds a column: the firings, and what they leave.
fn add(steps: &mut Steps, machine: &Machine, firings: u32, end: &End) {
    let tokens = end.tokens();
    let unspent = tokens.iter().filter(|token| token.state != State::Spent);
    steps.firings.push(firings);
    steps.tokens.push(unspent.count() as u32);
    let waiting = View::of(machine, &tokens).waiting;
    steps.waiting.push(waiting.len() as u32);
}

#[cfg(test)]
mod tests {
    use super::*;
    use crate::machine::{Sizes, WHOLE};
    use crate::program::Program;

    /// Two cells are loaded; a is slow, so that its partner waits.
    const TEXT: &str =
        "a: COPY -> b\nb: COPY -> sum.0\nread: FETCH -> sum.1\nsum: ADD -> out\nout: OUT\n\
        cell 1 = 5\ncell 2 = 6\ninput a = 1\ninput read = 1\n";

    fn curves(text: &str, of: impl FnOnce(&Machine) -> Result<Paced, Failure>) -> Paced {
        let program = Program::typed("test", text.as_bytes().to_vec()).unwrap();
        of(&Machine::new(&program, Sizes::default())).unwrap()
    }

    #[test]
    fn loads_stand_before_step_1() {
        let Paced { steps, end } = curves(TEXT, |machine| paced(machine, Pace::Ideal));
        assert_eq!((steps.first, end.answer.firings), (0, 6));
        assert_eq!(steps.firings, [2, 2, 1, 1]);
        assert_eq!(steps.tokens, [2, 2, 2, 1]);
        assert_eq!(steps.waiting, [0, 1, 0, 0]);
    }

    /// Those first that were enabled first; the same end as any order.
    #[test]
    fn one_and_two_processors() {
        let ideal = curves(TEXT, |machine| paced(machine, Pace::Ideal));
        let one = curves(TEXT, |machine| paced(machine, Pace::Processors(1)));
        assert_eq!(one.steps.firings, [2, 1, 1, 1, 1]);
        assert_eq!(one.steps.waiting, [0, 0, 1, 0, 0]);
        assert_eq!(one.end.listing(), ideal.end.listing());
        let two = curves(TEXT, |machine| paced(machine, Pace::Processors(2)));
        assert_eq!(two.steps.firings, ideal.steps.firings);
    }

    #[test]
    fn the_firings_of_a_run() {
        let Paced { steps, .. } = curves(TEXT, |machine| by_firing(machine, &[], WHOLE));
        assert!(steps.firings.is_empty());
        assert_eq!((steps.first, steps.tokens.len()), (0, 7));
        assert_eq!((steps.tokens[0], steps.tokens[6]), (6, 1));
    }

    /// What is refused has its whole steps, and no load that is refused itself.
    #[test]
    fn refused_runs() {
        let text = "a: COPY -> b\nb: DIV 0 -> c\nc: OUT\ninput a = 1\n";
        for pace in [Pace::Ideal, Pace::Processors(3)] {
            let Paced { steps, end } = curves(text, |machine| paced(machine, pace));
            assert_eq!(
                (steps.firings, end.answer.word),
                (vec![1], Word::Refused(12))
            );
        }
        let text = "cell 1 = 5\ncell 1 = 6\n";
        let Paced { steps, .. } = curves(text, |machine| paced(machine, Pace::Ideal));
        assert_eq!((steps.first, steps.firings), (1, vec![]));
        let text = "a: SINK\ninput a = 1\ninput a = 2\n";
        let Paced { steps, .. } = curves(text, |machine| paced(machine, Pace::Processors(1)));
        assert_eq!((steps.firings, steps.tokens), (vec![], vec![]));
    }
}
