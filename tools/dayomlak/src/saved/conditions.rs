//! Why a saved state is refused by 24: which of the conditions of docs/RULES.md, section 11, does not hold, and for which
//! token or cell. The engine decides; what is here says why, and `check` notices where the two do not agree.

use std::collections::{HashMap, HashSet};

use ttda::layout::signed;

use super::State;
use crate::answer::{count, Word};
use crate::diagnostics::Finding;
use crate::failure::Failure;
use crate::graph::{LEAVE, OUT};
use crate::machine::Machine;
use crate::program::Program;
use crate::records::{self, cell, token, Cell, Tag, Token, CELL, TOKEN};

/// A condition that does not hold.
#[derive(Clone, Debug, PartialEq, Eq)]
pub struct Broken {
    /// The condition.
    pub rule: &'static str,
    /// What breaks it.
    pub words: String,
    /// The instruction that it is about.
    instruction: Option<u16>,
}

const CAPACITY: &str = "the tokens are within the capacity";
const FIELDS: &str = "fields and states are allowed";
const ONCE: &str = "a tag and port is there once";
const PATHS: &str = "a path is made of sites that have an ENTER, its levels unbroken";
const OPERANDS: &str = "a tag's operands are all present and spent, or none is spent";
const RESULTS: &str = "a result is never spent";
const DEFERRED: &str = "a deferred token names a cell";
const WAITING: &str = "a cell waits exactly where a token is deferred on it";
const ZERO: &str = "a cell's value is 0 until it is present";
const FIRINGS: &str = "there are as many firings as tags with spent operands";

/// Whether the engine takes the saved state of a machine exactly if no condition is broken.
pub fn check(machine: &Machine) -> Result<(), Failure> {
    let answer = machine.run(&[], 0).answer;
    let broken = of(machine).len();
    if agree(answer.word, broken) {
        return Ok(());
    }
    let (words, broken) = (answer.words(), count(broken, "broken condition"));
    Err(Failure::Inconsistent(format!(
        "the engine's answer to the saved state is {words}, and what explains it finds {broken}"
    )))
}

/// A graph or a buffer may be refused before the state is looked at.
fn agree(word: Word, broken: usize) -> bool {
    match word {
        Word::Refused(24) => broken > 0,
        Word::Refused(_) => true,
        Word::Completed | Word::Hung | Word::Spent => broken == 0,
    }
}

/// The conditions that the saved state of a machine breaks; none of one that begins at its inputs.
fn of(machine: &Machine) -> Vec<Broken> {
    let Some(state) = machine.start else {
        return Vec::new();
    };
    broken(machine.program, state, machine.sizes.capacity)
}

/// Adds to the finding of a state refused by 24 what is broken.
pub fn explain(finding: Finding, machine: &Machine) -> Finding {
    let broken = of(machine);
    let first = broken.first();
    let span = first.and_then(|b| machine.program.span(b.instruction?.into()));
    let mut finding = finding.at(span, first.map_or("", |b| &b.words));
    let notes = broken.iter().map(|b| format!("{}: {}", b.rule, b.words));
    finding.notes.splice(0..0, notes);
    finding
}

/// The conditions that do not hold, each with the first token or cell that breaks it. Where the tokens do not fit or a field
/// is not allowed, the others say nothing.
pub fn broken(program: &Program, state: &State, capacity: usize) -> Vec<Broken> {
    let tokens = usize::from(state.tokens());
    if tokens > capacity {
        let words = format!("there are {tokens}, and the capacity is {capacity}");
        return vec![whole(CAPACITY, words)];
    }
    if let Some(field) = bad_token(program, state).or_else(|| bad_cell(program, state)) {
        return vec![field];
    }
    let look = Look::at(program, state);
    let broken = [
        look.twice(),
        look.bad_path(),
        look.half_spent(),
        look.spent_result(),
        look.no_cell(),
        look.waiting(),
        look.not_zero(),
        look.firings(state.firings),
    ];
    broken.into_iter().flatten().collect()
}

/// Of a cell, or of all.
fn whole(rule: &'static str, words: String) -> Broken {
    Broken {
        rule,
        words,
        instruction: None,
    }
}

/// Of a token, by its place and name.
fn of_token(program: &Program, rule: &'static str, at: (usize, &Token), words: String) -> Broken {
    let (place, token) = at;
    let name = program.port(&token.tag, token.port);
    Broken {
        rule,
        words: format!("token {place}, `{name}`, {words}"),
        instruction: Some(token.tag.instruction),
    }
}

/// The first token with a field that is not allowed.
fn bad_token(program: &Program, state: &State) -> Option<Broken> {
    let records = state.ledger.chunks_exact(TOKEN);
    let tokens = records::tokens(&state.ledger);
    (0..)
        .zip(records)
        .zip(&tokens)
        .find_map(|((place, record), token)| {
            let words = bad_fields(program, record, token)?;
            Some(of_token(program, FIELDS, (place, token), words))
        })
}

fn bad_fields(program: &Program, record: &[u8], token: &Token) -> Option<String> {
    let number = token.tag.instruction;
    let Some(instruction) = program.graph.get(number) else {
        return Some(format!("is at instruction {number}, which is not there"));
    };
    if token.port >= instruction.operands() {
        let port = token.port;
        return Some(format!(
            "is at port {port}, which the instruction does not have"
        ));
    }
    match (record[token::STATE], &record[token::ZEROS]) {
        (0..=2, [0, 0, 0]) => None,
        (0..=2, _) => Some("has last bytes that are not zero".to_string()),
        (state, _) => Some(format!("has the state {state}, and states are 0 to 2")),
    }
}

/// The first cell with a field that is not allowed.
fn bad_cell(program: &Program, state: &State) -> Option<Broken> {
    let mut records = (0..).zip(state.cells.chunks_exact(CELL));
    records.find_map(|(number, record)| {
        let name = program.cell(number);
        let words = match (record[cell::STATE], &record[cell::ZEROS]) {
            (0..=2, [0, 0, 0]) => return None,
            (0..=2, _) => format!("{name} has last bytes that are not zero"),
            (state, _) => format!("{name} has the state {state}, and states are 0 to 2"),
        };
        Some(whole(FIELDS, words))
    })
}

/// A state whose fields are allowed.
struct Look<'p> {
    program: &'p Program,
    tokens: Vec<Token>,
    cells: Vec<Cell>,
    cell_records: &'p [u8],
}

impl<'p> Look<'p> {
    fn at(program: &'p Program, state: &'p State) -> Look<'p> {
        Look {
            program,
            tokens: records::tokens(&state.ledger),
            cells: records::cells(&state.cells),
            cell_records: &state.cells,
        }
    }

    /// The first token of which something is to be said.
    fn first(
        &self,
        rule: &'static str,
        mut fault: impl FnMut(usize, &Token) -> Option<String>,
    ) -> Option<Broken> {
        let mut tokens = self.tokens.iter().enumerate();
        tokens.find_map(|(place, token)| {
            let words = fault(place, token)?;
            Some(of_token(self.program, rule, (place, token), words))
        })
    }

    fn twice(&self) -> Option<Broken> {
        let mut first: HashMap<(Tag, u8), usize> = HashMap::new();
        self.first(ONCE, |place, token| {
            let known = *first.entry((token.tag, token.port)).or_insert(place);
            (known != place).then(|| format!("is where token {known} is"))
        })
    }

    fn bad_path(&self) -> Option<Broken> {
        self.first(PATHS, |_, token| {
            let graph = &self.program.graph;
            let sites = token.tag.calls().into_iter();
            let bad = sites
                .map(|call| call.0)
                .find(|site| *site == 0 || graph.enter(*site).is_none())?;
            Some(match bad {
                0 => "has a path with a level that names no site".to_string(),
                site => format!("has a path through site {site}, which has no ENTER"),
            })
        })
    }

    fn half_spent(&self) -> Option<Broken> {
        let states: HashMap<(Tag, u8), records::State> = self
            .tokens
            .iter()
            .map(|t| ((t.tag, t.port), t.state))
            .collect();
        self.first(OPERANDS, |_, token| {
            let operands = self.program.graph.get(token.tag.instruction)?.operands();
            if token.state != records::State::Spent || operands < 2 {
                return None;
            }
            let other = 1 - token.port;
            match states.get(&(token.tag, other)) {
                Some(records::State::Spent) => None,
                Some(state) => Some(format!(
                    "is spent, and the token at port {other} is {}",
                    state.word()
                )),
                None => Some(format!("is spent, and there is no token at port {other}")),
            }
        })
    }

    fn spent_result(&self) -> Option<Broken> {
        self.first(RESULTS, |_, token| {
            let code = self.program.graph.get(token.tag.instruction)?.code;
            let result = code == OUT || code == LEAVE && token.tag.path == 0;
            (result && token.state == records::State::Spent).then(|| "is spent".to_string())
        })
    }

    /// The cell that a deferred token names, if it is there.
    fn deferred_on(&self, token: &Token) -> Option<usize> {
        let cell = usize::try_from(token.value.low).ok()?;
        (token.state == records::State::Deferred && cell < self.cells.len()).then_some(cell)
    }

    fn no_cell(&self) -> Option<Broken> {
        self.first(DEFERRED, |_, token| {
            let deferred = token.state == records::State::Deferred;
            let (cell, cells) = (
                self.program.cell(token.value.low),
                count(self.cells.len(), "cell"),
            );
            (deferred && self.deferred_on(token).is_none())
                .then(|| format!("is deferred on {cell}, and there are {cells}"))
        })
    }

    fn waiting(&self) -> Option<Broken> {
        let awaited: HashSet<usize> = self
            .tokens
            .iter()
            .filter_map(|t| self.deferred_on(t))
            .collect();
        let token = self.first(WAITING, |_, token| {
            let cell = self.deferred_on(token)?;
            let word = match self.cells[cell] {
                Cell::Waiting => return None,
                Cell::Absent => "absent",
                Cell::Present(_) => "present",
            };
            let cell = self.program.cell(token.value.low);
            Some(format!("is deferred on {cell}, which is {word}"))
        });
        token.or_else(|| {
            let mut cells = self.cells.iter().enumerate();
            let (cell, _) =
                cells.find(|(n, cell)| **cell == Cell::Waiting && !awaited.contains(n))?;
            let cell = self.program.cell(cell as i32);
            Some(whole(
                WAITING,
                format!("{cell} waits, and no token is deferred on it"),
            ))
        })
    }

    fn not_zero(&self) -> Option<Broken> {
        let mut records = self
            .cell_records
            .chunks_exact(CELL)
            .zip(&self.cells)
            .enumerate();
        let (cell, (record, _)) = records.find(|(_, (record, cell))| {
            !matches!(cell, Cell::Present(_)) && record[cell::VALUE] != [0; 4]
        })?;
        let value = signed(record, cell::VALUE);
        let cell = self.program.cell(cell as i32);
        Some(whole(
            ZERO,
            format!("{cell} is not present and has the value {value}"),
        ))
    }

    fn firings(&self, firings: u16) -> Option<Broken> {
        let spent = self
            .tokens
            .iter()
            .filter(|t| t.state == records::State::Spent);
        let tags: HashSet<Tag> = spent.map(|t| t.tag).collect();
        let words = || {
            let (firings, tags) = (
                count(firings.into(), "firing"),
                count(tags.len(), "such tag"),
            );
            format!("there are {firings} and {tags}")
        };
        (tags.len() != usize::from(firings)).then(|| whole(FIRINGS, words()))
    }
}

#[cfg(test)]
mod tests {
    use super::*;
    use crate::machine::{Sizes, WHOLE};

    #[test]
    fn a_disagreement_is_noticed() {
        assert!(agree(Word::Refused(24), 1) && agree(Word::Spent, 0) && agree(Word::Refused(7), 1));
        assert!(!agree(Word::Refused(24), 0) && !agree(Word::Spent, 1) && !agree(Word::Hung, 2));
    }

    const TEXTS: [&str; 2] = [
        // Deferred reads in two calls, one that is written, and results of both kinds.
        "one: ENTER site 1 -> n return out\ntwo: ENTER site 2 -> n return out2\nout: OUT\nout2: OUT\n\
         n: COPY -> plus.0 read\nread: FETCH -> plus.1\nplus: ADD -> leave\nleave: LEAVE 0\nroot: LEAVE 0\n\
         input one = 3\ninput two = 4\ninput root = 5\ncell 4 = 1\n",
        // A loop.
        "i: COPY -> more t.0\nmore: LT 5 -> t.1\nt: SWITCH -> plus out\nplus: ADD 1 -> next\nnext: NEXT -> i\n\
         out: OUT\ninput i = 1\n",
    ];

    /// Every byte of a state changed in several ways, and its counts: the engine and the conditions agree on each. How
    /// many are taken, and how many are not.
    fn tally(program: &Program, state: &State, sizes: Sizes) -> (usize, usize) {
        let (mut taken, mut refused) = (0, 0);
        let mut look = |state: &State| {
            let machine = Machine {
                ranged: false,
                program,
                sizes,
                bound: 0,
                start: Some(state),
            };
            check(&machine).unwrap();
            match of(&machine).is_empty() {
                true => taken += 1,
                false => refused += 1,
            }
        };
        look(state);
        for value in [1, 2, 3, 0x80, 0xff] {
            for at in 0..state.ledger.len() {
                let mut changed = state.clone();
                changed.ledger[at] ^= value;
                look(&changed);
            }
            for at in 0..state.cells.len() {
                let mut changed = state.clone();
                changed.cells[at] ^= value;
                look(&changed);
            }
            let firings = state.firings ^ u16::from(value);
            look(&State {
                firings,
                ..state.clone()
            });
        }
        (taken, refused)
    }

    #[test]
    fn the_engine_and_the_conditions_agree() {
        let sizes = Sizes {
            capacity: 60,
            cells: 6,
        };
        for text in TEXTS {
            let program = Program::typed("test", text.as_bytes().to_vec()).unwrap();
            let machine = Machine::new(&program, sizes);
            let whole = machine.run(&[], WHOLE).answer.firings;
            for budget in 0..=whole {
                let state = State::of(&machine.run(&[], budget as u16));
                let (taken, refused) = tally(&program, &state, sizes);
                assert!(taken > 10 && refused > 100, "{taken} {refused}");
            }
        }
    }
}
