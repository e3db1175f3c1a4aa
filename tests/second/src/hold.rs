//! Loop bounding: which activities of NEXT are held back, and by which tokens (02, R-9).

use std::collections::HashSet;

use crate::arrays::Arrays;
use crate::graph::Graph;
use crate::machine::{Checked, Machine};
use crate::token::{Tag, Token};
use crate::value::Value;
use crate::{fits, MOST_RECORDS, TOKEN_RECORD};

/// An activity that is held back: its place, and the positions of the tokens that hold it.
#[derive(Clone, Debug, PartialEq, Eq)]
pub struct Held {
    pub place: usize,
    pub holders: Vec<usize>,
}

/// What a bound holds back in a ledger of used records, in order of place; `None` if the
/// graph is refused or the records are not the tokens of a run of it.
pub fn held(graph: &[u8], bound: u16, records: &[u8]) -> Option<Vec<Held>> {
    if !fits(records.len(), TOKEN_RECORD, MOST_RECORDS) {
        return None;
    }
    let program = Checked {
        graph: Graph::parse(graph).ok()?,
        arrays: Arrays::none(),
    };
    let parsed = records.chunks_exact(TOKEN_RECORD).map(|record| {
        let token = Token::parse(record)?;
        let operands = program.graph.operands(usize::from(token.instruction))?;
        (token.port < operands).then_some(token)
    });
    let tokens: Vec<Token> = parsed.collect::<Option<_>>()?;
    let mut taken = HashSet::new();
    if !tokens.iter().all(|token| taken.insert(token.key())) {
        return None;
    }
    Some(Machine::resumed(&program, tokens.len(), &tokens, Vec::new()).held(bound))
}

impl<V: Value> Machine<'_, V> {
    /// The activities that a bound, or 0 for none, holds back.
    fn held(&self, bound: u16) -> Vec<Held> {
        let held = self.enabled_nexts().map(|(place, next)| {
            let holders = self.holders(next, bound).collect();
            Held { place, holders }
        });
        held.filter(|held| !held.holders.is_empty()).collect()
    }

    /// The places of these activities, in order.
    pub fn held_places(&self, bound: u16) -> Vec<usize> {
        if bound == 0 {
            return Vec::new();
        }
        self.enabled_nexts()
            .filter(|&(_, next)| self.holders(next, bound).next().is_some())
            .map(|(place, _)| place)
            .collect()
    }

    /// The tokens at work that stand at an iteration of m - k or less of the activity's
    /// path, or in a path entered from there, where it would make iteration m.
    fn holders(&self, next: Tag, bound: u16) -> impl Iterator<Item = usize> + '_ {
        let latest = (i32::from(next.iteration) + 1) - i32::from(bound);
        let old = move |(position, token): (usize, &Token<V>)| {
            let iteration = iteration_in(next.path, token)?;
            (bound > 0 && i32::from(iteration) <= latest).then_some(position)
        };
        self.unfinished().filter_map(old)
    }
}

/// The iteration of a path that a token belongs to: its own there, or the one that its
/// path was entered from, right below that path. `None` if it stands elsewhere.
fn iteration_in<V>(path: u128, token: &Token<V>) -> Option<u8> {
    let (mut inner, mut iteration) = (token.path, token.iteration);
    while inner != path {
        if inner == 0 {
            return None;
        }
        // The newest level has the iteration that it was entered from in its lowest byte.
        (inner, iteration) = (inner >> 16, inner as u8);
    }
    Some(iteration)
}
