//! Which inputs a range comes from, as the ledger tells: a port gets one token at most in a whole run, so that one activity has
//! sent it, and a cell one value, so that one STORE has written it.

use std::collections::{BTreeSet, HashMap};

use asm::RangedInput;

use super::input_name;
use crate::activity::{Activity, Port};
use crate::graph::{FETCH, GATE, STORE, SWITCH};
use crate::program::Program;
use crate::records::{State, Tag, Token};

const CONST: u8 = 4;
/// The most inputs that are named.
const SHOWN: usize = 4;

struct Origins<'p> {
    program: &'p Program,
    tokens: &'p [Token],
    /// Where a port's token stands in the ledger.
    places: HashMap<Port, usize>,
    /// Which activity has sent to a port, and which STORE has written a cell.
    senders: HashMap<Port, Tag>,
    writers: HashMap<i32, Tag>,
}

/// The inputs that are ranges and that the tokens of some ports are worked out from, in their order.
pub fn of<'p>(program: &'p Program, tokens: &'p [Token], ports: &[Port]) -> Vec<&'p RangedInput> {
    let origins = Origins::new(program, tokens);
    let mut open = origins.places_of(ports);
    let (mut seen, mut inputs) = (BTreeSet::new(), BTreeSet::new());
    while let Some(place) = open.pop() {
        // A single value is the same for every choice.
        if tokens[place].value.is_single() || !seen.insert(place) {
            continue;
        }
        match place < program.input_count() {
            true => drop(inputs.insert(place)),
            false => open.extend(origins.made_of(place)),
        }
    }
    let inputs = inputs.into_iter();
    inputs.filter_map(|input| program.range(input)).collect()
}

/// `x = 3..8 (line 6), y.0 = 1..2 (line 7)`.
pub fn words(program: &Program, inputs: &[&RangedInput]) -> String {
    let input = |range: &&RangedInput| {
        let (name, low, high) = (input_name(program, range.input), range.low, range.high);
        format!("{name} = {low}..{high} (line {})", line(program, range))
    };
    let shown: Vec<String> = inputs.iter().take(SHOWN).map(input).collect();
    match inputs.len().saturating_sub(SHOWN) {
        0 => shown.join(", "),
        more => format!("{} and {more} more", shown.join(", ")),
    }
}

/// The line of the text that a range stands in, counted from 1.
pub fn line(program: &Program, range: &RangedInput) -> usize {
    let before = program.text.get(..range.span.start);
    before.unwrap_or_default().matches('\n').count() + 1
}

impl<'p> Origins<'p> {
    fn new(program: &'p Program, tokens: &'p [Token]) -> Origins<'p> {
        let mut origins = Origins {
            program,
            tokens,
            places: (0..)
                .zip(tokens)
                .map(|(place, t)| ((t.tag, t.port), place))
                .collect(),
            senders: HashMap::new(),
            writers: HashMap::new(),
        };
        let spent = tokens.iter().filter(|t| t.state == State::Spent);
        let fired: BTreeSet<Tag> = spent.map(|t| t.tag).collect();
        for tag in fired {
            origins.add(tag);
        }
        origins
    }

    /// What an activity that has fired sent and wrote.
    fn add(&mut self, tag: Tag) {
        let Some(activity) = Activity::of(self.program, self.tokens, tag) else {
            return;
        };
        for port in activity.ends().into_iter().flatten() {
            self.senders.insert(port, tag);
        }
        if activity.instruction.code == STORE {
            self.writers.extend(cell(&activity).map(|cell| (cell, tag)));
        }
    }

    /// The tokens that the value of another one is made of.
    fn made_of(&self, place: usize) -> Vec<usize> {
        let token = &self.tokens[place];
        let sender = self.senders.get(&(token.tag, token.port));
        let activity = sender.and_then(|tag| Activity::of(self.program, self.tokens, *tag));
        let Some(activity) = activity else {
            return Vec::new();
        };
        let (tag, operands) = (activity.tag, activity.instruction.operands());
        let ports: Vec<Port> = match activity.instruction.code {
            CONST | STORE => Vec::new(),
            FETCH => {
                let writer = cell(&activity).and_then(|cell| self.writers.get(&cell));
                writer.map(|writer| (*writer, 1)).into_iter().collect()
            }
            SWITCH | GATE => vec![(tag, 0)],
            _ => (0..operands).map(|port| (tag, port)).collect(),
        };
        self.places_of(&ports)
    }

    fn places_of(&self, ports: &[Port]) -> Vec<usize> {
        let places = ports.iter().filter_map(|port| self.places.get(port));
        places.copied().collect()
    }
}

/// The cell that a FETCH or a STORE touches.
fn cell(activity: &Activity) -> Option<i32> {
    let operand = activity.operands.first()?;
    activity.instruction.cell(operand.low)
}

#[cfg(test)]
mod tests {
    use super::*;
    use crate::machine::{Machine, Sizes, WHOLE};

    /// The names of the inputs that the token at `out` comes from.
    fn origins(text: &str) -> Vec<String> {
        let program = Program::typed_ranges("test", text.as_bytes().to_vec()).unwrap();
        let machine = Machine::new(&program, Sizes::default()).ranged(true);
        let tokens = machine.run(&[], WHOLE).tokens();
        let is_out = |t: &&Token| program.name(t.tag.instruction) == "out";
        let out = tokens.iter().find(is_out).unwrap();
        let inputs = of(&program, &tokens, &[(out.tag, out.port)]);
        let name = |input: &&RangedInput| input_name(&program, input.input);
        inputs.iter().map(name).collect()
    }

    #[test]
    fn through_arithmetic_and_cells() {
        let text = "array a = 2\nf: FETCH a -> s.0\ns: SUB -> g.0\ng: GATE -> out\nout: OUT\na[1] = 1..2\na[2] = 3..4\n\
            input f = 2\ninput s.1 = 5..6\ninput g.1 = 7..8\n";
        assert_eq!(origins(text), ["a[2]", "s.1"]);
        // The read comes first and is deferred.
        let late = "f: FETCH -> out\nout: OUT\nw: STORE\nx: MUL 2 -> w.1\ninput f = 2\ninput w.0 = 2\ninput x = 5..6\n";
        assert_eq!(origins(late), ["x"]);
    }

    #[test]
    fn through_calls_and_loops() {
        let call = "e: ENTER site 1 -> x return out\nx: ADD 1 -> l\nl: LEAVE 0\nout: OUT\ninput e = 5..6\n";
        assert_eq!(origins(call), ["e"]);
        let looped = "j: COPY -> more t.0\nmore: LT 3 -> c\nc: COPY -> t.1 s.1\nt: SWITCH -> p end\np: ADD 1 -> d\nd: NEXT -> j\n\
            end: SINK\ns: SWITCH -> n.0 out\nn: MUL 2 -> e\ne: NEXT -> s.0\nout: OUT\ninput j = 0\ninput s.0 = 5..6\n";
        assert_eq!(origins(looped), ["s.0"]);
    }

    /// What is the same for every choice comes from no input, and neither does a constant.
    #[test]
    fn single_values_come_from_none() {
        let decided = "x: LT 9 -> y.0\ny: ADD -> out\nout: OUT\ninput x = 3..4\ninput y.1 = 1..2\n";
        assert_eq!(origins(decided), ["y.1"]);
        let constant = "x: CONST 9 -> out\nout: OUT\ninput x = 3..4\n";
        assert_eq!(origins(constant), [""; 0]);
    }
}
