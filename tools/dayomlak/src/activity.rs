//! An activity with its operands, and where its firing sends to. Used to explain what the engine refused, not to fire.

use crate::graph::{Destination, Instruction, ENTER, LEAVE, NEXT, SWITCH};
use crate::program::Program;
use crate::records::{Tag, Token};
use crate::value::Value;

/// A port under a tag, which takes one token in a whole run.
pub type Port = (Tag, u8);

pub struct Activity<'p> {
    pub program: &'p Program,
    pub tag: Tag,
    pub instruction: &'p Instruction,
    /// By port.
    pub operands: Vec<Value>,
}

impl<'p> Activity<'p> {
    /// The activity of a tag, with its operands among the tokens.
    pub fn of(program: &'p Program, tokens: &[Token], tag: Tag) -> Option<Activity<'p>> {
        let instruction = program.graph.get(tag.instruction)?;
        let operand = |port| {
            let token = tokens.iter().find(|t| t.tag == tag && t.port == port);
            token.map(|t| t.value)
        };
        Some(Activity {
            program,
            tag,
            instruction,
            operands: (0..instruction.operands()).filter_map(operand).collect(),
        })
    }

    /// The ends of its arcs, by the rules of tags; `None` where nothing is sent.
    pub fn ends(&self) -> Vec<Option<Port>> {
        let arcs = self.instruction.arcs().iter();
        match self.instruction.code {
            LEAVE => vec![self.back()],
            ENTER => {
                let tag = self.tag.entered(self.instruction.constant as u8);
                arcs.map(|arc| Some(end(tag, arc))).collect()
            }
            NEXT => arcs.map(|arc| Some(end(self.tag.next(), arc))).collect(),
            SWITCH => {
                // A control that may be 0 or not is refused: of another one the low end decides.
                let taken =
                    usize::from(self.operands.get(1).is_some_and(|control| control.low == 0));
                let side = |(side, arc)| (side == taken).then(|| end(self.tag, arc));
                arcs.enumerate().map(side).collect()
            }
            _ => arcs.map(|arc| Some(end(self.tag, arc))).collect(),
        }
    }

    /// Where the call that this LEAVE ends returns to.
    fn back(&self) -> Option<Port> {
        let (caller, site) = self.tag.left();
        let enter = self.program.graph.get(self.program.graph.enter(site)?)?;
        let back = enter.destinations.get(1)?.instruction;
        let number = i32::from(back) + self.instruction.constant;
        let instruction = u16::try_from(number).ok()?;
        let tag = Tag {
            instruction,
            ..caller
        };
        Some((tag, 0))
    }
}

/// The end of an arc under a tag.
fn end(tag: Tag, arc: &Destination) -> Port {
    let instruction = arc.instruction;
    (Tag { instruction, ..tag }, arc.port)
}
