//! What a run of ranges cannot decide (refusal 23): which way a SWITCH goes, or which cell is meant.

use asm::RangedInput;

use super::{input_name, origins};
use crate::activity::Activity;
use crate::answer::Word;
use crate::diagnostics::Finding;
use crate::graph::SWITCH;
use crate::json::{list, maybe, object, string};
use crate::machine::End;
use crate::program::Program;
use crate::records::Token;
use crate::value::Value;

/// The operand that is not decided.
#[derive(Clone, Copy, Debug, PartialEq, Eq)]
pub enum What {
    Control,
    Cell,
    Index,
}

impl What {
    fn word(self) -> &'static str {
        match self {
            What::Control => "control",
            What::Cell => "cell",
            What::Index => "index",
        }
    }
}

/// An activity that is refused by 23.
pub struct Undecided<'a> {
    activity: &'a Activity<'a>,
    what: What,
    value: Value,
    /// The inputs that it comes from.
    from: Vec<&'a RangedInput>,
}

impl<'a> Undecided<'a> {
    /// What an activity cannot decide, among the tokens of its run.
    pub fn of(activity: &'a Activity<'a>, tokens: &'a [Token]) -> Undecided<'a> {
        let what = match (activity.instruction.code, &activity.instruction.array) {
            (SWITCH, _) => What::Control,
            (_, Some(_)) => What::Index,
            (_, None) => What::Cell,
        };
        let port = u8::from(what == What::Control);
        let value = activity.operands.get(usize::from(port)).copied();
        Undecided {
            activity,
            what,
            value: value.unwrap_or(Value::of(0)),
            from: origins::of(activity.program, tokens, &[(activity.tag, port)]),
        }
    }

    /// Marks the instruction and the first input that its operand comes from, and names all of them.
    pub fn explain(&self, finding: Finding) -> Finding {
        let program = self.activity.program;
        let here = program.span(self.activity.tag.instruction.into());
        let finding = finding.at(here, self.words());
        let Some(first) = self.from.first() else {
            return finding;
        };
        let what = self.what.word();
        let finding = finding.also(
            Some(first.span.clone()),
            format!("the {what} comes from here"),
        );
        match self.from.len() {
            1 => finding,
            _ => finding.note(format!(
                "the {what} comes from {}",
                origins::words(program, &self.from)
            )),
        }
    }

    /// ``SWITCH `test` may go either way: its control is 0..3``.
    pub fn words(&self) -> String {
        let instruction = self.activity.instruction;
        let operation = asm::by_code(instruction.code).map_or("", |operation| operation.name);
        let name = self.activity.program.name(self.activity.tag.instruction);
        let may = match &instruction.array {
            _ if self.what == What::Control => "may go either way".to_string(),
            Some(array) => format!("may mean several elements of `{}`", array.name),
            None => "may mean several cells".to_string(),
        };
        let (what, value) = (self.what.word(), self.value);
        format!("{operation} `{name}` {may}: its {what} is {value}")
    }
}

/// What a run could not decide, for scripts; `None` where that is not why it ended.
pub fn json(program: &Program, end: &End) -> Option<String> {
    if end.answer.word != Word::Refused(23) || end.answer.refused_at_once() {
        return None;
    }
    let tokens = end.tokens();
    let tag = tokens.get(end.answer.place)?.tag;
    let activity = Activity::of(program, &tokens, tag)?;
    let undecided = Undecided::of(&activity, &tokens);
    let from = undecided.from.iter().map(|range| {
        object(&[
            ("name", string(&input_name(program, range.input))),
            ("line", origins::line(program, range).to_string()),
            ("low", range.low.to_string()),
            ("high", range.high.to_string()),
        ])
    });
    Some(object(&[
        ("name", string(&program.tag(&tag))),
        ("operation", string(&activity.instruction.words())),
        ("line", maybe(program.line(tag.instruction))),
        ("what", string(undecided.what.word())),
        ("low", undecided.value.low.to_string()),
        ("high", undecided.value.high.to_string()),
        ("from", list(from)),
    ]))
}
