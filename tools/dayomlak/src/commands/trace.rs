//! `dayomlak trace`.

use std::ops::Range;

use super::{answer, ended, status};
use crate::beginning::Beginning;
use crate::cli::Trace;
use crate::failure::Failure;
use crate::history::{Firing, History, Touch};
use crate::json::{list, maybe, object, string};
use crate::program::Program;
use crate::records::Tag;
use crate::walk::{self, Choice};
use crate::{effects, output, script};

pub fn trace(args: &Trace) -> Result<u8, Failure> {
    let beginning = Beginning::load(&args.file.file, &args.buffers)?;
    let beginning = beginning.bounded(args.firing.bounding.bound);
    let (program, machine) = (&beginning.program, beginning.machine());
    let order = args.firing.order();
    let picks = order.picks(&machine)?;
    let (end, log) = machine.run_traced(&picks, args.firing.budget)?;
    let order = beginning.order(&order, &end);
    let history = match end.answer.refused_at_once() {
        true => History::default(),
        false => History::of(&machine, &end, &log)?,
    };
    let enabled = Enabled(program, walk::choices(&machine, &log)?);
    let shown = shown(args, &history);
    if args.form.script.json {
        let firings = shown.map(|number| json(program, &history, &enabled, number));
        let mut fields = script::lent(&machine);
        fields.push(("budget", args.firing.budget.to_string()));
        fields.extend(script::from(&machine));
        fields.push(("trace", list(firings)));
        fields.extend(ended(&machine, &end, &order));
        script::print("trace", program, fields)?;
    } else if args.form.csv {
        output::print(csv(program, &history, &enabled, shown).as_bytes())?;
    } else {
        let enabled = (!args.short).then_some(&enabled);
        let text = lines(program, &history, enabled, shown) + &answer(&machine, &end, &order);
        output::print(text.as_bytes())?;
    }
    Ok(status(&end))
}

/// The enabled activities before each firing, and behind the last.
struct Enabled<'p>(&'p Program, Vec<Choice>);

impl Enabled<'_> {
    fn names(&self, number: usize) -> Vec<String> {
        let tags = self.1[number].enabled.iter();
        tags.map(|tag| self.0.tag(tag)).collect()
    }

    /// The number of an activity among those that are enabled before a firing.
    fn pick(&self, number: usize, tag: &Tag) -> Option<usize> {
        let mut enabled = self.1[number].enabled.iter();
        enabled.position(|enabled| enabled == tag)
    }

    /// What the bound holds back there, with what holds it.
    fn held(&self, number: usize) -> Vec<String> {
        let held = self.1[number].held.iter();
        held.map(|held| held.words(self.0)).collect()
    }

    /// The lines before a firing; behind the last one, if something is enabled there.
    fn lines(&self, number: usize) -> String {
        let (names, held) = (self.names(number), self.held(number));
        let mut text = String::new();
        if !names.is_empty() {
            text += &format!("enabled: {}\n", walk::numbered(&names));
        }
        if !held.is_empty() {
            text += &format!("held: {}\n", held.join("  "));
        }
        text
    }
}

/// The firings that are asked for. They are counted from the inputs, and a saved state has some of them behind it.
fn shown(args: &Trace, history: &History) -> Range<usize> {
    let firings = history.firings.len();
    let first = args.from.saturating_sub(1 + history.before).min(firings);
    let last = args
        .count
        .map_or(firings, |count| first.saturating_add(count));
    first..last.min(firings)
}

/// A firing for scripts. A deferred output has its value later.
fn json(program: &Program, history: &History, enabled: &Enabled, number: usize) -> String {
    let firing = &history.firings[number];
    let value = |place: &usize| history.tokens[*place].value.to_string();
    let deferred = matches!(firing.touch, Some(Touch::Deferred(_)));
    let output = |place: usize| {
        let token = &history.tokens[place];
        let value = match deferred {
            true => "null".to_string(),
            false => token.value.to_string(),
        };
        object(&[
            ("name", string(&program.port(&token.tag, token.port))),
            ("value", value),
        ])
    };
    let operation = program.graph.get(firing.tag.instruction).map(|i| i.words());
    object(&[
        ("firing", (history.before + number + 1).to_string()),
        ("name", string(&program.tag(&firing.tag))),
        ("path", string(&firing.tag.path.to_string())),
        ("iteration", firing.tag.iteration.to_string()),
        ("instruction", firing.tag.instruction.to_string()),
        ("operation", string(&operation.unwrap_or_default())),
        ("operands", list(firing.operands.iter().map(value))),
        ("outputs", list(firing.outputs.clone().map(output))),
        ("cell", touch(program, history, firing)),
        ("pick", maybe(enabled.pick(number, &firing.tag))),
        (
            "enabled",
            list(enabled.names(number).iter().map(|name| string(name))),
        ),
        (
            "held",
            script::held(program, &enabled.1[number].held, false),
        ),
    ])
}

/// The cell that a firing touches, and the tokens that go on by a write.
fn touch(program: &Program, history: &History, firing: &Firing) -> String {
    let name = |place: &usize| {
        let token = &history.tokens[*place];
        string(&program.port(&token.tag, token.port))
    };
    let (cell, word, woken) = match &firing.touch {
        None => return "null".to_string(),
        Some(Touch::Read(cell)) => (cell, "read", Vec::new()),
        Some(Touch::Deferred(cell)) => (cell, "deferred", Vec::new()),
        Some(Touch::Written(cell, woken)) => (cell, "written", woken.iter().map(name).collect()),
    };
    object(&[
        ("cell", cell.to_string()),
        (
            "name",
            string(&program.touched(firing.tag.instruction, *cell)),
        ),
        ("touch", string(word)),
        ("woken", list(woken)),
    ])
}

/// A line for each firing: number, activity, operation, operands, what it does, its pick, the names that it chooses from and those
/// that the bound holds back.
fn csv(program: &Program, history: &History, enabled: &Enabled, shown: Range<usize>) -> String {
    let head = [
        "firing",
        "activity",
        "operation",
        "operands",
        "effect",
        "pick",
        "enabled",
        "held",
    ];
    let mut text = script::csv(&head.map(str::to_string));
    for number in shown {
        let firing = &history.firings[number];
        let mut row = columns(program, history, number, firing).to_vec();
        row.push(effects::of(program, history, firing));
        row.push(maybe(enabled.pick(number, &firing.tag)));
        row.push(enabled.names(number).join(" "));
        row.push(enabled.held(number).join(" "));
        text += &script::csv(&row);
    }
    text
}

/// The firings, a line each. What is enabled stands before each, and behind the last where more can fire.
fn lines(
    program: &Program,
    history: &History,
    enabled: Option<&Enabled>,
    shown: Range<usize>,
) -> String {
    let row = |number: usize| {
        let firing = &history.firings[number];
        let columns = columns(program, history, number, firing);
        (columns, effects::of(program, history, firing))
    };
    let rows: Vec<([String; 4], String)> = shown.clone().map(row).collect();
    let enabled_at = |number| enabled.map_or(String::new(), |enabled| enabled.lines(number));
    let width = |column: usize| {
        let widths = rows.iter().map(|(columns, _)| columns[column].len());
        widths.max().unwrap_or(0)
    };
    let [w0, w1, w2, w3] = [0, 1, 2, 3].map(width);
    let mut text = String::new();
    for (at, ([number, activity, operation, operands], effects)) in shown.clone().zip(&rows) {
        text += &enabled_at(at);
        let line =
            format!("{number:>w0$}  {activity:w1$}  {operation:w2$}  {operands:>w3$}  {effects}");
        text += line.trim_end();
        text.push('\n');
    }
    if shown.end == history.firings.len() {
        text += &enabled_at(shown.end);
    }
    text
}

/// Number, activity, operation and operands.
fn columns(program: &Program, history: &History, number: usize, firing: &Firing) -> [String; 4] {
    let instruction = program.graph.get(firing.tag.instruction);
    [
        (history.before + number + 1).to_string(),
        program.tag(&firing.tag),
        instruction.map_or(String::new(), |i| i.words()),
        effects::operands(history, firing),
    ]
}
