//! `dayomlak show`.

use super::{answer, ended};
use crate::answer::Word;
use crate::beginning::Beginning;
use crate::cli::Show;
use crate::failure::{self, Failure};
use crate::json::{list, object, string};
use crate::machine::End;
use crate::output;
use crate::pictures;
use crate::records::{State, Token};
use crate::saved::view::{self, View};
use crate::script::{self, Fields};

/// Nothing is fired: the status says whether the state is taken.
pub fn show(args: &Show) -> Result<u8, Failure> {
    let beginning = Beginning::load_saved(&args.file)?;
    if args.text {
        output::print(beginning.program.text.as_bytes())?;
        return Ok(failure::COMPLETED);
    }
    let machine = beginning.machine();
    let end = machine.run(&[], 0);
    let view = match end.answer.word {
        Word::Refused(_) => View::default(),
        _ => View::of(&machine, &end.tokens()),
    };
    if !view.agrees(&end) {
        return Err(view::disagreement());
    }
    match args.script.json {
        true => script::print("show", &beginning.program, fields(&beginning, &end, &view))?,
        false => output::print(words(&beginning, &end, &view).as_bytes())?,
    }
    Ok(match end.answer.word {
        Word::Refused(_) => failure::NOT_COMPLETED,
        _ => failure::COMPLETED,
    })
}

fn fields(beginning: &Beginning, end: &End, view: &View) -> Fields {
    let machine = beginning.machine();
    let program = &beginning.program;
    let order = beginning.saved.as_ref().map_or("", |saved| &saved.order);
    let tokens = |tokens: &[Token]| list(tokens.iter().map(|t| script::token(program, t, false)));
    let enabled = view.enabled.iter().map(|tag| {
        object(&[
            ("name", string(&program.tag(tag))),
            ("path", string(&tag.path.to_string())),
            ("iteration", tag.iteration.to_string()),
            ("instruction", tag.instruction.to_string()),
        ])
    });
    let mut fields = script::lent(&machine);
    fields.extend(script::from(&machine));
    fields.extend(ended(&machine, end, order));
    fields.push(("enabled", list(enabled)));
    fields.push(("waiting", tokens(&view.waiting)));
    fields.push(("deferred", tokens(&view.deferred)));
    fields
}

fn words(beginning: &Beginning, end: &End, view: &View) -> String {
    let (program, machine) = (&beginning.program, beginning.machine());
    let Some(saved) = &beginning.saved else {
        return String::new();
    };
    let mut text = answer(&machine, end, &saved.order);
    if end.answer.refused_at_once() {
        return text;
    }
    let fingerprint = pictures::fingerprint(&program.files);
    text += &format!("of {}, graph and inputs {fingerprint}\n", saved.of);
    let tokens = end.tokens();
    let enabled = (0..).zip(&view.enabled);
    let enabled = enabled.map(|(number, tag): (usize, _)| {
        format!("{number} {}", view::activity(program, &tokens, tag))
    });
    text += &part("enabled, as picks count them", enabled.collect());
    for (title, lines) in view::parts(program, end, view) {
        text += &part(title, lines);
    }
    let spent = tokens.iter().filter(|t| t.state == State::Spent).count();
    text + &format!("spent tokens: {spent}\n")
}

/// A heading with lines under it, if there are any.
fn part(title: &str, lines: Vec<String>) -> String {
    match lines.is_empty() {
        true => String::new(),
        false => format!("{title}:\n  {}\n", lines.join("\n  ")),
    }
}
