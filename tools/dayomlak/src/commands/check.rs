//! `dayomlak check` and `dayomlak bounds`.

use super::load;
use crate::answer::{count, Answer, Word};
use crate::cli::{Bounds, Check};
use crate::failure::{self, Failure};
use crate::graph::{FETCH, SWITCH};
use crate::machine::{Machine, Sizes};
use crate::program::Program;
use crate::records::{MOST_CELLS, MOST_RECORDS};
use crate::script::{self, Fields};
use crate::{diagnostics, output, refused, warnings};

pub fn check(args: &Check) -> Result<u8, Failure> {
    let program = load(&args.file.file)?;
    let machine = Machine::new(&program, LARGEST);
    // With a budget of 0 nothing is fired; only what comes before the first firing is refused.
    let end = machine.run(&program.files.picks, 0);
    let refused = refused::explain(&program, &end, machine.sizes, "nothing fired");
    let too_strict = args.strict && !warnings::of(&program).is_empty();
    if args.script.json {
        let text = &program.text;
        let finding = refused
            .as_ref()
            .map(|finding| script::finding(text, finding));
        let mut fields = vec![
            ("refused", finding.unwrap_or("null".to_string())),
            ("instructions", program.graph.instructions.len().to_string()),
            ("arrays", program.arrays.all().len().to_string()),
            ("inputs", program.input_count().to_string()),
        ];
        fields.extend(bounds_fields(&program, &machine.bounds()));
        script::print("check", &program, fields)?;
        return Ok(status(refused.is_some() || too_strict));
    }
    if let Some(finding) = refused {
        diagnostics::complain(&program.label, &program.text, &[finding]);
        return Ok(failure::NOT_COMPLETED);
    }
    let instructions = count(program.graph.instructions.len(), "instruction");
    let arrays = match program.arrays.all().len() {
        0 => String::new(),
        number => format!("{}, ", count(number, "array")),
    };
    let inputs = count(program.input_count(), "input");
    let bounds = bounds_words(&program, &machine.bounds());
    let text = format!(
        "{}: {instructions}, {arrays}{inputs}; nothing is refused before the first firing\n{bounds}\n",
        program.label
    );
    output::print(text.as_bytes())?;
    Ok(status(too_strict))
}

const LARGEST: Sizes = Sizes {
    capacity: MOST_RECORDS,
    cells: MOST_CELLS,
};

/// Nothing is fired: the status says whether something is refused, or stands against a strict check.
fn status(refused: bool) -> u8 {
    match refused {
        true => failure::NOT_COMPLETED,
        false => failure::COMPLETED,
    }
}

/// `dayomlak bounds`.
pub fn bounds(args: &Bounds) -> Result<u8, Failure> {
    let program = load(&args.file.file)?;
    let answer = Machine::new(&program, LARGEST).bounds();
    match args.script.json {
        true => script::print("bounds", &program, bounds_fields(&program, &answer))?,
        false => output::print((bounds_words(&program, &answer) + "\n").as_bytes())?,
    }
    Ok(status(matches!(answer.word, Word::Refused(_))))
}

/// What the graph needs, for scripts.
fn bounds_fields(program: &Program, answer: &Answer) -> Fields {
    let is_known = !matches!(answer.word, Word::Refused(_));
    vec![
        ("bounds", script::answer(answer)),
        ("exact", script::flag(is_known && is_exact(program))),
    ]
}

/// Whether every order that is not refused needs all of the bounds.
fn is_exact(program: &Program) -> bool {
    let has = |code: u8| program.graph.instructions.iter().any(|i| i.code == code);
    !has(SWITCH) && !has(FETCH)
}

/// What the graph needs, in words.
fn bounds_words(program: &Program, answer: &Answer) -> String {
    match answer.word {
        Word::Refused(19) => {
            let name = program.name(answer.place as u16);
            let word = program.graph.instructions[answer.place].words();
            format!("what it needs is not known before it runs: it has loops or calls, as `{name}` ({word})")
        }
        Word::Refused(_) => format!("no bounds: {}", answer.words()),
        _ => {
            let counts = answer.counts();
            match !is_exact(program) {
                true => format!("every order needs at most {counts}"),
                false => format!("every order that is not refused needs exactly {counts}"),
            }
        }
    }
}
