//! `dayomlak log` and `dayomlak replay`.

use std::fs;

use codespan_reporting::diagnostic::Severity;
use ttda::layout::fields::logged::ZERO;

use super::{answer, left, load, status};
use crate::answer::Word;
use crate::cli::{Log, Replay};
use crate::diagnostics::{self, Finding};
use crate::failure::Failure;
use crate::log_file::{LogFile, Named};
use crate::machine::{End, Machine, Sizes};
use crate::output::{self, Target};
use crate::program::Program;
use crate::records::{Tag, LOGGED};
use crate::{forms, held, refused, saved};

pub fn log(args: &Log) -> Result<u8, Failure> {
    let program = load(&args.file.file)?;
    let machine = Machine::new(&program, args.buffers.sizes());
    let machine = machine.bounded(args.firing.bounding.or_none());
    let order = args.firing.order();
    let target = Target::new(&args.output, &program.sources_with(&order))?;
    let picks = order.picks(&machine)?;
    let (end, records) = machine.run_for_log(&picks, args.firing.budget);
    held::check(&machine, &end)?;
    let mut said = answer(&machine, &end, &machine.order(&order));
    match end.answer.refused_at_once() {
        true => said += "no log is written: the run did not begin\n",
        false => {
            let of = (!args.records).then(|| Named::of(&machine));
            let bound = machine.bound;
            target.write(&LogFile { of, bound, records }.encode())?;
        }
    }
    target.say(&said)?;
    Ok(status(&end))
}

pub fn replay(args: &Replay) -> Result<u8, Failure> {
    let program = load(&args.file.file)?;
    let log = fs::read(&args.log).map_err(|error| Failure::file(&args.log, error))?;
    if saved::is_saved(&log) {
        let text = format!(
            "{} is a saved state, and no log\n  `dayomlak carry-on` goes on from it",
            args.log.display()
        );
        return Err(Failure::Wrong(text));
    }
    let log = LogFile::decode(&log);
    let log = log.map_err(|text| Failure::Wrong(format!("{}: {text}", args.log.display())))?;
    let machine = Machine::new(&program, args.buffers.sizes());
    let order = check_run(args, &log, &Named::of(&machine))?;
    let end = machine.replay(&log.records);
    if args.listing {
        output::print(&end.text()?)?;
        return Ok(status(&end));
    }
    let mut text = replayed(&machine, &end, &log.records, order);
    if log.bound != 0 && end.answer.word == Word::Spent {
        text += &format!(
            "the log is of a run with bound {}; a replay has none, so that what was held then can fire here\n",
            log.bound
        );
    }
    text += &left(&machine, &end);
    output::print(text.as_bytes())?;
    Ok(status(&end))
}

/// Refuses a log of another run, unless it is asked for; answers by which log the replay fires, in words.
fn check_run(args: &Replay, log: &LogFile, here: &Named) -> Result<&'static str, Failure> {
    let path = args.log.display();
    let Some(of) = &log.of else {
        let text =
            format!("{path} has records alone, which do not say what graph and inputs they are of");
        complain(Finding::new(Severity::Note, text));
        return Ok("as logged");
    };
    if of == here {
        return Ok("as logged");
    }
    let text = format!("{path} is the log of another run\n  the log:  {of}\n  this run: {here}");
    if args.anyway {
        complain(Finding::warning(text));
        return Ok("by the log of another run");
    }
    let Sizes { capacity, cells } = of.sizes;
    let advice = match of.fingerprint == here.fingerprint {
        true => format!("lend what it was made with: --capacity {capacity} --cells {cells}"),
        false => "was the graph or an input edited since?".to_string(),
    };
    let text = format!("{text}\n  {advice}\n  --anyway replays it all the same");
    Err(Failure::Wrong(text))
}

/// A finding about no place in the text.
fn complain(finding: Finding) {
    diagnostics::complain("", "", &[finding]);
}

/// The answer of a replay in words. Only here is it known what a record of the log names.
fn replayed(machine: &Machine, end: &End, log: &[u8], order: &str) -> String {
    let program = machine.program;
    match refused::explain(program, end, machine.sizes, order) {
        Some(mut finding) if end.answer.word == Word::Refused(20) => {
            let named = named(program, log, end.answer.place);
            finding.notes.insert(0, named);
            finding.notes.insert(1, format!("fired {order}"));
            if let Some(advice) = forms::advice(log, &forms::LOGS) {
                finding
                    .notes
                    .insert(2, format!("look at the log's records: {advice}"));
            }
            diagnostics::plain(&program.label, &program.text, &[finding])
        }
        _ => answer(machine, end, order),
    }
}

/// What the record at fault names.
fn named(program: &Program, log: &[u8], record: usize) -> String {
    match log.chunks(LOGGED).nth(record) {
        Some(bytes) if bytes.len() < LOGGED => {
            format!(
                "record {record} has {} bytes instead of {LOGGED}",
                bytes.len()
            )
        }
        Some(bytes) if bytes[ZERO] != 0 => format!("byte {ZERO} of record {record} is not 0"),
        Some(bytes) => {
            let tag = Tag::of(bytes);
            format!(
                "record {record} names `{}`, which is not enabled then",
                program.tag(&tag)
            )
        }
        None => format!("the log has no record {record}"),
    }
}
