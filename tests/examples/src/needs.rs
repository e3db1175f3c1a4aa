//! What an example needs: bounds where they can be known before a run, else the
//! profile in ideal steps.

use asm::Files;
use layout::fields::step;
use layout::unsigned;
use layout::widths::{CELL, STEP, TOKEN};
use second::{Answer, Bounds, Refusal};

use crate::runs::{self, Left};
use crate::{CELLS, RECORDS};

/// The words of the file `expected_bounds`: whether a run needs just so much.
const EXACTLY: &str = "exactly";
const AT_MOST: &str = "at most";
const BOUNDS: &str = "expected_bounds";
const PROFILE: &str = "expected_profile";

/// What the second emulator says that an example needs.
pub enum Needs {
    /// Of a loop-free graph.
    Bounds(Bounds),
    Profile(Profile),
}

pub struct Profile {
    answer: Answer,
    /// 4 bytes for each step.
    records: Vec<u8>,
}

impl Needs {
    pub fn of(files: &Files) -> Needs {
        match second::bounds(&files.graph, &files.inputs) {
            Ok(bounds) => Needs::Bounds(bounds),
            Err(Refusal { .. }) => Needs::Profile(second_profile(files)),
        }
    }

    /// The file that it is stored in.
    pub fn file(&self) -> &'static str {
        match self {
            Needs::Bounds(_) => BOUNDS,
            Needs::Profile(_) => PROFILE,
        }
    }

    /// The file that an example of the other kind has.
    pub fn other_file(&self) -> &'static str {
        match self {
            Needs::Bounds(_) => PROFILE,
            Needs::Profile(_) => BOUNDS,
        }
    }

    /// One line with the bounds, firings and tokens; or the answer to the profile and
    /// a line for each step, its firings and the tokens live or deferred after it.
    pub fn text(&self) -> String {
        match self {
            Needs::Bounds(bounds) => {
                let word = if bounds.exact { EXACTLY } else { AT_MOST };
                format!("{word} {} {}\n", bounds.firings, bounds.tokens)
            }
            Needs::Profile(profile) => {
                let answer = second::print(&profile.answer, &[], &[]);
                let steps: String = profile.records.chunks_exact(STEP).map(step).collect();
                String::from_utf8_lossy(&answer).into_owned() + &steps
            }
        }
    }

    /// That the engine gives the same, and that the run keeps to it.
    pub fn engine_agrees(&self, files: &Files, run: &Left) -> Result<(), String> {
        match self {
            Needs::Bounds(bounds) => bounds_agree(files, bounds, run),
            Needs::Profile(profile) => profile_agrees(files, profile, run),
        }
    }
}

fn step(record: &[u8]) -> String {
    let (firings, tokens) = (
        unsigned(record, step::FIRINGS),
        unsigned(record, step::TOKENS),
    );
    format!("{firings} {tokens}\n")
}

fn second_profile(files: &Files) -> Profile {
    let mut ledger = vec![0; TOKEN * RECORDS];
    let mut cells = vec![0; CELL * CELLS];
    let mut records = vec![0; STEP * RECORDS];
    let (program, inputs) = (runs::program(files), &files.inputs);
    let profiled = second::profile(program, inputs, &mut ledger, &mut cells, &mut records);
    records.truncate(STEP * profiled.records);
    Profile {
        answer: profiled.answer,
        records,
    }
}

fn bounds_agree(files: &Files, bounds: &Bounds, run: &Left) -> Result<(), String> {
    let due = engine::packed_bounds(&Ok(*bounds));
    if engine::bounds(&files.graph, &files.inputs) != due {
        return Err("the engine gives other bounds".to_string());
    }
    let (word, firings, tokens, _) = engine::unpacked(run.answer);
    let most = (bounds.firings as u64, bounds.tokens as u64);
    let kept = firings <= most.0 && tokens <= most.1;
    // A refused run ends before it has needed all.
    let exact = !bounds.exact || engine::is_refusal(word) || (firings, tokens) == most;
    match kept && exact {
        true => Ok(()),
        false => Err("the run needs something else than its bounds".to_string()),
    }
}

fn profile_agrees(files: &Files, profile: &Profile, run: &Left) -> Result<(), String> {
    let mut ledger = vec![0; TOKEN * RECORDS];
    let mut cells = vec![0; CELL * CELLS];
    let mut records = vec![0; STEP * RECORDS];
    let (program, inputs) = (runs::program(files), &files.inputs);
    let (answer, steps) = engine::profile(program, inputs, &mut ledger, &mut cells, &mut records);
    records.truncate(STEP * steps as usize);
    if answer != engine::packed_answer(&profile.answer) || records != profile.records {
        return Err("the engine gives another profile".to_string());
    }
    runs::agree(run, &Left::of_engine(answer, &ledger, cells))
        .map_err(|what| format!("the profile ends otherwise than the run: {what}"))
}
