//! `dayomlak timeline`.

use super::{answer, load, status};
use crate::cli;
use crate::curves::Pace;
use crate::failure::Failure;
use crate::machine::Machine;
use crate::output::Target;
use crate::pictures::Form;
use crate::timeline::{svg, vcd, Timeline};

pub fn timeline(args: &cli::Timeline) -> Result<u8, Failure> {
    let is_vcd = args
        .output
        .extension()
        .is_some_and(|form| form.eq_ignore_ascii_case("vcd"));
    let form = Form::of(&args.output)?;
    let program = load(&args.file.file)?;
    let order = args.firing.order();
    let target = Target::new(&args.output, &program.sources_with(&order))?;
    let machine = Machine::new(&program, args.buffers.sizes());
    let machine = machine.bounded(args.firing.bounding.or_none());
    let timeline = match (args.processors, args.steps) {
        (Some(pace), _) => Timeline::by_step(&machine, pace)?,
        (None, true) => Timeline::by_step(&machine, Pace::Ideal)?,
        (None, false) => {
            let (words, picks) = (machine.order(&order), order.picks(&machine)?);
            Timeline::by_firing(&machine, words, &picks, args.firing.budget)?
        }
    };
    let bytes = match is_vcd {
        true => vcd::file(&timeline).into_bytes(),
        false => form.drawn(svg::picture(&timeline).into_bytes())?,
    };
    target.write(&bytes)?;
    target.say(&answer(&machine, &timeline.end, &timeline.order))?;
    Ok(status(&timeline.end))
}
