//! `dayomlak report`.

use super::{answer, status};
use crate::beginning::Beginning;
use crate::cli::Report;
use crate::failure::Failure;
use crate::output::Target;
use crate::report;

pub fn report(args: &Report) -> Result<u8, Failure> {
    let beginning = Beginning::load(&args.file.file, &args.buffers)?;
    let beginning = beginning.bounded(args.firing.bounding.bound);
    let machine = beginning.machine();
    let sources = beginning.program.sources_with(&args.firing.order());
    let target = Target::new(&args.output, &sources)?;
    let run = report::Run::of(&beginning, &machine, &args.firing)?;
    target.write(report::page(&run)?.as_bytes())?;
    target.say(&answer(&machine, &run.end, &run.order))?;
    Ok(status(&run.end))
}
