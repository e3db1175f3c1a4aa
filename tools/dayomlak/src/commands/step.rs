//! `dayomlak step`.

use std::io;

use console::Term;

use super::{load, status, summary};
use crate::cli::Step;
use crate::failure::Failure;
use crate::machine::Machine;
use crate::output;
use crate::step::{lines, terminal, Session};

const NO_INPUT: &str =
    "the commands of `dayomlak step` come by standard input, and so would the graph\n  name its file";

pub fn step(args: &Step) -> Result<u8, Failure> {
    if args.file.file == "-" {
        return Err(Failure::Wrong(NO_INPUT.to_string()));
    }
    let program = load(&args.file.file)?;
    let machine = Machine::new(&program, args.buffers.sizes());
    let machine = machine.bounded(args.bounding.or_none());
    let mut session = Session::new(&machine)?;
    let terminal = Term::stdout();
    let is_terminal = terminal.is_term() && io::IsTerminal::is_terminal(&io::stdin());
    match is_terminal && !args.lines {
        true => terminal::run(&mut session, &terminal)?,
        false => lines::run(&mut session, io::stdin().lock())?,
    }
    let end = &session.walk.end;
    output::print(summary(&machine, end, &session.words()).as_bytes())?;
    Ok(status(end))
}
