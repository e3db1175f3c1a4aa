//! `dayomlak completion` and `dayomlak manual`: what a system has beside a program.

use clap::CommandFactory;

use crate::cli::{Cli, Completion};
use crate::failure::{self, Failure};
use crate::{manual, output};

pub fn completion(args: &Completion) -> Result<u8, Failure> {
    let mut text = Vec::new();
    clap_complete::generate(args.shell, &mut Cli::command(), "dayomlak", &mut text);
    output::print(&text)?;
    Ok(failure::COMPLETED)
}

pub fn manual() -> Result<u8, Failure> {
    let mut program = Cli::command();
    program.build();
    output::print(manual::page(&program).as_bytes())?;
    Ok(failure::COMPLETED)
}
