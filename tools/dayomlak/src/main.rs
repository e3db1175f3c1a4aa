//! `dayomlak`: the tagged-token dataflow machine for the people who use it. Every firing, range, listing, profile, log and bound
//! that it shows is the proved engine's; what is here reads text, chooses picks, names, draws and explains.

mod activity;
mod answer;
mod arrays;
mod beginning;
mod circles;
mod cli;
mod commands;
mod curves;
mod diagnostics;
mod effects;
mod expression;
mod failure;
mod forms;
mod graph;
mod graphviz;
mod held;
mod history;
mod indices;
mod json;
mod loads;
mod log_file;
mod machine;
mod manual;
mod meetings;
mod named;
mod newest;
mod orders;
mod output;
mod pictures;
mod profiles;
mod program;
mod random;
mod ranges;
mod records;
mod refusals;
mod refused;
mod report;
mod results;
mod saved;
mod script;
mod second_token;
mod sources;
mod step;
mod studio;
mod timeline;
mod value;
mod walk;
mod warnings;

use std::io::Write;
use std::process::ExitCode;

use clap::Parser;

use cli::{Cli, Command};
use failure::{Failure, Faults};

/// Does what a command says, and answers the exit status.
fn done(command: &Command) -> Result<u8, Failure> {
    match command {
        Command::Run(args) => commands::run::run(args),
        Command::Ranges(args) => commands::ranges::ranges(args),
        Command::CarryOn(args) => commands::run::carry_on(args),
        Command::Show(args) => commands::show::show(args),
        Command::Check(args) => commands::check::check(args),
        Command::Compare(args) => commands::compare::compare(args),
        Command::Diff(args) => commands::diff::diff(args),
        Command::Step(args) => commands::step::step(args),
        Command::Studio(args) => commands::studio::studio(args),
        Command::Trace(args) => commands::trace::trace(args),
        Command::Profile(args) => commands::profile::profile(args),
        Command::Timeline(args) => commands::timeline::timeline(args),
        Command::Report(args) => commands::report::report(args),
        Command::Draw(args) => commands::draw::draw(args),
        Command::Log(args) => commands::logs::log(args),
        Command::Replay(args) => commands::logs::replay(args),
        Command::Asm(args) => commands::files::asm(args),
        Command::Disasm(args) => commands::files::disasm(args),
        Command::Expression(args) => commands::expression::expression(args),
        Command::Convert(args) => commands::convert::convert(args),
        Command::Explain(args) => commands::explain::explain(args),
        Command::Bounds(args) => commands::check::bounds(args),
        Command::Completion(args) => commands::install::completion(args),
        Command::Manual => commands::install::manual(),
    }
}

/// Says why there is no answer.
fn show(failure: &Failure) {
    match failure {
        Failure::Faulty(Faults {
            label,
            text,
            findings,
        }) => diagnostics::complain(label, text, findings),
        // A message that cannot be shown has nobody to be shown to; the status says it too.
        failure => {
            let _ = writeln!(std::io::stderr(), "{failure}");
        }
    }
}

fn main() -> ExitCode {
    let command = Cli::parse().command;
    match done(&command) {
        Ok(status) => ExitCode::from(status),
        Err(failure) => {
            let failure = command.advised(failure);
            show(&failure);
            if let Some((name, file)) = command.scripted() {
                // Where standard output itself has failed, the status still says it.
                let _ = script::print_failure(name, file, &failure);
            }
            ExitCode::from(failure.status())
        }
    }
}
