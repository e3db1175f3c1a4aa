//! The manual page, made of the command line's own words, as roff for `man`.

use clap::{Arg, Command};

/// Words as roff takes them.
fn plain(words: &str) -> String {
    let words = words.replace('\\', "\\e").replace('-', "\\-");
    let guarded = words
        .lines()
        .map(|line| match line.starts_with(['.', '\'']) {
            true => format!("\\&{line}"),
            false => line.to_string(),
        });
    guarded.collect::<Vec<_>>().join("\n.br\n")
}

fn section(page: &mut String, title: &str, text: &str) {
    *page += &format!(".SH {title}\n{text}\n");
}

/// How an argument is typed: `--orders N`, `-o X.svg`, `FILE`.
fn typed(argument: &Arg) -> String {
    let value = argument.get_value_names().unwrap_or_default().join(" ");
    let name = match (argument.get_long(), argument.get_short()) {
        (Some(long), _) => format!("--{long}"),
        (None, Some(short)) => format!("-{short}"),
        (None, None) => return value,
    };
    match argument.get_action().takes_values() {
        true => format!("{name} {value}"),
        false => name,
    }
}

fn option(argument: &Arg) -> String {
    let help = argument.get_help().map(ToString::to_string);
    let defaults = argument.get_default_values().iter();
    let mut defaults = defaults.filter(|_| argument.get_action().takes_values());
    let default = defaults.next();
    let default = default.map(|value| format!(" (default {})", value.to_string_lossy()));
    let words = help.unwrap_or_default() + &default.unwrap_or_default();
    format!(".TP\n.B {}\n{}\n", plain(&typed(argument)), plain(&words))
}

/// A command with its options.
fn command(command: &Command) -> String {
    let arguments: Vec<&Arg> = command
        .get_arguments()
        .filter(|a| !["help", "version"].contains(&a.get_id().as_str()))
        .collect();
    let positional = arguments.iter().filter(|a| a.is_positional());
    let usage: Vec<String> = positional.map(|a| typed(a)).collect();
    let about = command.get_about().map(ToString::to_string);
    let mut text = format!(
        ".SS dayomlak {} {}\n{}\n",
        plain(command.get_name()),
        plain(&usage.join(" ")),
        plain(&about.unwrap_or_default())
    );
    for argument in arguments {
        text += &option(argument);
    }
    text
}

/// The page of the whole program.
pub fn page(program: &Command) -> String {
    let version = program.get_version().unwrap_or_default();
    let mut page = format!(".TH DAYOMLAK 1 \"\" \"dayomlak {version}\" \"User Commands\"\n");
    section(
        &mut page,
        "NAME",
        "dayomlak \\- runs graphs of the MIT tagged\\-token dataflow machine",
    );
    section(
        &mut page,
        "SYNOPSIS",
        ".B dayomlak\n.I COMMAND\n.RI [ OPTIONS ]\n.I FILE",
    );
    let about = program.get_about().map(ToString::to_string);
    section(&mut page, "DESCRIPTION", &plain(&about.unwrap_or_default()));
    let commands = program.get_subcommands().filter(|c| c.get_name() != "help");
    section(
        &mut page,
        "COMMANDS",
        commands.map(command).collect::<String>().trim_end(),
    );
    let after = program.get_after_help().map(ToString::to_string);
    section(
        &mut page,
        "FILES AND EXIT STATUS",
        &plain(&after.unwrap_or_default()),
    );
    page
}
