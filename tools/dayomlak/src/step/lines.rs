//! Firing by lines, where there is no terminal: each line of the input is a command.

use std::io::BufRead;
use std::path::Path;

use super::Session;
use crate::failure::Failure;
use crate::output;

const COMMANDS: &str =
    "a number or a name fires, `b` goes back, `p` plays oldest first, `w FILE` writes the order, `q` ends";

/// Reads commands until they end. What a command says is printed before the next is read.
pub fn run(session: &mut Session, input: impl BufRead) -> Result<(), Failure> {
    output::print(state(session)?.as_bytes())?;
    for line in input.lines() {
        let line = line.map_err(|error| Failure::File("standard input".to_string(), error))?;
        let words = line.trim();
        match words {
            "" => continue,
            "q" => break,
            _ => {}
        }
        let said = match obey(session, words)? {
            Some(message) => message + "\n",
            None => state(session)?,
        };
        output::print(said.as_bytes())?;
    }
    Ok(())
}

/// Does what a line says; answers a message where the state stays as it is.
fn obey(session: &mut Session, words: &str) -> Result<Option<String>, Failure> {
    let names = session.walk.names();
    let by_name = names.iter().position(|name| name == words);
    match (words, words.split_once(' ')) {
        ("b", _) => match session.back()? {
            true => Ok(None),
            false => Ok(Some("nothing is fired yet".to_string())),
        },
        ("p", _) => {
            while session.is_open() {
                session.fire(0)?;
            }
            Ok(None)
        }
        (_, Some(("w", file))) => Ok(Some(written(session, file))),
        _ => match words.parse().ok().or(by_name) {
            Some(number) if number < names.len() && session.is_open() => {
                session.fire(number)?;
                Ok(None)
            }
            Some(number) => Ok(Some(format!("no activity {number} is enabled"))),
            None => Ok(Some(match session.walk.held_by(words) {
                Some(by) => format!("{words} is held back, {by}"),
                None => format!("`{words}` is no command: {COMMANDS}"),
            })),
        },
    }
}

/// What came of writing the order. A failure ends no session.
pub fn written(session: &Session, file: &str) -> String {
    let written = session.write(Path::new(file.trim()));
    written.unwrap_or_else(|failure| failure.to_string())
}

/// The last firing, how far the run is, what is enabled and what stands beside it.
fn state(session: &Session) -> Result<String, Failure> {
    let mut text = String::new();
    if let Some(last) = session.last()? {
        text += &format!("{last}\n");
    }
    text += &format!("{}\n", session.headline());
    for (number, activity) in session.enabled().iter().enumerate() {
        text += &format!("  {number} {activity}\n");
    }
    for (title, lines) in session.beside() {
        text += &format!("{title}: {}\n", lines.join("; "));
    }
    Ok(text)
}
