//! Firing in a terminal, key by key.

use std::io;
use std::time::Duration;

use console::{Key, Term};

use super::screen::{self, Choice};
use super::{lines, Session};
use crate::failure::Failure;

/// Playing takes so long at most.
const PLAYED: Duration = Duration::from_secs(3);
/// A firing that is played stands so long at most.
const STANDS: Duration = Duration::from_millis(150);

pub fn run(session: &mut Session, terminal: &Term) -> Result<(), Failure> {
    let result = keys(session, terminal);
    // The cursor must come back, whatever happened.
    let _ = terminal.show_cursor();
    result
}

fn keys(session: &mut Session, terminal: &Term) -> Result<(), Failure> {
    let mut choice = Choice::default();
    let mut typed = None;
    loop {
        show(session, terminal, &choice)?;
        let key = terminal.read_key().map_err(failed)?;
        choice.message.clear();
        let before = typed.take();
        match key {
            Key::Char('q') | Key::Escape => return Ok(()),
            Key::Char('p') => play(session, terminal, &mut choice)?,
            Key::Char('w') => choice.message = write(session, terminal)?,
            Key::Char('b') | Key::ArrowLeft | Key::Backspace if !session.back()? => {
                choice.message = "nothing is fired yet".to_string();
            }
            Key::Char('b') | Key::ArrowLeft | Key::Backspace => choice.number = 0,
            Key::Enter | Key::ArrowRight => fire(session, &mut choice)?,
            Key::ArrowUp => choice.number = choice.number.saturating_sub(1),
            Key::ArrowDown => choice.number += 1,
            Key::Char(digit) if digit.is_ascii_digit() => {
                typed = digits(session, &mut choice, before, digit)?;
            }
            _ => {}
        }
        choice.number = choice
            .number
            .min(session.walk.enabled.len().saturating_sub(1));
    }
}

/// Takes a digit: fires if no longer number can be meant, else waits for more of it.
fn digits(
    session: &mut Session,
    choice: &mut Choice,
    before: Option<usize>,
    digit: char,
) -> Result<Option<usize>, Failure> {
    let digit = digit.to_digit(10).unwrap_or(0) as usize;
    let number = 10 * before.unwrap_or(0) + digit;
    let enabled = session.walk.enabled.len();
    if number >= enabled {
        choice.message = format!("no activity {number} is enabled");
        return Ok(None);
    }
    choice.number = number;
    if number > 0 && 10 * number < enabled {
        return Ok(Some(number));
    }
    fire(session, choice)?;
    Ok(None)
}

fn fire(session: &mut Session, choice: &mut Choice) -> Result<(), Failure> {
    match session.is_open() {
        true => session.fire(choice.number)?,
        false => choice.message = "nothing can fire: b goes back".to_string(),
    }
    choice.number = 0;
    Ok(())
}

/// Fires the oldest until nothing is enabled, for the eye to follow.
fn play(session: &mut Session, terminal: &Term, choice: &mut Choice) -> Result<(), Failure> {
    let mut left = PLAYED;
    choice.number = 0;
    while session.is_open() {
        session.fire(0)?;
        let pause = STANDS.min(left);
        if !pause.is_zero() {
            show(session, terminal, choice)?;
            std::thread::sleep(pause);
            left -= pause;
        }
    }
    Ok(())
}

/// Asks for a file and writes the order so far into it.
fn write(session: &Session, terminal: &Term) -> Result<String, Failure> {
    terminal.clear_last_lines(1).map_err(failed)?;
    terminal.show_cursor().map_err(failed)?;
    terminal.write_str("write the order to: ").map_err(failed)?;
    let file = terminal.read_line().map_err(failed)?;
    match file.trim() {
        "" => Ok("nothing is written".to_string()),
        file => Ok(lines::written(session, file)),
    }
}

fn show(session: &Session, terminal: &Term, choice: &Choice) -> Result<(), Failure> {
    let (rows, columns) = terminal.size();
    let lines = screen::lines(session, choice, (rows.into(), columns.into()))?;
    let shown = terminal
        .hide_cursor()
        .and_then(|()| terminal.clear_screen())
        .and_then(|()| terminal.write_line(&lines.join("\n")));
    shown.map_err(failed)
}

fn failed(error: io::Error) -> Failure {
    Failure::File("the terminal".to_string(), error)
}
