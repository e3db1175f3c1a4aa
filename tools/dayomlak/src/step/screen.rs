//! What a terminal shows of a session, as lines: the enabled activities on the left, all else beside them.

use super::Session;
use crate::failure::Failure;

const KEYS: &str =
    "arrows or a number choose, Enter fires; b back, p play oldest first, w write the order, q quit";

/// What is chosen, and what is said below.
#[derive(Default)]
pub struct Choice {
    pub number: usize,
    pub message: String,
}

/// The lines of a screen of some size. The chosen activity is always among them.
pub fn lines(
    session: &Session,
    choice: &Choice,
    (rows, columns): (usize, usize),
) -> Result<Vec<String>, Failure> {
    let last = session
        .last()?
        .unwrap_or("nothing is fired yet".to_string());
    let mut lines = vec![
        format!("{}: {}", session.program().label, session.headline()),
        last,
        String::new(),
    ];
    let room = rows.saturating_sub(lines.len() + 3).max(1);
    let left = columns * 3 / 5;
    lines.extend(beside(
        &enabled(session, choice.number, room),
        &others(session, room),
        left,
    ));
    lines.push(String::new());
    lines.push(choice.message.clone());
    lines.push(KEYS.to_string());
    Ok(lines.iter().map(|line| cut(line, columns)).collect())
}

/// The enabled activities, as many as have room, around the chosen one.
fn enabled(session: &Session, chosen: usize, room: usize) -> Vec<String> {
    let all = session.enabled();
    if all.is_empty() {
        return vec!["nothing can fire".to_string()];
    }
    let room = room.saturating_sub(1).max(1);
    let first = chosen.saturating_sub(room / 2);
    let first = first.min(all.len().saturating_sub(room));
    let shown = all.iter().enumerate().skip(first).take(room);
    let line = |(number, activity): (usize, &String)| {
        let mark = if number == chosen { ">" } else { " " };
        format!("{mark} {number} {activity}")
    };
    let title = format!("enabled ({})", all.len());
    std::iter::once(title).chain(shown.map(line)).collect()
}

/// All else, as many lines as have room.
fn others(session: &Session, room: usize) -> Vec<String> {
    let mut lines = Vec::new();
    for (title, items) in session.beside() {
        lines.push(title.to_string());
        lines.extend(items.iter().map(|item| format!("  {item}")));
    }
    let more = lines.len().saturating_sub(room);
    if more > 0 {
        lines.truncate(room - 1);
        lines.push(format!("  and {} more", more + 1));
    }
    lines
}

/// Two columns.
fn beside(left: &[String], right: &[String], width: usize) -> Vec<String> {
    let rows = left.len().max(right.len());
    let part = |lines: &[String], row: usize| lines.get(row).cloned().unwrap_or_default();
    let line = |row| {
        let one = cut(&part(left, row), width.saturating_sub(2));
        format!("{one:width$}{}", part(right, row))
    };
    (0..rows)
        .map(|row| line(row).trim_end().to_string())
        .collect()
}

/// A line that does not go round the edge.
fn cut(line: &str, width: usize) -> String {
    line.chars().take(width).collect()
}

#[cfg(test)]
mod tests {
    use super::*;
    use crate::step::tests::{session, TEXT};

    #[test]
    fn a_screen() {
        session(TEXT, |mut session| {
            session.fire(0).unwrap();
            let choice = Choice {
                number: 1,
                message: "said".to_string(),
            };
            let lines = lines(&session, &choice, (12, 70)).unwrap();
            let expected = [
                "test: after 1 firing, 5 tokens",
                "firing 1, read[0]: FETCH with 0 -> plus[0].0 deferred: cell 0 has no v",
                "",
                "enabled (2)                               deferred",
                "  0 a[0]: COPY with 1                       plus[0].0, for cell 0",
                "> 1 write[0]: STORE with 0 and 5          cells",
                "                                            cell 0 is read and not wri",
                "",
                "said",
                &KEYS[..70],
            ];
            assert_eq!(lines, expected);
        });
    }

    #[test]
    fn the_chosen_one_is_in_sight() {
        let text: String = (0..40)
            .map(|n| format!("s{n}: SINK\ninput s{n} = 1\n"))
            .collect();
        session(&text, |session| {
            for number in [0, 7, 39] {
                let choice = Choice {
                    number,
                    message: String::new(),
                };
                let lines = lines(&session, &choice, (12, 60)).unwrap();
                assert!(lines.len() <= 12, "{lines:?}");
                let chosen = format!("> {number} s{number}[0]: SINK with 1");
                assert!(lines.contains(&chosen), "{lines:?}");
            }
        });
    }
}
