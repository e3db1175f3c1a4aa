//! The printed lines (01, "The printed listing").

use std::io::Write;

use crate::{Answer, Outcome, CELL_RECORD, TOKEN_RECORD};

/// The lines of an answer, its listing and its cells. The listing and the cells
/// are those that a run leaves, or cells of zeros.
pub fn print(answer: &Answer, listing: &[u8], cells: &[u8]) -> Vec<u8> {
    let mut lines = Vec::with_capacity(64 + 2 * listing.len());
    print_lines(&mut lines, answer, listing, cells).expect("a vector takes every byte");
    lines
}

fn print_lines(
    lines: &mut Vec<u8>,
    answer: &Answer,
    listing: &[u8],
    cells: &[u8],
) -> std::io::Result<()> {
    match answer.outcome {
        Outcome::Completed => write!(lines, "completed")?,
        Outcome::Hung => write!(lines, "hung")?,
        Outcome::Spent => write!(lines, "spent")?,
        Outcome::Refused(refusal) => write!(lines, "refused {}", refusal.number)?,
    }
    writeln!(
        lines,
        " {} {} {}",
        answer.firings,
        answer.tokens,
        answer.place()
    )?;
    for record in listing.chunks_exact(TOKEN_RECORD) {
        print_token(lines, record)?;
    }
    for (number, record) in cells.chunks_exact(CELL_RECORD).enumerate() {
        let word = match record[4] {
            0 => continue,
            1 => "waiting",
            _ => "present",
        };
        writeln!(lines, "cell {number} {word} {}", signed(&record[0..4]))?;
    }
    Ok(())
}

fn print_token(lines: &mut Vec<u8>, record: &[u8]) -> std::io::Result<()> {
    let path = record[0..16]
        .iter()
        .rev()
        .fold(0, |path, &byte| path << 8 | u128::from(byte));
    let (iteration, port) = (record[16], record[17]);
    let instruction = u16::from_le_bytes([record[18], record[19]]);
    let value = signed(&record[20..24]);
    let word = match record[24] {
        0 => "live",
        1 => "spent",
        _ => "deferred",
    };
    writeln!(
        lines,
        "{path} {iteration} {instruction} {port} {value} {word}"
    )
}

fn signed(bytes: &[u8]) -> i32 {
    i32::from_le_bytes([bytes[0], bytes[1], bytes[2], bytes[3]])
}
