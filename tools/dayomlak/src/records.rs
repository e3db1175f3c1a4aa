//! The records that the engine writes: tokens, cells and the log. Numbers are little-endian.

use std::ops::Range;

pub use ttda::layout::fields::{cell, token};
use ttda::layout::{path, signed, unsigned};
pub use ttda::widths::{CELL, LOGGED, MOST_CELLS, MOST_RECORDS, RANGE_CELL, RANGE_TOKEN, TOKEN};

use crate::value::Value;

/// What an activity is named by.
#[derive(Clone, Copy, Debug, PartialEq, Eq, PartialOrd, Ord, Hash)]
pub struct Tag {
    /// The calls that led here, 16 bits each, the newest lowest.
    pub path: u128,
    pub iteration: u8,
    pub instruction: u16,
}

impl Tag {
    /// The calls of the path, outermost first: the site and the iteration that it was entered from.
    pub fn calls(&self) -> Vec<(u8, u8)> {
        let mut calls = Vec::new();
        let mut path = self.path;
        while path != 0 {
            calls.push(((path >> 8) as u8, path as u8));
            path >>= 16;
        }
        calls.reverse();
        calls
    }

    /// The same instruction in the call of a site.
    pub fn entered(self, site: u8) -> Tag {
        Tag {
            path: self.path << 16 | u128::from(site) << 8 | u128::from(self.iteration),
            iteration: 0,
            ..self
        }
    }

    /// The same instruction where the innermost call came from, and that call's site.
    pub fn left(self) -> (Tag, u8) {
        let tag = Tag {
            path: self.path >> 16,
            iteration: self.path as u8,
            ..self
        };
        (tag, (self.path >> 8) as u8)
    }

    /// The same instruction in the next iteration.
    pub fn next(self) -> Tag {
        Tag {
            iteration: self.iteration.saturating_add(1),
            ..self
        }
    }

    /// The tag at the start of a record, of a token or of the log.
    pub fn of(record: &[u8]) -> Tag {
        Tag {
            path: path(record),
            iteration: record[token::ITERATION],
            instruction: unsigned(record, token::INSTRUCTION),
        }
    }
}

#[derive(Clone, Copy, Debug, PartialEq, Eq)]
pub enum State {
    Live,
    Spent,
    Deferred,
}

impl State {
    pub fn word(self) -> &'static str {
        match self {
            State::Live => "live",
            State::Spent => "spent",
            State::Deferred => "deferred",
        }
    }
}

#[derive(Clone, Copy, Debug, PartialEq, Eq)]
pub struct Token {
    pub tag: Tag,
    pub port: u8,
    /// The cell that it waits for, where it is deferred.
    pub value: Value,
    pub state: State,
}

impl Token {
    fn of(record: &[u8]) -> Token {
        Token {
            tag: Tag::of(record),
            port: record[token::PORT],
            value: value(record, token::VALUE, token::HIGH),
            state: match record[token::STATE] {
                token::LIVE => State::Live,
                token::SPENT => State::Spent,
                _ => State::Deferred,
            },
        }
    }
}

#[derive(Clone, Copy, Debug, PartialEq, Eq)]
pub enum Cell {
    Absent,
    Waiting,
    Present(Value),
}

impl Cell {
    fn of(record: &[u8]) -> Cell {
        match record[cell::STATE] {
            cell::WAITING => Cell::Waiting,
            cell::PRESENT => Cell::Present(value(record, cell::VALUE, cell::HIGH)),
            _ => Cell::Absent,
        }
    }
}

pub fn tokens(ledger: &[u8]) -> Vec<Token> {
    ledger.chunks_exact(TOKEN).map(Token::of).collect()
}

pub fn cells(records: &[u8]) -> Vec<Cell> {
    records.chunks_exact(CELL).map(Cell::of).collect()
}

/// The plain records of the low ends, of this width each, of records of ranges.
pub fn low_ends(bytes: &[u8], width: usize) -> Vec<u8> {
    let records = bytes.chunks_exact(width + token::HIGH.len());
    records
        .flat_map(|record| &record[..width])
        .copied()
        .collect()
}

/// The tokens of a run of ranges.
pub fn range_tokens(ledger: &[u8]) -> Vec<Token> {
    ledger.chunks_exact(RANGE_TOKEN).map(Token::of).collect()
}

/// The cells of a run of ranges.
pub fn range_cells(records: &[u8]) -> Vec<Cell> {
    records.chunks_exact(RANGE_CELL).map(Cell::of).collect()
}

/// The number in a field of a record; of a range, up to the one behind the plain record.
fn value(record: &[u8], low: Range<usize>, high: Range<usize>) -> Value {
    let low = signed(record, low);
    let high = match record.len() < high.end {
        true => low,
        false => signed(record, high),
    };
    Value { low, high }
}

#[cfg(test)]
mod tests {
    use super::*;

    /// Eight calls, of sites 1 to 8 from iterations 11 to 18, entered and left.
    #[test]
    fn eight_levels() {
        let start = Tag {
            path: 0,
            iteration: 11,
            instruction: 3,
        };
        let mut tag = start;
        let mut calls = Vec::new();
        for site in 1..=8 {
            calls.push((site, tag.iteration));
            tag = tag.entered(site);
            assert_eq!((tag.calls(), tag.iteration), (calls.clone(), 0));
            tag.iteration = 11 + site;
        }
        assert_eq!(tag.path, 0x010b_020c_030d_040e_050f_0610_0711_0812);
        for (site, iteration) in calls.into_iter().rev() {
            let (caller, left) = tag.left();
            assert_eq!((left, caller.iteration), (site, iteration));
            tag = caller;
        }
        assert_eq!(tag, start);
    }

    /// Each field by its bytes.
    #[test]
    fn a_token_record() {
        let mut record: Vec<u8> = (1..=16).collect();
        record.extend([17, 1, 4, 1, 0xfe, 0xff, 0xff, 0xff, 2, 0, 0, 0]);
        let token = Token {
            tag: Tag {
                path: 0x100f_0e0d_0c0b_0a09_0807_0605_0403_0201,
                iteration: 17,
                instruction: 260,
            },
            port: 1,
            value: Value::of(-2),
            state: State::Deferred,
        };
        assert_eq!(tokens(&record), [token]);
        assert_eq!(Tag::of(&record), token.tag);
        record.extend(300i32.to_le_bytes());
        let value = Value { low: -2, high: 300 };
        assert_eq!(range_tokens(&record), [Token { value, ..token }]);
    }

    #[test]
    fn a_cell_record() {
        let record = [0xfe, 0xff, 0xff, 0xff, 2, 0, 0, 0, 44, 1, 0, 0];
        assert_eq!(cells(&record[..CELL]), [Cell::Present(Value::of(-2))]);
        let value = Value { low: -2, high: 300 };
        assert_eq!(range_cells(&record), [Cell::Present(value)]);
    }
}
