//! Tokens, their tags, and I-structure cells.

use std::hash::{BuildHasherDefault, Hash, Hasher};

use crate::value::Value;
use crate::{CELL_RECORD, LOG_RECORD, TOKEN_RECORD};

/// The state of a token (01, "Tokens and tags").
#[derive(Clone, Copy, Debug, PartialEq, Eq)]
pub enum State {
    Live,
    Spent,
    Deferred,
}

/// A token; path, iteration and instruction are its tag.
#[derive(Clone, Copy, Debug, PartialEq, Eq)]
pub struct Token<V = i32> {
    pub path: u128,
    pub iteration: u8,
    pub port: u8,
    pub instruction: u16,
    pub value: V,
    pub state: State,
}

impl<V: Value> Token<V> {
    /// The token of a record, or `None` for an unknown state or bytes 25-27 that
    /// are not zero.
    pub fn parse(record: &[u8]) -> Option<Token<V>> {
        let state = match record[24] {
            0 => State::Live,
            1 => State::Spent,
            2 => State::Deferred,
            _ => return None,
        };
        if record[25..TOKEN_RECORD] != [0; 3] {
            return None;
        }
        Some(Token {
            path: u128::from_le_bytes(record[0..16].try_into().ok()?),
            iteration: record[16],
            port: record[17],
            instruction: u16::from_le_bytes([record[18], record[19]]),
            value: V::parse(
                i32::from_le_bytes(record[20..24].try_into().ok()?),
                &record[TOKEN_RECORD..],
            ),
            state,
        })
    }

    pub fn write(&self, record: &mut [u8]) {
        record[0..16].copy_from_slice(&self.path.to_le_bytes());
        record[16] = self.iteration;
        record[17] = self.port;
        record[18..20].copy_from_slice(&self.instruction.to_le_bytes());
        record[20..24].copy_from_slice(&self.value.field().to_le_bytes());
        record[24] = self.state as u8;
        record[25..TOKEN_RECORD].fill(0);
        self.value.write_further(&mut record[TOKEN_RECORD..]);
    }

    pub fn key(&self) -> Key {
        self.tag().key(self.port)
    }

    pub fn tag(&self) -> Tag {
        Tag {
            path: self.path,
            iteration: self.iteration,
            instruction: self.instruction,
        }
    }
}

/// What names an activity.
#[derive(Clone, Copy, Debug, PartialEq, Eq, Hash)]
pub struct Tag {
    pub path: u128,
    pub iteration: u8,
    pub instruction: u16,
}

impl Tag {
    pub fn key(self, port: u8) -> Key {
        Key {
            path: self.path,
            iteration: self.iteration,
            instruction: self.instruction,
            port,
        }
    }

    /// Path, iteration, a zero byte, instruction (02, R-7).
    pub fn log_record(self) -> [u8; LOG_RECORD] {
        let mut record = [0; LOG_RECORD];
        record[0..16].copy_from_slice(&self.path.to_le_bytes());
        record[16] = self.iteration;
        record[18..20].copy_from_slice(&self.instruction.to_le_bytes());
        record
    }

    /// The tag of a log record, or `None` if it isn't whole or lacks its zero byte.
    pub fn of_log_record(record: &[u8]) -> Option<Tag> {
        let record: &[u8; LOG_RECORD] = record.try_into().ok()?;
        (record[17] == 0).then_some(Tag {
            path: u128::from_le_bytes(record[0..16].try_into().ok()?),
            iteration: record[16],
            instruction: u16::from_le_bytes([record[18], record[19]]),
        })
    }
}

/// A tag with a port: what a run gives to at most one token. Its order is that
/// of the listing.
#[derive(Clone, Copy, Debug, PartialEq, Eq, PartialOrd, Ord)]
pub struct Key {
    pub path: u128,
    pub iteration: u8,
    pub instruction: u16,
    pub port: u8,
}

impl Hash for Key {
    fn hash<H: Hasher>(&self, hasher: &mut H) {
        hasher.write_u64(self.path as u64);
        hasher.write_u64((self.path >> 64) as u64);
        let [low, high] = self.instruction.to_le_bytes();
        hasher.write_u32(u32::from_le_bytes([self.iteration, self.port, low, high]));
    }
}

/// A multiplying hasher: keys come from a graph of at most 256 instructions, and
/// the matching store is consulted several times in a firing.
#[derive(Default)]
pub struct KeyHasher(u64);

impl KeyHasher {
    fn mix(&mut self, word: u64) {
        self.0 = (self.0.rotate_left(5) ^ word).wrapping_mul(0x517c_c1b7_2722_0a95);
    }
}

impl Hasher for KeyHasher {
    fn write(&mut self, bytes: &[u8]) {
        for &byte in bytes {
            self.mix(u64::from(byte));
        }
    }

    fn write_u32(&mut self, word: u32) {
        self.mix(u64::from(word));
    }

    fn write_u64(&mut self, word: u64) {
        self.mix(word);
    }

    fn finish(&self) -> u64 {
        self.0 ^ (self.0 >> 32)
    }
}

/// The hasher's builder, for the matching store's map.
pub type KeyHashing = BuildHasherDefault<KeyHasher>;

/// An I-structure cell; a waiting one has the ledger positions of the records
/// deferred on it.
#[derive(Clone, Debug, PartialEq, Eq)]
pub enum Cell<V = i32> {
    Absent,
    Waiting(Vec<usize>),
    Present(V),
}

impl<V: Value> Cell<V> {
    /// Writes the cell's record; the value is 0 until present (01, "Firing").
    pub fn write(&self, record: &mut [u8]) {
        let (value, state) = match self {
            Cell::Absent => (V::of(0), 0),
            Cell::Waiting(_) => (V::of(0), 1),
            Cell::Present(value) => (*value, 2),
        };
        record[0..4].copy_from_slice(&value.field().to_le_bytes());
        record[4] = state;
        record[5..CELL_RECORD].fill(0);
        value.write_further(&mut record[CELL_RECORD..]);
    }
}
