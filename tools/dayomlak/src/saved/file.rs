//! The file of a saved state: a head in lines of text, with the length and the checksum of each part, then the parts.

use plotter::Fingerprint;
use ttda::widths::BOUNDS;

use super::State;
use crate::records::{CELL, TOKEN};

/// How every saved state begins; the number of the form follows.
pub const START: &str = "dayomlak saved state ";
const FORM: &str = "1";
/// The parts in their order.
const PARTS: [&str; 5] = ["text", "graph", "arrays", "ledger", "cells"];

#[derive(Clone, Debug, PartialEq, Eq)]
pub struct SavedFile {
    /// The graph's file, as it was named.
    pub of: String,
    /// In which order it fired so far, in words.
    pub order: String,
    pub capacity: u16,
    /// The loop bound that it fired under at last, 0 for none.
    pub bound: u16,
    /// The graph as it was typed, with its names, inputs and picks.
    pub text: Vec<u8>,
    pub graph: Vec<u8>,
    pub arrays: Vec<u8>,
    pub state: State,
}

impl SavedFile {
    pub fn encode(&self) -> Vec<u8> {
        let parts: [&[u8]; 5] = [
            &self.text,
            &self.graph,
            &self.arrays,
            &self.state.ledger,
            &self.state.cells,
        ];
        let mut head = format!(
            "{START}{FORM}\nof {}\norder {}\nfirings {}\ntokens {}\ncapacity {}\ncells {}\nbound {}\n",
            in_one_line(&self.of),
            self.order,
            self.state.firings,
            self.state.tokens(),
            self.capacity,
            self.state.cell_count(),
            self.bound,
        );
        for (name, bytes) in PARTS.iter().zip(parts) {
            let sum = Fingerprint::of(bytes).digits();
            head += &format!("part {name} {} {sum}\n", bytes.len());
        }
        head += &format!("head {}\n", Fingerprint::of(head.as_bytes()).digits());
        [head.as_bytes(), &parts.concat()].concat()
    }

    /// Says what is damaged, with the checksum that it should have and the one that it has.
    pub fn decode(bytes: &[u8]) -> Result<SavedFile, String> {
        let mut lines = Lines { bytes, read: 0 };
        let form = lines.value(START).ok_or_else(damaged_head)?;
        if form != FORM {
            return Err(format!(
                "a saved state of form {form}, and this program reads form {FORM}"
            ));
        }
        let head = Head::read(&mut lines).ok_or_else(damaged_head)?;
        let sum = Fingerprint::of(&bytes[..lines.read]);
        let said = lines.value("head ").and_then(Fingerprint::from_digits);
        let said = said.ok_or_else(damaged_head)?;
        check("head", said, sum)?;
        head.parts(&bytes[lines.read..])
    }
}

fn damaged_head() -> String {
    "its head is damaged: a line is not as it is written".to_string()
}

/// A name with nothing in it that ends a line.
fn in_one_line(name: &str) -> String {
    let plain = |c: char| if c.is_control() { '?' } else { c };
    name.chars().map(plain).collect()
}

fn check(part: &str, said: Fingerprint, found: Fingerprint) -> Result<(), String> {
    match said == found {
        true => Ok(()),
        false => Err(format!(
            "its {part} is damaged: its checksum should be {said}, and is {found} (the first 16 digits)"
        )),
    }
}

/// The lines of a head that are still to be read.
struct Lines<'b> {
    bytes: &'b [u8],
    read: usize,
}

impl<'b> Lines<'b> {
    /// The rest of a line that begins with some words.
    fn value(&mut self, words: &str) -> Option<&'b str> {
        let rest = &self.bytes[self.read..];
        let end = rest.iter().position(|byte| *byte == b'\n')?;
        self.read += end + 1;
        std::str::from_utf8(&rest[..end]).ok()?.strip_prefix(words)
    }

    fn number<N: std::str::FromStr + ToString>(&mut self, words: &str) -> Option<N> {
        number(self.value(words)?)
    }

    /// The length and the checksum of a part.
    fn part(&mut self, name: &str) -> Option<(usize, Fingerprint)> {
        let value = self.value(&format!("part {name} "))?;
        let (length, digits) = value.split_once(' ')?;
        Some((number(length)?, Fingerprint::from_digits(digits)?))
    }
}

/// A number as it is written, without zeros before it.
fn number<N: std::str::FromStr + ToString>(value: &str) -> Option<N> {
    let number: N = value.parse().ok()?;
    (number.to_string() == value).then_some(number)
}

/// What the lines of a head say.
struct Head {
    of: String,
    order: String,
    firings: u16,
    tokens: u16,
    capacity: u16,
    cells: u16,
    bound: u16,
    parts: Vec<(usize, Fingerprint)>,
}

impl Head {
    fn read(lines: &mut Lines) -> Option<Head> {
        Some(Head {
            of: lines.value("of ")?.to_string(),
            order: lines.value("order ")?.to_string(),
            firings: lines.number("firings ")?,
            tokens: lines.number("tokens ")?,
            capacity: lines.number("capacity ")?,
            cells: lines.number("cells ")?,
            bound: lines.number("bound ")?,
            parts: PARTS
                .map(|name| lines.part(name))
                .into_iter()
                .collect::<Option<_>>()?,
        })
    }

    /// The whole file, if the bytes behind the head are what the head says.
    fn parts(self, mut bytes: &[u8]) -> Result<SavedFile, String> {
        self.check_length(bytes.len())?;
        let mut parts = Vec::new();
        for (name, (length, sum)) in PARTS.iter().zip(&self.parts) {
            let (part, rest) = bytes.split_at(*length);
            check(name, *sum, Fingerprint::of(part))?;
            parts.push(part.to_vec());
            bytes = rest;
        }
        let [text, graph, arrays, ledger, cells] =
            <[Vec<u8>; 5]>::try_from(parts).map_err(|_| damaged_head())?;
        self.check_records("tokens", self.tokens, TOKEN, ledger.len())?;
        self.check_records("cells", self.cells, CELL, cells.len())?;
        if self.bound != 0 && !BOUNDS.contains(&self.bound) {
            let bound = self.bound;
            return Err(format!(
                "its head says a bound of {bound}, and a bound is 0 for none, or 2 to 256"
            ));
        }
        Ok(SavedFile {
            of: self.of,
            order: self.order,
            capacity: self.capacity,
            bound: self.bound,
            text,
            graph,
            arrays,
            state: State {
                firings: self.firings,
                ledger,
                cells,
            },
        })
    }

    /// All parts are there, and nothing behind them.
    fn check_length(&self, found: usize) -> Result<(), String> {
        let lengths = self.parts.iter().map(|(length, _)| *length);
        let said = lengths.fold(0, usize::saturating_add);
        match said == found {
            true => Ok(()),
            false => Err(format!(
                "its parts are damaged: they should have {said} bytes behind the head, and there are {found}"
            )),
        }
    }

    fn check_records(
        &self,
        name: &str,
        said: u16,
        width: usize,
        found: usize,
    ) -> Result<(), String> {
        match usize::from(said) * width == found {
            true => Ok(()),
            false => Err(format!(
                "its head says {said} {name} of {width} bytes, and it has {found} bytes of them"
            )),
        }
    }
}

#[cfg(test)]
mod tests {
    use super::*;
    use ttda::widths::INSTRUCTION;

    fn saved() -> SavedFile {
        SavedFile {
            of: "sum.ttda".to_string(),
            order: "oldest first".to_string(),
            capacity: 20,
            bound: 0,
            text: b"a: OUT\n".to_vec(),
            graph: vec![3; INSTRUCTION],
            arrays: vec![2, 0, 1, 0],
            state: State {
                firings: 7,
                ledger: vec![1; 2 * TOKEN],
                cells: vec![0; 3 * CELL],
            },
        }
    }

    #[test]
    fn what_is_written_is_read() {
        assert_eq!(SavedFile::decode(&saved().encode()), Ok(saved()));
        let head = String::from_utf8_lossy(&saved().encode()).into_owned();
        let lines: Vec<&str> = head.lines().take(8).collect();
        let expected = [
            "dayomlak saved state 1",
            "of sum.ttda",
            "order oldest first",
            "firings 7",
            "tokens 2",
            "capacity 20",
            "cells 3",
            "bound 0",
        ];
        assert_eq!(lines, expected);
    }

    /// Every byte changed, every length.
    #[test]
    fn all_damage_is_told() {
        let bytes = saved().encode();
        for at in 0..bytes.len() {
            let mut damaged = bytes.clone();
            damaged[at] ^= 1 << (at % 8);
            assert!(SavedFile::decode(&damaged).is_err(), "byte {at}");
            assert!(SavedFile::decode(&bytes[..at]).is_err(), "{at} bytes");
        }
        assert!(SavedFile::decode(&[&bytes[..], &[0]].concat()).is_err());
    }

    /// A name cannot end its line.
    #[test]
    fn a_name_with_a_line_end() {
        let of = "a\nfirings 9".to_string();
        let read = SavedFile::decode(&SavedFile { of, ..saved() }.encode()).unwrap();
        assert_eq!((&read.of[..], read.state.firings), ("a?firings 9", 7));
    }

    #[test]
    fn another_form_is_named() {
        let words = "a saved state of form 2, and this program reads form 1";
        let read = SavedFile::decode(b"dayomlak saved state 2\nother words\n");
        assert_eq!(read, Err(words.to_string()));
    }
}
