//! Firing orders, and the picks that they are given to the engine by.

use std::fmt;
use std::path::{Path, PathBuf};
use std::str::FromStr;

use ttda::widths::PICK;

use crate::failure::Failure;
use crate::machine::Machine;
use crate::program::Program;
use crate::random::Random;
use crate::records::MOST_RECORDS;
use crate::sources::Source;
use crate::{named, newest};

const WHAT: &str =
    "an order is oldest, newest, random:SEED (a number), typed, picks such as 0,3,1, or a file";
/// How many picks are named in words.
const SHOWN: usize = 12;

#[derive(Clone, Debug, PartialEq, Eq)]
pub enum Order {
    Oldest,
    Newest,
    /// Picks by a generator of random numbers.
    Random(u64),
    /// The picks or the order of the file, and the oldest once they run out.
    Typed,
    /// Picks of the command line, and the oldest once they run out.
    Picks(Vec<u16>),
    /// A file with a name for each firing, and the oldest once they run out.
    File(PathBuf),
}

impl FromStr for Order {
    type Err = String;

    fn from_str(word: &str) -> Result<Order, String> {
        match word {
            "oldest" => Ok(Order::Oldest),
            "newest" => Ok(Order::Newest),
            "typed" => Ok(Order::Typed),
            _ => match word.strip_prefix("random:").map(str::parse) {
                Some(Ok(seed)) => Ok(Order::Random(seed)),
                None if is_list(word) => picks(word).map(Order::Picks),
                None if is_file(word) => Ok(Order::File(word.into())),
                _ => Err(WHAT.to_string()),
            },
        }
    }
}

impl fmt::Display for Order {
    fn fmt(&self, f: &mut fmt::Formatter<'_>) -> fmt::Result {
        match self {
            Order::Oldest => write!(f, "oldest"),
            Order::Newest => write!(f, "newest"),
            Order::Random(seed) => write!(f, "random:{seed}"),
            Order::Typed => write!(f, "typed"),
            Order::Picks(picks) => write!(f, "{}", listed(picks)),
            Order::File(path) => write!(f, "{}", in_one_line(path)),
        }
    }
}

impl Order {
    /// The order in words, for a program with or without an order of its own.
    pub fn words(&self, program: &Program) -> String {
        match self {
            Order::Typed if !program.order.is_empty() => "in its typed order".to_string(),
            Order::Typed if !program.files.picks.is_empty() => {
                "in the order of its picks".to_string()
            }
            Order::Oldest | Order::Typed => "oldest first".to_string(),
            Order::Newest => "newest first".to_string(),
            Order::Random(seed) => format!("in random order {seed}"),
            Order::Picks(_) => format!("by the picks {self}"),
            Order::File(_) => format!("in the order of {self}"),
        }
    }

    /// The file that it is read from, which nothing may be written over.
    pub fn source(&self) -> Option<Source> {
        match self {
            Order::File(path) => Source::named("the order itself", path),
            _ => None,
        }
    }

    /// The picks that fire a program in this order. From a saved state they are those that an uncut run has left: pick i
    /// is for firing i since the inputs.
    pub fn picks(&self, machine: &Machine) -> Result<Vec<u8>, Failure> {
        let used = PICK * machine.given().0;
        let rest = |picks: &[u8]| picks.get(used..).unwrap_or_default().to_vec();
        match (self, machine.start) {
            (Order::Oldest, _) => Ok(Vec::new()),
            // What a name's number is depends on what the bound holds back.
            (Order::Typed, _) if machine.bound != 0 && !machine.program.order.is_empty() => {
                let program = machine.program;
                let picks =
                    named::picks(machine, &program.text_label, &program.text, &program.order)?;
                Ok(bytes(picks.into_iter()))
            }
            (Order::Typed, _) => Ok(rest(&machine.program.files.picks)),
            // A run of ranges goes in step with that of their low ends.
            (Order::Newest, None) => newest::picks(&machine.ranged(false)),
            (Order::Newest, Some(state)) => newest::picks_from(machine, state),
            (Order::Random(seed), _) => Ok(rest(&random(*seed))),
            (Order::Picks(picks), _) => Ok(rest(&bytes(picks.iter().copied()))),
            (Order::File(path), _) => Ok(bytes(named::of_file(machine, path)?.into_iter())),
        }
    }
}

/// Whether a word has numbers parted by commas.
fn is_list(word: &str) -> bool {
    !word.is_empty() && word.chars().all(|c| c.is_ascii_digit() || c == ',')
}

/// Numbers parted by commas.
pub fn picks(word: &str) -> Result<Vec<u16>, String> {
    let picks: Result<Vec<u16>, _> = word.split(',').map(str::parse).collect();
    picks.map_err(|_| "picks are numbers from 0 to 65535, parted by commas: 0,3,1".to_string())
}

/// Whether a word is meant as a file: it is there, or it is written as one.
fn is_file(word: &str) -> bool {
    word.contains(['.', '/']) || Path::new(word).is_file()
}

/// The first picks.
fn listed(picks: &[u16]) -> String {
    let shown: Vec<String> = picks.iter().take(SHOWN).map(u16::to_string).collect();
    let more = if picks.len() > SHOWN { ",..." } else { "" };
    shown.join(",") + more
}

/// A file's name, which stands in lines of text.
fn in_one_line(path: &Path) -> String {
    path.display().to_string().replace(char::is_control, "?")
}

/// The order of a run that went on from firings in another or the same order.
pub fn joined(before: &str, firings: usize, now: &str) -> String {
    let last = before.rsplit(", then ").next().unwrap_or(before);
    let last = last.split(" from firing ").next().unwrap_or(last);
    match before {
        _ if firings == 0 => now.to_string(),
        before if last == now => before.to_string(),
        before => format!("{before}, then {now} from firing {} on", firings + 1),
    }
}

/// Picks as the engine reads them.
pub fn bytes(picks: impl Iterator<Item = u16>) -> Vec<u8> {
    picks.flat_map(u16::to_le_bytes).collect()
}

/// As many random picks as a run can use.
fn random(seed: u64) -> Vec<u8> {
    let mut random = Random::new(seed);
    let picks = std::iter::repeat_with(|| random.word() as u16);
    bytes(picks.take(MOST_RECORDS))
}

#[cfg(test)]
mod tests {
    use super::*;

    #[test]
    fn the_orders_of_parts() {
        assert_eq!(joined("oldest first", 0, "newest first"), "newest first");
        assert_eq!(joined("oldest first", 5, "oldest first"), "oldest first");
        let two = joined("oldest first", 5, "newest first");
        assert_eq!(two, "oldest first, then newest first from firing 6 on");
        assert_eq!(joined(&two, 9, "newest first"), two);
        let three =
            "oldest first, then newest first from firing 6 on, then oldest first from firing 10 on";
        assert_eq!(joined(&two, 9, "oldest first"), three);
    }

    #[test]
    fn the_words_of_orders() {
        let read = |word: &str| word.parse::<Order>();
        assert_eq!(read("0,3,1"), Ok(Order::Picks(vec![0, 3, 1])));
        assert_eq!(read("a.order"), Ok(Order::File("a.order".into())));
        assert_eq!(read("random:7").unwrap().to_string(), "random:7");
        let many = Order::Picks((0..20).collect());
        assert_eq!(many.to_string(), "0,1,2,3,4,5,6,7,8,9,10,11,...");
        for word in ["", "neweset", "random:", "random:x", "0,,1", "65536"] {
            assert!(read(word).is_err(), "{word}");
        }
        let file = Order::File("a\nb.order".into());
        assert_eq!(file.to_string(), "a?b.order");
    }
}
