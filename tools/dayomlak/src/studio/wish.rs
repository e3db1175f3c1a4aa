//! What the page asks to be fired.

use std::str::FromStr;

use crate::failure::Failure;
use crate::machine::{Machine, WHOLE};
use crate::orders::{self, Order};
use ttda::widths::PICK;

const BY_HAND: &str = "by hand";

/// What is to be fired: picks one by one, then nothing more, the oldest, or any.
#[derive(Debug, PartialEq, Eq)]
pub struct Wish {
    /// `None` for those of the text.
    picks: Option<Vec<u16>>,
    pub rest: Rest,
}

#[derive(Debug, PartialEq, Eq)]
pub enum Rest {
    Stop,
    Oldest,
    Random(u64),
}

/// For example `0,3,1 stop`, `- oldest` and `typed random:7`.
impl FromStr for Wish {
    type Err = ();

    fn from_str(words: &str) -> Result<Wish, ()> {
        let (picks, rest) = words.split_once(' ').ok_or(())?;
        let picks = match picks {
            "typed" => None,
            "-" => Some(Vec::new()),
            picks => Some(orders::picks(picks).map_err(|_| ())?),
        };
        let rest = match (rest, rest.strip_prefix("random:")) {
            ("stop", _) => Rest::Stop,
            ("oldest", _) => Rest::Oldest,
            (_, Some(seed)) => Rest::Random(seed.parse().map_err(|_| ())?),
            _ => return Err(()),
        };
        let is_short = picks
            .as_ref()
            .is_none_or(|picks| picks.len() <= WHOLE.into());
        is_short.then_some(Wish { picks, rest }).ok_or(())
    }
}

impl Wish {
    /// The order in words.
    pub fn words(&self, machine: &Machine) -> String {
        let typed = || machine.program.files.picks.len() / PICK;
        let count = self.picks.as_ref().map_or_else(typed, Vec::len);
        let rest = match self.rest {
            Rest::Stop => return BY_HAND.to_string(),
            Rest::Oldest => Order::Oldest,
            Rest::Random(seed) => Order::Random(seed),
        };
        orders::joined(BY_HAND, count, &rest.words(machine.program))
    }

    /// Picks as the engine takes them, and a budget.
    pub fn fired(&self, machine: &Machine) -> Result<(Vec<u8>, u16), Failure> {
        let typed = || machine.program.files.picks.clone();
        let given = self.picks.as_ref();
        let mut picks = given.map_or_else(typed, |picks| orders::bytes(picks.iter().copied()));
        let count = (picks.len() / PICK) as u16;
        let budget = match self.rest {
            Rest::Stop => count,
            Rest::Oldest => WHOLE,
            Rest::Random(seed) => {
                let random = Order::Random(seed).picks(machine)?;
                picks.extend(random.get(picks.len()..).unwrap_or_default());
                WHOLE
            }
        };
        Ok((picks, budget))
    }
}

#[cfg(test)]
mod tests {
    use super::*;

    #[test]
    fn wishes() {
        let read = |words: &str| words.parse::<Wish>();
        let wish = |picks, rest| Ok(Wish { picks, rest });
        assert_eq!(read("0,3,1 stop"), wish(Some(vec![0, 3, 1]), Rest::Stop));
        assert_eq!(read("- oldest"), wish(Some(vec![]), Rest::Oldest));
        assert_eq!(read("typed random:7"), wish(None, Rest::Random(7)));
        let many = vec!["1"; 2049].join(",") + " stop";
        for words in [
            "",
            "-",
            "0",
            "0 ",
            "0 1",
            "x stop",
            "0,,1 stop",
            "65536 stop",
            "0 random:",
            "0 random:-1",
            " stop",
            &many,
        ] {
            assert_eq!(read(words), Err(()), "{words}");
        }
    }
}
