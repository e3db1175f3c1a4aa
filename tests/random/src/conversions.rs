//! Records from before R-8 of 02: both converters over any bytes, and over what runs left, with
//! paths of four levels, as it was written before.

use layout::fields::token;
use layout::widths::{LOGGED, MOST_RECORDS, OLD_TOKEN, TOKEN};

use crate::case::{compare_conversion, Case, Left};
use crate::prng::Prng;
use crate::Harness;

/// Bytes of a path of four levels; one of eight has as many more.
const OLD_PATH: usize = TOKEN - OLD_TOKEN;

/// Which of the converters, by the records that it makes.
#[derive(Clone, Copy, PartialEq, Eq)]
pub enum Records {
    Tokens,
    Log,
}

impl Records {
    pub fn width(self) -> usize {
        match self {
            Records::Tokens => TOKEN,
            Records::Log => LOGGED,
        }
    }

    /// With a path of four levels.
    pub fn old_width(self) -> usize {
        self.width() - OLD_PATH
    }

    /// New records as they were before; `None` if one has more than four levels.
    fn narrowed(self, new: &[u8]) -> Option<Vec<u8>> {
        let rows = || new.chunks_exact(self.width());
        let four_levels = rows().all(|row| row[OLD_PATH..token::PATH.end] == [0; OLD_PATH]);
        four_levels.then(|| {
            let old = rows().map(|row| [&row[..OLD_PATH], &row[token::PATH.end..]].concat());
            old.collect::<Vec<_>>().concat()
        })
    }
}

impl Harness {
    /// Bytes of any kind, and what a run left. The numbers are of a generator of its own, so
    /// that the runs stay as they are.
    pub fn all_conversions(&mut self, case: &Case, left: &Left) {
        let mut prng = Prng::new(case.garbage);
        for records in [Records::Tokens, Records::Log] {
            let (old, room) = arbitrary(records, &mut prng);
            self.convert(case, records, &old, room, &mut prng);
        }
        self.convert_back(case, Records::Tokens, left.used(), &mut prng);
        self.convert_back(case, Records::Log, left.log(), &mut prng);
    }

    fn convert(&mut self, case: &Case, records: Records, old: &[u8], room: usize, prng: &mut Prng) {
        self.conversions += 1;
        self.tally.count_conversion(name(records, old.len(), room));
        if let Err(reason) = compare_conversion(records, old, room, prng) {
            self.fail(case, &format!("conversion: {reason}"));
        }
    }

    /// What a run left comes back from the records of before.
    fn convert_back(&mut self, case: &Case, records: Records, new: &[u8], prng: &mut Prng) {
        let Some(old) = records.narrowed(new) else {
            return;
        };
        self.convert(case, records, &old, new.len(), prng);
        let mut out = vec![0; new.len()];
        prng.fill(&mut out);
        let answer = match records {
            Records::Tokens => engine::convert(&old, &mut out),
            Records::Log => engine::convert_log(&old, &mut out),
        };
        if (answer, &out[..]) != (0, new) {
            self.fail(case, "conversion: a run's records do not come back");
        }
    }
}

/// Old bytes, and the length of an output for them. Both may be wrong.
fn arbitrary(records: Records, prng: &mut Prng) -> (Vec<u8>, usize) {
    let (old_width, width) = (records.old_width(), records.width());
    let count = match prng.below(40) {
        0 => 2046 + prng.below(4),
        _ => prng.below(12),
    };
    let mut old = vec![0; old_width * count];
    prng.fill(&mut old);
    if prng.one_in(6) {
        old.extend(vec![1; 1 + prng.below(old_width - 1)]);
    }
    let right = width * (old.len() / old_width);
    let room = match prng.below(8) {
        0 => right + width,
        1 => right.saturating_sub(width),
        2 => right + 1 + prng.below(width - 1),
        3 => old.len(),
        _ => right,
    };
    (old, room)
}

/// What has to come up among the conversions.
pub const NAMES: [&str; 8] = [
    "tokens",
    "a log",
    "no record",
    "2,048 records",
    "past 2,048",
    "not whole",
    "an output too long",
    "an output too short",
];

fn name(records: Records, old: usize, room: usize) -> &'static str {
    let count = old / records.old_width();
    let right = count * records.width();
    match (old % records.old_width(), count) {
        (1.., _) => "not whole",
        (0, 2049..) => "past 2,048",
        _ if room > right => "an output too long",
        _ if room < right => "an output too short",
        (0, 0) => "no record",
        (0, MOST_RECORDS) => "2,048 records",
        _ if records == Records::Tokens => "tokens",
        _ => "a log",
    }
}
