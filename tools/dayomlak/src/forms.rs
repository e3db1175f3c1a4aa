//! The files of token and log records, with paths of four levels and of eight, and which of them given bytes are.

use ttda::layout::fields::logged;
use ttda::layout::{instruction_of, signed};
use ttda::widths::{MOST_INSTRUCTIONS, OLD_LOGGED, OLD_TOKEN};

use crate::answer::count;
use crate::records::{token, LOGGED, MOST_CELLS, TOKEN};

/// What the records of a file are, and how many bytes their paths have.
#[derive(Clone, Copy, Debug, PartialEq, Eq)]
pub enum Form {
    OldTokens,
    NewTokens,
    OldLog,
    NewLog,
}

/// How it is known what a file is.
#[derive(Clone, Debug, PartialEq, Eq)]
pub enum Reason {
    Told,
    Length,
    /// By its bytes: its length would do for these, too.
    Bytes(Vec<Form>),
}

/// Why it is not known what a file is.
#[derive(Clone, Debug, PartialEq, Eq)]
pub enum Doubt {
    /// The file is not in whole records.
    Broken,
    /// Its length would do for several, and its bytes for all of these.
    Several(Vec<Form>),
    /// Its length would do for these, and its bytes for none.
    Unreadable(Vec<Form>),
}

/// Every form, for a file of which nothing is known.
pub const ANY: [Form; 4] = [Form::OldTokens, Form::NewTokens, Form::OldLog, Form::NewLog];

/// The forms of inputs and listings.
pub const TOKENS: [Form; 2] = [Form::OldTokens, Form::NewTokens];

/// The forms of logs.
pub const LOGS: [Form; 2] = [Form::OldLog, Form::NewLog];

impl Form {
    pub fn is_old(self) -> bool {
        matches!(self, Form::OldTokens | Form::OldLog)
    }

    /// The form that its records have today.
    pub fn widened(self) -> Form {
        match self {
            Form::OldTokens | Form::NewTokens => Form::NewTokens,
            Form::OldLog | Form::NewLog => Form::NewLog,
        }
    }

    /// The bytes of a record.
    pub fn width(self) -> usize {
        match self {
            Form::OldTokens => OLD_TOKEN,
            Form::NewTokens => TOKEN,
            Form::OldLog => OLD_LOGGED,
            Form::NewLog => LOGGED,
        }
    }

    /// The bytes of its path.
    fn path(self) -> usize {
        token::PATH.len() - (self.widened().width() - self.width())
    }

    /// `7 token records of 20 bytes`.
    pub fn words(self, length: usize) -> String {
        let kind = match self.widened() {
            Form::NewTokens => "token record",
            _ => "log record",
        };
        let width = self.width();
        format!("{} of {width} bytes", count(length / width, kind))
    }

    /// Whether all records are such as a run can have; of a file in whole records.
    fn reads(self, bytes: &[u8]) -> bool {
        bytes
            .chunks_exact(self.width())
            .all(|record| self.is_record(record))
    }

    fn is_record(self, record: &[u8]) -> bool {
        let (path, rest) = record.split_at(self.path());
        let levels = vec![0; token::PATH.len() - path.len()];
        let record = [path, &levels, rest].concat();
        let tag = is_path(path) && instruction_of(&record) < MOST_INSTRUCTIONS;
        match self.widened() {
            Form::NewTokens => tag && record[token::PORT] <= 1 && is_content(&record),
            _ => tag && record[logged::ZERO] == 0,
        }
    }
}

/// Whether the levels of a path are unbroken: no call has site 0. Behind the oldest one there are zeros.
fn is_path(path: &[u8]) -> bool {
    let levels = path.chunks_exact(2);
    let levels = levels.rev().skip_while(|level| level == &[0, 0]);
    levels.into_iter().all(|level| level[1] != 0)
}

/// Whether value, state and zeros are a token's. A deferred one has the number of a cell.
fn is_content(record: &[u8]) -> bool {
    let value = signed(record, token::VALUE);
    let state = match record[token::STATE] {
        token::DEFERRED => usize::try_from(value).is_ok_and(|cell| cell < MOST_CELLS),
        state => matches!(state, token::LIVE | token::SPENT),
    };
    state && record[token::ZEROS] == [0; 3]
}

/// Which form bytes have, by their length where that leaves no doubt, and else by the records that they would be.
pub fn of(bytes: &[u8], known: &[Form]) -> Result<(Form, Reason), Doubt> {
    let fits = known.iter().copied();
    let fits: Vec<Form> = fits
        .filter(|form| bytes.len() % form.width() == 0)
        .collect();
    match fits[..] {
        [] => return Err(Doubt::Broken),
        [form] => return Ok((form, Reason::Length)),
        // Nothing is the same in every form.
        [form, ..] if bytes.is_empty() => return Ok((form, Reason::Length)),
        _ => (),
    }
    let (read, others): (Vec<Form>, Vec<Form>) = fits.iter().partition(|form| form.reads(bytes));
    match read[..] {
        [form] => Ok((form, Reason::Bytes(others))),
        [] => Err(Doubt::Unreadable(fits)),
        _ => Err(Doubt::Several(read)),
    }
}

/// What to do with bytes that are old records; `None` where they are not.
pub fn advice(bytes: &[u8], known: &[Form]) -> Option<String> {
    let (form, _) = of(bytes, known).ok()?;
    (form.is_old() && !bytes.is_empty()).then(|| {
        let records = form.words(bytes.len());
        format!("they are {records}, with paths of four levels: `dayomlak convert` widens them")
    })
}

#[cfg(test)]
mod tests {
    use super::*;
    use ttda::layout;

    /// An input of instruction 0, port 0, in a form of tokens.
    fn input(form: Form, value: i32) -> Vec<u8> {
        let mut record = vec![0; form.width()];
        let at = token::VALUE.end - (TOKEN - form.width());
        record[..at][at - 4..].copy_from_slice(&value.to_le_bytes());
        record
    }

    #[test]
    fn widths() {
        assert_eq!(ANY.map(Form::width), [20, 28, 12, 20]);
    }

    #[test]
    fn by_length() {
        let old = input(Form::OldTokens, 5).repeat(3);
        assert_eq!(of(&old, &TOKENS), Ok((Form::OldTokens, Reason::Length)));
        let new = input(Form::NewTokens, 5).repeat(3);
        assert_eq!(of(&new, &TOKENS), Ok((Form::NewTokens, Reason::Length)));
        assert_eq!(of(&[0; 24], &ANY), Ok((Form::OldLog, Reason::Length)));
        assert_eq!(of(&[0; 21], &ANY), Err(Doubt::Broken));
        assert_eq!(of(&[], &TOKENS), Ok((Form::OldTokens, Reason::Length)));
    }

    #[test]
    fn by_bytes() {
        let doubt = |form| Reason::Bytes(vec![form]);
        let old = input(Form::OldTokens, 5).repeat(7);
        let found = Ok((Form::OldTokens, doubt(Form::NewTokens)));
        assert_eq!(of(&old, &TOKENS), found);
        let new = input(Form::NewTokens, 5).repeat(5);
        let found = Ok((Form::NewTokens, doubt(Form::OldTokens)));
        assert_eq!(of(&new, &TOKENS), found);
    }

    #[test]
    fn in_doubt() {
        let zeros = [0; 140];
        assert_eq!(of(&zeros, &TOKENS), Err(Doubt::Several(TOKENS.to_vec())));
        let noise = [255; 140];
        let unreadable = Doubt::Unreadable(TOKENS.to_vec());
        assert_eq!(of(&noise, &TOKENS), Err(unreadable));
    }

    /// A level without a site is a break, wherever it stands; behind the oldest level there is none.
    #[test]
    fn paths() {
        assert!(is_path(&[0; 16]) && is_path(&[2, 3, 0, 0]) && is_path(&[2, 3, 9, 1]));
        assert!(!is_path(&[2, 0]) && !is_path(&[0, 0, 2, 3]) && !is_path(&[2, 3, 9, 0]));
    }

    #[test]
    fn contents() {
        let content = |value: i32, state| layout::token(0, 0, 0, 0, value, state);
        for (value, state) in [(-1, 0), (i32::MIN, 1), (0, 2), (1023, 2)] {
            assert!(is_content(&content(value, state)), "{value} {state}");
        }
        for (value, state) in [(0, 3), (-1, 2), (MOST_CELLS as i32, 2)] {
            assert!(!is_content(&content(value, state)), "{value} {state}");
        }
        let mut record = content(0, 0);
        record[token::ZEROS.end - 2] = 1;
        assert!(!is_content(&record));
    }
}
