//! A log in a file: a head in lines that name the run, then a record for each firing. A run with a loop bound has a line more,
//! with the bound. Without the head a file has bare records, which name no run.

use std::fmt;

use plotter::Fingerprint;
use ttda::widths::BOUNDS;

use crate::machine::{Machine, Sizes};
use crate::pictures;
use crate::records::LOGGED;

/// How every log begins; the number of the form follows.
pub const START: &str = "dayomlak log ";
const FORM: &str = "1";

/// What a log is of: all that decides what its records name.
#[derive(Clone, Copy, Debug, PartialEq, Eq)]
pub struct Named {
    pub fingerprint: Fingerprint,
    pub sizes: Sizes,
}

impl Named {
    pub fn of(machine: &Machine) -> Named {
        Named {
            fingerprint: pictures::fingerprint(&machine.program.files),
            sizes: machine.sizes,
        }
    }
}

impl fmt::Display for Named {
    fn fmt(&self, f: &mut fmt::Formatter<'_>) -> fmt::Result {
        let Sizes { capacity, cells } = self.sizes;
        let fingerprint = self.fingerprint;
        write!(
            f,
            "graph and inputs {fingerprint}, capacity {capacity}, {cells} cells"
        )
    }
}

/// The contents of a log file.
#[derive(Clone, Debug, PartialEq, Eq)]
pub struct LogFile {
    /// `None` for bare records.
    pub of: Option<Named>,
    /// The loop bound of the run, 0 for none or where it is not known. It decides what was fired, and not what records name.
    pub bound: u16,
    pub records: Vec<u8>,
}

impl LogFile {
    /// Bytes with a head must be a whole log; any others are bare records.
    pub fn decode(bytes: &[u8]) -> Result<LogFile, String> {
        if !bytes.starts_with(START.as_bytes()) {
            if is_text(bytes) {
                return Err("a text, and no log\n  `dayomlak log FILE -o X.log` makes one".into());
            }
            return Ok(LogFile {
                of: None,
                bound: 0,
                records: bytes.to_vec(),
            });
        }
        let mut head = Head(bytes);
        let form = head.value(START).ok_or("its head is damaged")?;
        if form != FORM {
            return Err(format!(
                "a log of form {form}, and this program reads form {FORM}"
            ));
        }
        let (named, bound, firings) = head.named().ok_or("its head is damaged")?;
        let records = head.0;
        if firings.checked_mul(LOGGED) != Some(records.len()) {
            let bytes = records.len();
            return Err(format!("its head says {firings} firings of {LOGGED} bytes, and it has {bytes} bytes of them"));
        }
        Ok(LogFile {
            of: Some(named),
            bound,
            records: records.to_vec(),
        })
    }

    pub fn encode(&self) -> Vec<u8> {
        let head = self
            .of
            .map(|named| head(&named, self.bound, self.records.len() / LOGGED));
        [head.unwrap_or_default().as_bytes(), &self.records].concat()
    }
}

/// Whether bytes are a text. Records are none: the first one is at the root, and begins with zeros.
fn is_text(bytes: &[u8]) -> bool {
    let control = |byte: &u8| *byte < b' ' && !matches!(*byte, b'\n' | b'\r' | b'\t');
    !bytes.is_empty() && !bytes.iter().any(control)
}

fn head(named: &Named, bound: u16, firings: usize) -> String {
    let Sizes { capacity, cells } = named.sizes;
    let digits = named.fingerprint.digits();
    let bound = match bound {
        0 => String::new(),
        bound => format!("bound {bound}\n"),
    };
    format!(
        "{START}{FORM}\ngraph and inputs {digits}\ncapacity {capacity}\ncells {cells}\n{bound}firings {firings}\n"
    )
}

/// The lines of a head that are still to be read, and the records behind them.
struct Head<'b>(&'b [u8]);

impl<'b> Head<'b> {
    /// The rest of a line that begins with some words.
    fn value(&mut self, words: &str) -> Option<&'b str> {
        let end = self.0.iter().position(|byte| *byte == b'\n')?;
        let (line, rest) = self.0.split_at(end);
        self.0 = &rest[1..];
        std::str::from_utf8(line).ok()?.strip_prefix(words)
    }

    /// A number as it is written, without zeros before it.
    fn number(&mut self, words: &str) -> Option<usize> {
        let value = self.value(words)?;
        let number: usize = value.parse().ok()?;
        (number.to_string() == value).then_some(number)
    }

    /// The bound, where a line has one; without a bound there is no such line.
    fn bound(&mut self) -> Option<u16> {
        match self.0.starts_with(b"bound ") {
            false => Some(0),
            true => {
                let bound = u16::try_from(self.number("bound ")?).ok();
                bound.filter(|bound| BOUNDS.contains(bound))
            }
        }
    }

    /// The run that the lines name, its bound and its firings.
    fn named(&mut self) -> Option<(Named, u16, usize)> {
        let fingerprint = Fingerprint::from_digits(self.value("graph and inputs ")?)?;
        let capacity = self.number("capacity ")?;
        let cells = self.number("cells ")?;
        let sizes = Sizes { capacity, cells };
        let bound = self.bound()?;
        let firings = self.number("firings ")?;
        Some((Named { fingerprint, sizes }, bound, firings))
    }
}

#[cfg(test)]
mod tests {
    use super::*;

    fn log() -> LogFile {
        LogFile {
            of: Some(Named {
                fingerprint: Fingerprint::of(b"graph"),
                sizes: Sizes {
                    capacity: 20,
                    cells: 3,
                },
            }),
            bound: 0,
            records: vec![7; 2 * LOGGED],
        }
    }

    /// A bound has a line of its own, and none has none.
    #[test]
    fn a_bound_is_read_back() {
        let plain = String::from_utf8(log().encode()).unwrap();
        assert!(!plain.contains("bound"));
        let bounded = LogFile { bound: 2, ..log() };
        let bytes = bounded.encode();
        assert_eq!(LogFile::decode(&bytes), Ok(bounded));
        let text = String::from_utf8(bytes).unwrap();
        for wrong in ["0", "1", "257", "02", "x"] {
            let text = text.replace("bound 2", &format!("bound {wrong}"));
            assert!(LogFile::decode(text.as_bytes()).is_err(), "{wrong}");
        }
    }

    #[test]
    fn what_is_written_is_read() {
        let bytes = log().encode();
        assert_eq!(LogFile::decode(&bytes), Ok(log()));
        let bare = LogFile { of: None, ..log() };
        assert_eq!(bare.encode(), [7; 2 * LOGGED]);
        assert_eq!(LogFile::decode(&bare.encode()), Ok(bare));
        assert_eq!(LogFile::decode(&[]).unwrap().of, None);
    }

    #[test]
    fn a_text_is_no_log() {
        let text = LogFile::decode(b"x: COPY -> y\r\ny: OUT\r\n");
        assert!(text.is_err_and(|text| text.starts_with("a text, and no log\n")));
        assert!(LogFile::decode(b"x: COPY\0").is_ok());
    }

    /// Half a log is none, nor is one whose head is changed in any byte.
    #[test]
    fn a_damaged_log_is_noticed() {
        let bytes = log().encode();
        let head = bytes.len() - 2 * LOGGED;
        for length in START.len()..bytes.len() {
            assert!(LogFile::decode(&bytes[..length]).is_err(), "{length} bytes");
        }
        for at in START.len()..head {
            let mut damaged = bytes.clone();
            damaged[at] ^= 1;
            let read = LogFile::decode(&damaged);
            assert!(
                read.as_ref().map_or(true, |read| read.of != log().of),
                "byte {at}"
            );
        }
        assert!(LogFile::decode(&[&bytes[..], &[0]].concat()).is_err());
        let text = String::from_utf8(bytes).unwrap();
        let many = text.replace("firings 2", &format!("firings {}", usize::MAX));
        assert!(LogFile::decode(many.as_bytes()).is_err());
    }

    #[test]
    fn another_form_is_named() {
        let text = "dayomlak log 2\nother words\n";
        let words = "a log of form 2, and this program reads form 1";
        assert_eq!(LogFile::decode(text.as_bytes()), Err(words.to_string()));
    }
}
