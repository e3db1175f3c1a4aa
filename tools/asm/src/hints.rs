//! Guesses at what was meant.

use crate::operations::names;

/// The words that begin a line which is no instruction.
const LINES: [&str; 5] = ["input", "picks", "cell", "array", "order"];

/// Words of the memos and of other machines, and what is written here.
const KNOWN: [(&[&str], &str); 14] = [
    (&["D"], "the memo's D is written NEXT here"),
    (
        &["D-1", "D⁻¹", "D^-1", "D-RESET", "D_RESET", "RESET"],
        "LEAVE drops the iteration here",
    ),
    (&["L"], "the memo's L is written ENTER here"),
    (
        &["L-1", "L⁻¹", "L^-1", "END", "RETURN"],
        "the memo's L⁻¹ and END are written LEAVE here",
    ),
    (
        &["A", "APPLY", "CALL"],
        "the memo's A is written ENTER here, one for each argument",
    ),
    (
        &["A-1", "A⁻¹", "A^-1"],
        "the memo's A⁻¹ is the instruction behind `return` of ENTER",
    ),
    (
        &["BEGIN"],
        "there is no BEGIN: ENTER sends to the first instruction",
    ),
    (
        &["GT", ">"],
        "there is no GT: `a > b` is LT with b on port 0",
    ),
    (
        &["GE", ">="],
        "there is no GE: `a >= b` is LE with b on port 0",
    ),
    (
        &["NE", "NEQ", "NOT", "!="],
        "EQ 0 turns 1 into 0 and 0 into 1",
    ),
    (&["MOD"], "the remainder is written REM"),
    (
        &["MERGE", "JOIN"],
        "there is no MERGE: arcs may end at one port, if one of them alone sends under a tag, as the arms of a SWITCH do",
    ),
    (&["READ", "SELECT", "LOAD"], "a cell is read by FETCH"),
    (&["WRITE", "PUT", "APPEND"], "a cell is written by STORE"),
];

/// What to write for a word that is no operation.
pub fn operation(word: &str) -> Option<String> {
    let known = KNOWN
        .iter()
        .find(|(words, _)| words.iter().any(|w| w.eq_ignore_ascii_case(word)));
    match known {
        Some((_, hint)) => Some((*hint).to_string()),
        None => nearest(word, names().chain(LINES)).map(|name| format!("did you mean {name}?")),
    }
}

/// What to do where a number stands behind an operation that takes none.
pub fn constant(operation: &str, words: &[&str]) -> Option<String> {
    let number: i32 = words.join(" ").parse().ok()?;
    Some(format!(
        "{operation} has no constant; {number} comes by an arc, or by `input name = {number}`"
    ))
}

/// What to write for a name that is not defined.
pub fn name<'n>(word: &str, defined: impl Iterator<Item = &'n str>) -> Option<String> {
    nearest(word, defined).map(|name| format!("did you mean `{name}`?"))
}

/// What to write where words stand behind an operation that are no constant: the arrow before the targets is missing,
/// behind the constant or number if the operation takes one.
pub fn arrow(operation: &str, words: &[&str], takes_number: bool) -> Option<String> {
    let is_target = |word: &&str| word.starts_with(|c: char| c.is_ascii_alphabetic() || c == '_');
    match words {
        [number, targets @ ..] if takes_number && number.parse::<i32>().is_ok() => {
            let missing = !targets.is_empty() && targets.iter().all(is_target);
            missing.then(|| missing_arrow(&format!("{operation} {number}"), targets))
        }
        targets => targets
            .iter()
            .all(is_target)
            .then(|| missing_arrow(operation, targets)),
    }
}

pub fn missing_arrow(operation: &str, targets: &[&str]) -> String {
    let targets = targets.join(" ");
    format!("an arrow before the targets: `{operation} -> {targets}`")
}

/// What to write where names stand behind FETCH or STORE and no arrow: the first may be an array's.
pub fn array_or_arrow(operation: &str, words: &[&str]) -> String {
    let array = words[0];
    let targets = match &words[1..] {
        [] => "name.port".to_string(),
        targets => targets.join(" "),
    };
    let arrow = missing_arrow(operation, words);
    format!("{arrow}; or, of an array `{array}`, `{operation} {array} -> {targets}`")
}

/// What to write for a word that begins a line and is no operation, by the words behind it.
pub fn line(word: &str, rest: &[&str]) -> Option<String> {
    match rest {
        _ if word.contains('(') => {
            Some("an element of an array is written `name[index]`".to_string())
        }
        ["=", value] => Some(format!(
            "an input is `input {word} = {value}`; an element of an array is loaded by `{word}[1] = {value}`"
        )),
        [index, ..] if index.starts_with('[') => {
            Some(format!("an element is written without spaces: `{word}{index}`"))
        }
        _ => operation(word),
    }
}

/// The nearest of some names, if it is near enough to have been meant.
fn nearest<'n>(word: &str, names: impl Iterator<Item = &'n str>) -> Option<&'n str> {
    let most = (word.chars().count() / 3).min(3);
    let word = word.to_lowercase();
    names
        .map(|name| (distance(&word, &name.to_lowercase()), name))
        .filter(|(distance, _)| *distance <= most)
        .min()
        .map(|(_, name)| name)
}

/// The number of letters to add, drop or change, or of neighbours to swap (Damerau and Levenshtein).
fn distance(one: &str, other: &str) -> usize {
    let [one, other] = [one, other].map(|word| word.chars().collect::<Vec<char>>());
    let mut rows: Vec<Vec<usize>> = vec![(0..=other.len()).collect()];
    for i in 1..=one.len() {
        rows.push(next_row(&rows, &one[..i], &other));
    }
    rows[one.len()][other.len()]
}

/// How far the letters of one word so far are from each beginning of the other.
fn next_row(rows: &[Vec<usize>], one: &[char], other: &[char]) -> Vec<usize> {
    let i = one.len();
    let mut row = vec![i];
    for j in 1..=other.len() {
        let change = rows[i - 1][j - 1] + usize::from(one[i - 1] != other[j - 1]);
        let nearest = change.min(rows[i - 1][j] + 1).min(row[j - 1] + 1);
        let swapped = i > 1 && j > 1 && one[i - 2..] == [other[j - 1], other[j - 2]];
        row.push(match swapped {
            true => nearest.min(rows[i - 2][j - 2] + 1),
            false => nearest,
        });
    }
    row
}

#[cfg(test)]
mod tests {
    use super::{distance, name};

    #[test]
    fn the_nearest_name_is_near() {
        assert_eq!((distance("tests", "testss"), distance("ab", "ba")), (1, 1));
        assert_eq!((distance("", "abc"), distance("abcd", "bdca")), (3, 3));
        let names = ["tests", "total"];
        let hint = |word| name(word, names.into_iter());
        assert_eq!(hint("testss").as_deref(), Some("did you mean `tests`?"));
        assert_eq!(hint("Total").as_deref(), Some("did you mean `total`?"));
        assert_eq!(hint("tetss").as_deref(), Some("did you mean `tests`?"));
        assert_eq!((hint("pass"), hint("t")), (None, None));
    }
}
