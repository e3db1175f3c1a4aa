//! A timeline as a file of value changes (VCD, IEEE 1364), which GTKWave and other viewers of waves open: instructions as
//! wires that are 1 while they fire, cells as 32-bit values, x while absent and z while waiting.

use std::collections::BTreeMap;

use super::Timeline;
use crate::records::Cell;

/// A unit of a timeline in units of the file: a wire is 1 for the first half of it, so that firings that follow each other
/// can be told apart.
const UNIT: usize = 10;

/// The file of a timeline.
pub fn file(timeline: &Timeline) -> String {
    let mut text = head(timeline);
    for (time, changes) in changes(timeline) {
        text += &format!("#{time}\n");
        text += &changes.concat();
    }
    text + &format!("#{}\n", UNIT * (timeline.last + 2))
}

/// The signals by name. Instructions come first.
fn head(timeline: &Timeline) -> String {
    let (what, label) = (&timeline.what, one_word(&timeline.machine.program.label));
    let date = plotter::date(plotter::now());
    let mut text = format!(
        "$date {date} $end\n$version dayomlak {} $end\n$comment {label} by {what}: {UNIT} ns are one $end\n\
        $timescale 1 ns $end\n$scope module instructions $end\n",
        env!("CARGO_PKG_VERSION")
    );
    for number in 0..timeline.rows.len() {
        let name = one_word(&timeline.machine.program.name(number as u16));
        text += &format!("$var wire 1 {} {name} $end\n", id(number));
    }
    text += "$upscope $end\n$scope module cells $end\n";
    for (number, cell) in timeline.cells.keys().enumerate() {
        let id = id(timeline.rows.len() + number);
        let name = one_word(&timeline.machine.program.cell(*cell));
        text += &format!("$var integer 32 {id} {name} $end\n");
    }
    text + "$upscope $end\n$enddefinitions $end\n"
}

/// What changes at each time, from 0 on.
fn changes(timeline: &Timeline) -> BTreeMap<usize, Vec<String>> {
    let mut all: BTreeMap<usize, Vec<String>> = BTreeMap::new();
    for (number, row) in timeline.rows.iter().enumerate() {
        let wire = id(number);
        let mut times: Vec<usize> = row.iter().map(|(time, _)| *time).collect();
        times.dedup();
        if times.first() != Some(&0) {
            all.entry(0).or_default().push(format!("0{wire}\n"));
        }
        for time in times {
            all.entry(UNIT * time)
                .or_default()
                .push(format!("1{wire}\n"));
            let half = UNIT * time + UNIT / 2;
            all.entry(half).or_default().push(format!("0{wire}\n"));
        }
    }
    for (number, changes) in timeline.cells.values().enumerate() {
        let id = id(timeline.rows.len() + number);
        if changes.first().is_none_or(|(time, _)| *time > 0) {
            all.entry(0).or_default().push(format!("bx {id}\n"));
        }
        for (time, cell) in changes {
            let value = value(cell);
            all.entry(UNIT * time)
                .or_default()
                .push(format!("b{value} {id}\n"));
        }
    }
    all
}

fn value(cell: &Cell) -> String {
    match cell {
        Cell::Absent => "x".to_string(),
        Cell::Waiting => "z".to_string(),
        Cell::Present(value) => format!("{:b}", value.low),
    }
}

/// The short name of a signal, in printable letters.
fn id(mut number: usize) -> String {
    let mut id = String::new();
    loop {
        id.push(char::from(b'!' + (number % 94) as u8));
        number /= 94;
        if number == 0 {
            return id;
        }
        number -= 1;
    }
}

/// A name as one word: viewers part words at spaces and take brackets for bits.
fn one_word(name: &str) -> String {
    let plain = |c: char| match c.is_ascii_alphanumeric() || "_./-".contains(c) {
        true => c,
        false => '_',
    };
    name.chars().map(plain).collect()
}

#[cfg(test)]
mod tests {
    use std::collections::HashSet;

    use super::*;
    use crate::curves::Pace;
    use crate::timeline::tests::{timeline, TEXT};

    #[test]
    fn pulses_and_values() {
        timeline(TEXT, None, |timeline| {
            let text = file(timeline);
            let (head, body) = text.split_once("$enddefinitions $end\n").unwrap();
            assert!(head.contains("$var wire 1 ! read $end\n"));
            assert!(head.contains("$var wire 1 & cell_2 $end\n"));
            assert!(head.contains("$var integer 32 ( cell_0 $end\n$var integer 32 ) cell_2 $end\n"));
            let negative = format!("b{:b} )\n", -3);
            let expected = format!(
                "#0\n0!\n0\"\n0#\n0$\n0%\n0&\n0'\nbx (\nbx )\n#10\n1&\n{negative}#15\n0&\n#20\n1!\nbz (\n#25\n0!\n\
                #30\n1$\n#35\n0$\n#40\n1'\n#45\n0'\n#50\n1%\nb101 (\n#55\n0%\n#60\n1\"\n#65\n0\"\n#80\n"
            );
            assert_eq!(body, expected);
        });
    }

    /// What is loaded before step 1 is there from the beginning.
    #[test]
    fn loads_are_at_0() {
        timeline(TEXT, Some(Pace::Ideal), |timeline| {
            let text = file(timeline);
            assert!(text.contains("1&\n"), "{text}");
            assert!(
                !text.contains("bx )\n") && text.contains("bx (\n"),
                "{text}"
            );
        });
    }

    #[test]
    fn short_names_differ() {
        let ids: HashSet<String> = (0..20_000).map(id).collect();
        assert_eq!(ids.len(), 20_000);
        assert_eq!(
            (id(0), id(93), id(94)),
            ("!".into(), "~".into(), "!!".into())
        );
    }
}
