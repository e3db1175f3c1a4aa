//! A timeline as a picture: a row for each instruction, a mark for each firing.

use std::collections::BTreeMap;

use super::Timeline;
use crate::records::Tag;
use crate::report::html::escaped;
use crate::results;

const ROW: usize = 15;
const MARGIN: usize = 16;
const HEAD: usize = 66;
const FOOT: usize = 40;
/// Pixels of a letter of a name, about.
const LETTER: usize = 7;
/// The marks have this room, if it is enough for the narrowest.
const ROOM: usize = 900;
const NARROWEST: usize = 3;
const WIDEST: usize = 18;
/// The colours of iterations, one after the other.
const COLOURS: [&str; 6] = [
    "#2b6cb0", "#c05621", "#2f855a", "#805ad5", "#97266d", "#4a5568",
];

/// Where everything stands.
struct Layout {
    /// Where time 0 begins.
    left: usize,
    /// How wide a unit of time is.
    unit: usize,
    rows: usize,
    last: usize,
}

impl Layout {
    fn of(timeline: &Timeline) -> Layout {
        let names = (0..timeline.rows.len()).map(|row| label(timeline, row).chars().count());
        Layout {
            left: MARGIN + LETTER * names.max().unwrap_or(0) + 8,
            unit: (ROOM / (timeline.last + 1)).clamp(NARROWEST, WIDEST),
            rows: timeline.rows.len(),
            last: timeline.last,
        }
    }

    fn x(&self, time: usize) -> usize {
        self.left + self.unit * time
    }

    fn y(&self, row: usize) -> usize {
        HEAD + ROW * row
    }

    fn size(&self) -> (usize, usize) {
        let width = self.x(self.last + 1) + MARGIN;
        (width.max(600), self.y(self.rows) + FOOT)
    }
}

/// The picture of a timeline.
pub fn picture(timeline: &Timeline) -> String {
    let layout = Layout::of(timeline);
    let (width, height) = layout.size();
    let mut svg = format!(
        "<svg xmlns=\"http://www.w3.org/2000/svg\" width=\"{width}\" height=\"{height}\" \
        viewBox=\"0 0 {width} {height}\" font-family=\"sans-serif\" font-size=\"11\">\n\
        <rect width=\"100%\" height=\"100%\" fill=\"white\"/>\n"
    );
    let ended = results::headline(&timeline.machine, &timeline.end, &timeline.order);
    let title = &timeline.machine.program.label;
    svg += &text((MARGIN, 24), "start", "font-size=\"16\"", title);
    svg += &text((MARGIN, 44), "start", "", &ended);
    svg += &axis(timeline, &layout);
    for row in 0..timeline.rows.len() {
        svg += &row_of(timeline, &layout, row);
    }
    svg + "</svg>\n"
}

/// An instruction's name and operation.
fn label(timeline: &Timeline, row: usize) -> String {
    let name = timeline.machine.program.name(row as u16);
    let operation = &timeline.machine.program.graph.instructions[row];
    format!("{name}: {}", operation.words())
}

fn text((x, y): (usize, usize), anchor: &str, more: &str, words: &str) -> String {
    let words = escaped(words);
    format!("<text x=\"{x}\" y=\"{y}\" text-anchor=\"{anchor}\" {more}>{words}</text>\n")
}

/// Lines through the marks at round times, with their numbers, and the name of the axis.
fn axis(timeline: &Timeline, layout: &Layout) -> String {
    let bottom = layout.y(layout.rows);
    let apart = [1, 2, 5, 10, 20, 50, 100, 200, 500]
        .into_iter()
        .find(|apart| apart * layout.unit >= 28)
        .unwrap_or(1000);
    let mut svg = String::new();
    for time in (0..=layout.last).step_by(apart) {
        let x = layout.x(time) + layout.unit / 2;
        svg += &format!("<path d=\"M{x} {HEAD}V{bottom}\" stroke=\"#e2e2e2\"/>\n");
        svg += &text((x, bottom + 14), "middle", "", &time.to_string());
    }
    let middle = (layout.x(0) + layout.x(layout.last + 1)) / 2;
    svg + &text((middle, bottom + 32), "middle", "", &timeline.what)
}

/// The name of an instruction and a mark for each time at which it fires. Several firings of one time have their number.
fn row_of(timeline: &Timeline, layout: &Layout, row: usize) -> String {
    let (y, right) = (layout.y(row), layout.x(layout.last + 1));
    let below = y + ROW;
    let mut svg = format!("<path d=\"M{MARGIN} {below}H{right}\" stroke=\"#eeeeee\"/>\n");
    svg += &text((layout.left - 8, y + 11), "end", "", &label(timeline, row));
    let mut marks: BTreeMap<usize, Vec<Tag>> = BTreeMap::new();
    for (time, tag) in &timeline.rows[row] {
        marks.entry(*time).or_default().push(*tag);
    }
    for (time, tags) in marks {
        svg += &mark(timeline, layout, (time, row), &tags);
    }
    svg
}

fn mark(timeline: &Timeline, layout: &Layout, (time, row): (usize, usize), tags: &[Tag]) -> String {
    let (x, y) = (layout.x(time), layout.y(row) + 2);
    let (width, height) = ((layout.unit - 1).max(2), ROW - 4);
    let colour = COLOURS[usize::from(tags[0].iteration) % COLOURS.len()];
    let names: Vec<String> = tags
        .iter()
        .map(|tag| timeline.machine.program.tag(tag))
        .collect();
    let tip = format!("{} {time}: {}", timeline.what, names.join(", "));
    let tip = escaped(&tip);
    let mut svg = format!(
        "<rect x=\"{x}\" y=\"{y}\" width=\"{width}\" height=\"{height}\" fill=\"{colour}\"><title>{tip}</title></rect>\n"
    );
    if tags.len() > 1 && layout.unit >= 10 {
        let more = "fill=\"white\" font-size=\"9\" pointer-events=\"none\"";
        let count = tags.len().to_string();
        svg += &text((x + width / 2, y + 9), "middle", more, &count);
    }
    svg
}

#[cfg(test)]
mod tests {
    use super::*;
    use crate::curves::Pace;
    use crate::timeline::tests::{timeline, TEXT};

    #[test]
    fn a_row_for_each_instruction_and_a_mark_for_each_firing() {
        timeline(TEXT, None, |timeline| {
            let svg = picture(timeline);
            assert_eq!(svg.matches("text-anchor=\"end\"").count(), 7);
            assert_eq!(svg.matches("<title>").count(), 6);
            assert!(svg.contains("<title>firing 5: write[0]</title>"));
            assert!(svg.contains(">plus: ADD<") && svg.contains(">firing<"));
        });
        let twice = "a: ENTER site 1 -> x return r\nb: ENTER site 2 -> x return s\nx: LEAVE 0\nr: OUT\ns: OUT\n\
            input a = 1\ninput b = 1\n";
        timeline(twice, Some(Pace::Ideal), |timeline| {
            let svg = picture(timeline);
            let tip = "<title>ideal step 2: a[0]/x[0], b[0]/x[0]</title>";
            assert!(svg.contains(tip), "{svg}");
            assert!(svg.contains("pointer-events=\"none\">2</text>"));
        });
    }
}
