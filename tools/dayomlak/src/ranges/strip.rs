//! Samples beside their ranges as a picture: a strip of marks for each value, and under it the range that is promised.

use plotter::curves::wrapped;
use plotter::Fingerprint;

use super::sample::{Row, Sampled};
use crate::machine::{End, Machine};
use crate::report::html::escaped;
use crate::results;
use crate::value::Value;

const WIDTH: usize = 900;
const MARGIN: usize = 16;
const LINE: usize = 18;
/// The names stand left of here, and the marks between here and the right margin.
const LEFT: usize = 250;
const RIGHT: usize = WIDTH - 40;
const HEADING: usize = 30;
const ROW: usize = 58;
/// How high a strip of marks is.
const STRIP: usize = 24;
/// How many letters of a name have room.
const LETTERS: usize = 30;
/// The most rows of inputs, and of what is left.
const INPUTS: usize = 12;
const LEFT_ROWS: usize = 24;
/// The most marks that are drawn in a row.
const MARKS: usize = 1000;
const HOW_CHOSEN: &str = "inputs chosen at random within their ranges; every value is in its range";
const INPUT: &str = "#4a5568";
const RESULT: &str = "#2b6cb0";

/// What a picture is of.
pub struct Picture<'p> {
    pub machine: &'p Machine<'p>,
    pub end: &'p End,
    /// In which order all runs fired, in words.
    pub order: &'p str,
    /// When it was drawn.
    pub date: String,
    pub sampled: &'p Sampled,
}

/// The fingerprint of graph, arrays and ranges, under a bound if there is one.
fn fingerprint(machine: &Machine) -> Fingerprint {
    let files = &machine.program.files;
    let ranges = machine.program.range_inputs();
    Fingerprint::of_run(&files.graph, &files.arrays, &ranges).bounded(machine.bound)
}

impl Picture<'_> {
    pub fn svg(&self) -> String {
        let mut page = Page {
            svg: String::new(),
            y: 28,
        };
        page.line("font-size=\"18\"", &self.machine.program.label);
        page.y += 22;
        for fact in self.facts().iter().flat_map(|fact| wrapped(fact)) {
            page.line("", &fact);
            page.y += LINE;
        }
        page.group("Inputs", &self.sampled.inputs, INPUTS, INPUT);
        page.group("The run left", &self.sampled.left, LEFT_ROWS, RESULT);
        page.whole()
    }

    /// Which run it is, and what the samples are.
    fn facts(&self) -> Vec<String> {
        let sizes = self.machine.sizes;
        let what = match self.machine.bound {
            0 => "graph and ranges",
            _ => "graph, ranges and bound",
        };
        let fingerprint = fingerprint(self.machine);
        let ended = results::headline(self.machine, self.end, self.order);
        let samples = self.sampled.wish.words();
        let mut facts = vec![
            format!(
                "{what} {fingerprint}, capacity {}, {} cells",
                sizes.capacity, sizes.cells
            ),
            format!("run of {}: {ended}", self.date),
            format!("{samples}: plain runs in the same order, {HOW_CHOSEN}"),
        ];
        if self.sampled.wish.count as usize > MARKS {
            facts.push(format!(
                "the first {MARKS} are drawn; the numbers are of all"
            ));
        }
        facts
    }
}

/// A picture that grows downwards.
struct Page {
    svg: String,
    /// Where the next line stands.
    y: usize,
}

impl Page {
    fn line(&mut self, style: &str, words: &str) {
        self.svg += &text((MARGIN, self.y), "start", style, words);
    }

    /// Rows under a heading, up to a number.
    fn group(&mut self, heading: &str, rows: &[Row], most: usize, colour: &str) {
        self.y += HEADING;
        self.line("font-size=\"13\" font-weight=\"bold\"", heading);
        self.y += 8;
        for row in rows.iter().take(most) {
            self.svg += &drawn(row, self.y, colour);
            self.y += ROW;
        }
        if let Some(more) = beyond(rows, most) {
            self.y += LINE;
            self.line("", &more);
        }
    }

    fn whole(&self) -> String {
        let height = self.y + MARGIN;
        format!(
            "<svg xmlns=\"http://www.w3.org/2000/svg\" width=\"{WIDTH}\" height=\"{height}\" \
             viewBox=\"0 0 {WIDTH} {height}\" font-family=\"sans-serif\" font-size=\"12\">\n\
             <rect width=\"100%\" height=\"100%\" fill=\"white\"/>\n{}</svg>\n",
            self.svg
        )
    }
}

/// What is said of rows that are not drawn, or where there is none.
fn beyond(rows: &[Row], most: usize) -> Option<String> {
    match rows.len() {
        0 => Some("single values alone".to_string()),
        count if count > most => Some(format!("and {} more", count - most)),
        _ => None,
    }
}

fn text((x, y): (usize, usize), anchor: &str, more: &str, words: &str) -> String {
    let words = escaped(words);
    format!("<text x=\"{x}\" y=\"{y}\" text-anchor=\"{anchor}\" {more}>{words}</text>\n")
}

/// A name, with its beginning cut off where it is long.
fn short(name: &str) -> String {
    let letters = name.chars().count();
    match letters > LETTERS {
        true => {
            let end: String = name.chars().skip(letters + 3 - LETTERS).collect();
            format!("...{end}")
        }
        false => name.to_string(),
    }
}

/// Where a number stands between the ends of a range.
fn across(range: Value, number: i32) -> f64 {
    let [low, high, number] = [range.low, range.high, number].map(f64::from);
    let part = if high > low {
        (number - low) / (high - low)
    } else {
        0.5
    };
    LEFT as f64 + part * (RIGHT - LEFT) as f64
}

/// The name of a value with what the samples were, their marks, and the range under them.
fn drawn(row: &Row, y: usize, colour: &str) -> String {
    let right = LEFT - 16;
    let small = "font-size=\"10\" fill=\"#666666\"";
    let samples = format!("samples {}", row.spread());
    let mut svg = format!(
        "<g><title>{}: {}</title>\n",
        escaped(&row.name),
        row.promised
    );
    svg += &text((right, y + 18), "end", "", &short(&row.name));
    svg += &text((right, y + 34), "end", small, &samples);
    svg += &format!("<g fill=\"{colour}\" fill-opacity=\"0.35\">\n");
    for (number, value) in row.values.iter().take(MARKS).enumerate() {
        svg += &mark(across(row.promised, *value), y, number);
    }
    svg += "</g>\n";
    let (bar, foot) = (y + STRIP + 6, y + STRIP + 24);
    svg += &format!(
        "<path d=\"M{LEFT} {bar}H{RIGHT}M{LEFT} {0}v8M{RIGHT} {0}v8\" stroke=\"{colour}\" stroke-width=\"2\"/>\n",
        bar - 4
    );
    svg += &text((LEFT, foot), "start", small, &row.promised.low.to_string());
    svg += &text((RIGHT, foot), "end", small, &row.promised.high.to_string());
    svg + "</g>\n"
}

/// A mark; marks of one value stand beside each other, as evenly as a golden section has them.
fn mark(x: f64, y: usize, number: usize) -> String {
    let golden = (5_f64.sqrt() - 1.0) / 2.0;
    let down = (number as f64 * golden).fract() * (STRIP - 4) as f64;
    let y = y as f64 + 2.0 + down;
    format!("<circle cx=\"{x:.1}\" cy=\"{y:.1}\" r=\"2\"/>\n")
}

#[cfg(test)]
mod tests {
    use super::*;
    use crate::machine::{Sizes, WHOLE};
    use crate::program::Program;
    use crate::ranges::sample::{self, Wish};

    fn picture(text: &str, count: u32) -> String {
        let program = Program::typed_ranges("a <b>.ttda", text.as_bytes().to_vec()).unwrap();
        let machine = Machine::new(&program, Sizes::default()).ranged(true);
        let end = machine.run(&[], WHOLE);
        let wish = Wish { count, seed: 3 };
        let sampled = sample::of(&machine, (&[], WHOLE), &end, wish).unwrap();
        let picture = Picture {
            machine: &machine,
            end: &end,
            order: "oldest first",
            date: "today".to_string(),
            sampled: &sampled,
        };
        picture.svg()
    }

    #[test]
    fn a_mark_for_each_sample_between_the_ends() {
        let svg = picture("a: MUL 10 -> out\nout: OUT\ninput a = -3..5\n", 40);
        assert_eq!(svg.matches("<circle").count(), 80);
        assert_eq!(svg.matches("<title>").count(), 2);
        for words in [
            "<title>a: -3..5</title>",
            "<title>out[0]: -30..50</title>",
            ">a &lt;b&gt;.ttda<",
            ">run of today: completed: 1 firing, 2 tokens, oldest first<",
            ">40 samples, seed 3: plain runs",
            ">-30<",
            ">50<",
        ] {
            assert!(svg.contains(words), "{words}\n{svg}");
        }
        let marks = svg.split("cx=\"").skip(1);
        let across: Vec<f64> = marks
            .map(|part| part.split('"').next().unwrap().parse().unwrap())
            .collect();
        assert!(across
            .iter()
            .all(|x| (LEFT as f64..=RIGHT as f64).contains(x)));
    }

    /// Single values have no row, many samples have not all their marks, many values not all their rows.
    #[test]
    fn what_is_not_drawn() {
        let single = picture("out: OUT\ninput out = 4\n", 2);
        assert_eq!(single.matches("single values alone").count(), 2);
        let many = picture("out: OUT\ninput out = 4..9\n", 1500);
        assert!(
            many.contains("the first 1000 are drawn") && many.matches("<circle").count() == 2000
        );
        let lines = (0..30).map(|n| format!("o{n}: OUT\ninput o{n} = 1..2\n"));
        let rows = picture(&lines.collect::<String>(), 1);
        assert!(rows.contains("and 18 more") && rows.contains("and 6 more"));
        assert_eq!(short(&"x".repeat(31)), format!("...{}", "x".repeat(27)));
    }
}
