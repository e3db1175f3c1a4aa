//! The curves of Memo 280 as SVG.

use std::error::Error;
use std::ops::Range;

use plotters::coord::Shift;
use plotters::prelude::*;

const WIDTH: u32 = 900;
/// The width of a curve beside other things.
const NARROW: u32 = 560;
const CHART: u32 = 220;
const LINE: u32 = 18;
const MARGIN: u32 = 16;
/// How many characters have room in a line, by any font at hand.
const CHARACTERS: usize = 130;
/// The columns in which what the run left stands, and the most lines of each.
const COLUMNS: usize = 3;
const ROWS: usize = 8;
/// More steps than this stand close together.
const MANY: usize = 150;
const FIRINGS: RGBColor = RGBColor(43, 108, 176);
const TOKENS: RGBColor = RGBColor(183, 121, 31);
const WAITING: RGBColor = RGBColor(155, 44, 44);
/// The colours of several runs, which paper and most eyes tell apart.
const RUNS: [RGBColor; 6] = [
    RGBColor(43, 108, 176),
    RGBColor(192, 86, 33),
    RGBColor(47, 133, 90),
    RGBColor(128, 90, 213),
    RGBColor(151, 38, 109),
    RGBColor(74, 85, 104),
];

/// What happens in each step of a run, or after each of its firings.
#[derive(Clone, Debug, Default, PartialEq, Eq)]
pub struct Steps {
    /// What a column is, such as `ideal step`.
    pub what: String,
    /// The number of the first column: 0 for what stands before step 1.
    pub first: usize,
    /// Empty where each column is one firing.
    pub firings: Vec<u32>,
    /// Tokens that are live or deferred after it.
    pub tokens: Vec<u32>,
    /// Of these, operands that wait for a partner.
    pub waiting: Vec<u32>,
    /// Activities that can fire after it; empty where that is not shown.
    pub enabled: Vec<u32>,
}

impl Steps {
    /// The most of some values, loads left out.
    fn most(&self, values: &[u32]) -> u32 {
        let steps = values.iter().skip(1_usize.saturating_sub(self.first));
        steps.max().copied().unwrap_or(0)
    }
}

/// What a picture shows.
pub struct Picture<'p> {
    pub title: &'p str,
    /// What it is of: graph and inputs, run, profile.
    pub facts: &'p [String],
    /// Each run with its name. One alone has all its curves, of several each kind of curve stands together.
    pub runs: &'p [(String, Steps)],
    /// What the run left, by names.
    pub left: &'p [String],
}

type Place = (Range<i32>, Range<i32>);
type Area<'a> = DrawingArea<SVGBackend<'a>, Shift>;

/// A curve over the columns of a run.
struct Curve<'s> {
    values: &'s [u32],
    first: usize,
    colour: RGBColor,
    filled: bool,
}

/// Curves over the same axes.
struct Panel<'s> {
    caption: String,
    across: String,
    up: &'static str,
    curves: Vec<Curve<'s>>,
}

/// Draws a picture.
pub fn svg(picture: &Picture) -> Result<String, Box<dyn Error>> {
    let (left, panels) = (columns(picture.left), panels(picture.runs));
    let lines = head_lines(picture);
    let rows = left.iter().map(Vec::len).max().unwrap_or(0) as u32;
    let head = MARGIN + 28 + LINE * lines.len() as u32;
    let charts = CHART * panels.len() as u32;
    let tail = MARGIN + LINE * (rows + 2);
    let mut svg = String::new();
    {
        let backend = SVGBackend::with_string(&mut svg, (WIDTH, head + charts + tail));
        let root = backend.into_drawing_area();
        root.fill(&WHITE)?;
        write(&root, picture.title, 18, &BLACK, (MARGIN, MARGIN))?;
        for (number, (line, colour)) in (0..).zip(&lines) {
            let place = (MARGIN, MARGIN + 28 + LINE * number);
            write(&root, line, 12, colour, place)?;
        }
        let (_, mut rest) = root.split_vertically(head);
        for panel in &panels {
            let (chart, below) = rest.split_vertically(CHART);
            panel.draw(&chart)?;
            rest = below;
        }
        write_columns(&rest, &left)?;
        root.present()?;
    }
    Ok(svg)
}

/// The lines under the title: facts, and of several runs each with its colour.
fn head_lines(picture: &Picture) -> Vec<(String, RGBColor)> {
    let facts = picture.facts.iter().flat_map(|fact| wrapped(fact));
    let mut lines: Vec<(String, RGBColor)> = facts.map(|fact| (fact, BLACK)).collect();
    if picture.runs.len() > 1 {
        let names = picture.runs.iter().zip(RUNS.iter().cycle());
        lines.extend(names.map(|((name, _), colour)| (format!("\u{25a0} {name}"), *colour)));
    }
    lines
}

/// A panel by itself.
pub struct Chart {
    pub svg: String,
    /// Where the first column begins and the last one ends, and where the curve has its top and its foot.
    pub across: Range<i32>,
    pub down: Range<i32>,
}

/// The curves of a run one by one, without a background, for a page.
pub fn charts(steps: &Steps) -> Result<Vec<Chart>, Box<dyn Error>> {
    own_panels(steps).iter().map(Panel::chart).collect()
}

/// The curves of several runs, each kind together.
fn panels(runs: &[(String, Steps)]) -> Vec<Panel<'_>> {
    match runs {
        [(_, steps)] => own_panels(steps),
        _ => {
            let all = [
                shared(runs, "firings", "firings in a step", |steps| &steps.firings),
                shared(
                    runs,
                    "tokens",
                    "tokens live or deferred after it",
                    |steps| &steps.tokens,
                ),
                shared(runs, "tokens", "tokens that wait for a partner", |steps| {
                    &steps.waiting
                }),
            ];
            let is_there = |panel: &Panel| panel.curves.iter().any(|c| !c.values.is_empty());
            all.into_iter().filter(is_there).collect()
        }
    }
}

/// One kind of curve of several runs.
fn shared<'s>(
    runs: &'s [(String, Steps)],
    up: &'static str,
    name: &str,
    values: fn(&Steps) -> &[u32],
) -> Panel<'s> {
    let most = runs.iter().map(|(_, steps)| steps.most(values(steps)));
    let most: Vec<String> = most.map(|most| most.to_string()).collect();
    let what = |(_, steps): &'s (String, Steps)| steps.what.as_str();
    let first = runs.first().map_or("", what);
    let across = match runs.iter().all(|run| what(run) == first) {
        true => first,
        false => "step",
    };
    let mut panel = Panel {
        caption: format!("{name}: at most {}", most.join(", ")),
        across: across.to_string(),
        up,
        curves: Vec::new(),
    };
    for ((_, steps), colour) in runs.iter().zip(RUNS.iter().cycle()) {
        panel.curves.push(Curve {
            values: values(steps),
            first: steps.first,
            colour: *colour,
            filled: false,
        });
    }
    panel
}

/// Firings, or what can fire, and below them all tokens with those that wait.
fn own_panels(steps: &Steps) -> Vec<Panel<'_>> {
    let curve = |values, colour, filled| Curve {
        values,
        first: steps.first,
        colour,
        filled,
    };
    let panel = |caption, up| Panel {
        caption,
        across: steps.what.clone(),
        up,
        curves: Vec::new(),
    };
    let most = |values| steps.most(values);
    let firings = format!("firings in a step: at most {}", most(&steps.firings));
    let enabled = format!("can fire after it: at most {}", most(&steps.enabled));
    let tokens = format!(
        "tokens live or deferred after it: at most {}; the thick line: those that wait for a partner, at most {}",
        most(&steps.tokens),
        most(&steps.waiting)
    );
    let mut panels = vec![panel(tokens, "tokens").with([
        curve(&steps.tokens, TOKENS, true),
        curve(&steps.waiting, WAITING, false),
    ])];
    for (caption, up, values) in [
        (enabled, "enabled", &steps.enabled),
        (firings, "firings", &steps.firings),
    ] {
        if !values.is_empty() {
            panels.insert(0, panel(caption, up).with([curve(values, FIRINGS, true)]));
        }
    }
    panels
}

fn write(
    area: &Area,
    text: &str,
    size: u32,
    colour: &RGBColor,
    at: (u32, u32),
) -> Result<(), Box<dyn Error>> {
    let style = ("sans-serif", size as i32)
        .into_text_style(area)
        .color(colour);
    area.draw_text(text, &style, (at.0 as i32, at.1 as i32))?;
    Ok(())
}

/// A line in lines that have room, cut at spaces.
pub fn wrapped(line: &str) -> Vec<String> {
    let mut lines = vec![String::new()];
    for word in line.split(' ') {
        let last = lines.len() - 1;
        let room = CHARACTERS.saturating_sub(lines[last].chars().count() + 1);
        if lines[last].is_empty() {
            lines[last] += word;
        } else if word.chars().count() <= room {
            lines[last] += &format!(" {word}");
        } else {
            lines.push(word.to_string());
        }
    }
    lines
}

/// The first lines in columns, and how many more there are.
fn columns(lines: &[String]) -> Vec<Vec<String>> {
    let most = COLUMNS * ROWS;
    let mut shown: Vec<String> = lines.iter().take(most).cloned().collect();
    if lines.len() > most {
        shown[most - 1] = format!("and {} more", lines.len() - most + 1);
    }
    let rows = shown.len().div_ceil(COLUMNS).max(1);
    shown.chunks(rows).map(<[String]>::to_vec).collect()
}

fn write_columns(area: &Area, columns: &[Vec<String>]) -> Result<(), Box<dyn Error>> {
    if columns.is_empty() {
        return Ok(());
    }
    write(area, "The run left:", 13, &BLACK, (MARGIN, 8))?;
    let width = (WIDTH - 2 * MARGIN) / COLUMNS as u32;
    for (column, lines) in (0..).zip(columns) {
        for (row, line) in (0..).zip(lines) {
            write(
                area,
                line,
                12,
                &BLACK,
                (MARGIN + width * column, LINE * (row + 1) + 10),
            )?;
        }
    }
    Ok(())
}

impl<'s> Panel<'s> {
    fn with(mut self, curves: impl IntoIterator<Item = Curve<'s>>) -> Panel<'s> {
        self.curves.extend(curves);
        self
    }

    fn chart(&self) -> Result<Chart, Box<dyn Error>> {
        let mut svg = String::new();
        let (across, down) = {
            let backend = SVGBackend::with_string(&mut svg, (NARROW, CHART));
            let root = backend.into_drawing_area();
            let place = self.draw(&root)?;
            root.present()?;
            place
        };
        Ok(Chart { svg, across, down })
    }

    /// Draws the curves and answers where their columns stand, across and down.
    fn draw(&self, area: &Area) -> Result<Place, Box<dyn Error>> {
        let most = self.curves.iter().flat_map(|curve| curve.values).max();
        let Range { start, end } = self.columns();
        let mut chart = ChartBuilder::on(area)
            .caption(&self.caption, ("sans-serif", 13))
            .margin_left(14)
            .margin_right(24)
            .x_label_area_size(40)
            .y_label_area_size(56)
            .build_cartesian_2d(
                start as f64 - 0.5..end as f64 - 0.5,
                0..most.copied().unwrap_or(0).max(1) + 1,
            )?;
        chart
            .configure_mesh()
            .disable_x_mesh()
            .light_line_style(TRANSPARENT)
            .bold_line_style(RGBColor(226, 226, 226))
            .x_labels(15)
            .x_label_formatter(&whole)
            .y_labels(6)
            .x_desc(&self.across)
            .y_desc(self.up)
            .axis_desc_style(("sans-serif", 12))
            .draw()?;
        for curve in &self.curves {
            let style = curve.colour.stroke_width(curve.width(end));
            if curve.filled {
                let series = AreaSeries::new(curve.points(), 0, curve.colour.mix(0.18));
                chart.draw_series(series.border_style(style))?;
            } else {
                chart.draw_series(LineSeries::new(curve.points(), style))?;
            }
        }
        Ok(chart.plotting_area().get_pixel_range())
    }

    /// The numbers of the columns; there is one at least.
    fn columns(&self) -> Range<usize> {
        let starts = self.curves.iter().map(|curve| curve.first);
        let start = starts.min().unwrap_or(1);
        let ends = self.curves.iter();
        let ends = ends.map(|curve| curve.first + curve.values.len());
        start..ends.max().unwrap_or(0).max(start + 1)
    }
}

impl Curve<'_> {
    /// How thick its line is. With many columns a thick one would fill the picture.
    fn width(&self, columns: usize) -> u32 {
        let thin = if columns > MANY { 1 } else { 2 };
        thin + u32::from(self.colour == WAITING)
    }

    /// The corners of the curve: a column is as wide as another, and its number stands under its middle.
    fn points(&self) -> Vec<(f64, u32)> {
        let corners = |(number, height): (usize, &u32)| {
            let middle = number as f64;
            [(middle - 0.5, *height), (middle + 0.5, *height)]
        };
        (self.first..).zip(self.values).flat_map(corners).collect()
    }
}

/// The number of a column; nothing between two of them.
fn whole(number: &f64) -> String {
    match (number - number.round()).abs() < 1e-6 {
        true => format!("{}", number.round() as i64),
        false => String::new(),
    }
}

#[cfg(test)]
mod tests {
    use super::*;

    #[test]
    fn long_lines_are_cut_at_spaces() {
        let line = "word ".repeat(40).trim_end().to_string();
        let lines = wrapped(&line);
        assert_eq!(lines.join(" "), line);
        assert!(lines.iter().all(|line| line.len() <= CHARACTERS));
        assert_eq!(lines.len(), 2);
        assert_eq!(wrapped("one line"), ["one line"]);
        assert_eq!(wrapped(&"x".repeat(200)), ["x".repeat(200)]);
    }

    /// Loads stand before step 1, and do not count for the most of a step.
    #[test]
    fn loads_are_no_step() {
        let steps = Steps {
            first: 0,
            firings: vec![8, 2, 3],
            ..Steps::default()
        };
        assert_eq!(steps.most(&steps.firings), 3);
        let without = Steps { first: 1, ..steps };
        assert_eq!(without.most(&without.firings), 8);
        assert_eq!((whole(&2.0), whole(&2.5)), ("2".to_string(), String::new()));
    }
}
