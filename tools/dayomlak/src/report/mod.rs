//! A page for a browser: one run, firing by firing. All that it shows is made here and comes from the engine; its script
//! only chooses what to show. The studio has the same page, with editing and firing added.

mod data;
pub mod html;
mod states;
pub mod steps;

use crate::answer::count;
use crate::beginning::Beginning;
use crate::cli::Firing;
use crate::commands;
use crate::failure::Failure;
use crate::graphviz;
use crate::machine::{End, Machine};
use crate::pictures::dot::Drawing;
use crate::profiles;
use crate::program::Program;
use crate::records::Tag;
use crate::results;
use html::escaped;
use plotter::curves::{self, Chart};
use steps::Steps;
use ttda::widths::MOST_INSTRUCTIONS;

pub const PAGE: &str = include_str!("page.html");
pub const STYLE: &str = include_str!("page.css");
pub const SCRIPT: &str = include_str!("page.js");
/// What a page that is a file by itself may do.
const POLICY: &str = "default-src 'none'; style-src 'unsafe-inline'; script-src 'unsafe-inline'";
const KEYS: &str = "Keys: ← → Home End, Space plays";
const HINT: &str = "Click on an instruction for its tokens, on a curve to go to its step";
/// No run takes more inputs: two ports of each instruction.
const MOST_INPUTS: usize = 2 * MOST_INSTRUCTIONS;
/// The profile is of a run from its inputs.
const NO_PROFILE: &str = "None: this page begins at a saved state, and a profile at the inputs";

/// What a page is of.
pub struct Run<'m> {
    pub machine: &'m Machine<'m>,
    pub end: End,
    /// In words.
    pub order: String,
    pub budget: u16,
    picks: Vec<u8>,
    pub log: Vec<Tag>,
}

impl<'m> Run<'m> {
    pub fn of(
        beginning: &Beginning,
        machine: &'m Machine,
        firing: &Firing,
    ) -> Result<Run<'m>, Failure> {
        let picks = firing.order().picks(machine)?;
        let mut run = Run::by_picks(machine, picks, firing.budget)?;
        run.order = beginning.order(&firing.order(), &run.end);
        Ok(run)
    }

    /// A run in an order that has no words yet.
    pub fn by_picks(machine: &'m Machine, picks: Vec<u8>, budget: u16) -> Result<Run<'m>, Failure> {
        let (end, log) = machine.run_traced(&picks, budget)?;
        Ok(Run {
            machine,
            end,
            order: String::new(),
            budget,
            picks,
            log,
        })
    }

    /// What the page is of, in names and words.
    fn facts(&self) -> Vec<(&'static str, String)> {
        let program = self.machine.program;
        let sizes = self.machine.sizes;
        let fingerprint = self.machine.fingerprint();
        let instructions = count(program.graph.instructions.len(), "instruction");
        let inputs = count(program.input_count(), "input");
        let buffers = format!("{} records, {} cells", sizes.capacity, sizes.cells);
        let engine = concat!(env!("CARGO_PKG_VERSION"), ", engine ", env!("ENGINE"));
        let mut facts = vec![
            (
                match self.machine.bound {
                    0 => "Graph and inputs",
                    _ => "Graph, inputs and bound",
                },
                format!("{fingerprint} ({instructions}, {inputs})"),
            ),
            ("Order", self.order.clone()),
            ("Lent", format!("{buffers}, budget {}", self.budget)),
            ("Date", plotter::date(plotter::now())),
            ("Made by", format!("dayomlak {engine}")),
        ];
        if let (Some(_), (firings, tokens)) = (self.machine.start, self.machine.given()) {
            let (firings, tokens) = (count(firings, "firing"), count(tokens, "token"));
            facts.insert(1, ("Carried on from", format!("{firings}, {tokens}")));
        }
        facts
    }

    fn listing(&self) -> Result<String, Failure> {
        let listing = self.end.text()?;
        Ok(String::from_utf8_lossy(&listing).into_owned())
    }
}

/// What a page shows of a run, beside the picture and the curves.
pub struct Shown {
    /// The first word of the answer.
    pub kind: String,
    pub answer: String,
    pub facts: Vec<(&'static str, String)>,
    /// Why it was refused or hung on held activities, with the place in the text.
    pub refusal: Option<String>,
    pub profile: String,
    pub left: String,
    pub listing: String,
    /// As JSON.
    pub data: String,
}

impl Shown {
    pub fn of(run: &Run, drawing: &Drawing, steps: &Steps) -> Result<Shown, Failure> {
        let program = run.machine.program;
        let left = match results::lines(run.machine, &run.end) {
            lines if lines.is_empty() => "nothing".to_string(),
            lines => lines.join("\n"),
        };
        let profile = match run.machine.start {
            None => {
                let mut words = profiles::words(program, &steps.whole, &steps.answer);
                words.extend((run.machine.bound != 0).then(|| profiles::NO_BOUND.to_string()));
                words.join("; ")
            }
            Some(_) => NO_PROFILE.to_string(),
        };
        let refusal = commands::why(run.machine, &run.end, &run.order);
        let kind = run.end.answer.words();
        Ok(Shown {
            kind: kind.split(' ').next().unwrap_or_default().to_string(),
            answer: results::headline(run.machine, &run.end, &run.order),
            facts: run.facts(),
            refusal: refusal.map(|words| words.trim_end().to_string()),
            profile,
            left,
            listing: run.listing()?,
            data: data::of(run, drawing, steps)?,
        })
    }
}

/// The page of a run, a file by itself.
pub fn page(run: &Run) -> Result<String, Failure> {
    let program = run.machine.program;
    let drawing = Drawing::with_ids(program);
    let steps = Steps::new(run.machine)?;
    let shown = Shown::of(run, &drawing, &steps)?;
    let facts = shown.facts.iter();
    let facts =
        facts.map(|(name, words)| format!("<div><dt>{name}</dt><dd>{}</dd></div>", escaped(words)));
    let refusal = shown.refusal.as_deref();
    let text = escaped(&program.text);
    let parts = [
        ("head", head()),
        ("label", escaped(&program.label)),
        ("kind", shown.kind),
        ("answer", escaped(&shown.answer)),
        ("facts", facts.collect()),
        ("refusal", refusal.map_or(String::new(), html::refusal)),
        ("tools", String::new()),
        ("keys", KEYS.to_string()),
        ("editor", String::new()),
        ("picture", picture(&drawing, program)?),
        ("hint", HINT.to_string()),
        ("profile", escaped(&shown.profile)),
        ("curves", curves(&steps.curves, "step")?),
        ("left", escaped(&shown.left)),
        ("listing", escaped(&shown.listing)),
        ("source", html::source(&text)),
        ("data", shown.data),
        ("script", format!("<script>\n{SCRIPT}</script>")),
    ];
    Ok(html::fill(PAGE, &parts))
}

fn head() -> String {
    let policy = "<meta http-equiv=\"Content-Security-Policy\" content";
    format!("{policy}=\"{POLICY}\">\n<style>\n{STYLE}</style>")
}

/// The graph, unless it is larger than any that is run.
pub fn picture(drawing: &Drawing, program: &Program) -> Result<String, Failure> {
    let instructions = program.graph.instructions.len();
    if instructions > MOST_INSTRUCTIONS || program.input_count() > MOST_INPUTS {
        let most = format!("{MOST_INSTRUCTIONS} instructions or {MOST_INPUTS} inputs");
        return Ok(format!("<p>Not drawn: no run takes more than {most}.</p>"));
    }
    let svg = graphviz::svg(&drawing.wide_text())?;
    let svg = String::from_utf8_lossy(&svg);
    // What comes before belongs to a file of its own.
    let start = svg.find("<svg").unwrap_or(0);
    Ok(svg[start..].to_string())
}

/// Curves, whose columns are firings or ideal steps.
pub fn curves(columns: &curves::Steps, by: &str) -> Result<String, Failure> {
    if columns.tokens.is_empty() {
        return Ok(String::new());
    }
    let charts = curves::charts(columns);
    let charts = charts.map_err(|error| Failure::Inconsistent(format!("the curves: {error}")))?;
    Ok(charts.iter().map(|chart| figure(chart, by)).collect())
}

/// A curve, with the place of its columns for the script to mark one.
fn figure(chart: &Chart, by: &str) -> String {
    format!(
        "<figure data-by=\"{by}\" data-left=\"{}\" data-right=\"{}\" data-top=\"{}\" data-bottom=\"{}\">{}</figure>",
        chart.across.start, chart.across.end, chart.down.start, chart.down.end, chart.svg
    )
}
