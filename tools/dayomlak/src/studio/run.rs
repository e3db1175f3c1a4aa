//! A text that is checked, and its runs by picks, as JSON for the page.

use asm::Span;
use codespan_reporting::diagnostic::Severity;

use super::wish::{Rest, Wish};
use crate::answer::Word;
use crate::commands;
use crate::commands::compare::Compared;
use crate::diagnostics::Finding;
use crate::failure::Failure;
use crate::json::{list, object, string};
use crate::machine::{Machine, Sizes, WHOLE};
use crate::orders::Order;
use crate::pictures::dot::Drawing;
use crate::program::Program;
use crate::records::Tag;
use crate::report::steps::Steps;
use crate::report::{self, Run, Shown};
use crate::walk::Choice;
use crate::{curves, walk, warnings};
use plotter::Fingerprint;
use ttda::layout::unsigned;
use ttda::widths::PICK;

/// A text without errors.
pub struct Checked {
    /// As the page has it.
    text: String,
    program: Program,
    steps: Steps,
}

impl Checked {
    pub fn new(label: &str, text: &str, sizes: Sizes) -> Result<Checked, Failure> {
        let program = Program::typed(label, text.as_bytes().to_vec())?;
        let steps = Steps::new(&Machine::new(&program, sizes))?;
        Ok(Checked {
            text: text.to_string(),
            program,
            steps,
        })
    }

    pub fn is_of(&self, text: &str) -> bool {
        self.text == text
    }

    pub fn picture(&self) -> Result<String, Failure> {
        report::picture(&Drawing::with_ids(&self.program), &self.program)
    }

    /// The names of what is fired.
    pub fn names(&self, sizes: Sizes, wish: &Wish) -> Result<Vec<String>, Failure> {
        let machine = Machine::new(&self.program, sizes);
        let (picks, budget) = wish.fired(&machine)?;
        let (_, log) = machine.run_logged(&picks, budget);
        Ok(log.iter().map(|tag| self.program.tag(tag)).collect())
    }

    /// A run, with what is found in the text.
    pub fn run(&self, sizes: Sizes, wish: &Wish) -> Result<String, Failure> {
        let machine = Machine::new(&self.program, sizes);
        let (picks, budget) = wish.fired(&machine)?;
        let mut run = Run::by_picks(&machine, picks, budget)?;
        // More may be fired, as far as any run goes.
        (run.order, run.budget) = (wish.words(&machine), WHOLE);
        let mut findings = warnings::of(&self.program);
        findings.extend(commands::refusal(&machine, &run.end, &run.order));
        let typed = self.program.files.picks.chunks_exact(PICK);
        let typed = typed.map(|pick| unsigned(pick, 0..PICK).to_string());
        Ok(object(&[
            ("findings", found(&self.text, &findings)),
            ("typed", list(typed)),
            ("run", self.shown(&run, wish)?),
        ]))
    }

    fn shown(&self, run: &Run, wish: &Wish) -> Result<String, Failure> {
        let drawing = Drawing::with_ids(&self.program);
        let shown = Shown::of(run, &drawing, &self.steps)?;
        let picks = picks(run)?;
        let is_open = run.end.answer.word == Word::Spent;
        let answer = match is_open {
            true => format!("after {}", run.end.answer.counts()),
            false => shown.answer,
        };
        // What changes with every firing has no date.
        let is_lasting = |(name, _): &&(&str, String)| !["Date", "Made by"].contains(name);
        let facts = shown.facts.iter().filter(is_lasting);
        let facts = facts.map(|(name, words)| list([string(name), string(words)]));
        let verdict = match wish.rest {
            Rest::Random(seed) => verdict(run, &picks, seed)?,
            _ => String::new(),
        };
        Ok(object(&[
            ("kind", string(if is_open { "open" } else { &shown.kind })),
            ("answer", string(&answer)),
            ("facts", list(facts)),
            ("refusal", string(&shown.refusal.unwrap_or_default())),
            ("profile", string(&shown.profile)),
            ("curves", string(&self.curves(run)?)),
            ("left", string(&shown.left)),
            ("listing", string(&shown.listing)),
            (
                "drawing",
                string(&Fingerprint::of(drawing.wide_text().as_bytes()).digits()),
            ),
            ("picks", list(picks.iter().map(u16::to_string))),
            ("verdict", string(&verdict)),
            ("data", shown.data),
        ]))
    }

    /// The curves of this run, which grow with it, and those of ideal steps.
    fn curves(&self, run: &Run) -> Result<String, Failure> {
        let own = match run.end.answer.refused_at_once() {
            true => String::new(),
            false => report::curves(&curves::along(run.machine, &run.log)?, "firing")?,
        };
        Ok(own + &report::curves(&self.steps.curves, "step")?)
    }
}

/// What is wrong with a text that has no runs.
pub fn faulty(failure: Failure) -> Result<String, Failure> {
    let (text, findings) = match failure {
        Failure::Faulty(faults) => (faults.text, faults.findings),
        Failure::Wrong(words) => (String::new(), vec![Finding::error(words)]),
        Failure::SavedState(_) => (String::new(), vec![Finding::error("this is a saved state")]),
        failure => return Err(failure),
    };
    Ok(object(&[
        ("findings", found(&text, &findings)),
        ("run", "null".to_string()),
    ]))
}

/// The number of each activity among the enabled when it was fired, or tried.
fn picks(run: &Run) -> Result<Vec<u16>, Failure> {
    if run.end.answer.refused_at_once() {
        return Ok(Vec::new());
    }
    let choices = walk::choices(run.machine, &run.log)?;
    let refused = match run.end.answer.word {
        Word::Refused(_) => run.end.tokens().get(run.end.answer.place).map(|t| t.tag),
        _ => None,
    };
    let tags = run.log.iter().copied().chain(refused);
    let pick =
        |(tag, choice): (Tag, &Choice)| choice.enabled.iter().position(|known| *known == tag);
    let picks = tags
        .zip(&choices)
        .map(pick)
        .map(|pick| pick.map(|pick| pick as u16));
    picks.collect::<Option<_>>().ok_or_else(|| {
        Failure::Inconsistent("what was fired was not among the enabled".to_string())
    })
}

/// What another order came to, beside oldest first.
fn verdict(run: &Run, picks: &[u16], seed: u64) -> Result<String, Failure> {
    let machine = run.machine;
    let orders = [Order::Oldest, Order::Picks(picks.to_vec())];
    let compared = Compared::new(machine, &orders, None)?;
    let verdict = compared.verdict();
    Ok(match &compared.kinds[..] {
        [both] => format!(
            "At random (seed {seed}) and oldest first alike: {}; {verdict}.",
            both.words
        ),
        [oldest, .., other] => format!(
            "At random (seed {seed}): {}; oldest first: {}; {verdict}.",
            other.words, oldest.words
        ),
        [] => String::new(),
    })
}

fn found(text: &str, findings: &[Finding]) -> String {
    list(findings.iter().map(|finding| {
        let severity = match finding.severity {
            Severity::Error => "error",
            _ => "warning",
        };
        object(&[
            ("severity", string(severity)),
            ("message", string(&finding.title)),
            ("at", place(text, &finding.at)),
            ("also", place(text, &finding.also)),
            ("notes", list(finding.notes.iter().map(|note| string(note)))),
        ])
    }))
}

/// A part of a text and what is said of it. JavaScript counts in units of UTF-16.
fn place(text: &str, marked: &Option<(Span, String)>) -> String {
    let Some((span, words)) = marked else {
        return "null".to_string();
    };
    let units = |to: usize| text.get(..to).unwrap_or(text).encode_utf16().count();
    object(&[
        ("from", units(span.start).to_string()),
        ("to", units(span.end).to_string()),
        ("says", string(words)),
    ])
}

#[cfg(test)]
mod tests {
    use super::*;

    /// Places are those of JavaScript, in which some letters count twice.
    #[test]
    fn places_in_units() {
        let text = "# \u{1f600}\nx: D -> y\n";
        let json = faulty(Checked::new("x", text, Sizes::default()).err().unwrap()).unwrap();
        assert!(json.contains("\"from\":8,\"to\":9"), "{json}");
        assert!(json.ends_with("\"run\":null}"), "{json}");
    }

    fn run(text: &str, wish: &str) -> String {
        let checked = Checked::new("x", text, Sizes::default()).unwrap();
        checked
            .run(Sizes::default(), &wish.parse().unwrap())
            .unwrap()
    }

    const TEXT: &str =
        "a: COPY -> s.0 s.1\nb: SINK\ns: ADD -> o\no: OUT\ninput a = 1\ninput b = 2\n";

    #[test]
    fn picks_are_numbers_among_the_enabled() {
        let json = run(TEXT, "7 stop");
        assert!(json.contains("\"picks\":[1]") && json.contains("\"kind\":\"open\""));
        let json = run(TEXT, "- oldest");
        assert!(json.contains("\"picks\":[0,0,0]"));
        assert!(json.contains("\"answer\":\"completed: 3 firings, 5 tokens, oldest first\""));
        let ordered = TEXT.to_string() + "order b[0] a[0]\n";
        let json = run(&ordered, "typed stop");
        assert!(json.contains("\"typed\":[1,0]") && json.contains("\"picks\":[1,0]"));
    }

    #[test]
    fn another_order_and_a_refused_one() {
        let json = run(TEXT, "1 random:3");
        let words = "At random (seed 3) and oldest first alike: completed: 3 firings, 5 tokens; \
            all orders leave the same listing, equal in every byte.";
        assert!(json.contains(words));
        let json = run(
            "a: DIV 0 -> b\nb: OUT\nc: SINK\ninput a = 1\ninput c = 1\n",
            "1,0 stop",
        );
        assert!(json.contains("\"picks\":[1,0]") && json.contains("\"kind\":\"refused\""));
        assert!(json.contains("refused by 12"));
        let names = Checked::new("x", TEXT, Sizes::default()).unwrap();
        let wish = "1 oldest".parse().unwrap();
        assert_eq!(
            names.names(Sizes::default(), &wish).unwrap(),
            ["b[0]", "a[0]", "s[0]"]
        );
    }
}
