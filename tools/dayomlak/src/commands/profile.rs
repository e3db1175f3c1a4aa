//! `dayomlak profile`.

use std::path::Path;

use plotter::curves::{self as drawing, Picture, Steps};
use plotter::{Plot, Step, Words};

use super::{answer, load, status};
use crate::answer::{count, Answer, Word};
use crate::cli::Profile;
use crate::curves::{self, Pace, Paced};
use crate::failure::{self, Failure};
use crate::json::{list, object};
use crate::machine::{End, Machine, WHOLE};
use crate::orders::Order;
use crate::output::{self, Target};
use crate::pictures::{self, Form};
use crate::program::Program;
use crate::sources::Source;
use crate::{held, profiles, refused, results, script};

/// The longest bar of the table.
const BAR: usize = 30;

const NO_RUN: &str = "--order and --budget are of the run that a picture shows beside the curves, or of --firings, and none is \
    asked for\n  steps take no picks and no budget: leave them out, or name a picture by -o X.svg";
const ONE_ONLY: &str =
    "--json and --csv are of one profile\n  ask for each file, each --processors and each --bound by itself";

pub fn profile(args: &Profile) -> Result<u8, Failure> {
    let is_ordered = args.order.is_some() || args.budget.is_some();
    let paces = match &args.processors[..] {
        [] => &[Pace::Ideal],
        paces => paces,
    };
    let is_by_firing = args.firings || !bounds(args).is_empty();
    let is_ideal = paces == [Pace::Ideal] && !is_by_firing;
    match (&args.files[..], &args.output) {
        _ if is_ordered && !is_by_firing && !(is_ideal && args.output.is_some()) => {
            Err(Failure::Wrong(NO_RUN.to_string()))
        }
        ([file], None) if is_ideal => show_table(args, file),
        ([file], Some(path)) if is_ideal => draw(args, file, path),
        _ => Several::new(args, paces)?.show(args),
    }
}

/// The loop bounds that are asked for, 0 for the run without one; none where bounds are not asked for.
fn bounds(args: &Profile) -> Vec<u16> {
    let bounds = args.bound.iter().copied();
    bounds.chain(args.none.then_some(0)).collect()
}

/// Profiles that are shown together, or one of another kind than the engine's own.
struct Several {
    programs: Vec<Program>,
    runs: Vec<Profiled>,
}

/// A run with its name.
struct Profiled {
    name: String,
    bound: u16,
    /// What it hung on, if on held activities.
    held: Option<String>,
    paced: Paced,
}

impl Several {
    fn new(args: &Profile, paces: &[Pace]) -> Result<Several, Failure> {
        let programs = args.files.iter().map(|file| load(file));
        let programs: Vec<Program> = programs.collect::<Result<_, _>>()?;
        let mut runs = Vec::new();
        for program in &programs {
            let machine = Machine::new(program, args.buffers.sizes());
            match (args.firings, &bounds(args)[..]) {
                (true, []) => runs.push(Profiled::by_firing(args, &machine)?),
                (false, []) => {
                    for pace in paces {
                        let name = format!("{}, {}", program.label, pace.step());
                        let paced = curves::paced(&machine, *pace)?;
                        runs.push(Profiled {
                            name,
                            bound: 0,
                            held: None,
                            paced,
                        });
                    }
                }
                (_, bounds) => {
                    for bound in bounds {
                        runs.push(Profiled::by_firing(args, &machine.bounded(*bound))?);
                    }
                }
            }
        }
        Ok(Several { programs, runs })
    }

    fn show(&self, args: &Profile) -> Result<u8, Failure> {
        match (&args.output, &self.runs[..]) {
            (Some(path), _) => self.draw(args, path)?,
            (None, [Profiled { bound, paced, .. }]) if args.form.script.json => {
                let program = &self.programs[0];
                let machine = Machine::new(program, args.buffers.sizes()).bounded(*bound);
                let mut fields = script::lent(&machine);
                fields.push(("answer", script::answer(&paced.end.answer)));
                fields.push(("steps", list(columns(&paced.steps))));
                script::print("profile", program, fields)?;
            }
            (None, [Profiled { paced, .. }]) if args.form.csv => {
                output::print(csv(&paced.steps).as_bytes())?;
            }
            _ if args.form.script.json || args.form.csv => {
                return Err(Failure::Wrong(ONE_ONLY.to_string()));
            }
            _ => output::print(self.tables().as_bytes())?,
        }
        let mut runs = self.runs.iter();
        Ok(match runs.all(|run| run.paced.end.answer.completed()) {
            true => failure::COMPLETED,
            false => failure::NOT_COMPLETED,
        })
    }

    fn tables(&self) -> String {
        let table = |run: &Profiled| format!("{}{}\n", table(&run.paced.steps), run.words());
        let tables = self.runs.iter().map(table);
        tables.collect::<Vec<_>>().join("\n") + self.about_bounds()
    }

    /// What is said where a bound is asked for and steps might be expected.
    fn about_bounds(&self) -> &'static str {
        match self.runs.iter().any(|run| run.bound != 0) {
            true => "tokens by firings: ideal steps take no bound\n",
            false => "",
        }
    }

    fn draw(&self, args: &Profile, path: &Path) -> Result<(), Failure> {
        let form = Form::of(path)?;
        let sources = self.programs.iter().flat_map(|p| p.sources.clone());
        let sources: Vec<Source> = sources
            .chain(args.order.iter().filter_map(Order::source))
            .collect();
        let target = Target::new(path, &sources)?;
        let labels: Vec<&str> = self.programs.iter().map(|p| p.label.as_str()).collect();
        let facts = self.programs.iter().map(|program| {
            let fingerprint = pictures::fingerprint(&program.files);
            let mut fact = format!("{}: graph and inputs {fingerprint}", program.label);
            for bound in bounds(args).into_iter().filter(|bound| *bound != 0) {
                fact += &format!(", with bound {bound} {}", fingerprint.bounded(bound));
            }
            fact
        });
        let mut facts: Vec<String> = facts.collect();
        let names: Vec<String> = self.runs.iter().map(Profiled::words).collect();
        // Of several, each stands beside its colour.
        if let [name] = &names[..] {
            facts.push(name.clone());
        }
        let steps = self.runs.iter().map(|run| run.paced.steps.clone());
        let picture = Picture {
            title: &labels.join(", "),
            facts: &facts,
            runs: &names.iter().cloned().zip(steps).collect::<Vec<_>>(),
            left: &[],
        };
        let svg = drawing::svg(&picture);
        let svg = svg.map_err(|error| Failure::Inconsistent(format!("the picture: {error}")))?;
        target.write(&form.drawn(svg.into_bytes())?)?;
        target.say(&(names.join("\n") + "\n" + self.about_bounds()))
    }
}

impl Profiled {
    /// The run of a machine, whose firings are its columns.
    fn by_firing(args: &Profile, machine: &Machine) -> Result<Profiled, Failure> {
        let order = args.order.clone().unwrap_or(Order::Typed);
        let picks = order.picks(machine)?;
        let mut name = format!("{}, {}", machine.program.label, machine.order(&order));
        if machine.bound == 0 && !bounds(args).is_empty() {
            name += ", no bound";
        }
        let paced = curves::by_firing(machine, &picks, args.budget.unwrap_or(WHOLE))?;
        let held = held::left(machine, &paced.end);
        Ok(Profiled {
            name,
            bound: machine.bound,
            held: held.map(|held| held::words(machine.program, &held)),
            paced,
        })
    }

    /// How it ended, and in how many steps where it has some.
    fn words(&self) -> String {
        let (name, Paced { steps, end }) = (&self.name, &self.paced);
        let (words, counts) = (end.answer.words(), end.answer.counts());
        let whole = steps.firings.len().saturating_sub(1 - steps.first.min(1));
        let most = steps.tokens.iter().max().copied().unwrap_or(0);
        let ended = match steps.firings.is_empty() {
            true => format!("{name}: {words}, {counts}, at most {most} live or deferred"),
            false => format!("{name}: {}, {words}, {counts}", count(whole, "step")),
        };
        match &self.held {
            Some(held) => format!("{ended}; {held}"),
            None => ended,
        }
    }
}

/// The profile alone; no run is made.
fn show_table(args: &Profile, file: &str) -> Result<u8, Failure> {
    let program = load(file)?;
    let machine = Machine::new(&program, args.buffers.sizes());
    let (end, steps) = machine.profile();
    let curves = curves::ideal(&machine, &steps)?;
    if args.form.script.json {
        let mut fields = script::lent(&machine);
        fields.push(("answer", script::answer(&end.answer)));
        fields.push(("steps", list(own_columns(&steps, &curves))));
        script::print("profile", &program, fields)?;
        return Ok(status(&end));
    }
    if args.form.csv {
        output::print(own_csv(&steps, &curves).as_bytes())?;
        return Ok(status(&end));
    }
    let mut text = table(&curves);
    text += &profiles::words(&program, &steps, &end.answer).join("\n");
    text.push('\n');
    if !program.files.picks.is_empty() {
        text += "the picks are not used: an ideal step fires all that is enabled at its start\n";
    }
    if let Word::Refused(_) = end.answer.word {
        text += &answer(&machine, &end, "by ideal steps");
    }
    output::print(text.as_bytes())?;
    Ok(status(&end))
}

/// The engine's own steps, of which the first loads the cells, and how many tokens wait after each.
fn own_columns(steps: &[Step], curves: &Steps) -> Vec<String> {
    let waiting = curves.waiting.iter().skip(1 - curves.first);
    let column = |(step, waiting): (&Step, &u32)| {
        object(&[
            ("firings", step.firings.to_string()),
            ("tokens", step.tokens.to_string()),
            ("waiting", waiting.to_string()),
        ])
    };
    steps.iter().zip(waiting).map(column).collect()
}

fn own_csv(steps: &[Step], curves: &Steps) -> String {
    let waiting = curves.waiting.iter().skip(1 - curves.first);
    let mut text = script::csv(&["step", "firings", "tokens", "waiting"].map(str::to_string));
    for (number, (step, waiting)) in (1..).zip(steps.iter().zip(waiting)) {
        let numbers: [u32; 4] = [number, step.firings.into(), step.tokens.into(), *waiting];
        text += &script::csv(&numbers.map(|number| number.to_string()));
    }
    text
}

/// Every column by its number, loads as number 0.
fn columns(steps: &Steps) -> Vec<String> {
    let rows = rows(steps)
        .into_iter()
        .map(|(number, firings, tokens, waiting)| {
            let firings = firings.map_or("null".to_string(), |firings| firings.to_string());
            object(&[
                ("number", number.to_string()),
                ("firings", firings),
                ("tokens", tokens.to_string()),
                ("waiting", waiting.to_string()),
            ])
        });
    rows.collect()
}

/// Number, firings where columns have several, tokens, tokens that wait.
fn rows(steps: &Steps) -> Vec<(usize, Option<u32>, u32, u32)> {
    let both = steps.tokens.iter().zip(&steps.waiting).enumerate();
    let row = |(at, (tokens, waiting)): (usize, (&u32, &u32))| {
        (
            steps.first + at,
            steps.firings.get(at).copied(),
            *tokens,
            *waiting,
        )
    };
    both.map(row).collect()
}

/// A line for each column, by its number.
fn csv(steps: &Steps) -> String {
    let mut text = script::csv(&["number", "firings", "tokens", "waiting"].map(str::to_string));
    for (number, firings, tokens, waiting) in rows(steps) {
        let firings = firings.map_or(String::new(), |firings| firings.to_string());
        let numbers = [
            number.to_string(),
            firings,
            tokens.to_string(),
            waiting.to_string(),
        ];
        text += &script::csv(&numbers);
    }
    text
}

/// The curves with what a run left, as a picture.
fn draw(args: &Profile, file: &str, path: &Path) -> Result<u8, Failure> {
    let form = Form::of(path)?;
    let program = load(file)?;
    let order = args.order.clone().unwrap_or(Order::Typed);
    let target = Target::new(path, &program.sources_with(&order))?;
    let machine = Machine::new(&program, args.buffers.sizes());
    let plot = profiles::plot(&machine, &order, args.budget.unwrap_or(WHOLE))?;
    let end = End::from(&plot.left);
    let words = words(&machine, &plot, &end);
    let svg = plot.svg(&words, curves::ideal(&machine, &plot.profile.steps)?);
    let svg = svg.map_err(|error| Failure::Inconsistent(format!("the picture: {error}")))?;
    target.write(&form.drawn(svg.into_bytes())?)?;
    let order = format!("{}, run of {}", plot.run.words(), plot.run.date());
    let mut text = answer(&machine, &end, &order);
    for line in plot.asked_for().iter().chain(&words.profile) {
        text += &format!("{line}\n");
    }
    target.say(&text)?;
    Ok(status(&end))
}

/// What is said of a plot, by the names of its program.
fn words(machine: &Machine, plot: &Plot, end: &End) -> Words {
    let program = machine.program;
    let profiled = Answer::of(plot.profile.answer);
    let mut profile = profiles::words(program, &plot.profile.steps, &profiled);
    profile[0].insert_str(0, "profile, which takes no picks and no budget: ");
    Words {
        title: program.label.clone(),
        run: ended(machine, end, &plot.run.words()),
        profile,
        left: results::lines(machine, end),
    }
}

/// How a run ended, with the firing, the file or the array that was refused.
fn ended(machine: &Machine, end: &End, order: &str) -> String {
    let program = machine.program;
    let words = results::headline(machine, end, order);
    let bad_file = || match end.answer.word {
        Word::Refused(7) => refused::bad_store(program),
        Word::Refused(22) => refused::bad_table(program, machine.sizes).map(|(_, why)| why),
        _ => None,
    };
    match (refused::which(program, end), bad_file()) {
        (Some(firing), _) => format!("{words}, in {firing}"),
        (None, Some(why)) => format!("{words}; {why}"),
        (None, None) => words,
    }
}

/// A line for each column, with bars; loads stand before step 1.
fn table(steps: &Steps) -> String {
    if steps.tokens.is_empty() {
        return String::new();
    }
    let most = |values: &[u32]| values.iter().max().copied().unwrap_or(1).max(1);
    let (firings, tokens) = (most(&steps.firings), most(&steps.tokens));
    let bar = |value: u32, most: u32, mark: &str| {
        mark.repeat((value as usize * BAR).div_ceil(most as usize))
    };
    let has_firings = !steps.firings.is_empty();
    let head = match has_firings {
        true => format!("{:>5}  {:>7}  {:BAR$}", "step", "firings", ""),
        false => format!("{:>6}", "firing"),
    };
    let mut text = format!("{head}  {:>6}  {:>7}\n", "tokens", "waiting");
    for (number, fired, left, waiting) in rows(steps) {
        let name = match (number, has_firings) {
            (0, true) => "loads".to_string(),
            _ => number.to_string(),
        };
        let start = match fired {
            Some(fired) => format!("{name:>5}  {fired:>7}  {:BAR$}", bar(fired, firings, "#")),
            None => format!("{name:>6}"),
        };
        let line = format!(
            "{start}  {left:>6}  {waiting:>7}  {}",
            bar(left, tokens, "=")
        );
        text += line.trim_end();
        text.push('\n');
    }
    text
}
