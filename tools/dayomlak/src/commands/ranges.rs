//! `dayomlak ranges`.

use super::{ended, status, summary};
use crate::answer::count;
use crate::cli::Ranges;
use crate::failure::Failure;
use crate::json::{list, object, string};
use crate::machine::{End, Machine};
use crate::output::{self, Target};
use crate::pictures::Form;
use crate::program::Program;
use crate::ranges::sample::{self, Row, Sampled, Wish};
use crate::ranges::strip::Picture;
use crate::ranges::undecided;
use crate::{diagnostics, held, script, warnings};

const NOT_SAMPLED: &str =
    "no samples are taken: something is promised of a run of ranges that completes or hangs, and of no other\n";
const TWO_OUTPUTS: &str =
    "-o - goes to standard output, and so does --json\n  name a file for the picture";

pub fn ranges(args: &Ranges) -> Result<u8, Failure> {
    let program = Program::load_ranges(&args.file.file)?;
    diagnostics::complain(&program.text_label, &program.text, &warnings::of(&program));
    let target = picture_target(args, &program)?;
    let machine = Machine::new(&program, args.buffers.sizes()).ranged(true);
    let done = Done::of(args, machine.bounded(args.firing.bounding.or_none()))?;
    if let (Some((form, target)), Some(sampled)) = (&target, &done.sampled) {
        target.write(&form.drawn(done.picture(sampled).into_bytes())?)?;
    }
    match target {
        _ if args.script.json => done.print(args.firing.budget)?,
        Some((_, target)) => target.say(&done.words(args))?,
        None => output::print(done.words(args).as_bytes())?,
    }
    Ok(status(&done.end))
}

/// Where the picture goes, and in which form. Standard output has room for one thing.
fn picture_target(args: &Ranges, program: &Program) -> Result<Option<(Form, Target)>, Failure> {
    let Some(path) = &args.output else {
        return Ok(None);
    };
    let form = Form::of(path)?;
    match Target::new(path, &program.sources_with(&args.firing.order()))? {
        Target::Standard if args.script.json => Err(Failure::Wrong(TWO_OUTPUTS.to_string())),
        target => Ok(Some((form, target))),
    }
}

/// A run of ranges, and samples of it where they are asked for.
struct Done<'p> {
    machine: Machine<'p>,
    end: End,
    order: String,
    sampled: Option<Sampled>,
}

impl<'p> Done<'p> {
    /// Runs, and takes samples where they are asked for and something is promised.
    fn of(args: &Ranges, machine: Machine<'p>) -> Result<Done<'p>, Failure> {
        let (order, budget) = (args.firing.order(), args.firing.budget);
        let picks = order.picks(&machine)?;
        let end = machine.run(&picks, budget);
        held::check(&machine, &end)?;
        let seed = args.sampling.seed;
        let wish = args.sampling.sample.map(|count| Wish { count, seed });
        let wish = wish.filter(|_| end.answer.ended());
        let sampled = wish.map(|wish| sample::of(&machine, (&picks, budget), &end, wish));
        Ok(Done {
            order: machine.order(&order),
            sampled: sampled.transpose()?,
            machine,
            end,
        })
    }

    /// The answer, what is left, and what the samples were.
    fn words(&self, args: &Ranges) -> String {
        let text = summary(&self.machine, &self.end, &self.order);
        match (&self.sampled, args.sampling.sample) {
            (Some(sampled), _) => text + &self.samples(sampled),
            (None, Some(_)) => text + NOT_SAMPLED,
            (None, None) => text,
        }
    }

    fn picture(&self, sampled: &Sampled) -> String {
        let picture = Picture {
            machine: &self.machine,
            end: &self.end,
            order: &self.order,
            date: plotter::date(plotter::now()),
            sampled,
        };
        picture.svg()
    }

    /// That all samples are as promised, and how far they spread.
    fn samples(&self, sampled: &Sampled) -> String {
        let answer = &self.end.answer;
        let mut text = format!(
            "{}: each {} after {}, with every value in its range\n",
            sampled.wish.words(),
            answer.words(),
            count(answer.firings, "firing")
        );
        for row in &sampled.left {
            let (name, spread, promised) = (&row.name, row.spread(), row.promised);
            text += &format!("  {name}: samples {spread} of {promised}\n");
        }
        text
    }

    /// For scripts.
    fn print(&self, budget: u16) -> Result<(), Failure> {
        let (machine, program) = (&self.machine, self.machine.program);
        let mut fields = script::lent(machine);
        fields.push(("budget", budget.to_string()));
        fields.extend(ended(machine, &self.end, &self.order));
        let undecided = undecided::json(program, &self.end);
        fields.push(("undecided", undecided.unwrap_or("null".to_string())));
        let samples = self.sampled.as_ref().map(samples_json);
        fields.push(("samples", samples.unwrap_or("null".to_string())));
        script::print("ranges", program, fields)
    }
}

fn samples_json(sampled: &Sampled) -> String {
    let row = |row: &Row| {
        let spread = row.spread();
        object(&[
            ("name", string(&row.name)),
            ("low", row.promised.low.to_string()),
            ("high", row.promised.high.to_string()),
            ("least", spread.low.to_string()),
            ("most", spread.high.to_string()),
        ])
    };
    object(&[
        ("count", sampled.wish.count.to_string()),
        ("seed", sampled.wish.seed.to_string()),
        ("inputs", list(sampled.inputs.iter().map(row))),
        ("left", list(sampled.left.iter().map(row))),
    ])
}
