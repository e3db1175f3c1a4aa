//! `dayomlak run` and `dayomlak carry-on`.

use std::path::Path;

use super::{ended, status, summary};
use crate::beginning::Beginning;
use crate::cli::{CarryOn, Run};
use crate::failure::Failure;
use crate::held;
use crate::machine::End;
use crate::orders::Order;
use crate::output::{self, Target};
use crate::script::{self, Fields};

pub fn run(args: &Run) -> Result<u8, Failure> {
    let beginning = Beginning::load_graph(&args.file.file, &args.buffers)?;
    let beginning = beginning.bounded(args.firing.bounding.bound);
    let asked = Asked {
        command: "run",
        order: args.firing.order(),
        budget: args.firing.budget,
        save: args.save.as_deref(),
        form: Form::of(args.script.json, args.listing),
    };
    asked.of(&beginning)
}

pub fn carry_on(args: &CarryOn) -> Result<u8, Failure> {
    let beginning = Beginning::load_saved(&args.file)?.bounded(args.bound);
    let asked = Asked {
        command: "carry-on",
        order: args.order.clone(),
        budget: args.budget,
        save: args.save.as_deref(),
        form: Form::of(args.script.json, args.listing),
    };
    asked.of(&beginning)
}

/// How a command prints what it says.
#[derive(Clone, Copy, PartialEq, Eq)]
enum Form {
    Words,
    Json,
    Listing,
}

impl Form {
    fn of(json: bool, listing: bool) -> Form {
        match (json, listing) {
            (true, _) => Form::Json,
            (_, true) => Form::Listing,
            _ => Form::Words,
        }
    }
}

/// What is asked for: a run, and what is made of it.
struct Asked<'a> {
    command: &'static str,
    order: Order,
    budget: u16,
    save: Option<&'a Path>,
    form: Form,
}

impl Asked<'_> {
    /// Runs from a beginning, saves what the run left if that is asked for, and prints its answer.
    fn of(&self, beginning: &Beginning) -> Result<u8, Failure> {
        let target = self.target(beginning)?;
        let machine = beginning.machine();
        let end = machine.run(&self.order.picks(&machine)?, self.budget);
        held::check(&machine, &end)?;
        let order = beginning.order(&self.order, &end);
        let begun = !end.answer.refused_at_once();
        if let (Some(target), true) = (&target, begun) {
            target.write(&beginning.save(&order, &end).encode())?;
        }
        let mut text = match self.form {
            Form::Json => {
                let fields = self.fields(beginning, &end, &order);
                script::print(self.command, &beginning.program, fields)?;
                return Ok(status(&end));
            }
            Form::Listing => {
                output::print(&end.text()?)?;
                return Ok(status(&end));
            }
            Form::Words => summary(&machine, &end, &order),
        };
        if target.is_some() && !begun {
            text += "nothing is saved: the run did not begin\n";
        }
        match target {
            Some(target) => target.say(&text)?,
            None => output::print(text.as_bytes())?,
        }
        Ok(status(&end))
    }

    /// Where the state is saved. Standard output has room for one thing.
    fn target(&self, beginning: &Beginning) -> Result<Option<Target>, Failure> {
        let Some(path) = self.save else {
            return Ok(None);
        };
        match Target::new(path, &beginning.program.sources_with(&self.order))? {
            Target::Standard if self.form != Form::Words => {
                let text = "--save - goes to standard output, and so do --json and --listing";
                Err(Failure::Wrong(format!("{text}\n  name a file")))
            }
            target => Ok(Some(target)),
        }
    }

    fn fields(&self, beginning: &Beginning, end: &End, order: &str) -> Fields {
        let machine = beginning.machine();
        let mut fields = script::lent(&machine);
        fields.push(("budget", self.budget.to_string()));
        fields.extend(script::from(&machine));
        fields.extend(ended(&machine, end, order));
        fields
    }
}
