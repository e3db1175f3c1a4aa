//! `dayomlak diff`.

use super::compare::Compared;
use super::{ended, load, summary};
use crate::answer::Word;
use crate::cli::Diff;
use crate::failure::Failure;
use crate::json::{list, maybe, string};
use crate::machine::{Machine, WHOLE};
use crate::orders::Order;
use crate::output;
use crate::records::Tag;
use crate::script::{self, Fields};
use crate::walk::{self, Walk};

pub fn diff(args: &Diff) -> Result<u8, Failure> {
    let program = load(&args.file.file)?;
    let machine = Machine::new(&program, args.buffers.sizes());
    let machine = machine.bounded(args.bounding.or_none());
    let orders = [args.one.clone(), args.other.clone()];
    let compared = Compared::new(&machine, &orders, None)?;
    let parting = Parting::of(&machine, &orders)?;
    let (end, first) = compared.first(&machine);
    if args.script.json {
        let mut fields = script::lent(&machine);
        fields.extend(parting.fields());
        fields.extend(compared.fields());
        fields.extend(ended(&machine, end, &first));
        script::print("diff", &program, fields)?;
        return Ok(compared.status());
    }
    let text = parting.words(&orders) + &compared.text() + &summary(&machine, end, &first);
    output::print(text.as_bytes())?;
    Ok(compared.status())
}

/// Where two runs part.
struct Parting {
    /// How many firings they have in common.
    common: usize,
    /// What each tries to fire next, by name; the refused firing of a run is one of them.
    next: [Option<String>; 2],
    /// What is enabled there.
    enabled: Vec<String>,
}

impl Parting {
    fn of(machine: &Machine, orders: &[Order; 2]) -> Result<Parting, Failure> {
        let tried = [tried(machine, &orders[0])?, tried(machine, &orders[1])?];
        let both = tried[0].iter().zip(&tried[1]);
        let mut common = both.take_while(|(one, other)| one == other).count();
        let mut walk = Walk::new(machine)?;
        for (firing, tag) in tried[0][..common].iter().enumerate() {
            walk.fire_tag(tag)?;
            if let Word::Refused(_) = walk.end.answer.word {
                common = firing;
            }
        }
        let name = |tried: &Vec<Tag>| tried.get(common).map(|tag| machine.program.tag(tag));
        Ok(Parting {
            common,
            next: [name(&tried[0]), name(&tried[1])],
            enabled: walk.names(),
        })
    }

    fn is_there(&self) -> bool {
        self.next[0] != self.next[1]
    }

    fn words(&self, orders: &[Order; 2]) -> String {
        let firing = self.common + 1;
        let [one, other] = &self.next;
        match self.is_there() {
            false => "they fire the same activities in the same order\n".to_string(),
            true => {
                let fires = |order: &Order, name: &Option<String>| match name {
                    Some(name) => format!("{order} fires `{name}`"),
                    None => format!("{order} fires nothing"),
                };
                format!(
                    "they part at firing {firing}: {}, {}\n  enabled there: {}\n",
                    fires(&orders[0], one),
                    fires(&orders[1], other),
                    walk::numbered(&self.enabled)
                )
            }
        }
    }

    fn fields(&self) -> Fields {
        let firing = self.is_there().then_some(self.common + 1);
        let name = |name: &Option<String>| match (name, firing) {
            (Some(name), Some(_)) => string(name),
            _ => "null".to_string(),
        };
        let enabled = self.enabled.iter().filter(|_| firing.is_some());
        vec![
            ("parts_at", maybe(firing)),
            ("fires", list(self.next.iter().map(name))),
            ("enabled", list(enabled.map(|name| string(name)))),
        ]
    }
}

/// The activities that a run fires, the one that is refused included.
fn tried(machine: &Machine, order: &Order) -> Result<Vec<Tag>, Failure> {
    let (end, mut log) = machine.run_logged(&order.picks(machine)?, WHOLE);
    if let (Word::Refused(_), false) = (end.answer.word, end.answer.refused_at_once()) {
        log.extend(end.tokens().get(end.answer.place).map(|token| token.tag));
    }
    Ok(log)
}
