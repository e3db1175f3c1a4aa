//! `dayomlak compare`.

use std::time::{Duration, Instant};

use indicatif::{ProgressBar, ProgressStyle};

use super::{ended, load, status, summary};
use crate::answer::Word;
use crate::cli::Compare;
use crate::failure::{self, Failure};
use crate::json::{list, object, string};
use crate::machine::{End, Machine, WHOLE};
use crate::orders::Order;
use crate::program::Program;
use crate::script::{self, Fields};
use crate::{held, output, refused};

const IMPOSSIBLE: &str =
    "the orders disagree, which is proved impossible: please report this graph";
/// Progress is shown once a comparison has taken so long.
const LONG: Duration = Duration::from_millis(500);

/// Orders that were answered alike.
pub struct Kind {
    pub end: End,
    listing: Vec<u8>,
    /// What they were answered, without the counts of a run that was refused or hung on held activities: these differ from
    /// order to order.
    pub words: String,
    /// Whether they hung because the bound holds activities back.
    is_held: bool,
    pub orders: Vec<Order>,
}

impl Kind {
    fn of(machine: &Machine, order: &Order, end: End) -> Kind {
        let is_held = held::left(machine, &end).is_some();
        Kind {
            listing: end.listing(),
            words: words(machine.program, &end, is_held),
            is_held,
            orders: vec![order.clone()],
            end,
        }
    }

    /// Whether it is the end of a run that nothing is held of, so that every order without a bound has it.
    fn has_ended(&self) -> bool {
        self.end.answer.ended() && !self.is_held
    }

    fn is_refused(&self) -> bool {
        matches!(self.end.answer.word, Word::Refused(_))
    }

    /// Runs that end are alike if all they leave is, in every byte. Refused ones are if the same instruction is refused by the
    /// same number, and those that hang on held activities are.
    fn is_like(&self, other: &Kind) -> bool {
        match self.has_ended() && other.has_ended() {
            true => self.leaves_the_same(other),
            false => self.words == other.words,
        }
    }

    fn leaves_the_same(&self, other: &Kind) -> bool {
        let (one, two) = (&self.end, &other.end);
        one.answer == two.answer && one.bytes().1 == two.bytes().1 && self.listing == other.listing
    }
}

pub fn compare(args: &Compare) -> Result<u8, Failure> {
    let program = load(&args.file.file)?;
    let machine = Machine::new(&program, args.buffers.sizes());
    let machine = machine.bounded(args.bounding.or_none());
    let left_out = left_out(&machine);
    let has_picks = !program.files.picks.is_empty() && left_out.is_none();
    let compared = Compared::new(&machine, &orders(args, has_picks), left_out)?;
    let (end, first) = compared.first(&machine);
    if args.script.json {
        let mut fields = script::lent(&machine);
        fields.extend(compared.fields());
        fields.extend(ended(&machine, end, &first));
        script::print("compare", &program, fields)?;
        return Ok(compared.status());
    }
    let text = compared.text() + &summary(&machine, end, &first);
    output::print(text.as_bytes())?;
    Ok(compared.status())
}

/// Orders of a graph, by what they were answered.
pub struct Compared {
    pub kinds: Vec<Kind>,
    /// How the graph ends without a bound, where the orders have one. One order tells it of all.
    unbounded: Option<Kind>,
    /// Why the picks of the file are no order.
    left_out: Option<String>,
}

impl Compared {
    pub fn new(
        machine: &Machine,
        orders: &[Order],
        left_out: Option<String>,
    ) -> Result<Compared, Failure> {
        let free = machine.bounded(0);
        let unbounded = || Kind::of(&free, &Order::Oldest, free.run(&[], WHOLE));
        Ok(Compared {
            kinds: kinds(machine, orders)?,
            unbounded: (machine.bound != 0).then(unbounded),
            left_out,
        })
    }

    /// What the first order left, and that order in words.
    pub fn first(&self, machine: &Machine) -> (&End, String) {
        let kind = &self.kinds[0];
        (&kind.end, machine.order(&kind.orders[0]))
    }

    /// Whether all that is promised of the answers holds: without a bound all end, and alike, or all are refused (demand 3);
    /// with one, those that end with nothing held do so as without it, and one is refused only where it is refused without.
    fn is_as_promised(&self) -> bool {
        let Some(unbounded) = &self.unbounded else {
            return self.are_alike();
        };
        self.kinds.iter().all(|kind| match kind.end.answer.word {
            Word::Refused(_) => unbounded.is_refused(),
            Word::Completed | Word::Hung => kind.is_held || kind.leaves_the_same(unbounded),
            Word::Spent => false,
        })
    }

    /// Whether there is one answer, or all are refused.
    fn are_alike(&self) -> bool {
        self.kinds.len() == 1 || self.kinds.iter().all(Kind::is_refused)
    }

    fn agree(&self) -> bool {
        self.are_alike() && self.is_as_promised() && self.left_out.is_none()
    }

    /// The exit status: that of the first order, if all agree.
    pub fn status(&self) -> u8 {
        match self.agree() {
            true => status(&self.kinds[0].end),
            false => failure::NOT_COMPLETED,
        }
    }

    /// The orders by what they were answered, for scripts.
    pub fn fields(&self) -> Fields {
        let kind = |kind: &Kind| {
            let orders = kind.orders.iter().map(|order| string(&order.to_string()));
            object(&[
                ("orders", list(orders)),
                ("answer", script::answer(&kind.end.answer)),
                ("hung_on_held", script::flag(kind.is_held)),
            ])
        };
        let null = || "null".to_string();
        let unbounded = self.unbounded.as_ref();
        let unbounded = unbounded.map_or_else(null, |kind| script::answer(&kind.end.answer));
        let left_out = self.left_out.as_ref();
        vec![
            ("agree", script::flag(self.agree())),
            ("left_out", left_out.map_or_else(null, |why| string(why))),
            ("kinds", list(self.kinds.iter().map(kind))),
            ("unbounded", unbounded),
        ]
    }

    /// A line for each answer, and what follows from them.
    pub fn text(&self) -> String {
        let lines = self.kinds.iter().map(|kind| line(kind) + "\n");
        let mut text: String = lines.collect();
        if let Some(words) = &self.left_out {
            text += &format!("{:>5} order (typed) is left out: {words}\n", 1);
        }
        if let Some(unbounded) = &self.unbounded {
            text += &format!("      every order without a bound: {}\n", unbounded.words);
        }
        text + &format!("{}\n\n", self.verdict())
    }

    pub fn verdict(&self) -> &'static str {
        let kind = &self.kinds[0];
        match (self.are_alike(), kind.is_refused()) {
            _ if !self.is_as_promised() => IMPOSSIBLE,
            _ if self.unbounded.is_some() => self.bounded_verdict(),
            (_, true) => "every order is refused; by what and where may depend on the order",
            _ if self.left_out.is_some() => {
                "all other orders leave the same listing, equal in every byte"
            }
            _ => "all orders leave the same listing, equal in every byte",
        }
    }

    /// What is promised of orders under a bound, and what is not.
    fn bounded_verdict(&self) -> &'static str {
        match &self.kinds[..] {
            [kind] if kind.has_ended() => {
                "all these leave the same listing, equal in every byte, as every order without a bound does\n\
                 that another order under this bound does not hang on held activities is not promised"
            }
            [kind] if kind.is_held => {
                "all these hang on held activities, of which nothing is promised: what they leave may differ, and another order \
                 may complete"
            }
            _ if self.kinds.iter().all(Kind::is_refused) => {
                "every order is refused, without a bound too; by what and where may depend on the order"
            }
            _ => {
                "orders under a bound need not agree: one that completes, or hangs with nothing held, ends as every order without a \
                 bound does, equal in every byte; of a hang on held activities nothing is promised"
            }
        }
    }
}

/// Why the picks of the file are no order to compare: 7 is not of the graph, and says nothing of other orders.
fn left_out(machine: &Machine) -> Option<String> {
    let why = refused::bad_picks(machine.program)?;
    let answer = machine.run(&machine.program.files.picks, WHOLE).answer;
    (answer.word == Word::Refused(7)).then(|| format!("{}: {why}", answer.words()))
}

/// Oldest first, then those that are given, or newest first and the picks of the file, then random ones.
fn orders(args: &Compare, has_picks: bool) -> Vec<Order> {
    let usual = [Order::Newest, Order::Typed];
    let (given, random) = match args.given.is_empty() {
        true => (&usual[..], 100),
        false => (&args.given[..], 0),
    };
    let given = given.iter().cloned();
    let given = given.filter(|order| has_picks || *order != Order::Typed);
    let random = 1..=u64::from(args.orders.unwrap_or(random));
    let mut orders = vec![Order::Oldest];
    orders.extend(given.chain(random.map(Order::Random)));
    orders
}

/// Runs all orders and puts those that were answered alike together.
fn kinds(machine: &Machine, orders: &[Order]) -> Result<Vec<Kind>, Failure> {
    let started = Instant::now();
    let bar = ProgressBar::hidden();
    bar.set_length(orders.len() as u64);
    bar.set_style(
        ProgressStyle::with_template("{bar:40} {pos} of {len} orders")
            .expect("the template is right"),
    );
    let mut kinds: Vec<Kind> = Vec::new();
    for order in orders {
        let end = machine.run(&order.picks(machine)?, WHOLE);
        held::check(machine, &end)?;
        let new = Kind::of(machine, order, end);
        match kinds.iter_mut().find(|kind| kind.is_like(&new)) {
            Some(kind) => kind.orders.push(order.clone()),
            None => kinds.push(new),
        }
        if bar.is_hidden() && started.elapsed() > LONG {
            bar.set_draw_target(indicatif::ProgressDrawTarget::stderr());
        }
        bar.inc(1);
    }
    bar.finish_and_clear();
    Ok(kinds)
}

fn words(program: &Program, end: &End, is_held: bool) -> String {
    let answer = &end.answer;
    if is_held {
        return "hung on held activities".to_string();
    }
    let place = match answer.word {
        Word::Refused(_) if !answer.refused_at_once() => end.tokens().get(answer.place).copied(),
        _ => None,
    };
    match (answer.word, place) {
        (Word::Refused(_), Some(token)) => {
            format!(
                "{}, at `{}`",
                answer.words(),
                program.name(token.tag.instruction)
            )
        }
        (Word::Refused(_), None) => answer.words(),
        _ => format!("{}: {}", answer.words(), answer.counts()),
    }
}

/// How many orders, which, and what they were answered.
fn line(kind: &Kind) -> String {
    let shown: Vec<String> = kind.orders.iter().take(3).map(Order::to_string).collect();
    let more = if kind.orders.len() > shown.len() {
        ", ..."
    } else {
        ""
    };
    let s = if kind.orders.len() == 1 { "" } else { "s" };
    format!(
        "{:>5} order{s} ({}{more}): {}",
        kind.orders.len(),
        shown.join(", "),
        kind.words
    )
}
