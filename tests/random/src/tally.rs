//! How often each answer, refusal and operation came up.

use layout::fields::token;
use layout::widths::{MOST_LEVELS, TOKEN};
use layout::{code_of, path, LEAVE, OUT};
use second::Outcome;

use crate::case::{Call, Case, Left};
use crate::{
    arrays, bounding, bounds, capacities, conversions, expressions, logs, meetings, profiles,
    ranges, saved, serves,
};

const NAMES: [(u8, &str); 27] = [
    (1, "COPY"),
    (2, "SINK"),
    (3, "OUT"),
    (4, "CONST"),
    (5, "SWITCH"),
    (6, "GATE"),
    (7, "NEXT"),
    (8, "ENTER"),
    (9, "LEAVE"),
    (10, "FETCH"),
    (11, "STORE"),
    (16, "ADD"),
    (17, "SUB"),
    (18, "MUL"),
    (19, "DIV"),
    (20, "REM"),
    (21, "LT"),
    (22, "LE"),
    (23, "EQ"),
    (32, "ADD constant"),
    (33, "SUB constant"),
    (34, "MUL constant"),
    (35, "DIV constant"),
    (36, "REM constant"),
    (37, "LT constant"),
    (38, "LE constant"),
    (39, "EQ constant"),
];

const REFUSALS: [(usize, &str); 16] = [
    (1, "graph length"),
    (2, "unknown operation"),
    (3, "fan-out"),
    (4, "bad arc"),
    (5, "bad site"),
    (6, "bad input"),
    (7, "bad store"),
    (8, "ledger full"),
    (9, "second token"),
    (10, "no such cell"),
    (11, "second write"),
    (12, "out of range"),
    (13, "iteration"),
    (14, "too deep"),
    (17, "no return"),
    (22, "bad array"),
];

pub struct Tally {
    completed: u64,
    hung: u64,
    spent: u64,
    refused: u64,
    refusals: [u64; 23],
    refused_inputs: [u64; 23],
    fired: [u64; 256],
    /// Pairs of orders that hang with ledgers that differ: with an operand that waits
    /// for its partner, and with a deferred token.
    hung_waiting: u64,
    hung_deferred: u64,
    /// Tokens that came to an OUT; it never fires.
    results: u64,
    /// Tokens at a LEAVE under path 0, which does not fire either: those that are
    /// results, and those still deferred.
    root_leaves: u64,
    root_leaves_deferred: u64,
    deferred: u64,
    /// Tokens by the levels of their paths.
    levels: [u64; MOST_LEVELS + 1],
    /// Runs refused by 9 where the token that has the port is deferred.
    met_deferred: u64,
    largest: usize,
    arrays: Named,
    profiles: Named,
    logged: Named,
    replays: Named,
    bounds: Named,
    capacities: Named,
    conversions: Named,
    expressions: Named,
    saved: Named,
    requests: Named,
    bounded: Named,
    ranges: Named,
}

impl Tally {
    pub fn new() -> Tally {
        Tally {
            completed: 0,
            hung: 0,
            spent: 0,
            refused: 0,
            refusals: [0; 23],
            refused_inputs: [0; 23],
            fired: [0; 256],
            hung_waiting: 0,
            hung_deferred: 0,
            results: 0,
            root_leaves: 0,
            root_leaves_deferred: 0,
            deferred: 0,
            levels: [0; MOST_LEVELS + 1],
            met_deferred: 0,
            largest: 0,
            arrays: Named::new(&arrays::NAMES),
            profiles: Named::new(&profiles::NAMES),
            logged: Named::new(&logs::RUN_NAMES),
            replays: Named::new(&logs::REPLAY_NAMES),
            bounds: Named::new(&bounds::NAMES),
            capacities: Named::new(&capacities::NAMES),
            conversions: Named::new(&conversions::NAMES),
            expressions: Named::new(&expressions::NAMES),
            saved: Named::new(&saved::NAMES),
            requests: Named::new(&serves::NAMES),
            bounded: Named::new(&bounding::NAMES),
            ranges: Named::new(&ranges::NAMES),
        }
    }

    pub fn count(&mut self, case: &Case, left: &Left) {
        self.arrays.count(arrays::names(case, left));
        match &case.call {
            Call::Run => self.count_run(case, left),
            Call::Logged(_) => {
                self.count_run(case, left);
                self.logged.count(logs::run_names(case, left));
            }
            Call::Profile(_) => self.profiles.count(profiles::names(case, left)),
            Call::Replay(log) => self.replays.count(logs::replay_names(case, log, left)),
            Call::CarryOn(_) => {}
        }
    }

    pub fn count_bounds(&mut self, names: Vec<&'static str>) {
        self.bounds.count(names);
    }

    pub fn count_capacity(&mut self, name: &'static str) {
        self.capacities.count(vec![name]);
    }

    pub fn count_conversion(&mut self, name: &'static str) {
        self.conversions.count(vec![name]);
    }

    pub fn count_saved(&mut self, names: Vec<&'static str>) {
        self.saved.count(names);
    }

    pub fn count_request(&mut self, name: &'static str) {
        self.requests.count(vec![name]);
    }

    pub fn count_bounded(&mut self, names: Vec<&'static str>) {
        self.bounded.count(names);
    }

    pub fn count_ranges(&mut self, names: Vec<&'static str>) {
        self.ranges.count(names);
    }

    pub fn count_expression(&mut self, names: Vec<&'static str>) {
        self.expressions.count(names);
    }

    fn count_run(&mut self, case: &Case, left: &Left) {
        match left.answer.outcome {
            Outcome::Completed => self.completed += 1,
            Outcome::Hung => self.hung += 1,
            Outcome::Spent => self.spent += 1,
            Outcome::Refused(refusal) => {
                self.refused += 1;
                self.refusals[usize::from(refusal.number)] += 1;
                if left.answer.refused_at_once() {
                    self.refused_inputs[usize::from(refusal.number)] += 1;
                }
            }
        }
        self.met_deferred += u64::from(meetings::meets_deferred(case, left));
        self.largest = self.largest.max(left.answer.tokens);
        for record in left.used().chunks_exact(TOKEN) {
            self.count_token(case, record);
        }
    }

    /// Counts two orders of one graph that hang, if their tokens came in another
    /// order.
    pub fn count_pair(&mut self, case: &Case, one: &Left, other: &Left) {
        if one.answer.outcome != Outcome::Hung || one.used() == other.used() {
            return;
        }
        let records = || one.used().chunks_exact(TOKEN);
        let waiting =
            records().any(|record| record[token::STATE] == token::LIVE && !is_result(case, record));
        let deferred = records().any(|record| record[token::STATE] == token::DEFERRED);
        self.hung_waiting += u64::from(waiting);
        self.hung_deferred += u64::from(deferred);
    }

    /// A firing spends exactly one token on port 0.
    fn count_token(&mut self, case: &Case, record: &[u8]) {
        let code = code_at(case, record);
        match record[token::STATE] {
            token::SPENT if record[token::PORT] == 0 => self.fired[usize::from(code)] += 1,
            token::DEFERRED => self.deferred += 1,
            _ => {}
        }
        if code == OUT {
            self.results += 1;
        } else if is_result(case, record) {
            self.root_leaves += u64::from(record[token::STATE] == token::LIVE);
            self.root_leaves_deferred += u64::from(record[token::STATE] == token::DEFERRED);
        }
        // Each level has two bytes, the site in the second.
        let sites = (0..MOST_LEVELS).map(|level| record[2 * level + 1]);
        self.levels[sites.filter(|site| *site != 0).count()] += 1;
    }

    /// Prints all counts; answers how many that can be reached are 0.
    pub fn print(&self) -> usize {
        let mut lines = Lines { missing: 0 };
        println!("answers:");
        lines.count("completed", self.completed);
        lines.count("hung", self.hung);
        lines.count("spent", self.spent);
        lines.count("refused", self.refused);
        println!("pairs of orders that hang:");
        lines.count("operands waiting", self.hung_waiting);
        lines.count("tokens deferred", self.hung_deferred);
        self.print_refusals(&mut lines);
        println!("operations fired:");
        for (code, name) in NAMES {
            match code {
                OUT => lines.count("3 OUT (tokens received)", self.results),
                _ => lines.count(&format!("{code} {name}"), self.fired[usize::from(code)]),
            }
        }
        println!("named arrays:");
        self.arrays.print(&mut lines);
        println!("profiles:");
        self.profiles.print(&mut lines);
        println!("runs with a log:");
        self.logged.print(&mut lines);
        println!("replays:");
        self.replays.print(&mut lines);
        println!("bounds:");
        self.bounds.print(&mut lines);
        println!("capacities of runs that completed or hung:");
        self.capacities.print(&mut lines);
        println!("conversions of old records:");
        self.conversions.print(&mut lines);
        println!("saved states:");
        self.saved.print(&mut lines);
        println!("runs asked of the cache:");
        self.requests.print(&mut lines);
        println!("runs with a bound:");
        self.bounded.print(&mut lines);
        println!("range runs:");
        self.ranges.print(&mut lines);
        println!("expressions:");
        self.expressions.print(&mut lines);
        println!("further:");
        lines.count("results at a LEAVE", self.root_leaves);
        lines.count("deferred at such a LEAVE", self.root_leaves_deferred);
        lines.count("tokens left deferred", self.deferred);
        for (levels, count) in self.levels.iter().enumerate() {
            lines.count(&format!("tokens at level {levels}"), *count);
        }
        lines.count("9 at a deferred token", self.met_deferred);
        lines.count("most tokens of a run", self.largest as u64);
        lines.missing
    }

    fn print_refusals(&self, lines: &mut Lines) {
        println!("refusals:");
        for (number, word) in REFUSALS {
            lines.count(&format!("{number} {word}"), self.refusals[number]);
        }
        for number in [8, 9] {
            lines.count(
                &format!("{number} of the inputs"),
                self.refused_inputs[number],
            );
        }
    }
}

/// The operation code of a token's instruction.
fn code_at(case: &Case, record: &[u8]) -> u8 {
    code_of(&case.graph, record)
}

/// Whether a token, once it is live, is a result: at an OUT, or at a LEAVE under
/// path 0.
fn is_result(case: &Case, record: &[u8]) -> bool {
    match code_at(case, record) {
        OUT => true,
        LEAVE => path(record) == 0,
        _ => false,
    }
}

/// Counts by name.
struct Named(Vec<(&'static str, u64)>);

impl Named {
    fn new(names: &[&'static str]) -> Named {
        Named(names.iter().map(|&name| (name, 0)).collect())
    }

    fn count(&mut self, names: Vec<&'static str>) {
        for name in names {
            let found = self.0.iter_mut().find(|(known, _)| *known == name);
            found.expect("a name of the list").1 += 1;
        }
    }

    fn print(&self, lines: &mut Lines) {
        for &(name, count) in &self.0 {
            lines.count(name, count);
        }
    }
}

/// The printed lines, and how many of them are 0.
struct Lines {
    missing: usize,
}

impl Lines {
    fn count(&mut self, name: &str, count: u64) {
        let note = if count == 0 { "  never came up" } else { "" };
        self.missing += usize::from(count == 0);
        println!("  {name:<28}{count:>10}{note}");
    }
}
