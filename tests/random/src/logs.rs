//! Logs and their replay: lengths, damage, what 02 claims of them, and what is tallied.

use layout::fields::{logged, token};
use layout::widths::{INSTRUCTION, LOGGED, MOST_RECORDS, PICK, TOKEN, WHOLE_BUDGET};
use layout::{instruction_of, path, same_tag, LEAVE, OUT};
use second::Outcome;

use crate::case::{Call, Case, Left};
use crate::damage;
use crate::orders::End;
use crate::prng::Prng;
use crate::Harness;

/// The bytes of a log for a budget: just enough, one record too few, more, not whole,
/// or any.
pub fn bytes(budget: u16, prng: &mut Prng) -> usize {
    let least = usize::from(budget).min(MOST_RECORDS);
    match prng.below(8) {
        0..=2 => LOGGED * least,
        3 => LOGGED * least.saturating_sub(1),
        4 => LOGGED * (least + prng.below(3)),
        5 => LOGGED * least + 1 + prng.below(11),
        6 => LOGGED * prng.below(least + 1),
        _ => 0,
    }
}

impl Harness {
    /// The replay of a logged run, buffers lent alike: the same ledger, cells and counts
    /// in every byte.
    pub fn replay_of(&mut self, case: &Case, left: &Left) {
        if !matches!(case.call, Call::Logged(_)) || left.answer.refusal() == Some(7) {
            return;
        }
        let mut case = case.clone();
        case.call = Call::Replay(left.log().to_vec());
        let again = self.call(&case);
        if let Err(reason) = same_end(left, &again) {
            self.fail(&case, &format!("replay of a run: {reason}"));
        }
    }

    /// The logs of two orders, and replays of the orders' logs as they are and damaged.
    pub fn all_logs(&mut self, ends: &[End], prng: &mut Prng) {
        let logged: Vec<&End> = ends
            .iter()
            .filter(|end| matches!(end.case.call, Call::Logged(_)))
            .collect();
        let first = logged[0];
        for other in &logged[1..] {
            self.logs_compared += 1;
            if let Err(reason) = same_records(&first.left, &other.left) {
                self.fail(&other.case, &reason);
            }
        }
        let other = logged[1 + prng.below(logged.len() - 1)];
        for end in [first, other] {
            self.replay_of(&end.case, &end.left);
        }
        for _ in 0..4 {
            let end = logged[prng.below(logged.len())];
            let mut case = end.case.clone();
            case.call = Call::Replay(damaged(&end.left, prng));
            case.garbage = prng.word();
            self.call(&case);
        }
    }
}

/// 02's claim about a replay: ledger, cells and counts are the same. The word is too,
/// but that a run refused in a firing is replayed up to there and spent.
fn same_end(run: &Left, replay: &Left) -> Result<(), String> {
    let counts = |left: &Left| (left.answer.firings, left.answer.tokens);
    if counts(run) != counts(replay) {
        return Err("other counts".to_string());
    }
    if run.ledger != replay.ledger || run.cells != replay.cells {
        return Err("other bytes in ledger or cells".to_string());
    }
    let refused = matches!(run.answer.outcome, Outcome::Refused(_));
    let due = match run.answer.outcome {
        _ if refused && !run.answer.refused_at_once() => Outcome::Spent,
        outcome => outcome,
    };
    if replay.answer.outcome != due {
        return Err(format!("{:?}, due {due:?}", replay.answer.outcome));
    }
    Ok(())
}

/// The logs of two runs that complete or hang hold the same records, each once.
fn same_records(one: &Left, other: &Left) -> Result<(), String> {
    if matches!(one.answer.outcome, Outcome::Refused(_)) {
        return Ok(());
    }
    let sorted = |left: &Left| {
        let mut records: Vec<Vec<u8>> = left.log().chunks(LOGGED).map(<[u8]>::to_vec).collect();
        records.sort_unstable();
        records
    };
    let records = sorted(one);
    if records != sorted(other) {
        return Err("the logs of two orders hold other records".to_string());
    }
    if records.windows(2).any(|pair| pair[0] == pair[1]) {
        return Err("a log holds a record twice".to_string());
    }
    Ok(())
}

/// A run's log with a fault.
fn damaged(left: &Left, prng: &mut Prng) -> Vec<u8> {
    let mut log = left.log().to_vec();
    let count = log.len() / LOGGED;
    match prng.below(10) {
        0 => damage::flip(&mut log, prng),
        1 => damage::overwrite(&mut log, prng),
        2 => log.truncate(prng.below(log.len() + 1)),
        3 => log.truncate(LOGGED * prng.below(count + 1)),
        4 => log.extend(vec![0; 1 + prng.below(24)]),
        // The whole buffer, as it is after the run.
        5 => log = left.further.clone(),
        6 => damage::set_field(
            &mut log,
            LOGGED,
            logged::ZERO,
            1 + prng.below(255) as u8,
            prng,
        ),
        7 if count > 1 => {
            let (one, other) = (prng.below(count), prng.below(count));
            for byte in 0..LOGGED {
                log.swap(LOGGED * one + byte, LOGGED * other + byte);
            }
        }
        _ => insert(&mut log, &named_record(left, prng), prng),
    }
    log
}

/// The tag of a token of the run's ledger, or one that no token has.
fn named_record(left: &Left, prng: &mut Prng) -> Vec<u8> {
    let mut record = vec![0; LOGGED];
    if left.answer.tokens > 0 {
        let token = &left.used()[TOKEN * prng.below(left.answer.tokens)..];
        record.copy_from_slice(&token[token::KEY]);
        record[logged::ZERO] = 0;
    }
    if prng.one_in(4) {
        let (low, high) = (logged::INSTRUCTION.start, logged::INSTRUCTION.end - 1);
        let field = [0, 8, logged::ITERATION, low, high][prng.below(5)];
        record[field] = prng.word() as u8;
    }
    record
}

/// Puts a record before another one, or behind the last.
fn insert(log: &mut Vec<u8>, record: &[u8], prng: &mut Prng) {
    let at = LOGGED * prng.below(log.len() / LOGGED + 1);
    log.splice(at..at, record.iter().copied());
}

/// What has to come up among the runs with a log.
pub const RUN_NAMES: [&str; 7] = [
    "completed",
    "hung",
    "spent",
    "refused",
    "7 by a log not whole",
    "7 by a log too short",
    "2,048 records, larger budget",
];

/// Which of the names a run with a log has.
pub fn run_names(case: &Case, left: &Left) -> Vec<&'static str> {
    let room = left.further.len() / LOGGED;
    let whole = left.further.len() % LOGGED == 0;
    let picks_fit = case.picks.len() % PICK == 0 && case.picks.len() <= PICK * MOST_RECORDS;
    let mut names = match left.answer.outcome {
        Outcome::Completed => vec!["completed"],
        Outcome::Hung => vec!["hung"],
        Outcome::Spent => vec!["spent"],
        Outcome::Refused(refusal) => match refusal.number {
            7 if !(case.stores_fit() && picks_fit) => vec!["refused"],
            7 if whole => vec!["7 by a log too short"],
            7 => vec!["7 by a log not whole"],
            _ => vec!["refused"],
        },
    };
    if left.answer.refusal().is_none() && room == MOST_RECORDS && case.budget > WHOLE_BUDGET {
        names.push("2,048 records, larger budget");
    }
    names
}

/// What has to come up among the replays. The names behind 20 say why no enabled
/// activity is named.
pub const REPLAY_NAMES: [&str; 17] = [
    "completed",
    "hung",
    "spent",
    "refused at once",
    "refused in a firing",
    "20 with nothing fired",
    "20 behind firings",
    "20 with nothing enabled",
    "20 without any token",
    "20 not whole",
    "20 no zero byte",
    "20 instruction past the graph",
    "20 at an OUT",
    "20 at a LEAVE of the root",
    "20 no token of that tag",
    "20 done before",
    "20 still waiting",
];

/// Which of the names a replay has.
pub fn replay_names(case: &Case, log: &[u8], left: &Left) -> Vec<&'static str> {
    match left.answer.outcome {
        Outcome::Completed => vec!["completed"],
        Outcome::Hung => vec!["hung"],
        Outcome::Spent => vec!["spent"],
        Outcome::Refused(refusal) if refusal.number == 20 => {
            let record = &log[LOGGED * refusal.place..];
            let mut names = vec![reason(case, &record[..record.len().min(LOGGED)], left)];
            names.push(match left.answer.firings {
                0 => "20 with nothing fired",
                _ => "20 behind firings",
            });
            if left.answer.tokens == 0 {
                names.push("20 without any token");
            }
            if at_rest(case, log, left) {
                names.push("20 with nothing enabled");
            }
            names
        }
        Outcome::Refused(_) if left.answer.refused_at_once() => vec!["refused at once"],
        Outcome::Refused(_) => vec!["refused in a firing"],
    }
}

/// Why a record names no enabled activity, by the ledger that it is refused at.
fn reason(case: &Case, record: &[u8], left: &Left) -> &'static str {
    if record.len() < LOGGED {
        return "20 not whole";
    }
    if record[logged::ZERO] != 0 {
        return "20 no zero byte";
    }
    let root = path(record) == 0;
    match case.graph.get(INSTRUCTION * instruction_of(record)) {
        None => return "20 instruction past the graph",
        Some(&OUT) => return "20 at an OUT",
        Some(&LEAVE) if root => return "20 at a LEAVE of the root",
        Some(_) => {}
    }
    let same_tag = |t: &&[u8]| same_tag(t, record);
    match left.used().chunks_exact(TOKEN).find(same_tag) {
        None => "20 no token of that tag",
        Some(token) if token[token::STATE] == token::SPENT => "20 done before",
        Some(_) => "20 still waiting",
    }
}

/// Whether nothing is enabled where a replay is refused: the log up to there is not
/// spent.
fn at_rest(case: &Case, log: &[u8], left: &Left) -> bool {
    let fired = &log[..LOGGED * left.answer.firings];
    let mut ledger = left.ledger.clone();
    let mut cells = left.cells.clone();
    let (program, inputs) = (case.program(), &case.inputs);
    let answer = second::replay(program, inputs, fired, &mut ledger, &mut cells);
    answer.outcome != Outcome::Spent
}
