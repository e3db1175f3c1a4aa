//! Each wrong emulator of 01 is told from a right one by the cases that are named
//! for it.

mod naive;

use cases::apart::{Wrong, APART};
use cases::lent::Lent;
use cases::{lines, Left};
use second::{Answer, Outcome, Refusal};

/// A right run, whose answer is put for another; a refusal at once stays.
fn with_answer(lent: &Lent, answer: impl Fn(Answer) -> Answer) -> Left {
    let right = cases::run(lent);
    Left {
        answer: answer(right.answer),
        ..right
    }
}

/// The state before any firing, with an outcome.
fn at_once(lent: &Lent, outcome: Outcome) -> Left {
    with_answer(&lent.clone().budget(0), |answer| match answer.outcome {
        Outcome::Refused(_) => answer,
        _ => Answer { outcome, ..answer },
    })
}

fn run(lent: &Lent, wrong: Wrong) -> Left {
    match wrong {
        Wrong::IgnoresPicks => {
            let mut lent = lent.clone();
            lent.picks.given.clear();
            cases::run(&lent)
        }
        Wrong::FirstThenCompleted => {
            let first = lent.budget.min(1);
            with_answer(&lent.clone().budget(first), |answer| Answer {
                outcome: match answer.outcome {
                    Outcome::Spent if first == 1 => Outcome::Completed,
                    outcome => outcome,
                },
                ..answer
            })
        }
        Wrong::SpentAtOnce => at_once(lent, Outcome::Spent),
        Wrong::FullAtOnce => {
            let full = Refusal {
                number: 8,
                place: 0,
            };
            at_once(lent, Outcome::Refused(full))
        }
        Wrong::InventsFirings => with_answer(lent, |answer| Answer {
            firings: answer.tokens,
            ..answer
        }),
        Wrong::LeavesLedger => Left {
            ledger: lent.ledger.bytes(),
            ..cases::run(lent)
        },
        Wrong::AlwaysCompleted => with_answer(lent, |answer| Answer {
            outcome: Outcome::Completed,
            ..answer
        }),
        Wrong::AlwaysRefused => Left {
            answer: Answer {
                outcome: Outcome::Refused(Refusal {
                    number: 1,
                    place: 0,
                }),
                firings: 0,
                tokens: 0,
            },
            ledger: lent.ledger.bytes(),
            cells: lent.cells.bytes(),
        },
        error => naive::run(lent, Some(error)),
    }
}

#[test]
fn without_an_error_the_slow_emulator_is_right() {
    for case in cases::all() {
        assert_eq!(
            naive::run(&case.lent, None),
            cases::run(&case.lent),
            "{}",
            case.name
        );
    }
}

#[test]
fn every_wrong_emulator_is_told_apart() {
    let all = cases::all();
    for (wrong, names) in APART {
        for &name in names {
            let case = all.iter().find(|case| case.name == name).expect(name);
            let right = lines(case, &cases::run(&case.lent));
            assert!(
                lines(case, &run(&case.lent, wrong)) != right,
                "{wrong:?} by {name}"
            );
        }
        let differ = |case: &&cases::Case| run(&case.lent, wrong) != cases::run(&case.lent);
        println!("{wrong:?}: {} cases", all.iter().filter(differ).count());
    }
}
