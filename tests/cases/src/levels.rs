//! R-8 of document 02: calls nest eight levels deep, and a path has all of them.

use crate::lent::*;
use crate::{case, Case};

/// The instruction that leaves every call.
const BACK: u16 = 1;

/// Calls inside each other, with sites 1, 2 and so on: in each the value goes by two
/// instructions to the next call, and what comes back goes by one to the LEAVE.
pub fn nested(calls: u16) -> Lent {
    let first = |call: u16| 3 + 4 * (call - 1);
    let plus = |constant: i32, to: u16| with(ADD + WITH_CONSTANT, constant, &[(to, 0)]);
    let mut graph = vec![op(COPY, &[(first(1), 0)]), op(LEAVE, &[]), op(OUT, &[])];
    for call in 1..=calls {
        let at = first(call);
        let inward = if call < calls { first(call + 1) } else { BACK };
        let outward = if call > 1 { BACK } else { 2 };
        graph.push(with(ENTER, i32::from(call), &[(at + 1, 0), (at + 3, 0)]));
        graph.push(plus(1, at + 2));
        graph.push(op(COPY, &[(inward, 0)]));
        graph.push(plus(100, outward));
    }
    lend(&graph, &[token(0, 0, 7)]).capacity(60)
}

pub fn cases() -> Vec<Case> {
    let mut cases = Vec::new();
    for (calls, says) in [
        (4, "completed 21 22 0"),
        (5, "completed 26 27 0"),
        (8, "completed 41 42 0"),
        (9, "refused 14 25 26 25"),
    ] {
        cases.push(case(
            format!("levels: {calls} nested calls"),
            nested(calls),
            says,
        ));
    }
    cases.push(case(
        "levels: 9 nested calls, the ninth is not tried",
        nested(9).budget(25),
        "spent 25 26 0",
    ));
    cases
}

#[cfg(test)]
mod tests {
    use super::*;

    /// The greatest path of a run's tokens.
    fn deepest(calls: u16) -> u128 {
        let left = crate::run(&nested(calls));
        let used = &left.ledger[..TOKEN_RECORD * left.answer.tokens];
        used.chunks_exact(TOKEN_RECORD)
            .map(layout::path)
            .max()
            .unwrap()
    }

    #[test]
    fn deepest_paths() {
        assert_eq!(deepest(4), 72_059_793_111_516_160);
        assert_eq!(deepest(5), 4_722_510_601_356_323_063_040);
        let eight = 1_329_268_561_532_597_095_534_916_206_914_963_456;
        assert_eq!((deepest(8), deepest(9)), (eight, eight));
    }

    /// Every call adds 1 on the way in and 100 on the way out.
    #[test]
    fn results() {
        for calls in 1..=8 {
            let left = crate::run(&nested(calls));
            let last = &left.ledger[TOKEN_RECORD * (left.answer.tokens - 1)..];
            let value = layout::signed(last, token::VALUE);
            assert_eq!(value, 7 + 101 * i32::from(calls));
        }
    }
}
