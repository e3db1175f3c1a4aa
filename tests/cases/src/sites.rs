//! R-6 of document 02: the site of every entered path has its ENTER, so that each
//! LEAVE there has its caller.

use crate::lent::*;
use crate::{case, Case};

pub fn cases() -> Vec<Case> {
    let deep = [
        with(ENTER, 10, &[(1, 0), (5, 0)]),
        with(ENTER, 20, &[(2, 0), (6, 0)]),
        with(ENTER, 30, &[(3, 0), (7, 0)]),
        with(ENTER, 255, &[(4, 0), (8, 0)]),
        op(LEAVE, &[]),
        op(OUT, &[]),
        with(ADD + WITH_CONSTANT, 10, &[(4, 0)]),
        with(ADD + WITH_CONSTANT, 100, &[(4, 0)]),
        with(ADD + WITH_CONSTANT, 1000, &[(4, 0)]),
    ];
    // Eight procedures, each of which enters the next, with a site of its own; the last leaves.
    let mut eight = Vec::new();
    for level in 0..8 {
        let site = 11 + 30 * level;
        eight.push(with(
            ENTER,
            site,
            &[(level as u16 + 1, 0), (level as u16 + 9, 0)],
        ));
    }
    eight.push(op(LEAVE, &[]));
    eight.push(op(OUT, &[]));
    for level in 1..8 {
        eight.push(with(ADD + WITH_CONSTANT, 1 << (3 * level), &[(8, 0)]));
    }
    // The outer procedure calls the inner one, x + 1, at sites 4 and 6.
    let inner = with(ADD + WITH_CONSTANT, 1, &[(8, 0)]);
    let twice = [
        with(ENTER, 5, &[(1, 0), (2, 0)]),
        op(COPY, &[(3, 0), (4, 0)]),
        op(OUT, &[]),
        with(ENTER, 4, &[(7, 0), (5, 0)]),
        with(ENTER, 6, &[(7, 0), (6, 0)]),
        op(SUB, &[(8, 0)]),
        with(MUL + WITH_CONSTANT, 3, &[(5, 1)]),
        inner,
        op(LEAVE, &[]),
    ];
    vec![
        case(
            "sites: four levels, and each LEAVE returns by its own site",
            lend(&deep, &[token(0, 0, 1)]).capacity(12),
            "completed 11 12 0",
        ),
        case(
            "sites: eight levels, and each LEAVE returns by its own site",
            lend(&eight, &[token(0, 0, 1)]).capacity(24),
            "completed 23 24 0",
        ),
        case(
            "sites: one procedure called from two sites of another",
            lend(&twice, &[token(0, 0, 7)]).capacity(16),
            "completed 11 13 0",
        ),
        case(
            "sites: the same, the newest first",
            lend(&twice, &[token(0, 0, 7)])
                .capacity(16)
                .picks(&[0, 0, 1, 1, 1, 1]),
            "completed 11 13 0",
        ),
    ]
}
