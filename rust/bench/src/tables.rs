//! Tables to time with, and the time of their test.

use crate::time_both;
use fjurkesprek::raw::fjurke_test;
use fjurkesprek::{Table, ROWS};
use std::hint::black_box;

pub fn table(rows: &[(u16, u16, u16)]) -> Table {
    let mut table = Table {
        n: rows.len(),
        c: [0; ROWS],
        t: [0; ROWS],
        d: [0; ROWS],
    };
    for (i, &(c, t, d)) in rows.iter().enumerate() {
        (table.c[i], table.t[i], table.d[i]) = (c, t, d);
    }
    table
}

/// Sixteen rows of the longest period.
fn long() -> Table {
    table(&[(1, 4096, 4096); ROWS])
}

/// Fifteen rows of short periods before a long one: most releases up to a deadline.
pub fn steep() -> Table {
    let mut rows: Vec<_> = (16..31).map(|t| (1, t, t)).collect();
    rows.push((1, 4096, 4096));
    table(&rows)
}

pub fn second_table(table: &Table) -> opinion::Table {
    opinion::Table {
        n: table.n,
        c: table.c,
        t: table.t,
        d: table.d,
    }
}

pub fn time() {
    for (what, table) in [
        ("test, 16 rows, periods 4,096", long()),
        ("test, 16 rows, periods 16 to 30 and 4,096", steep()),
    ] {
        let other = second_table(&table);
        assert_eq!(
            unsafe { fjurke_test(table.clone()) }.k,
            opinion::test(&other).2
        );
        let proved = || {
            black_box(unsafe { fjurke_test(black_box(table.clone())) });
        };
        let second = || {
            black_box(opinion::test(black_box(&other)));
        };
        time_both(what, 1, proved, second);
    }
}
