//! The quick allowances against the definition.

use super::common::*;
use crate::*;

/// The test by the definition.
fn by_definition(table: &Table) -> (u8, usize, u16, [u16; 16]) {
    let (number, row) = form(table);
    if number != 0 {
        return (number, row, 0, [0; 16]);
    }
    let mut each = [0; 16];
    for row in 1..=table.n {
        match allowance_by_definition(table, row) {
            Some(k) => each[row - 1] = k,
            None => return (7, row, 0, [0; 16]),
        }
    }
    let k = (0..table.n).map(|i| each[i]).min().unwrap();
    (0, 0, k, each)
}

fn compare(seed: u64, tables: usize, rows: u64, longest: u16) {
    let mut dice = Dice(seed);
    let (mut taken, mut refused) = (0, 0);
    for _ in 0..tables {
        let table = dice.table(rows, longest);
        let expected = by_definition(&table);
        assert_eq!(test(&table), expected, "{table:?}");
        if expected.0 == 0 {
            taken += 1;
        } else {
            refused += 1;
        }
    }
    // Both kinds have to be there for the comparison to say anything.
    assert!(
        taken * 10 > tables && refused * 10 > tables,
        "{taken} {refused}"
    );
}

#[test]
fn short_periods() {
    compare(21, 4_000, 4, 8);
}

#[test]
fn middling_periods() {
    compare(22, 1_500, 8, 40);
}

#[test]
fn many_rows() {
    compare(23, 150, 16, 90);
}

#[test]
fn long_periods() {
    for rows in [
        &[(1, 4096, 4096)][..],
        &[(1, 2, 2), (1, 2, 2), (1, 1024, 1024)],
        &[(1, 2, 2), (400, 1024, 1000)],
        &[(3, 7, 5), (300, 1000, 999)],
    ] {
        let table = table(rows);
        assert_eq!(test(&table), by_definition(&table));
    }
}

#[test]
fn no_allowance_without_a_good_table_and_row() {
    assert_eq!(allowance_by_definition(&table(&EXAMPLE), 0), None);
    assert_eq!(allowance_by_definition(&table(&EXAMPLE), 3), Some(1));
    assert_eq!(allowance_by_definition(&table(&EXAMPLE), 4), None);
    assert_eq!(allowance_by_definition(&Table::ZERO, 1), None);
    assert_eq!(
        allowance_by_definition(&table(&[(1, 5, 5), (1, 4, 4)]), 1),
        None
    );
}

#[test]
fn row_one_always_holds_all_it_can() {
    // Nothing comes before it, so 7 never names it.
    let mut dice = Dice(24);
    for _ in 0..2_000 {
        let table = dice.table(5, 60);
        let (number, row, _, each) = test(&table);
        if number == 0 {
            assert_eq!(each[0], table.d[0] - table.c[0]);
        } else {
            assert!(number == 7 && row > 1);
        }
    }
}
