//! The cases that stand on either side of the line, each as given.

use super::common::*;
use crate::*;

/// Number and row, the smallest allowance, and the rows' own.
fn verdict(rows: &[Row]) -> ((u8, usize), u16, Vec<u16>) {
    let table = table(rows);
    let (number, row, k, each) = test(&table);
    assert!(each[table.n..].iter().all(|&k| k == 0));
    ((number, row), k, each[..table.n].to_vec())
}

fn accepted(k: u16, each: &[u16]) -> ((u8, usize), u16, Vec<u16>) {
    ((0, 0), k, each.to_vec())
}

fn refused(number: u8, row: usize, n: usize) -> ((u8, usize), u16, Vec<u16>) {
    ((number, row), 0, vec![0; n])
}

#[test]
fn three_rows() {
    assert_eq!(verdict(&EXAMPLE), accepted(1, &[2, 1, 1]));
}

#[test]
fn two_heavy_rows_and_the_first_given_slot() {
    let rows = [(2, 4, 4), (2, 5, 5)];
    assert_eq!(verdict(&rows), accepted(0, &[2, 0]));
    let mut state = begin(&rows);
    assert_eq!(request(&mut state, 9, 1), 0);
    for t in 1..=14 {
        let used = slot(&mut state, false).used;
        assert!(matches!(used, Use::Hard(_)), "{t} {used:?}");
    }
    assert_eq!(slot(&mut state, false).used, Use::Given(9));
}

#[test]
fn one_slot_of_deadline() {
    assert_eq!(verdict(&[(2, 4, 4), (3, 7, 7)]), accepted(0, &[2, 0]));
    assert_eq!(verdict(&[(2, 4, 4), (3, 7, 6)]), refused(7, 2, 2));
}

#[test]
fn equal_periods() {
    assert_eq!(verdict(&[(1, 2, 2), (1, 2, 2)]), accepted(0, &[1, 0]));
    // The earlier row wins.
    let mut state = begin(&[(1, 2, 2), (1, 2, 2)]);
    assert_eq!(slot(&mut state, false).used, Use::Hard(1));
    assert_eq!(slot(&mut state, false).used, Use::Hard(2));
}

#[test]
fn the_longest_period() {
    assert_eq!(verdict(&[(1, 4096, 4096)]), accepted(4095, &[4095]));
    assert_eq!(verdict(&[(4096, 4096, 4096)]), accepted(0, &[0]));
    assert_eq!(verdict(&[(1, 4097, 4096)]), refused(5, 1, 1));
}

#[test]
fn a_falling_period_and_no_rows() {
    assert_eq!(verdict(&[(1, 5, 5), (1, 4, 4)]), refused(6, 2, 2));
    assert_eq!(verdict(&[]), refused(4, 0, 0));
    assert_eq!(read(&[1, 0, 1, 0]), (4, 0, Table::ZERO));
}

#[test]
fn a_lost_first_slot() {
    let mut state = begin(&[(1, 2, 1)]);
    let answer = slot(&mut state, true);
    assert_eq!((answer.used, answer.word, answer.late), (Use::Lost, 1, 1));
    assert_eq!(late_total(&state), (0, 1));
}

#[test]
fn late_260_times() {
    let mut state = begin(&[(1, 1, 1)]);
    for _ in 0..260 {
        assert_eq!(slot(&mut state, true).word, 1);
    }
    assert_eq!(late_total(&state), (0, 260));
}

#[test]
fn a_byte_too_many_and_none_at_all() {
    let mut bytes = record(&EXAMPLE);
    bytes.push(0);
    assert_eq!(read(&bytes), (3, 0, Table::ZERO));
    assert_eq!(read(&[]), (1, 0, Table::ZERO));
}

#[test]
fn the_33rd_request() {
    let mut state = begin(&EXAMPLE);
    for name in 0..32 {
        assert_eq!(request(&mut state, name, 2), 0);
    }
    assert_eq!(request(&mut state, 32, 2), 9);
    // The first has had one slot of two: still waiting.
    assert_eq!(slot(&mut state, false).used, Use::Given(0));
    assert_eq!(request(&mut state, 32, 2), 9);
    // k = 1: the second slot comes when no work is left, in slot 7.
    for _ in 2..=6 {
        assert!(matches!(slot(&mut state, false).used, Use::Hard(_)));
    }
    assert_eq!(slot(&mut state, false).used, Use::Given(0));
    assert_eq!(request(&mut state, 32, 2), 0);
    assert_eq!(request(&mut state, 33, 2), 9);
}
