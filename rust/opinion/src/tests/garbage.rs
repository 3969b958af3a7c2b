//! Nothing overflows or panics, whatever is handed in. Worth its name in a
//! build with overflow checks.

use super::common::*;
use super::letter::{self, Mistake};
use crate::*;

fn all_calls(state: &State, dice: &mut Dice) -> bool {
    let good = letter::legal(state);
    assert_eq!(legal(state), good, "{state:?}");
    let lost = dice.chance(2);
    let (name, size) = (dice.any16(), dice.any16());

    let (number, total) = late_total(state);
    assert_eq!(number, if good { 0 } else { 11 });
    if !good {
        assert_eq!(total, 0);
    }

    let mut after = state.clone();
    let answer = slot(&mut after, lost);
    let (expected, expected_answer) = letter::slot(state, lost, Mistake::None);
    assert_eq!(answer, expected_answer);
    assert_eq!(after, expected);

    let mut after = state.clone();
    let number = request(&mut after, name, size);
    if !good {
        assert_eq!(number, 11);
    }
    if number != 0 {
        assert_eq!(after, *state);
    }

    let table = Table {
        n: state.n,
        c: state.c,
        t: state.t,
        d: state.d,
    };
    let (number, row) = form(&table);
    assert!(matches!((number, row), (0 | 4, 0) | (5 | 6, 1..=16)));
    let (number, row, k, each) = test(&table);
    let (also, also_row, run) = start(&table);
    assert_eq!((number, row), (also, also_row));
    assert_eq!(run.k, each);
    if number != 0 {
        assert_eq!((k, each), (0, [0; 16]));
        assert_eq!(run, State::ZERO);
    }
    let mut buffer = [9; 100];
    let (number, row, length) = write(&table, &mut buffer);
    assert_eq!((number, row), form(&table));
    if number == 0 {
        assert_eq!(read(&buffer[..length]), (0, 0, table));
    } else {
        assert_eq!((length, buffer), (0, [9; 100]));
    }
    good
}

#[test]
fn any_numbers() {
    let mut dice = Dice(11);
    for _ in 0..20_000 {
        let state = dice.garbage();
        all_calls(&state, &mut dice);
    }
}

#[test]
fn only_the_largest_or_smallest_numbers() {
    let mut state = State::ZERO;
    let mut dice = Dice(12);
    assert!(!all_calls(&state, &mut dice));
    state.n = usize::MAX;
    state.next = u64::MAX;
    state.c = [u16::MAX; 16];
    state.t = state.c;
    state.d = state.c;
    state.k = state.c;
    state.left = state.c;
    state.counter = state.c;
    state.late = [u64::MAX; 16];
    state.count = usize::MAX;
    state.names = [u16::MAX; 32];
    state.sizes = state.names;
    state.hard = u64::MAX;
    state.given = u64::MAX;
    state.empty = u64::MAX;
    state.lost = u64::MAX;
    assert!(!all_calls(&state, &mut dice));
    for _ in 0..2_000 {
        // Lengths in range, all else as large as can be.
        state.n = dice.from(0, 17) as usize;
        state.count = dice.from(0, 33) as usize;
        state.next = dice.from(0, 1);
        assert!(!all_calls(&state, &mut dice));
    }
}

#[test]
fn legal_states_with_something_spoilt() {
    let mut dice = Dice(13);
    let (mut good, mut bad) = (0, 0);
    for _ in 0..40_000 {
        let mut state = dice.legal();
        for _ in 0..dice.from(1, 2) {
            dice.spoil(&mut state);
        }
        if all_calls(&state, &mut dice) {
            good += 1;
        } else {
            bad += 1;
        }
    }
    assert!(good > 1_000 && bad > 1_000, "{good} {bad}");
}

#[test]
fn a_length_that_is_right_only_in_its_last_16_bits() {
    let mut dice = Dice(14);
    for wide in [1 << 16, 1 << 32, 1 << 48] {
        let mut state = begin(&EXAMPLE);
        state.n += wide;
        assert!(!all_calls(&state, &mut dice));
        let mut state = begin(&EXAMPLE);
        state.count = wide;
        assert!(!all_calls(&state, &mut dice));
    }
}

#[test]
fn tallies_that_would_wrap_to_the_right_sum() {
    let mut dice = Dice(15);
    let mut state = begin(&EXAMPLE);
    state.next = 11;
    state.hard = u64::MAX - 4;
    state.given = 15;
    assert_eq!(state.hard.wrapping_add(state.given), 10);
    assert!(!all_calls(&state, &mut dice));
    state.hard = 1 << 63;
    state.given = 1 << 63;
    state.empty = 10;
    assert!(!all_calls(&state, &mut dice));
}

#[test]
fn any_bytes() {
    let mut dice = Dice(16);
    for _ in 0..20_000 {
        let length = dice.from(0, 120) as usize;
        let mut bytes: Vec<u8> = (0..length).map(|_| dice.any() as u8).collect();
        if dice.chance(2) {
            // Far enough into a record to meet the later refusals.
            let n = dice.from(0, 18) as usize;
            let head = [1, 0, 1 + 6 * n as u8, n as u8];
            bytes.splice(..length.min(4), head);
        }
        let (number, row, table) = read(&bytes);
        match number {
            0 => assert_eq!((row, form(&table)), (0, (0, 0))),
            1..=4 => assert_eq!((row, table), (0, Table::ZERO)),
            5 | 6 => assert_eq!((row >= 1, table), (true, Table::ZERO)),
            _ => panic!("{number}"),
        }
        let out = listing(&bytes);
        assert_eq!(out.last(), Some(&b'\n'));
    }
}
