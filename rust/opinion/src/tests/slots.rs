//! The quick slot, request and late total against the plain ones.

use super::common::*;
use super::letter::{self, Mistake};
use crate::*;

#[test]
fn slots_follow_the_steps_on_legal_states() {
    let mut dice = Dice(1);
    for _ in 0..20_000 {
        let mut state = dice.legal();
        let lost = dice.chance(5);
        let (expected, answer) = letter::slot(&state, lost, Mistake::None);
        assert_eq!(slot(&mut state, lost), answer);
        assert_eq!(state, expected);
        // A slot leads from legal to legal.
        assert!(legal(&state));
    }
}

#[test]
fn slots_follow_the_steps_through_runs() {
    let mut dice = Dice(2);
    let mut runs = 0;
    for _ in 0..600 {
        let table = dice.table(16, 40);
        let (number, _, mut state) = start(&table);
        if number != 0 {
            continue;
        }
        runs += 1;
        let busy = dice.from(2, 30);
        let losses = dice.from(2, 60);
        for t in 1..=300 {
            if dice.chance(busy) {
                request(&mut state, dice.any16(), dice.small(1, 4));
            }
            let lost = dice.chance(losses);
            let (expected, answer) = letter::slot(&state, lost, Mistake::None);
            assert_eq!(slot(&mut state, lost), answer);
            assert_eq!(state, expected);
            assert_eq!(answer.late, answer.word.count_ones());
            assert_eq!(state.next, t + 1);
            assert_eq!(state.hard + state.given + state.empty + state.lost, t);
        }
        let sum = (0..16).map(|i| state.late[i]).sum();
        assert_eq!(late_total(&state), (0, sum));
    }
    assert!(runs > 100, "{runs}");
}

#[test]
fn no_row_is_late_while_no_slot_is_lost() {
    let mut dice = Dice(3);
    let mut runs = 0;
    for _ in 0..500 {
        let table = dice.table(8, 24);
        let (number, _, mut state) = start(&table);
        if number != 0 {
            continue;
        }
        runs += 1;
        for _ in 0..400 {
            while state.count < 5 {
                assert_eq!(request(&mut state, 1, dice.small(1, 9)), 0);
            }
            assert_eq!(slot(&mut state, false).word, 0, "{table:?}");
        }
        assert_eq!(late_total(&state), (0, 0));
    }
    assert!(runs > 100, "{runs}");
}

#[test]
fn a_run_starts_from_nothing() {
    let state = begin(&EXAMPLE);
    let mut expected = State::ZERO;
    expected.n = 3;
    expected.next = 1;
    expected.c[..3].copy_from_slice(&[1, 1, 1]);
    expected.t[..3].copy_from_slice(&[3, 4, 6]);
    expected.d[..3].copy_from_slice(&[3, 4, 6]);
    expected.k[..3].copy_from_slice(&[2, 1, 1]);
    assert_eq!(state, expected);
    assert!(legal(&state));
}

#[test]
fn a_refused_start_gives_the_zero_state() {
    for (rows, refusal) in [
        (&[][..], (4, 0)),
        (&[(0, 1, 1)][..], (5, 1)),
        (&[(1, 5, 5), (1, 4, 4)][..], (6, 2)),
        (&[(2, 4, 4), (3, 7, 6)][..], (7, 2)),
    ] {
        let (number, row, state) = start(&table(rows));
        assert_eq!((number, row), refusal);
        assert_eq!(state, State::ZERO);
        assert_eq!(test(&table(rows)), (refusal.0, refusal.1, 0, [0; 16]));
    }
}

#[test]
fn requests_stand_in_order_and_places_are_used_again() {
    // k = 0 and no idle slot: nothing leaves the queue.
    let mut state = begin(&[(1, 1, 1)]);
    for i in 0..32 {
        assert_eq!(request(&mut state, 100 + i, 7), 0);
    }
    let full = state.clone();
    assert_eq!(request(&mut state, 1, 1), 9);
    assert_eq!(request(&mut state, 1, 0), 8);
    assert_eq!(state, full);

    let mut state = begin(&[(1, 4, 4)]);
    for i in 0..32 {
        assert_eq!(request(&mut state, 100 + i, 1 + u16::from(i == 1)), 0);
    }
    assert_eq!(request(&mut state, 7, 1), 9);
    assert_eq!(slot(&mut state, false).used, Use::Given(100));
    assert_eq!(request(&mut state, 7, 1), 0);
    assert_eq!(request(&mut state, 7, 1), 9);
    assert_eq!(slot(&mut state, false).used, Use::Given(101));
    assert_eq!(request(&mut state, 7, 1), 9);
    assert_eq!(slot(&mut state, false).used, Use::Given(101));
    assert_eq!(state.count, 31);
    assert_eq!(state.names[..2], [102, 103]);
    assert_eq!(state.names[29..], [131, 7, 0]);
    assert_eq!(state.sizes[29..], [1, 1, 0]);
}

#[test]
fn a_refused_call_leaves_the_state() {
    let mut state = begin(&EXAMPLE);
    state.counter[1] = 9;
    let before = state.clone();
    assert_eq!(request(&mut state, 1, 0), 11);
    assert_eq!(late_total(&state), (11, 0));
    let answer = slot(&mut state, true);
    assert_eq!((answer.number, answer.used), (11, Use::Empty));
    assert_eq!((answer.word, answer.late), (0, 0));
    assert_eq!(state, before);
}

#[test]
fn the_last_slot() {
    let mut state = begin(&[(1, 2, 1)]);
    state.next = LAST_SLOT;
    state.hard = LAST_SLOT - 1;
    // Slot 2^48 has an odd number before it: no release, nothing to do.
    assert_eq!(slot(&mut state, false).used, Use::Empty);
    assert_eq!(state.next, LAST_SLOT + 1);
    let before = state.clone();
    for lost in [false, true] {
        let answer = slot(&mut state, lost);
        assert_eq!((answer.number, answer.used), (10, Use::Empty));
    }
    assert_eq!(state, before);
    // Requests and the late total have no such end.
    assert_eq!(request(&mut state, 5, 5), 0);
    assert_eq!(late_total(&state), (0, 0));

    state.next += 1;
    state.hard += 1;
    assert_eq!(slot(&mut state, false).number, 11);
    assert_eq!(late_total(&state).0, 11);
}

#[test]
fn late_counts_add_up_beyond_one_count() {
    let rows: Vec<Row> = (0..16).map(|_| (1, 16, 16)).collect();
    let mut state = begin(&rows);
    state.next = LAST_SLOT + 1;
    state.lost = LAST_SLOT;
    state.late = [LAST_SLOT; 16];
    assert_eq!(late_total(&state), (0, 16 * LAST_SLOT));
    state.late[3] += 1;
    assert_eq!(late_total(&state), (11, 0));
}

#[test]
fn fields_stand_in_their_order() {
    macro_rules! in_order {
        ($($field:ident)*) => {
            let places = [$(std::mem::offset_of!(State, $field)),*];
            assert!(places.is_sorted());
        };
    }
    in_order!(n next c t d k left counter late count names sizes hard given empty lost);
}

#[test]
fn a_legal_state_at_all_its_limits() {
    let mut most = State::ZERO;
    most.n = 2;
    most.next = LAST_SLOT + 1;
    most.c[..2].copy_from_slice(&[2, 4000]);
    most.t[..2].copy_from_slice(&[4096, 4096]);
    most.d[..2].copy_from_slice(&[4096, 4090]);
    most.k[..2].copy_from_slice(&[4094, 90]);
    most.left[..2].copy_from_slice(&[2, 4000]);
    most.counter[..2].copy_from_slice(&[4094, 90]);
    most.late[..2].copy_from_slice(&[LAST_SLOT; 2]);
    most.count = 31;
    most.names[..31].copy_from_slice(&[65535; 31]);
    most.sizes[..31].copy_from_slice(&[65535; 31]);
    most.lost = LAST_SLOT;
    assert!(legal(&most));

    // One step beyond each limit. Some steps need a second figure to follow,
    // so that a single bound is broken.
    type Step = fn(&mut State);
    let steps: &[Step] = &[
        |s| s.n = 3,
        |s| s.n = 1,
        |s| s.n = 0,
        |s| s.next += 1,
        |s| (s.next, s.lost) = (s.next + 1, s.lost + 1),
        |s| s.next -= 1,
        |s| s.t[1] = 4097,
        |s| (s.t[0], s.d[0]) = (4095, 4095),
        |s| (s.t[1], s.d[1], s.k[1], s.counter[1]) = (4095, 4096, 0, 0),
        |s| (s.t[1], s.d[1]) = (4095, 4090),
        |s| (s.c[1], s.k[1], s.counter[1]) = (4091, 0, 0),
        |s| (s.c[0], s.left[0]) = (0, 0),
        |s| s.k[1] = 91,
        |s| s.k[1] = 89,
        |s| s.counter[1] = 91,
        |s| s.left[0] = 3,
        |s| s.left[1] = 4001,
        |s| s.late[0] += 1,
        |s| s.late[1] += 1,
        |s| s.late[1] = u64::MAX,
        |s| s.c[2] = 1,
        |s| s.t[2] = 1,
        |s| s.d[15] = 1,
        |s| s.k[2] = 1,
        |s| s.left[15] = 1,
        |s| s.counter[2] = 1,
        |s| s.late[2] = 1,
        |s| s.late[15] = 1,
        |s| s.count = 30,
        |s| s.count = 32,
        |s| s.count = 33,
        |s| s.sizes[0] = 0,
        |s| s.sizes[30] = 0,
        |s| s.sizes[31] = 1,
        |s| s.names[31] = 1,
        |s| s.lost += 1,
        |s| s.lost -= 1,
        |s| s.hard = 1,
        |s| s.given = 1,
        |s| s.empty = 1,
    ];
    for (place, step) in steps.iter().enumerate() {
        let mut state = most.clone();
        step(&mut state);
        assert!(!letter::legal(&state), "{place}");
        assert!(!legal(&state), "{place}");
    }

    // The same with every place of the queue taken.
    (most.names[31], most.sizes[31], most.count) = (65535, 65535, 32);
    assert!(legal(&most));
    for count in [31, 33, 32 + (1 << 16)] {
        most.count = count;
        assert!(!legal(&most));
    }

    // Nothing wrong but that there are no rows.
    let mut none = State::ZERO;
    none.next = 1;
    assert!(!letter::legal(&none) && !legal(&none));
}
