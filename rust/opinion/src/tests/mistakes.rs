//! Errors that look reasonable. Each test names a case on which the right
//! rules and the mistaken ones part, and shows that they do.

use super::common::*;
use super::letter::{self, Mistake};
use crate::*;

/// The uses of the first slots by the plain rules with a mistake in them, and
/// the state they lead to. `ask` makes the requests due before a slot.
fn mistaken(
    rows: &[Row],
    slots: u64,
    mistake: Mistake,
    ask: impl Fn(u64, &mut State),
) -> (Vec<Use>, State) {
    let mut state = begin(rows);
    let uses = (1..=slots)
        .map(|t| {
            ask(t, &mut state);
            let (after, answer) = letter::slot(&state, false, mistake);
            state = after;
            answer.used
        })
        .collect();
    (uses, state)
}

/// The same by the library.
fn right(rows: &[Row], slots: u64, ask: impl Fn(u64, &mut State)) -> Vec<Use> {
    let mut state = begin(rows);
    (1..=slots)
        .map(|t| {
            ask(t, &mut state);
            slot(&mut state, false).used
        })
        .collect()
}

/// The request of the worked example: three slots, from before slot 6.
fn seven(t: u64, state: &mut State) {
    if t == 6 {
        assert_eq!(request(state, 7, 3), 0);
    }
}

fn example() -> Vec<Use> {
    use Use::{Given as N, Hard as H};
    vec![
        H(1),
        H(2),
        H(3),
        H(1),
        H(2),
        N(7),
        N(7),
        H(1),
        H(2),
        H(1),
        H(3),
        N(7),
    ]
}

#[test]
fn the_example_goes_right() {
    assert_eq!(right(&EXAMPLE, 12, seven), example());
    assert_eq!(mistaken(&EXAMPLE, 12, Mistake::None, seven).0, example());
}

#[test]
fn judging_a_row_only_at_its_deadline() {
    let rows = [(2, 4, 4), (2, 5, 5)];
    // By slot 5 row 1 has asked twice: 6 slots in all.
    let by_five = 2 + 2 * 5u16.div_ceil(4);
    assert_eq!(by_five, 6);
    assert_eq!(test(&table(&rows)).0, 0);
    let mut state = begin(&rows);
    for _ in 0..4 {
        slot(&mut state, false);
    }
    assert_eq!(state.left[..2], [0, 0]);
    assert_eq!(right(&rows, 4, |_, _| ())[2..], [Use::Hard(2); 2]);
    // A largest k taken at the deadline alone would be wrong as well.
    let rows = [(2, 4, 4), (1, 5, 5)];
    assert_eq!(5 - 1 - 2 * 5u16.div_ceil(4), 0);
    assert_eq!(test(&table(&rows)).3[1], 1);
}

#[test]
fn reloading_after_the_release() {
    let (uses, _) = mistaken(&EXAMPLE, 12, Mistake::ReloadAfterRelease, seven);
    assert_eq!(uses[..6], example()[..6]);
    assert_eq!((uses[6], example()[6]), (Use::Hard(1), Use::Given(7)));
}

#[test]
fn reloading_one_row_only() {
    let (uses, _) = mistaken(&EXAMPLE, 12, Mistake::ReloadOneRow, seven);
    assert_eq!(uses[..6], example()[..6]);
    assert_ne!(uses[6], example()[6]);
    // After slot 1 of the right rules every row has its allowance.
    let mut state = begin(&EXAMPLE);
    slot(&mut state, false);
    assert_eq!(state.counter, state.k);
}

#[test]
fn a_ban_in_idle_slots() {
    let rows = [(2, 4, 4), (2, 5, 5)];
    let ask = |t, state: &mut State| {
        if t == 1 {
            assert_eq!(request(state, 9, 1), 0);
        }
    };
    assert_eq!(right(&rows, 15, ask)[14], Use::Given(9));
    let (uses, _) = mistaken(&rows, 400, Mistake::BanWhenIdle, ask);
    assert_eq!(uses[14], Use::Empty);
    assert!(!uses.contains(&Use::Given(9)));
    // A slot given in the background leaves the counters.
    let mut state = begin(&rows);
    ask(1, &mut state);
    for _ in 0..15 {
        slot(&mut state, false);
    }
    assert_eq!((state.given, state.counter[0]), (1, 2));
}

#[test]
fn a_late_count_in_a_byte() {
    let mut quick = begin(&[(1, 1, 1)]);
    let mut byte = quick.clone();
    for _ in 0..260 {
        slot(&mut quick, true);
        byte = letter::slot(&byte, true, Mistake::LateInAByte).0;
    }
    assert_eq!(byte.late[0], 4);
    assert_eq!((quick.late[0], late_total(&quick)), (260, (0, 260)));
}

#[test]
fn row_one_for_all() {
    let (_, _, k, each) = test(&table(&EXAMPLE));
    assert_eq!((k, each[0]), (1, 2));
    // As a rule for giving: slot 8 would go to the request.
    let (uses, _) = mistaken(&EXAMPLE, 12, Mistake::RowOneDecides, seven);
    assert_eq!(uses[..7], example()[..7]);
    assert_eq!((uses[7], example()[7]), (Use::Given(7), Use::Hard(1)));
}
