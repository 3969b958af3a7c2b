//! Runs of many slots and requests, and calls on states that no run made.

use differential::{disturbed, legal_state, table, wild_state, Case, Outcome, Tester};
use fjurkesprek::raw::Ask;
use fjurkesprek::{State, LAST_SLOT};

/// One call of a run: mostly a slot. Gives the state after it.
fn event(tester: &mut Tester, state: State, busy: u64) -> State {
    let random = &mut tester.random;
    let case = if random.place(100) as u64 >= busy {
        let lost = if random.once_in(20) {
            random.small(1, 255)
        } else {
            0
        };
        Case::Slot(state, lost as u8)
    } else {
        let name = random.bits() as u16;
        let size = random.one_of(&[0, 1, 1, 2, 3, 7, 40, 65535]);
        Case::Request(state, Ask { name, size })
    };
    match tester.try_case(case) {
        Outcome::Slot(_, state) | Outcome::Request(_, state) => state,
        outcome => panic!("another call's outcome: {outcome:?}"),
    }
}

fn every_call_on(tester: &mut Tester, state: State) {
    tester.try_case(Case::LateTotal(state.clone()));
    let lost = tester.random.place(3) as u8;
    tester.try_case(Case::Slot(state.clone(), lost));
    let name = tester.random.bits() as u16;
    let size = tester.random.small(0, 2);
    tester.try_case(Case::Request(state, Ask { name, size }));
}

#[test]
fn runs_from_the_start_go_the_same_way() {
    let mut tester = Tester::new("runs", 2_000_000);
    while tester.goes_on() {
        let table = table(&mut tester.random);
        let Outcome::Start(start) = tester.try_case(Case::Start(table)) else {
            panic!("a start gives a start's outcome");
        };
        if start.number != 0 {
            continue;
        }
        let mut state = start.state;
        let busy = tester.random.between(0, 60);
        for _ in 0..tester.random.between(10, 4000) {
            state = event(&mut tester, state, busy);
        }
        tester.try_case(Case::LateTotal(state));
    }
    tester.expect_numbers(&[0, 8, 9]);
    tester.expect_all_uses();
}

#[test]
fn runs_from_any_legal_state_go_the_same_way() {
    let mut tester = Tester::new("legal states", 1_000_000);
    while tester.goes_on() {
        let mut state = legal_state(&mut tester.random);
        for _ in 0..20 {
            state = event(&mut tester, state, 15);
        }
        tester.try_case(Case::LateTotal(state));
    }
    tester.expect_numbers(&[0, 8, 9, 10]);
    tester.expect_never(11);
    tester.expect_all_uses();
}

#[test]
fn runs_end_the_same_at_the_last_slot() {
    let mut tester = Tester::new("last slots", 300_000);
    while tester.goes_on() {
        let mut state = legal_state(&mut tester.random);
        let run = LAST_SLOT - tester.random.between(0, 4);
        (state.hard, state.given, state.empty, state.lost) = (1, 2, 3, run - 6);
        state.next = run + 1;
        for _ in 0..8 {
            state = event(&mut tester, state, 10);
        }
        every_call_on(&mut tester, state.clone());
        state.next = LAST_SLOT + tester.random.between(1, 3);
        every_call_on(&mut tester, state);
    }
    tester.expect_numbers(&[0, 10, 11]);
}

#[test]
fn a_disturbed_state_is_met_the_same_way() {
    let mut tester = Tester::new("disturbed states", 1_500_000);
    while tester.goes_on() {
        let mut state = legal_state(&mut tester.random);
        for _ in 0..4 {
            let wrong = disturbed(&mut tester.random, &state);
            every_call_on(&mut tester, wrong);
            state = event(&mut tester, state, 30);
        }
    }
    tester.expect_numbers(&[0, 8, 9, 10, 11]);
}

#[test]
fn arbitrary_bytes_are_met_as_a_state_the_same_way() {
    let mut tester = Tester::new("wild states", 300_000);
    while tester.goes_on() {
        let state = wild_state(&mut tester.random);
        every_call_on(&mut tester, state);
    }
}
