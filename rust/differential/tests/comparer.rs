//! The comparison itself: a side that is wrong in one thing is found out, and
//! the case that is printed leads to the same fault again.

use differential::{compare, legal_state, record, table, Case, Fault, Outcome, Random};
use differential::{Proved, Scheduler, Second};
use fjurkesprek::raw::*;
use fjurkesprek::{State, Table};

/// The second implementation with one wrong figure in whatever it gives.
struct Wrong(&'static str);

impl Wrong {
    fn is(&self, what: &str) -> bool {
        self.0 == what
    }
}

impl Scheduler for Wrong {
    fn read(&self, bytes: &[u8]) -> ReadAnswer {
        let mut answer = Second.read(bytes);
        answer.table.d[15] ^= u16::from(self.is("read table"));
        answer.row += usize::from(self.is("read row"));
        answer
    }

    fn write(&self, table: &Table, buffer: &mut [u8]) -> WriteAnswer {
        let mut answer = Second.write(table, buffer);
        answer.length += usize::from(self.is("written length"));
        if self.is("byte past the record") {
            buffer[answer.length] ^= 1;
        }
        answer
    }

    fn test(&self, table: &Table) -> TestAnswer {
        let mut answer = Second.test(table);
        answer.k ^= u16::from(self.is("k"));
        answer.each[0] ^= u16::from(self.is("k of row 1"));
        answer
    }

    fn start(&self, table: &Table) -> StartAnswer {
        let mut answer = Second.start(table);
        answer.state.empty ^= u64::from(self.is("started state"));
        answer
    }

    fn slot(&self, state: &mut State, lost: u8) -> SlotAnswer {
        let before = state.clone();
        let mut answer = Second.slot(state, lost);
        answer.word ^= u16::from(self.is("late word"));
        answer.late_rows ^= u32::from(self.is("late rows"));
        answer.who ^= usize::from(self.is("who"));
        state.sizes[31] ^= u16::from(self.is("last size"));
        if self.is("slot that leaves the state") {
            *state = before;
        }
        answer
    }

    fn request(&self, state: &mut State, ask: Ask) -> RequestAnswer {
        let mut answer = Second.request(state, ask);
        answer.number ^= u8::from(self.is("number of a request"));
        state.names[31] ^= u16::from(self.is("last name"));
        answer
    }

    fn late_total(&self, state: &State) -> SumAnswer {
        let mut answer = Second.late_total(state);
        answer.total &= if self.is("late total in a byte") {
            255
        } else {
            u64::MAX
        };
        answer
    }
}

/// A taken call of each kind.
fn taken() -> Vec<Case> {
    let mut random = Random::new(7);
    let table = loop {
        let table = table(&mut random);
        if Second.test(&table).number == 0 {
            break table;
        }
    };
    let record = loop {
        let bytes = record(&mut random);
        if Second.read(&bytes).number == 0 {
            break bytes;
        }
    };
    let mut state = legal_state(&mut random);
    while state.count == 32 || state.next < 1 << 40 || state.late[0] < 256 {
        state = legal_state(&mut random);
    }
    vec![
        Case::Read(record),
        Case::Write(table.clone(), vec![7; 110]),
        Case::Test(table.clone()),
        Case::Start(table),
        Case::Slot(state.clone(), 0),
        Case::Request(state.clone(), Ask { name: 1, size: 1 }),
        Case::LateTotal(state),
    ]
}

fn faults(side: &impl Scheduler) -> Vec<Fault> {
    let compared = taken().into_iter().map(|case| compare(case, &Proved, side));
    compared
        .filter_map(Result::err)
        .map(|fault| *fault)
        .collect()
}

#[test]
fn the_true_sides_agree() {
    assert_eq!(faults(&Second).len(), 0);
}

#[test]
fn each_wrong_side_is_found_out_and_found_again() {
    for what in [
        "read table",
        "read row",
        "written length",
        "byte past the record",
        "k",
        "k of row 1",
        "started state",
        "late word",
        "late rows",
        "who",
        "last size",
        "slot that leaves the state",
        "number of a request",
        "last name",
        "late total in a byte",
    ] {
        let faults = faults(&Wrong(what));
        assert_eq!(faults.len(), 1, "{what}");
        let again: Case = faults[0].case.to_string().parse().unwrap();
        assert_eq!(again, faults[0].case, "{what}");
        assert!(compare(again, &Proved, &Wrong(what)).is_err(), "{what}");
    }
}

/// Two sides that agree on a wrong refusal.
struct Careless;

impl Scheduler for Careless {
    fn read(&self, bytes: &[u8]) -> ReadAnswer {
        let mut answer = Second.read(bytes);
        answer.table.n = 1;
        answer
    }
    fn write(&self, table: &Table, buffer: &mut [u8]) -> WriteAnswer {
        buffer[0] = 1;
        Second.write(table, buffer)
    }
    fn test(&self, table: &Table) -> TestAnswer {
        Second.test(table)
    }
    fn start(&self, table: &Table) -> StartAnswer {
        Second.start(table)
    }
    fn slot(&self, state: &mut State, lost: u8) -> SlotAnswer {
        let answer = Second.slot(state, lost);
        state.lost = state.lost.wrapping_add(u64::from(lost));
        answer
    }
    fn request(&self, state: &mut State, ask: Ask) -> RequestAnswer {
        Second.request(state, ask)
    }
    fn late_total(&self, state: &State) -> SumAnswer {
        Second.late_total(state)
    }
}

#[test]
fn a_refusal_that_changes_something_is_found_though_both_sides_agree() {
    let mut state = legal_state(&mut Random::new(3));
    state.n = 17;
    let mut table = table(&mut Random::new(3));
    table.n = 0;
    for case in [
        Case::Read(vec![2; 10]),
        Case::Write(table, vec![7; 10]),
        Case::Slot(state, 1),
    ] {
        assert!(
            compare(case.clone(), &Careless, &Careless).is_err(),
            "{case}"
        );
        let outcome: Outcome = compare(case, &Second, &Second).unwrap();
        assert_ne!(outcome.number_and_row().0, 0);
    }
}
