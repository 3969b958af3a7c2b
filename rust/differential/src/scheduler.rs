//! The calls of both sides in one form, the library's own.

use fjurkesprek::raw::{self, *};
use fjurkesprek::{State, Table};

pub trait Scheduler {
    fn read(&self, bytes: &[u8]) -> ReadAnswer;
    fn write(&self, table: &Table, buffer: &mut [u8]) -> WriteAnswer;
    fn test(&self, table: &Table) -> TestAnswer;
    fn start(&self, table: &Table) -> StartAnswer;
    fn slot(&self, state: &mut State, lost: u8) -> SlotAnswer;
    fn request(&self, state: &mut State, ask: Ask) -> RequestAnswer;
    fn late_total(&self, state: &State) -> SumAnswer;
}

/// The proved library.
pub struct Proved;

/// The second implementation.
pub struct Second;

// SAFETY of all: slices go as their own pointer and length, states as whole
// states that nobody else has.
impl Scheduler for Proved {
    fn read(&self, bytes: &[u8]) -> ReadAnswer {
        unsafe { raw::fjurke_read(bytes.as_ptr(), bytes.len()) }
    }

    fn write(&self, table: &Table, buffer: &mut [u8]) -> WriteAnswer {
        unsafe { raw::fjurke_write(table.clone(), buffer.as_mut_ptr(), buffer.len()) }
    }

    fn test(&self, table: &Table) -> TestAnswer {
        unsafe { raw::fjurke_test(table.clone()) }
    }

    fn start(&self, table: &Table) -> StartAnswer {
        unsafe { raw::fjurke_start(table.clone()) }
    }

    fn slot(&self, state: &mut State, lost: u8) -> SlotAnswer {
        unsafe { raw::fjurke_slot(state, lost) }
    }

    fn request(&self, state: &mut State, ask: Ask) -> RequestAnswer {
        unsafe { raw::fjurke_request(state, ask) }
    }

    fn late_total(&self, state: &State) -> SumAnswer {
        unsafe { raw::fjurke_late_total(state.clone()) }
    }
}

impl Scheduler for Second {
    fn read(&self, bytes: &[u8]) -> ReadAnswer {
        let (number, row, table) = opinion::read(bytes);
        ReadAnswer {
            number,
            row,
            table: table_from(table),
        }
    }

    fn write(&self, table: &Table, buffer: &mut [u8]) -> WriteAnswer {
        let (number, row, length) = opinion::write(&table_for(table), buffer);
        WriteAnswer {
            number,
            row,
            length,
        }
    }

    fn test(&self, table: &Table) -> TestAnswer {
        let (number, row, k, each) = opinion::test(&table_for(table));
        TestAnswer {
            number,
            k,
            row,
            each,
        }
    }

    fn start(&self, table: &Table) -> StartAnswer {
        let (number, row, state) = opinion::start(&table_for(table));
        StartAnswer {
            number,
            row,
            state: state_from(state),
        }
    }

    fn slot(&self, state: &mut State, lost: u8) -> SlotAnswer {
        let mut own = state_for(state);
        let answer = opinion::slot(&mut own, lost != 0);
        *state = state_from(own);
        let (used, who) = match answer.used {
            opinion::Use::Hard(row) => (HARD, row),
            opinion::Use::Given(name) => (GIVEN, name.into()),
            opinion::Use::Empty => (EMPTY, 0),
            opinion::Use::Lost => (LOST, 0),
        };
        SlotAnswer {
            number: answer.number,
            used,
            word: answer.word,
            late_rows: answer.late,
            who,
        }
    }

    fn request(&self, state: &mut State, ask: Ask) -> RequestAnswer {
        let mut own = state_for(state);
        let number = opinion::request(&mut own, ask.name, ask.size);
        *state = state_from(own);
        RequestAnswer { number, row: 0 }
    }

    fn late_total(&self, state: &State) -> SumAnswer {
        let (number, total) = opinion::late_total(&state_for(state));
        SumAnswer { number, total }
    }
}

/// A struct made of the same fields of another.
macro_rules! same_fields {
    ($from:expr => $to:path { $($field:ident),* }) => {{
        let from = $from;
        $to { $($field: from.$field),* }
    }};
}

fn table_for(table: &Table) -> opinion::Table {
    same_fields!(table.clone() => opinion::Table { n, c, t, d })
}

fn table_from(table: opinion::Table) -> Table {
    same_fields!(table => Table { n, c, t, d })
}

fn state_for(state: &State) -> opinion::State {
    same_fields!(state => opinion::State {
        n, next, c, t, d, k, left, counter, late, count, names, sizes, hard, given, empty, lost
    })
}

fn state_from(state: opinion::State) -> State {
    same_fields!(state => State {
        n, next, c, t, d, k, left, counter, late, count, names, sizes, hard, given, empty, lost
    })
}
