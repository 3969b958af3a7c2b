//! One call with all that it reads, and its outcome; as text too.

use crate::bytes::{
    from_hex, hex, state_bytes, state_of, table_bytes, table_of, STATE_BYTES, TABLE_BYTES,
};
use crate::scheduler::Scheduler;
use fjurkesprek::raw::*;
use fjurkesprek::{State, Table};
use std::fmt;
use std::str::FromStr;

#[derive(Clone, PartialEq, Eq, Debug)]
pub enum Case {
    Read(Vec<u8>),
    /// A table, and what the buffer holds before.
    Write(Table, Vec<u8>),
    Test(Table),
    Start(Table),
    Slot(State, u8),
    Request(State, Ask),
    LateTotal(State),
}

/// The answer, and what the lent place holds afterwards.
#[derive(Clone, PartialEq, Eq, Debug)]
pub enum Outcome {
    Read(ReadAnswer),
    Write(WriteAnswer, Vec<u8>),
    Test(TestAnswer),
    Start(StartAnswer),
    Slot(SlotAnswer, State),
    Request(RequestAnswer, State),
    LateTotal(SumAnswer),
}

impl Case {
    pub fn run(&self, side: &impl Scheduler) -> Outcome {
        match self {
            Case::Read(bytes) => Outcome::Read(side.read(bytes)),
            Case::Write(table, buffer) => {
                let mut lent = buffer.clone();
                Outcome::Write(side.write(table, &mut lent), lent)
            }
            Case::Test(table) => Outcome::Test(side.test(table)),
            Case::Start(table) => Outcome::Start(side.start(table)),
            Case::Slot(state, lost) => {
                let mut lent = state.clone();
                Outcome::Slot(side.slot(&mut lent, *lost), lent)
            }
            Case::Request(state, ask) => {
                let mut lent = state.clone();
                Outcome::Request(side.request(&mut lent, *ask), lent)
            }
            Case::LateTotal(state) => Outcome::LateTotal(side.late_total(state)),
        }
    }

    /// What a refusal with a number has to look like: the rest is 0, and the lent place as it was.
    pub fn refused(&self, number: u8, row: usize) -> Outcome {
        match self {
            Case::Read(_) => Outcome::Read(ReadAnswer {
                number,
                row,
                table: table_of([0; TABLE_BYTES]),
            }),
            Case::Write(_, buffer) => {
                let length = 0;
                let answer = WriteAnswer {
                    number,
                    row,
                    length,
                };
                Outcome::Write(answer, buffer.clone())
            }
            Case::Test(_) => Outcome::Test(TestAnswer {
                number,
                k: 0,
                row,
                each: [0; fjurkesprek::ROWS],
            }),
            Case::Start(_) => Outcome::Start(StartAnswer {
                number,
                row,
                state: state_of([0; STATE_BYTES]),
            }),
            Case::Slot(state, _) => Outcome::Slot(no_slot(number), state.clone()),
            Case::Request(state, _) => {
                Outcome::Request(RequestAnswer { number, row: 0 }, state.clone())
            }
            Case::LateTotal(_) => Outcome::LateTotal(SumAnswer { number, total: 0 }),
        }
    }
}

fn no_slot(number: u8) -> SlotAnswer {
    SlotAnswer {
        number,
        used: EMPTY,
        word: 0,
        late_rows: 0,
        who: 0,
    }
}

impl Outcome {
    pub fn number_and_row(&self) -> (u8, usize) {
        match self {
            Outcome::Read(answer) => (answer.number, answer.row),
            Outcome::Write(answer, _) => (answer.number, answer.row),
            Outcome::Test(answer) => (answer.number, answer.row),
            Outcome::Start(answer) => (answer.number, answer.row),
            Outcome::Slot(answer, _) => (answer.number, 0),
            Outcome::Request(answer, _) => (answer.number, answer.row),
            Outcome::LateTotal(answer) => (answer.number, 0),
        }
    }
}

impl fmt::Display for Case {
    fn fmt(&self, f: &mut fmt::Formatter<'_>) -> fmt::Result {
        match self {
            Case::Read(bytes) => write!(f, "read {}", hex(bytes)),
            Case::Write(table, buffer) => {
                write!(f, "write {} {}", hex(&table_bytes(table)), hex(buffer))
            }
            Case::Test(table) => write!(f, "test {}", hex(&table_bytes(table))),
            Case::Start(table) => write!(f, "start {}", hex(&table_bytes(table))),
            Case::Slot(state, lost) => write!(f, "slot {} {lost}", hex(&state_bytes(state))),
            Case::Request(state, ask) => {
                let Ask { name, size } = ask;
                write!(f, "request {} {name} {size}", hex(&state_bytes(state)))
            }
            Case::LateTotal(state) => write!(f, "late-total {}", hex(&state_bytes(state))),
        }
    }
}

impl FromStr for Case {
    type Err = String;

    fn from_str(text: &str) -> Result<Case, String> {
        let words: Vec<&str> = text.split_whitespace().collect();
        parse(&words).ok_or_else(|| format!("not a case: {text}"))
    }
}

fn parse(words: &[&str]) -> Option<Case> {
    Some(match *words {
        ["read", bytes] => Case::Read(from_hex(bytes)?),
        ["write", table, buffer] => Case::Write(table_in(table)?, from_hex(buffer)?),
        ["test", table] => Case::Test(table_in(table)?),
        ["start", table] => Case::Start(table_in(table)?),
        ["slot", state, lost] => Case::Slot(state_in(state)?, lost.parse().ok()?),
        ["request", state, name, size] => {
            let name = name.parse().ok()?;
            let size = size.parse().ok()?;
            Case::Request(state_in(state)?, Ask { name, size })
        }
        ["late-total", state] => Case::LateTotal(state_in(state)?),
        _ => return None,
    })
}

fn table_in(text: &str) -> Option<Table> {
    Some(table_of(from_hex(text)?.try_into().ok()?))
}

fn state_in(text: &str) -> Option<State> {
    Some(state_of(from_hex(text)?.try_into().ok()?))
}
