//! The proved scheduler, for Rust.
//!
//! A [`Table`] of hard periodic tasks is read from a record and tested; a
//! [`State`] runs it slot by slot, with a queue of requests that get the slots
//! the hard tasks can spare. The library behind it is proved to meet the rules
//! on every input: no call panics, and a refused one changes nothing.
//!
//! ```
//! use fjurkesprek::{Refusal, State, Table, Use};
//!
//! // Rows of C, T, D: (1,3,3), (1,4,4), (1,6,6).
//! let record = [1, 0, 19, 3, 0, 1, 0, 3, 0, 3, 0, 1, 0, 4, 0, 4, 0, 1, 0, 6, 0, 6];
//! let table = Table::read(&record)?;
//! assert_eq!(table.test()?.k, 1);
//!
//! let mut state = State::start(&table)?;
//! for row in [1, 2, 3, 1, 2] {
//!     assert_eq!(state.slot(false)?.used, Use::Hard(row));
//! }
//! state.request(7, 3)?;
//! assert_eq!(state.slot(false)?.used, Use::Given(7));
//! # Ok::<(), Refusal>(())
//! ```

#![no_std]

pub mod raw;

use core::fmt;

/// Rows that a table has room for.
pub const ROWS: usize = 16;

/// Requests that can wait.
pub const PLACES: usize = 32;

/// The last slot of a run.
pub const LAST_SLOT: u64 = 1 << 48;

/// Hard periodic tasks in priority order, figures in slots. Rows past `n` are zero.
#[repr(C)]
#[derive(Clone, PartialEq, Eq, Debug)]
pub struct Table {
    pub n: usize,
    /// Slots needed in each period.
    pub c: [u16; ROWS],
    /// Period.
    pub t: [u16; ROWS],
    /// Deadline, from the start of the period.
    pub d: [u16; ROWS],
}

/// All that a run keeps. Any numbers may stand in it: a call on a state that is not legal is refused.
#[repr(C)]
#[derive(Clone, PartialEq, Eq, Debug)]
pub struct State {
    pub n: usize,
    /// Number of the next slot.
    pub next: u64,
    pub c: [u16; ROWS],
    pub t: [u16; ROWS],
    pub d: [u16; ROWS],
    /// Allowance of each row.
    pub k: [u16; ROWS],
    /// Work left of each row's block.
    pub left: [u16; ROWS],
    /// What is left of the allowance.
    pub counter: [u16; ROWS],
    /// Blocks that missed their deadline and were dropped.
    pub late: [u64; ROWS],
    /// Requests that wait; they stand first, in order.
    pub count: usize,
    pub names: [u16; PLACES],
    /// Slots that each request still needs.
    pub sizes: [u16; PLACES],
    /// Slots by their use.
    pub hard: u64,
    pub given: u64,
    pub empty: u64,
    pub lost: u64,
}

/// Why a call was refused: the number of the rules, 1 to 12, and the row that it names, from 1; 0 names none.
#[derive(Clone, Copy, PartialEq, Eq, Debug)]
pub struct Refusal {
    pub number: u8,
    pub row: usize,
}

/// The allowances of an accepted table.
#[derive(Clone, Copy, PartialEq, Eq, Debug)]
pub struct Allowances {
    /// The smallest.
    pub k: u16,
    /// Each row's own.
    pub each: [u16; ROWS],
}

/// What a slot was used for.
#[derive(Clone, Copy, PartialEq, Eq, Debug)]
pub enum Use {
    /// A hard row, from 1.
    Hard(usize),
    /// A request, by its name.
    Given(u16),
    Empty,
    Lost,
}

/// The answer of a slot.
#[derive(Clone, Copy, PartialEq, Eq, Debug)]
pub struct Slot {
    pub used: Use,
    /// The rows that are late with this slot, bit 0 for row 1.
    pub late_word: u16,
    /// How many they are.
    pub late_rows: u32,
}

impl Table {
    /// The table of a record that fills `bytes` exactly. Refused with 1 to 6.
    ///
    /// ```
    /// use fjurkesprek::{Refusal, Table};
    /// assert_eq!(Table::read(&[]), Err(Refusal { number: 1, row: 0 }));
    /// ```
    pub fn read(bytes: &[u8]) -> Result<Table, Refusal> {
        // SAFETY: the slice's own pointer and length.
        let answer = unsafe { raw::fjurke_read(bytes.as_ptr(), bytes.len()) };
        taken(answer.number, answer.row)?;
        Ok(answer.table)
    }

    /// Writes the record to the front of `buffer` and gives its length; the rest of the buffer stays. Refused with 4, 5, 6, 12.
    ///
    /// ```
    /// # use fjurkesprek::{Refusal, Table};
    /// let record = [1, 0, 7, 1, 0, 2, 0, 9, 0, 5];
    /// let mut buffer = [0xff; 11];
    /// assert_eq!(Table::read(&record)?.write(&mut buffer), Ok(10));
    /// assert_eq!(buffer[..10], record);
    /// assert_eq!(buffer[10], 0xff);
    /// # Ok::<(), Refusal>(())
    /// ```
    pub fn write(&self, buffer: &mut [u8]) -> Result<usize, Refusal> {
        // SAFETY: the slice's own pointer and length, and nobody else has it.
        let answer = unsafe { raw::fjurke_write(self.clone(), buffer.as_mut_ptr(), buffer.len()) };
        taken(answer.number, answer.row)?;
        Ok(answer.length)
    }

    /// The allowances, if no row can be late unless slots are lost. Refused with 4, 5, 6, 7.
    ///
    /// ```
    /// # use fjurkesprek::{Refusal, Table};
    /// // (2,4,4), (3,7,6): row 2 cannot be done in 6 slots.
    /// let table = Table::read(&[1, 0, 13, 2, 0, 2, 0, 4, 0, 4, 0, 3, 0, 7, 0, 6])?;
    /// assert_eq!(table.test(), Err(Refusal { number: 7, row: 2 }));
    /// # Ok::<(), Refusal>(())
    /// ```
    pub fn test(&self) -> Result<Allowances, Refusal> {
        // SAFETY: all goes by value.
        let answer = unsafe { raw::fjurke_test(self.clone()) };
        taken(answer.number, answer.row)?;
        Ok(Allowances {
            k: answer.k,
            each: answer.each,
        })
    }
}

impl State {
    /// The state of a run before slot 1. Refused with 4, 5, 6, 7.
    pub fn start(table: &Table) -> Result<State, Refusal> {
        // SAFETY: all goes by value.
        let answer = unsafe { raw::fjurke_start(table.clone()) };
        taken(answer.number, answer.row)?;
        Ok(answer.state)
    }

    /// Runs one slot; `lost` says that an outside cause took it. Refused with 11, 10.
    ///
    /// ```
    /// # use fjurkesprek::{Refusal, Slot, State, Table, Use};
    /// // (1,2,1): a lost slot 1 makes the row late.
    /// let mut state = State::start(&Table::read(&[1, 0, 7, 1, 0, 1, 0, 2, 0, 1])?)?;
    /// assert_eq!(state.slot(true), Ok(Slot { used: Use::Lost, late_word: 1, late_rows: 1 }));
    /// assert_eq!(state.late_total(), Ok(1));
    /// # Ok::<(), Refusal>(())
    /// ```
    pub fn slot(&mut self, lost: bool) -> Result<Slot, Refusal> {
        // SAFETY: a whole state that nobody else has; any numbers in it will do.
        let answer = unsafe { raw::fjurke_slot(self, u8::from(lost)) };
        taken(answer.number, 0)?;
        Ok(Slot {
            used: match answer.used {
                raw::HARD => Use::Hard(answer.who),
                // A name has 16 bits.
                raw::GIVEN => Use::Given(answer.who as u16),
                raw::LOST => Use::Lost,
                _ => Use::Empty,
            },
            late_word: answer.word,
            late_rows: answer.late_rows,
        })
    }

    /// Puts a request at the end of the queue. Refused with 11, 8, 9.
    ///
    /// ```
    /// # use fjurkesprek::{Refusal, State, Table};
    /// let mut state = State::start(&Table::read(&[1, 0, 7, 1, 0, 1, 0, 2, 0, 2])?)?;
    /// assert_eq!(state.request(5, 0), Err(Refusal { number: 8, row: 0 }));
    /// assert_eq!(state.request(5, 1), Ok(()));
    /// assert_eq!(state.count, 1);
    /// # Ok::<(), Refusal>(())
    /// ```
    pub fn request(&mut self, name: u16, size: u16) -> Result<(), Refusal> {
        // SAFETY: as for a slot.
        let answer = unsafe { raw::fjurke_request(self, raw::Ask { name, size }) };
        taken(answer.number, answer.row)
    }

    /// The late counts of all rows together. Refused with 11.
    pub fn late_total(&self) -> Result<u64, Refusal> {
        // SAFETY: all goes by value.
        let answer = unsafe { raw::fjurke_late_total(self.clone()) };
        taken(answer.number, 0)?;
        Ok(answer.total)
    }
}

fn taken(number: u8, row: usize) -> Result<(), Refusal> {
    match number {
        0 => Ok(()),
        _ => Err(Refusal { number, row }),
    }
}

impl fmt::Display for Refusal {
    fn fmt(&self, f: &mut fmt::Formatter<'_>) -> fmt::Result {
        let why = match self.number {
            1 => "the record is under 4 bytes",
            2 => "the record's version is not 1",
            3 => "the record's length field is wrong",
            4 => "there are no rows, or more than 16",
            5 => "a row is out of bounds",
            6 => "a period is below the one before",
            7 => "a row can be late with no slot given away or lost",
            8 => "a request of no slots",
            9 => "the queue is full",
            10 => "no slot is left",
            11 => "the state is not legal",
            12 => "the buffer is too short",
            _ => "unknown",
        };
        match self.row {
            0 => write!(f, "refused {}: {why}", self.number),
            row => write!(f, "refused {}, row {row}: {why}", self.number),
        }
    }
}

impl core::error::Error for Refusal {}
