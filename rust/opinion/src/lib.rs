//! A second reading of the scheduler's rules: hard periodic tasks of fixed
//! priority on one processor, their allowances, and a queue of requests that
//! get slots the hard tasks can spare.
//!
//! Calls give back the numbers of the rules' table: 0 for a call that is
//! taken, 1 to 12 for a refusal. Rows are counted from 1 wherever a caller
//! sees them. No call panics, whatever a table, a state or some bytes hold.

#![forbid(unsafe_code)]

mod allowance;
mod listing;
mod run;
mod table;

#[cfg(test)]
mod tests;

pub use allowance::{allowance_by_definition, test};
pub use listing::{listing, LONGEST_INPUT};
pub use run::{late_total, legal, request, slot, start, Answer, State, Use, LAST_SLOT, PLACES};
pub use table::{form, read, write, Table, LONGEST_PERIOD, ROWS};
