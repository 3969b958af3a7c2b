//! Tests, by theme. `common` has the small tools, `letter` the rules of a
//! slot written out step by step, with the mistakes one could make in them.

mod allowances;
mod common;
mod garbage;
mod letter;
mod lines;
mod listings;
mod mistakes;
mod records;
mod slots;
