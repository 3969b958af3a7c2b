//! The proved library against the second implementation, call by call.
//!
//! A [`Case`] is one call with all that it reads. Both sides get it, and every
//! figure, state and byte of the two outcomes has to be the same. A case that
//! fails is printed as one line, which the program `replay` takes.

mod case;
mod compare;
mod make;
mod random;
mod scheduler;

pub mod bytes;
pub mod programs;
pub mod settings;

pub use case::{Case, Outcome};
pub use compare::{compare, Fault, Tester};
pub use make::{any_bytes, disturbed, legal_state, record, table, wild_state};
pub use random::Random;
pub use scheduler::{Proved, Scheduler, Second};
