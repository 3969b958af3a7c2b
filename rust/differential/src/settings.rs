//! What a caller can set, and how the tests tell what they did.

use std::env;
use std::io::{self, Write};

/// DIFFERENTIAL_SEED, 1 if it is not set.
pub fn seed() -> u64 {
    setting("DIFFERENTIAL_SEED")
}

/// DIFFERENTIAL_TIMES: how many times as many calls as usual; 1 if it is not set.
pub fn times() -> u64 {
    setting("DIFFERENTIAL_TIMES")
}

fn setting(name: &str) -> u64 {
    match env::var(name) {
        Err(_) => 1,
        Ok(text) => match text.parse() {
            Ok(number) => number,
            Err(_) => panic!("{name} is not a number: {text}"),
        },
    }
}

/// Prints a line even for a test that passes, unlike the macros of print.
pub fn tell(line: &str) {
    // A line that cannot be shown is no reason to fail.
    let _ = writeln!(io::stderr(), "{line}");
}
