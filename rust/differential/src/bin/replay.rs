//! Gives cases to both sides again: the program's arguments, or the lines of
//! standard input where there are none. Prints what each side made of them.

use differential::bytes::from_hex;
use differential::programs::{listing_fault, listing_program};
use differential::{Case, Proved, Second};
use std::io::{self, BufRead};
use std::process::ExitCode;

fn main() -> ExitCode {
    let mut texts: Vec<String> = std::env::args().skip(1).collect();
    if texts.is_empty() {
        texts = io::stdin().lock().lines().map_while(Result::ok).collect();
    }
    let differ = texts.iter().filter(|text| !agree(text)).count();
    println!("{} of {} cases differ", differ, texts.len());
    match differ {
        0 => ExitCode::SUCCESS,
        _ => ExitCode::FAILURE,
    }
}

fn agree(text: &str) -> bool {
    if let Some(input) = text.strip_prefix("listing ").and_then(from_hex) {
        let fault = listing_fault(&listing_program(), &input);
        println!(
            "{}",
            fault.as_deref().unwrap_or("the listings are the same")
        );
        return fault.is_none();
    }
    match text.parse::<Case>() {
        Ok(case) => {
            println!("case: {case:?}");
            let proved = case.run(&Proved);
            let second = case.run(&Second);
            println!("proved: {proved:?}");
            println!("second: {second:?}");
            proved == second
        }
        Err(why) => {
            println!("{why}");
            false
        }
    }
}
