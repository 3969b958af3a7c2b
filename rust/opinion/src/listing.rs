//! The listing program, as a function from its input to its output.

use crate::run::{late_total, request, slot, start, State, Use};
use crate::table::read;
use std::fmt::Write;

/// The longest input that is taken.
pub const LONGEST_INPUT: usize = 65_536;

/// What the listing program prints for an input.
pub fn listing(input: &[u8]) -> Vec<u8> {
    let mut out = String::new();
    // A `String` takes every line: the error cannot come.
    let _ = print(input, &mut out);
    out.into_bytes()
}

fn print(input: &[u8], out: &mut String) -> std::fmt::Result {
    if input.len() > LONGEST_INPUT {
        return writeln!(out, "long");
    }
    let (record, events) = input.split_at(record_length(input));
    let (number, row, table) = read(record);
    if number != 0 {
        return writeln!(out, "refused {number} {row}");
    }
    let (number, row, mut state) = start(&table);
    if number != 0 {
        return writeln!(out, "refused {number} {row}");
    }
    run(&mut state, events, record.len(), out)?;
    let (_, late) = late_total(&state);
    let State {
        hard,
        given,
        empty,
        lost,
        ..
    } = state;
    writeln!(out, "total {hard} {given} {empty} {lost} {late}")
}

/// The bytes of the input that are the record.
fn record_length(input: &[u8]) -> usize {
    match input {
        [_, high, low, ..] => {
            let follow = usize::from(u16::from_be_bytes([*high, *low]));
            input.len().min(3 + follow)
        }
        _ => input.len(),
    }
}

/// Runs events; `offset` is where in the input they begin.
fn run(state: &mut State, events: &[u8], offset: usize, out: &mut String) -> std::fmt::Result {
    let mut rest = events;
    while !rest.is_empty() {
        let number = match rest {
            [kind @ (0 | 1), after @ ..] => {
                rest = after;
                let slot_number = state.next;
                let answer = slot(state, *kind == 1);
                if answer.number == 0 {
                    write!(out, "{slot_number} ")?;
                    match answer.used {
                        Use::Hard(row) => write!(out, "H{row}")?,
                        Use::Given(name) => write!(out, "N{name}")?,
                        Use::Empty => write!(out, "E")?,
                        Use::Lost => write!(out, "L")?,
                    }
                    writeln!(out, " {}", answer.word)?;
                }
                answer.number
            }
            [2, a, b, c, d, after @ ..] => {
                rest = after;
                request(
                    state,
                    u16::from_be_bytes([*a, *b]),
                    u16::from_be_bytes([*c, *d]),
                )
            }
            // Unknown, or a request that is cut.
            _ => return writeln!(out, "bad {}", offset + events.len() - rest.len()),
        };
        if number != 0 {
            writeln!(out, "refused {number} 0")?;
        }
    }
    Ok(())
}
