//! The slot call on a lent state, with and without traffic.

use crate::tables::{second_table, table};
use crate::time_both;
use fjurkesprek::raw::{fjurke_request, fjurke_slot, Ask};
use fjurkesprek::{State, Table};
use std::hint::black_box;

const SLOTS: usize = 20_000;

/// How requests come.
#[derive(Clone, Copy)]
enum Traffic {
    None,
    /// One of 5 slots every 16 slots.
    Some,
    /// Always 24 that wait, of 3 slots each.
    Full,
}

pub fn time() {
    for (traffic, name) in [
        (Traffic::None, "no traffic"),
        (Traffic::Some, "some traffic"),
        (Traffic::Full, "full queue"),
    ] {
        for table in tables() {
            let (rows, s) = (table.n, if table.n == 1 { "" } else { "s" });
            time_slots(&format!("slot, {rows} row{s}, {name}"), &table, traffic);
        }
    }
    for table in tables() {
        let (rows, s) = (table.n, if table.n == 1 { "" } else { "s" });
        time_requests(&format!("request, {rows} row{s}"), &table);
    }
}

fn tables() -> [Table; 3] {
    let sixteen: Vec<_> = (1..=16).map(|i| (1, 10 * i, 10 * i)).collect();
    [
        table(&[(1, 3, 3)]),
        table(&[(1, 5, 5), (1, 7, 7), (2, 11, 10), (1, 13, 13)]),
        table(&sixteen),
    ]
}

fn starts(table: &Table) -> (State, opinion::State) {
    let (_, _, second) = opinion::start(&second_table(table));
    (State::start(table).expect("an accepted table"), second)
}

fn time_slots(what: &str, table: &Table, traffic: Traffic) {
    let (mut proved, mut second) = starts(table);
    time_both(
        what,
        SLOTS,
        || run_proved(&mut proved, traffic, SLOTS),
        || run_second(&mut second, traffic, SLOTS),
    );
    assert_eq!(proved.names, second.names);
    assert_eq!(
        (proved.next, proved.hard, proved.given, proved.late),
        (second.next, second.hard, second.given, second.late)
    );
}

/// One slot in 64 is lost.
fn is_lost(i: usize) -> bool {
    i % 64 == 63
}

/// How many requests come before slot i, and of what size.
fn arrivals(traffic: Traffic, i: usize, waiting: usize) -> (usize, u16) {
    match traffic {
        Traffic::None => (0, 0),
        Traffic::Some => (usize::from(i % 16 == 8), 5),
        Traffic::Full => (24 - waiting.min(24), 3),
    }
}

fn run_proved(state: &mut State, traffic: Traffic, slots: usize) {
    for i in 0..slots {
        let (requests, size) = arrivals(traffic, i, state.count);
        for _ in 0..requests {
            let name = i as u16;
            black_box(unsafe { fjurke_request(state, Ask { name, size }) });
        }
        black_box(unsafe { fjurke_slot(state, is_lost(i).into()) });
    }
}

fn run_second(state: &mut opinion::State, traffic: Traffic, slots: usize) {
    for i in 0..slots {
        let (requests, size) = arrivals(traffic, i, state.count);
        for _ in 0..requests {
            black_box(opinion::request(state, i as u16, size));
        }
        black_box(opinion::slot(state, is_lost(i)));
    }
}

const FILLS: usize = 500;

/// Fills the queue of a fresh state again and again.
fn fill_proved(start: &State, fills: usize) {
    for _ in 0..fills {
        let mut state = start.clone();
        for name in 0..32 {
            black_box(unsafe { fjurke_request(&mut state, Ask { name, size: 1 }) });
        }
    }
}

fn fill_second(start: &opinion::State, fills: usize) {
    for _ in 0..fills {
        let mut state = start.clone();
        for name in 0..32 {
            black_box(opinion::request(&mut state, name, 1));
        }
    }
}

fn time_requests(what: &str, table: &Table) {
    let (proved, second) = starts(table);
    time_both(
        what,
        32 * FILLS,
        || fill_proved(&proved, FILLS),
        || fill_second(&second, FILLS),
    );
}

/// Has one side make so many calls and does nothing else, so that what they
/// take can be counted from outside.
pub fn work(side: &str, what: &str, rows: usize, calls: usize) -> Option<()> {
    let table = tables().into_iter().find(|table| table.n == rows)?;
    let (mut proved, mut second) = starts(&table);
    let traffic = match what {
        "no traffic" => Some(Traffic::None),
        "some traffic" => Some(Traffic::Some),
        "full queue" => Some(Traffic::Full),
        "requests" => None,
        _ => return None,
    };
    match (side, traffic) {
        ("proved", Some(traffic)) => run_proved(&mut proved, traffic, calls),
        ("second", Some(traffic)) => run_second(&mut second, traffic, calls),
        ("proved", None) => fill_proved(&proved, calls / 32),
        ("second", None) => fill_second(&second, calls / 32),
        _ => return None,
    }
    Some(())
}
