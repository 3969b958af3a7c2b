//! Times of the proved library beside those of the second implementation:
//! `cargo run --release -p bench [RUNS]`, in rust/.
//!
//! Each round times both sides on the same work, one after the other, and the
//! side that goes first changes from round to round. Where a program's stack
//! comes to lie changes its times, so the rounds are made in several runs of
//! the program. What is printed are medians: of the rounds of a run, then of
//! the runs.
//!
//! `bench/count` counts instructions instead, which do not hang on the pace
//! of the machine.

mod listing;
mod slots;
mod stack;
mod tables;

use std::process::Command;
use std::time::Instant;

const RUNS: usize = 9;
const ROUNDS: usize = 32;

/// The argument with which this program makes one run.
const ONCE: &str = "once";

fn main() {
    let words: Vec<String> = std::env::args().skip(1).collect();
    let word = words.first().cloned().unwrap_or_default();
    match word.as_str() {
        ONCE => measure(),
        "work" => work(&words[1..]).expect("work SIDE WHAT ROWS CALLS"),
        "stack" => stack::print(),
        listing::AS_SECOND => listing::second(),
        _ => {
            print(&runs(word.parse().unwrap_or(RUNS)));
            stack::print();
        }
    }
}

fn work(words: &[String]) -> Option<()> {
    let [side, what, rows, calls] = words else {
        return None;
    };
    slots::work(side, what, rows.parse().ok()?, calls.parse().ok()?)
}

fn measure() {
    slots::time();
    tables::time();
    listing::time();
}

/// Times two pieces of work, `times` of which are done in each call, and prints what they took.
pub fn time_both(what: &str, times: usize, mut proved: impl FnMut(), mut second: impl FnMut()) {
    let mut sides: [(&mut dyn FnMut(), Vec<f64>); 2] =
        [(&mut proved, Vec::new()), (&mut second, Vec::new())];
    for round in 0..ROUNDS {
        for turn in 0..2 {
            let (work, spent) = &mut sides[(round + turn) % 2];
            let begin = Instant::now();
            stack::deeper(round / 2 % 4, *work);
            spent.push(begin.elapsed().as_nanos() as f64 / times as f64);
        }
    }
    let [proved, second] = sides.map(|(_, spent)| median(spent));
    println!("{what}|{proved}|{second}");
}

fn median(mut spent: Vec<f64>) -> f64 {
    spent.sort_by(f64::total_cmp);
    spent[spent.len() / 2]
}

struct Row {
    what: String,
    proved: Vec<f64>,
    second: Vec<f64>,
    ratio: Vec<f64>,
}

fn runs(count: usize) -> Vec<Row> {
    let own = std::env::current_exe().expect("this program's path");
    let mut rows: Vec<Row> = Vec::new();
    for _ in 0..count {
        let output = Command::new(&own).arg(ONCE).output();
        let text = String::from_utf8(output.expect("a run").stdout).expect("text");
        for (i, line) in text.lines().enumerate() {
            add(&mut rows, i, line).expect("a line as `time_both` prints it");
        }
    }
    rows
}

fn add(rows: &mut Vec<Row>, i: usize, line: &str) -> Option<()> {
    let mut parts = line.split('|');
    let what = parts.next()?.to_string();
    let proved: f64 = parts.next()?.parse().ok()?;
    let second: f64 = parts.next()?.parse().ok()?;
    if i == rows.len() {
        rows.push(Row {
            what,
            proved: Vec::new(),
            second: Vec::new(),
            ratio: Vec::new(),
        });
    }
    rows[i].proved.push(proved);
    rows[i].second.push(second);
    rows[i].ratio.push(proved / second);
    Some(())
}

fn print(rows: &[Row]) {
    println!("| what | ratio | proved, ns | second, ns |\n|---|---:|---:|---:|");
    for row in rows {
        let [ratio, proved, second] =
            [&row.ratio, &row.proved, &row.second].map(|times| median(times.clone()));
        println!("| {} | {ratio:.2} | {proved:.0} | {second:.0} |", row.what);
    }
    println!();
}
