//! The comparison, and the count of what was compared.

use crate::case::{Case, Outcome};
use crate::random::Random;
use crate::scheduler::{Proved, Scheduler, Second};
use crate::settings::{seed, tell, times};
use std::fmt;
use std::thread;

/// A case on which the two sides differ, or on which both break a rule.
#[derive(Debug)]
pub struct Fault {
    pub case: Case,
    pub what: String,
}

/// Gives the case to both sides. Refused, it has to leave all as it was, which
/// two sides that agree could both forget.
pub fn compare(
    case: Case,
    one: &impl Scheduler,
    other: &impl Scheduler,
) -> Result<Outcome, Box<Fault>> {
    let running = Running(&case);
    let first = case.run(one);
    let second = case.run(other);
    drop(running);
    if first != second {
        let what = format!("one side: {first:?}\nthe other: {second:?}");
        return Err(Box::new(Fault { case, what }));
    }
    let (number, row) = first.number_and_row();
    if number != 0 && first != case.refused(number, row) {
        let what = format!("a refused call that tells or changes more: {first:?}");
        return Err(Box::new(Fault { case, what }));
    }
    if number == 0 && row != 0 {
        let what = format!("a taken call that names a row: {first:?}");
        return Err(Box::new(Fault { case, what }));
    }
    Ok(first)
}

impl fmt::Display for Fault {
    fn fmt(&self, f: &mut fmt::Formatter<'_>) -> fmt::Result {
        writeln!(f, "{}\n{}", self.what, again(&self.case))
    }
}

fn again(case: &Case) -> String {
    format!("again, in rust/: cargo run --bin replay -- '{case}'")
}

/// Tells the case if a side panics on it.
struct Running<'a>(&'a Case);

impl Drop for Running<'_> {
    fn drop(&mut self) {
        if thread::panicking() {
            tell(&again(self.0));
        }
    }
}

/// One family of cases: its seed, how many calls it is worth, and what they gave.
pub struct Tester {
    pub random: Random,
    name: &'static str,
    budget: u64,
    calls: u64,
    numbers: [u64; 13],
    uses: [u64; 4],
    late_slots: u64,
}

impl Tester {
    pub fn new(name: &'static str, calls: u64) -> Tester {
        Tester {
            random: Random::new(seed()),
            name,
            budget: calls * times(),
            calls: 0,
            numbers: [0; 13],
            uses: [0; 4],
            late_slots: 0,
        }
    }

    pub fn goes_on(&self) -> bool {
        self.calls < self.budget
    }

    pub fn try_case(&mut self, case: Case) -> Outcome {
        self.calls += 1;
        match compare(case, &Proved, &Second) {
            Ok(outcome) => {
                self.count(&outcome);
                outcome
            }
            Err(fault) => panic!(
                "{}, seed {}, call {}\n{fault}",
                self.name,
                seed(),
                self.calls
            ),
        }
    }

    fn count(&mut self, outcome: &Outcome) {
        let (number, _) = outcome.number_and_row();
        self.numbers[usize::from(number)] += 1;
        if let (Outcome::Slot(answer, _), 0) = (outcome, number) {
            self.uses[usize::from(answer.used)] += 1;
            self.late_slots += u64::from(answer.word != 0);
        }
    }

    /// Each of these numbers was given back often; 0 stands for calls that were taken.
    pub fn expect_numbers(&self, numbers: &[usize]) {
        for &number in numbers {
            assert!(self.numbers[number] > 500, "number {number} hardly came");
        }
    }

    pub fn expect_never(&self, number: usize) {
        assert_eq!(self.numbers[number], 0, "number {number} came");
    }

    /// Slots went to every use, and rows were late.
    pub fn expect_all_uses(&self) {
        assert!(
            self.uses.iter().all(|&times| times > 500),
            "{:?}",
            self.uses
        );
        assert!(self.late_slots > 500, "rows were hardly late");
    }
}

impl Drop for Tester {
    fn drop(&mut self) {
        let Tester { name, calls, .. } = self;
        let mut told = format!(
            "{name}: seed {}, {calls} calls, taken {}",
            seed(),
            self.numbers[0]
        );
        for (number, times) in self.numbers.iter().enumerate().skip(1) {
            if *times != 0 {
                told += &format!(", {number}: {times}");
            }
        }
        tell(&told);
    }
}
