//! Records and tables: read, written, tested and started.

use differential::{any_bytes, record, table, Case, Outcome, Tester};

#[test]
fn tables_are_tested_and_started_the_same() {
    let mut tester = Tester::new("tables", 300_000);
    while tester.goes_on() {
        let table = table(&mut tester.random);
        tester.try_case(Case::Test(table.clone()));
        tester.try_case(Case::Start(table));
    }
    tester.expect_numbers(&[0, 4, 5, 6, 7]);
}

#[test]
fn records_are_read_the_same() {
    let mut tester = Tester::new("records", 1_000_000);
    while tester.goes_on() {
        let bytes = record(&mut tester.random);
        if let Outcome::Read(answer) = tester.try_case(Case::Read(bytes)) {
            tester.try_case(Case::Write(answer.table, vec![0xa5; 100]));
        }
    }
    tester.expect_numbers(&[0, 1, 2, 3, 4, 5, 6]);
}

#[test]
fn arbitrary_bytes_are_read_the_same() {
    let mut tester = Tester::new("bytes", 500_000);
    while tester.goes_on() {
        let random = &mut tester.random;
        let n = random.place(18);
        let any = random.place(111);
        let length = random.one_of(&[4 + 6 * n, any]);
        let mut bytes = any_bytes(random, length);
        // A wild head is refused before anything else is looked at.
        if let [version, high, low, count, rows @ ..] = bytes.as_mut_slice() {
            if !random.once_in(4) {
                (*version, *high, *low) = (1, 0, rows.len() as u8 + 1);
                *count = n as u8;
                rows.iter_mut().step_by(2).for_each(|high| *high &= 1);
            }
        }
        tester.try_case(Case::Read(bytes));
    }
    tester.expect_numbers(&[0, 1, 2, 3, 4, 5]);
}

#[test]
fn buffers_of_every_length_are_written_the_same() {
    let mut tester = Tester::new("buffers", 500_000);
    while tester.goes_on() {
        let table = table(&mut tester.random);
        for length in 0..=110 {
            let buffer = any_bytes(&mut tester.random, length);
            tester.try_case(Case::Write(table.clone(), buffer));
        }
    }
    tester.expect_numbers(&[0, 4, 5, 6, 12]);
}
