//! The listing of the largest input, each side as a program of its own.

use crate::time_both;
use std::fs::{self, File};
use std::io::{self, Read, Write};
use std::path::Path;
use std::process::{Command, Stdio};

/// The argument with which this program is the second implementation's listing.
pub const AS_SECOND: &str = "listing";

pub fn second() {
    let mut input = Vec::new();
    let listed = io::stdin().read_to_end(&mut input).and_then(|_| {
        let mut out = io::stdout().lock();
        out.write_all(&opinion::listing(&input))?;
        out.flush()
    });
    listed.expect("standard input and output");
}

pub fn time() {
    let program = Path::new(env!("CARGO_MANIFEST_DIR")).join("../../crates/listing/out/listing");
    if !program.exists() {
        eprintln!("no listing program: `rt run --cpu x86-64` in crates/listing builds it");
        return;
    }
    let own = std::env::current_exe().expect("this program's path");
    let file = std::env::temp_dir().join(format!("fjurkesprek-bench-{}", std::process::id()));
    fs::write(&file, largest()).expect("a temporary file");
    let proved = || run(Command::new(&program), &file);
    let second = || run(Command::new(&own).arg(AS_SECOND), &file);
    time_both("listing, 65,000 slots of 16 rows", 1, proved, second);
    fs::remove_file(&file).expect("the temporary file");
}

fn run(mut program: impl std::borrow::BorrowMut<Command>, input: &Path) {
    let input = File::open(input).expect("the temporary file");
    let status = program
        .borrow_mut()
        .stdin(input)
        .stdout(Stdio::null())
        .status();
    assert!(status.expect("a program that runs").success());
}

/// A record of 16 rows, 65,000 slots and requests among them up to 65,536 bytes.
fn largest() -> Vec<u8> {
    let mut input = vec![1, 0, 97, 16];
    for i in 1..=16u16 {
        for figure in [1, 10 * i, 10 * i] {
            input.extend(figure.to_be_bytes());
        }
    }
    for i in 0..65_000u16 {
        if i % 750 == 0 {
            input.extend([2, 0, 7, 0, 90]);
        }
        input.push(0);
    }
    assert!(input.len() <= 65_536, "{}", input.len());
    input
}
