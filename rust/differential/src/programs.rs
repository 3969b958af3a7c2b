//! The listing program against the second implementation's listing.

use crate::make::{any_bytes, record};
use crate::random::Random;
use std::io::{self, Write};
use std::path::{Path, PathBuf};
use std::process::{Command, Stdio};
use std::thread;

/// Where the toolchain puts the proved program.
pub fn listing_program() -> PathBuf {
    Path::new(env!("CARGO_MANIFEST_DIR")).join("../../crates/listing/out/listing")
}

/// A command that runs a program made for x86-64; on another processor by the
/// emulator that `EMULATOR` names.
pub fn command(program: &Path) -> Command {
    match std::env::var_os("EMULATOR") {
        Some(emulator) => {
            let mut command = Command::new(emulator);
            command.arg(program);
            command
        }
        None => Command::new(program),
    }
}

/// What a program prints for an input.
pub fn printed(program: &Path, input: &[u8]) -> io::Result<Vec<u8>> {
    let mut child = command(program)
        .stdin(Stdio::piped())
        .stdout(Stdio::piped())
        .spawn()?;
    let mut stdin = child.stdin.take().expect("a pipe was asked for");
    // Beside the reading, so that neither waits for the other with a full pipe.
    thread::scope(|scope| {
        scope.spawn(move || {
            // A program may stop reading early.
            let _ = stdin.write_all(input);
        });
        child.wait_with_output().map(|output| output.stdout)
    })
}

/// Says how the two listings differ; `None` if they are the same.
pub fn listing_fault(program: &Path, input: &[u8]) -> Option<String> {
    let proved = match printed(program, input) {
        Ok(proved) => proved,
        Err(error) => return Some(format!("{} cannot be run: {error}", program.display())),
    };
    let second = opinion::listing(input);
    if proved == second {
        return None;
    }
    let line = proved
        .split(|&byte| byte == b'\n')
        .zip(second.split(|&byte| byte == b'\n'))
        .take_while(|(one, other)| one == other)
        .count();
    Some(format!(
        "the listings differ from line {} on ({} and {} bytes)",
        line + 1,
        proved.len(),
        second.len()
    ))
}

fn begins(record: &[u8]) -> bool {
    let (number, _, table) = opinion::read(record);
    number == 0 && opinion::start(&table).0 == 0
}

/// A record and events, now and then with something wrong in either.
pub fn listing_input(random: &mut Random) -> Vec<u8> {
    if random.once_in(16) {
        let length = random.place(300);
        return any_bytes(random, length);
    }
    let mut input = record(random);
    // Most inputs should come to a run.
    while !random.once_in(8) && !begins(&input) {
        input = record(random);
    }
    let events = random.one_of(&[0, 1, 5, 40, 300, 2000]);
    for _ in 0..events {
        match random.place(16) {
            0 => input.push(1),
            1 | 2 => {
                let size = random.one_of(&[0, 1, 1, 2, 3, 9, 65535]);
                input.push(2);
                input.extend((random.bits() as u16).to_be_bytes());
                input.extend(u16::to_be_bytes(size));
            }
            _ => input.push(0),
        }
    }
    if random.once_in(8) {
        input.push(random.bits() as u8);
    }
    if random.once_in(8) {
        input.truncate(random.place(input.len() + 1));
    }
    if random.once_in(40) {
        input.resize(random.one_of(&[65_535, 65_536, 65_537, 70_000]), 0);
    }
    input
}
