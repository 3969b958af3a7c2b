//! The listing program's output.

use super::common::*;
use crate::listing;

fn text(input: &[u8]) -> String {
    String::from_utf8(listing(input)).unwrap()
}

/// Rows, then events.
fn run(rows: &[Row], events: &[u8]) -> String {
    let mut input = record(rows);
    input.extend(events);
    text(&input)
}

#[test]
fn the_example() {
    let mut events = vec![0; 5];
    events.extend([2, 0, 7, 0, 3]);
    events.extend([0; 7]);
    let expected = "\
1 H1 0
2 H2 0
3 H3 0
4 H1 0
5 H2 0
6 N7 0
7 N7 0
8 H1 0
9 H2 0
10 H1 0
11 H3 0
12 N7 0
total 9 3 0 0 0
";
    assert_eq!(run(&EXAMPLE, &events), expected);
}

#[test]
fn long_and_just_not_long() {
    let mut input = record(&[(1, 1, 1)]);
    input.resize(65_536, 1);
    let lines = text(&input);
    assert_eq!(lines.lines().count(), 65_526 + 1);
    assert!(lines.ends_with("65526 L 1\ntotal 0 0 0 65526 65526\n"));
    input.push(1);
    assert_eq!(text(&input), "long\n");
    // Before any refusal.
    assert_eq!(text(&[0; 65_537]), "long\n");
    assert_eq!(text(&vec![0; 1_000_000]), "long\n");
    assert_eq!(text(&[0; 65_536]), "refused 1 0\n");
    // A record that takes the whole of the longest input.
    let mut input = vec![1, 0xff, 0xfd];
    input.resize(65_536, 0);
    assert_eq!(text(&input), "refused 3 0\n");
}

#[test]
fn where_the_record_ends() {
    for input in [&[][..], &[1], &[1, 0], &[1, 0, 7], &[9]] {
        assert_eq!(text(input), "refused 1 0\n");
    }
    // The length field cuts, whatever the version byte.
    assert_eq!(text(&[1, 0, 0, 1, 0, 1]), "refused 1 0\n");
    assert_eq!(text(&[2, 0, 0, 1, 0, 1]), "refused 1 0\n");
    assert_eq!(text(&[2, 0, 1, 1, 0, 1]), "refused 2 0\n");
    // One more by the length field takes the first event into the record.
    let mut input = record(&EXAMPLE);
    input[2] += 1;
    input.push(0);
    assert_eq!(text(&input), "refused 3 0\n");
    // Fewer bytes than the field says: all of them.
    assert_eq!(text(&record(&EXAMPLE)[..21]), "refused 3 0\n");
    assert_eq!(text(&record(&EXAMPLE)), "total 0 0 0 0 0\n");
}

#[test]
fn refusals_name_their_row() {
    assert_eq!(run(&[], &[]), "refused 4 0\n");
    assert_eq!(run(&[(1, 1, 1); 17], &[0]), "refused 4 0\n");
    assert_eq!(run(&[(1, 4, 4), (1, 5, 6)], &[0]), "refused 5 2\n");
    assert_eq!(run(&[(1, 5, 5), (1, 4, 4)], &[0]), "refused 6 2\n");
    // The start refuses this one; the events are not looked at.
    assert_eq!(run(&[(2, 4, 4), (3, 7, 6)], &[0, 77]), "refused 7 2\n");
}

#[test]
fn bad_events_end_the_run() {
    let rows = [(1, 2, 2)];
    for byte in 3..=255 {
        let expected = "1 H1 0\nbad 11\ntotal 1 0 0 0 0\n";
        assert_eq!(run(&rows, &[0, byte, 0, 0]), expected);
    }
    let request = [2, 0, 7, 0, 1];
    for length in 1..5 {
        let expected = "bad 10\ntotal 0 0 0 0 0\n";
        assert_eq!(run(&rows, &request[..length]), expected);
    }
    assert_eq!(run(&rows, &request), "total 0 0 0 0 0\n");
}

#[test]
fn refused_events_do_not_end_it() {
    let mut events = vec![2, 0, 7, 0, 0];
    for _ in 0..33 {
        events.extend([2, 0, 7, 0, 1]);
    }
    // 8 comes before 9.
    events.extend([2, 0, 7, 0, 0]);
    events.push(0);
    let expected = "refused 8 0\nrefused 9 0\nrefused 8 0\n1 N7 0\ntotal 0 1 0 0 0\n";
    assert_eq!(run(&[(1, 2, 2)], &events), expected);
}

#[test]
fn every_use_and_the_late_word() {
    let rows = [(1, 4, 2), (1, 4, 2)];
    let events = [1, 1, 0, 2, 1, 1, 0, 2, 0, 0];
    let expected = "\
1 L 0
2 L 3
3 E 0
4 N257 0
5 H1 0
total 1 1 1 2 2
";
    assert_eq!(run(&rows, &events), expected);
}
