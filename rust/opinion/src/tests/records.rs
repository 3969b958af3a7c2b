//! Records in and out, and the form of a table.

use super::common::*;
use crate::*;

fn refusal(bytes: &[u8]) -> (u8, usize) {
    let (number, row, table) = read(bytes);
    if number != 0 {
        assert_eq!(table, Table::ZERO);
    }
    (number, row)
}

#[test]
fn the_example() {
    let bytes = [
        1, 0, 0x13, 3, 0, 1, 0, 3, 0, 3, 0, 1, 0, 4, 0, 4, 0, 1, 0, 6, 0, 6,
    ];
    assert_eq!(bytes[..], record(&EXAMPLE));
    assert_eq!(read(&bytes), (0, 0, table(&EXAMPLE)));
}

#[test]
fn figures_are_big_endian() {
    let bytes = [1, 0, 7, 1, 0x01, 0x02, 0x0f, 0xfe, 0x03, 0x04];
    assert_eq!(read(&bytes), (0, 0, table(&[(0x102, 0xffe, 0x304)])));
}

#[test]
fn there_and_back() {
    let mut dice = Dice(31);
    for _ in 0..2_000 {
        let table = dice.table(16, 4096);
        let mut buffer = [0xa5; 128];
        let (number, row, length) = write(&table, &mut buffer);
        assert_eq!((number, row, length), (0, 0, 4 + 6 * table.n));
        assert!(buffer[length..].iter().all(|&b| b == 0xa5));
        assert_eq!(read(&buffer[..length]), (0, 0, table.clone()));
        // Longer or shorter by one it is no record.
        assert_eq!(refusal(&buffer[..length + 1]), (3, 0));
        assert_eq!(refusal(&buffer[..length - 1]), (3, 0));

        let mut exact = vec![0; length];
        assert_eq!(write(&table, &mut exact), (0, 0, length));
        assert_eq!(exact[..], buffer[..length]);
        let mut short = vec![0xa5; length - 1];
        assert_eq!(write(&table, &mut short), (12, 0, 0));
        assert!(short.iter().all(|&b| b == 0xa5));
    }
}

#[test]
fn refusals_of_the_head_in_their_order() {
    let good = record(&EXAMPLE);
    for length in 0..4 {
        // Also with a wrong version byte.
        assert_eq!(refusal(&good[..length]), (1, 0));
        assert_eq!(refusal(&[7; 3][..length.min(3)]), (1, 0));
    }
    let mut bytes = good.clone();
    for version in [0, 2, 255] {
        bytes[0] = version;
        assert_eq!(refusal(&bytes), (2, 0));
        // 2 before 3 and 4.
        assert_eq!(refusal(&[version, 9, 9, 0]), (2, 0));
    }
    for (high, low) in [
        (0, 0x12),
        (0, 0x14),
        (0x13, 0),
        (0xff, 0xff),
        (0, 0),
        (1, 0x13),
    ] {
        let mut bytes = good.clone();
        (bytes[1], bytes[2]) = (high, low);
        assert_eq!(refusal(&bytes), (3, 0));
    }
    for n in [0, 2, 4, 17, 255] {
        let mut bytes = good.clone();
        bytes[3] = n;
        assert_eq!(refusal(&bytes), (3, 0));
    }
    // The length field is right for n, but the bytes are not there.
    assert_eq!(refusal(&[1, 0, 7, 1]), (3, 0));
    // 4 only once the lengths agree.
    assert_eq!(refusal(&[1, 0, 1, 0]), (4, 0));
    assert_eq!(refusal(&[1, 0, 7, 0, 0, 0, 0, 0, 0, 0]), (3, 0));
    for n in 17..=255u8 {
        let mut bytes = vec![1];
        bytes.extend((1 + 6 * u16::from(n)).to_be_bytes());
        bytes.push(n);
        bytes.resize(4 + 6 * usize::from(n), 0);
        assert_eq!(refusal(&bytes), (4, 0));
        bytes.pop();
        assert_eq!(refusal(&bytes), (3, 0));
    }
}

#[test]
fn refusals_of_rows() {
    let good = (1, 5, 5);
    let bad = [
        (0, 5, 5),
        (0, 0, 0),
        (6, 5, 5),
        (4, 5, 3),
        (1, 5, 6),
        (1, 5, 0),
        (1, 4097, 4096),
        (1, 4097, 4097),
        (65535, 65535, 65535),
        (1, 0, 0),
    ];
    for row in bad {
        assert_eq!(form(&table(&[row])), (5, 1));
        assert_eq!(form(&table(&[good, row])), (5, 2));
        assert_eq!(form(&table(&[good, row, row])), (5, 2));
        // 5 in a later row comes before 6 in an earlier one.
        assert_eq!(form(&table(&[good, (1, 4, 4), row])), (5, 3));
        assert_eq!(refusal(&record(&[good, (1, 4, 4), row])), (5, 3));
        let mut rows = vec![good; 15];
        rows.push(row);
        assert_eq!(refusal(&record(&rows)), (5, 16));
    }
    for row in [(1, 1, 1), (4096, 4096, 4096), (1, 4096, 1), (5, 5, 5)] {
        assert_eq!(form(&table(&[row])), (0, 0));
    }
}

#[test]
fn refusals_of_periods() {
    let (four, five, six) = ((1, 4, 4), (1, 5, 5), (1, 6, 6));
    assert_eq!(form(&table(&[five, four])), (6, 2));
    assert_eq!(form(&table(&[four, six, five])), (6, 3));
    // Below the one before, though not below the first.
    assert_eq!(form(&table(&[four, six, five, four])), (6, 3));
    assert_eq!(form(&table(&[four, four, five, five])), (0, 0));
    assert_eq!(refusal(&record(&[four, six, five])), (6, 3));
    // 6 before 7: row 2 doesn't hold 0 either.
    let rows = [(4, 4, 4), (1, 5, 5), (1, 4, 4)];
    assert_eq!(form(&table(&rows)), (6, 3));
    assert_eq!(test(&table(&rows)).0, 6);
}

#[test]
fn places_past_n() {
    let mut table = table(&EXAMPLE);
    assert_eq!(form(&table), (0, 0));
    table.d[15] = 1;
    assert_eq!(form(&table), (5, 16));
    table.t[9] = 1;
    assert_eq!(form(&table), (5, 10));
    table.c[3] = 1;
    assert_eq!(form(&table), (5, 4));
    table.c[2] = 0;
    assert_eq!(form(&table), (5, 3));
    // 4 is asked first, and says nothing of rows.
    for n in [0, 17, usize::MAX] {
        table.n = n;
        assert_eq!(form(&table), (4, 0));
    }
}

#[test]
fn a_refused_write_touches_nothing() {
    let mut buffer = [3; 200];
    for (rows, refusal) in [
        (&[][..], (4, 0, 0)),
        (&[(2, 1, 1)][..], (5, 1, 0)),
        (&[(1, 5, 5), (1, 4, 4)][..], (6, 2, 0)),
    ] {
        assert_eq!(write(&table(rows), &mut buffer), refusal);
        // The form is asked before the buffer.
        assert_eq!(write(&table(rows), &mut []), refusal);
        assert!(buffer.iter().all(|&b| b == 3));
    }
    assert_eq!(write(&table(&EXAMPLE), &mut []), (12, 0, 0));
    // A table that would be refused with 7 can still be written and read.
    let heavy = table(&[(2, 4, 4), (3, 7, 6)]);
    assert_eq!(write(&heavy, &mut buffer), (0, 0, 16));
    assert_eq!(read(&buffer[..16]), (0, 0, heavy));
}
