//! The table of hard tasks, its form and its record.

/// Rows a table has room for.
pub const ROWS: usize = 16;

/// The largest period, and so the largest figure of any row.
pub const LONGEST_PERIOD: u16 = 4096;

/// Hard tasks in priority order; places past `n` are zero.
#[derive(Clone, PartialEq, Eq, Debug)]
pub struct Table {
    pub n: usize,
    /// Slots needed.
    pub c: [u16; ROWS],
    /// Period.
    pub t: [u16; ROWS],
    /// Deadline.
    pub d: [u16; ROWS],
}

impl Table {
    pub const ZERO: Table = Table {
        n: 0,
        c: [0; ROWS],
        t: [0; ROWS],
        d: [0; ROWS],
    };
}

/// The first of 4, 5 and 6 that applies, with its row; (0, 0) if none does.
pub fn form(table: &Table) -> (u8, usize) {
    let Table { n, c, t, d } = table;
    let n = *n;
    if n == 0 || n > ROWS {
        return (4, 0);
    }
    // Every row is tried for 5 before any is tried for 6.
    for i in 0..ROWS {
        let good = if i < n {
            1 <= c[i] && c[i] <= d[i] && d[i] <= t[i] && t[i] <= LONGEST_PERIOD
        } else {
            c[i] == 0 && t[i] == 0 && d[i] == 0
        };
        if !good {
            return (5, i + 1);
        }
    }
    for i in 1..n {
        if t[i] < t[i - 1] {
            return (6, i + 1);
        }
    }
    (0, 0)
}

/// Reads a record that fills `bytes` exactly; refusals 1 to 6.
pub fn read(bytes: &[u8]) -> (u8, usize, Table) {
    match parse(bytes) {
        Ok(table) => (0, 0, table),
        Err((number, row)) => (number, row, Table::ZERO),
    }
}

fn parse(bytes: &[u8]) -> Result<Table, (u8, usize)> {
    let [version, high, low, n, rows @ ..] = bytes else {
        return Err((1, 0));
    };
    if *version != 1 {
        return Err((2, 0));
    }
    let length = usize::from(u16::from_be_bytes([*high, *low]));
    let n = usize::from(*n);
    if length != 1 + rows.len() || length != 1 + 6 * n {
        return Err((3, 0));
    }
    let mut table = Table { n, ..Table::ZERO };
    // Rows past the sixteenth are left out here; the form then refuses `n`.
    for (i, row) in rows.chunks_exact(6).take(ROWS).enumerate() {
        table.c[i] = u16::from_be_bytes([row[0], row[1]]);
        table.t[i] = u16::from_be_bytes([row[2], row[3]]);
        table.d[i] = u16::from_be_bytes([row[4], row[5]]);
    }
    match form(&table) {
        (0, _) => Ok(table),
        refusal => Err(refusal),
    }
}

/// Writes the record to the front of `buffer` and gives its length; the rest
/// of the buffer, or all of it after a refusal (4, 5, 6, 12), stays.
pub fn write(table: &Table, buffer: &mut [u8]) -> (u8, usize, usize) {
    let (number, row) = form(table);
    if number != 0 {
        return (number, row, 0);
    }
    let follow = 1 + 6 * table.n;
    let Some(record) = buffer.get_mut(..3 + follow) else {
        return (12, 0, 0);
    };
    record[0] = 1;
    // At most 97: two bytes hold it.
    record[1..3].copy_from_slice(&(follow as u16).to_be_bytes());
    record[3] = table.n as u8;
    for (i, row) in record[4..].chunks_exact_mut(6).enumerate() {
        row[0..2].copy_from_slice(&table.c[i].to_be_bytes());
        row[2..4].copy_from_slice(&table.t[i].to_be_bytes());
        row[4..6].copy_from_slice(&table.d[i].to_be_bytes());
    }
    (0, 0, 3 + follow)
}
