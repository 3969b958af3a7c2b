//! The test of a table and the allowances of its rows.

use crate::table::{form, Table, ROWS};

/// Tests a table: the smallest allowance and each row's own; refusals 4 to 7.
pub fn test(table: &Table) -> (u8, usize, u16, [u16; ROWS]) {
    match allowances(table) {
        Ok(each) => {
            let k = each[..table.n].iter().copied().min().unwrap_or(0);
            (0, 0, k, each)
        }
        Err((number, row)) => (number, row, 0, [0; ROWS]),
    }
}

/// Every row's allowance, or the first refusal of 4, 5, 6 and 7.
///
/// The right-hand side never falls as t grows. So its least fixed point for k
/// is at most D exactly when some t up to D is not below the right-hand side,
/// and the largest such k is the largest t - C - (demand before) over those t.
/// Between two releases the demand is flat, so only the last t of each flat
/// stretch can be the largest: one walk over the stretches serves all rows.
pub(crate) fn allowances(table: &Table) -> Result<[u16; ROWS], (u8, usize)> {
    let (number, row) = form(table);
    if number != 0 {
        return Err((number, row));
    }
    let n = table.n.min(ROWS);
    // All fits: a row asks at most 4,096 slots in each of 4,096 stretches.
    let c = table.c.map(i32::from);
    let t = table.t.map(i32::from);
    let d = table.d.map(i32::from);
    let last = d[..n].iter().copied().max().unwrap_or(0);
    // What each row has asked for in the present stretch, and that row's end
    // of it. The last row comes before no other: it ends no stretch.
    let mut asked = c;
    let mut end = t;
    let mut best = [i32::MIN; ROWS];
    loop {
        let now = end[..n - 1].iter().copied().fold(last, i32::min);
        let mut before = 0;
        for i in 0..n {
            // Past a row's deadline this repeats D with a greater demand,
            // which changes nothing.
            best[i] = best[i].max(now.min(d[i]) - c[i] - before);
            before += asked[i];
            if end[i] == now {
                asked[i] += c[i];
                end[i] += t[i];
            }
        }
        if now == last {
            break;
        }
    }
    let mut each = [0; ROWS];
    for i in 0..n {
        if best[i] < 0 {
            return Err((7, i + 1));
        }
        // At most D - C.
        each[i] = best[i] as u16;
    }
    Ok(each)
}

/// The largest k that a row (from 1) holds, by the letter of the definition:
/// for each k the least t. `None` if it holds none, or the table is not well
/// formed, or has no such row. Slow; for comparison only.
pub fn allowance_by_definition(table: &Table, row: usize) -> Option<u16> {
    if form(table).0 != 0 || row == 0 || row > table.n {
        return None;
    }
    let i = row - 1;
    let need = |k: u16, t: u64| -> u64 {
        let mut sum = u64::from(table.c[i]) + u64::from(k);
        for h in 0..i {
            sum += u64::from(table.c[h]) * t.div_ceil(u64::from(table.t[h]));
        }
        sum
    };
    // Searched up to D only: a later t is no use to the row.
    let least = |k: u16| (1..=u64::from(table.d[i])).find(|&t| t == need(k, t));
    // A t for any k above D is above D too.
    (0..=table.d[i]).filter(|&k| least(k).is_some()).max()
}
