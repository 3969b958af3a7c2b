//! Tables, records and states to try: sound ones, nearly sound ones and wild ones.

use crate::bytes::{state_bytes, state_of, table_of, STATE_BYTES, TABLE_BYTES};
use crate::random::Random;
use fjurkesprek::{State, Table, LAST_SLOT, PLACES, ROWS};

/// Figures near which something changes.
const EDGES: [u16; 12] = [0, 1, 2, 3, 15, 16, 17, 255, 256, 4095, 4096, 4097];

pub fn any_bytes(random: &mut Random, length: usize) -> Vec<u8> {
    (0..length).map(|_| random.bits() as u8).collect()
}

/// A table of any kind: mostly well formed, and then about as often accepted as not.
pub fn table(random: &mut Random) -> Table {
    match random.place(8) {
        0 => wild_table(random),
        1 => {
            let mut table = formed_table(random);
            spoil(random, &mut table);
            table
        }
        _ => formed_table(random),
    }
}

fn wild_table(random: &mut Random) -> Table {
    let mut bytes = [0; TABLE_BYTES];
    bytes.copy_from_slice(&any_bytes(random, TABLE_BYTES));
    let mut table = table_of(bytes);
    // A wild n is nearly always refused at once.
    if !random.once_in(4) {
        table.n = random.place(20);
    }
    table
}

fn formed_table(random: &mut Random) -> Table {
    let n = random.between(1, ROWS as u64) as usize;
    let shortest = random.one_of(&[1, n as u16, 2 * n as u16]);
    let longest = random
        .one_of(&[1, 2, 5, 20, 60, 300, 4095, 4096])
        .max(shortest);
    let mut periods: Vec<u16> = (0..n).map(|_| random.small(shortest, longest)).collect();
    periods.sort_unstable();
    // All rows together may ask for half of the time, for all of it, or for more.
    let halves = random.small(1, 3);
    let mut table = table_of([0; TABLE_BYTES]);
    table.n = n;
    for (i, &period) in periods.iter().enumerate() {
        let most = (period * halves / 2 / n as u16).clamp(1, period);
        table.t[i] = period;
        table.c[i] = random.small(1, most);
        table.d[i] = match random.place(4) {
            0 => random.small(table.c[i], period),
            _ => period,
        };
    }
    table
}

/// One figure of the table changes.
fn spoil(random: &mut Random, table: &mut Table) {
    let row = random.place(ROWS);
    let figure = random.one_of(&EDGES);
    match random.place(5) {
        0 => table.n = usize::from(figure),
        1 => table.c[row] = figure,
        2 => table.t[row] = figure,
        3 => table.d[row] = figure,
        _ => table.t.swap(row, 0),
    }
}

/// The bytes of a table's record, sound or with something wrong.
pub fn record(random: &mut Random) -> Vec<u8> {
    let table = table(random);
    let n = table.n % 24;
    let mut bytes = vec![1, 0, 0, n as u8];
    for i in 0..n {
        let of = |figures: &[u16; ROWS]| figures[i % ROWS].to_be_bytes();
        for pair in [of(&table.c), of(&table.t), of(&table.d)] {
            bytes.extend(pair);
        }
    }
    let follow = (bytes.len() - 3) as u16;
    bytes[1..3].copy_from_slice(&follow.to_be_bytes());
    match random.place(8) {
        0 => bytes.truncate(random.place(bytes.len() + 1)),
        1 => bytes.push(random.bits() as u8),
        2 | 3 => {
            let place = random.place(bytes.len());
            bytes[place] = random.bits() as u8;
        }
        _ => {}
    }
    bytes
}

/// A legal state, which need not come from a run. Its table need not be accepted.
pub fn legal_state(random: &mut Random) -> State {
    let table = formed_table(random);
    let mut state = state_of([0; STATE_BYTES]);
    (state.n, state.c, state.t, state.d) = (table.n, table.c, table.t, table.d);
    let run = match random.place(4) {
        0 => random.between(0, 100),
        1 => random.between(0, 1 << 33),
        2 => random.between(LAST_SLOT - 3, LAST_SLOT),
        _ => random.between(0, LAST_SLOT),
    };
    state.next = run + 1;
    for i in 0..table.n {
        state.k[i] = random.small(0, table.d[i] - table.c[i]);
        state.counter[i] = random.small(0, state.k[i]);
        state.left[i] = random.small(0, table.c[i]);
        state.late[i] = random.ends_or_between(0, run);
        if random.once_in(2) {
            state.left[i] = 0;
        }
    }
    share_out(random, &mut state, run);
    state.count = random.one_of(&[0, 0, 1, 2, 31, 32, 9]);
    for i in 0..state.count {
        state.names[i] = random.bits() as u16;
        state.sizes[i] = random.one_of(&[1, 1, 2, 65535, 700]);
    }
    state
}

fn share_out(random: &mut Random, state: &mut State, run: u64) {
    state.hard = random.ends_or_between(0, run);
    state.given = random.ends_or_between(0, run - state.hard);
    state.empty = random.ends_or_between(0, run - state.hard - state.given);
    state.lost = run - state.hard - state.given - state.empty;
}

/// The state with one figure changed, mostly by little; so mostly no longer legal.
pub fn disturbed(random: &mut Random, state: &State) -> State {
    let mut bytes = state_bytes(state);
    // Figures of two bytes stand in two stretches; all others have eight.
    let place = random.place(STATE_BYTES) & !1;
    let two = (16..208).contains(&place) || (344..472).contains(&place);
    let (at, width) = if two { (place, 2) } else { (place & !7, 8) };
    let mut whole = [0; 8];
    whole[..width].copy_from_slice(&bytes[at..at + width]);
    let old = u64::from_le_bytes(whole);
    let new = match random.place(8) {
        0 | 1 => old.wrapping_add(1),
        2 | 3 => old.wrapping_sub(1),
        4 => 0,
        5 => u64::MAX,
        6 => old ^ 1 << random.place(64),
        _ => random.one_of(&EDGES).into(),
    };
    bytes[at..at + width].copy_from_slice(&new.to_le_bytes()[..width]);
    state_of(bytes)
}

/// Any bytes as a state; in part with counts that make the rest matter.
pub fn wild_state(random: &mut Random) -> State {
    let mut bytes = [0; STATE_BYTES];
    if !random.once_in(8) {
        bytes.copy_from_slice(&any_bytes(random, STATE_BYTES));
    }
    let mut state = state_of(bytes);
    if random.once_in(2) {
        state.n = random.place(18);
        state.next = random.between(0, LAST_SLOT + 2);
        state.count = random.place(PLACES + 2);
    }
    state
}
