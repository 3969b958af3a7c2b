//! The state of a run, and the calls on it.

use crate::allowance::allowances;
use crate::table::{Table, LONGEST_PERIOD, ROWS};

/// Places in the queue.
pub const PLACES: usize = 32;

/// The last slot that can be run.
pub const LAST_SLOT: u64 = 1 << 48;

/// All that a run keeps. Any numbers may stand in it: each call first tests
/// whether it is legal.
#[repr(C)]
#[derive(Clone, PartialEq, Eq, Debug)]
pub struct State {
    pub n: usize,
    /// Number of the next slot.
    pub next: u64,
    pub c: [u16; ROWS],
    pub t: [u16; ROWS],
    pub d: [u16; ROWS],
    /// Allowance of each row.
    pub k: [u16; ROWS],
    /// Work left.
    pub left: [u16; ROWS],
    pub counter: [u16; ROWS],
    /// Blocks dropped at their deadline.
    pub late: [u64; ROWS],
    /// Requests waiting; they stand first, in order.
    pub count: usize,
    pub names: [u16; PLACES],
    /// Slots each request still has to get.
    pub sizes: [u16; PLACES],
    pub hard: u64,
    pub given: u64,
    pub empty: u64,
    pub lost: u64,
}

impl State {
    pub const ZERO: State = State {
        n: 0,
        next: 0,
        c: [0; ROWS],
        t: [0; ROWS],
        d: [0; ROWS],
        k: [0; ROWS],
        left: [0; ROWS],
        counter: [0; ROWS],
        late: [0; ROWS],
        count: 0,
        names: [0; PLACES],
        sizes: [0; PLACES],
        hard: 0,
        given: 0,
        empty: 0,
        lost: 0,
    };
}

/// What a slot was used for.
#[derive(Clone, Copy, PartialEq, Eq, Debug)]
pub enum Use {
    /// A hard row, from 1.
    Hard(usize),
    /// A request, by name.
    Given(u16),
    Empty,
    Lost,
}

/// The answer of a slot.
#[derive(Clone, Copy, PartialEq, Eq, Debug)]
pub struct Answer {
    pub number: u8,
    pub used: Use,
    /// The late rows, bit 0 for row 1.
    pub word: u16,
    /// How many rows are late.
    pub late: u32,
}

impl Answer {
    const fn refused(number: u8) -> Answer {
        Answer {
            number,
            used: Use::Empty,
            word: 0,
            late: 0,
        }
    }
}

/// Starts a run; refusals 4 to 7 give the all-zero state.
pub fn start(table: &Table) -> (u8, usize, State) {
    match allowances(table) {
        Ok(k) => {
            let state = State {
                n: table.n,
                next: 1,
                c: table.c,
                t: table.t,
                d: table.d,
                k,
                ..State::ZERO
            };
            (0, 0, state)
        }
        Err((number, row)) => (number, row, State::ZERO),
    }
}

/// Whether a state is legal.
///
/// Runs at every call, so it goes over all places without a branch and asks
/// at the end: anything but zero in `fault` is a fault.
pub fn legal(state: &State) -> bool {
    // A next slot of 0 wraps to the largest number and is refused with it.
    let run = state.next.wrapping_sub(1);
    // Cut to 16 bits these can lie, but then the test below refuses them.
    let n = state.n as u16;
    let count = state.count as u16;

    // x.saturating_sub(y) is zero exactly when x <= y. Past n the period has
    // to be 0, and then each bound makes the next figure 0 too.
    let mut fault = 0;
    for i in 0..ROWS {
        let (c, t, d, k) = (state.c[i], state.t[i], state.d[i], state.k[i]);
        let used = below(i, n);
        fault |= t.saturating_sub(used * LONGEST_PERIOD);
        fault |= d.saturating_sub(t);
        fault |= c.saturating_sub(d);
        fault |= used.saturating_sub(c);
        fault |= k.saturating_sub(d.saturating_sub(c));
        fault |= state.counter[i].saturating_sub(k);
        fault |= state.left[i].saturating_sub(c);
    }
    for i in 1..ROWS {
        let falls = state.t[i - 1].saturating_sub(state.t[i]);
        fault |= falls & below(i, n).wrapping_neg();
    }
    for i in 0..PLACES {
        let (name, size) = (state.names[i], state.sizes[i]);
        let used = below(i, count);
        fault |= used.saturating_sub(size);
        fault |= (name | size) & used.wrapping_sub(1);
    }
    // The top bit tells a late count above the slots run: it has that bit, or
    // the difference does, as the slots run are far below it.
    let (used, unused) = state.late.split_at(state.n.min(ROWS));
    let beyond = used
        .iter()
        .fold(0, |all, &late| all | late | run.wrapping_sub(late));
    let stray = unused.iter().fold(0, |all, &late| all | late);
    let tallies = [state.hard, state.given, state.empty, state.lost];
    fault == 0
        && beyond >> 63 == 0
        && stray == 0
        && (1..=ROWS).contains(&state.n)
        && state.count <= PLACES
        && run <= LAST_SLOT
        // None above 2^48, so the sum is safe.
        && tallies.iter().all(|&tally| tally <= run)
        && tallies.iter().sum::<u64>() == run
}

/// 1 for one of the first `used` places, 0 for a later one.
fn below(place: usize, used: u16) -> u16 {
    used.saturating_sub(place as u16).min(1)
}

/// The sum of the late counts; refusal 11.
pub fn late_total(state: &State) -> (u8, u64) {
    if !legal(state) {
        return (11, 0);
    }
    // Sixteen counts of at most 2^48 each.
    (0, state.late.iter().sum())
}

/// Puts a request at the end of the queue; refusals 11, 8, 9.
pub fn request(state: &mut State, name: u16, size: u16) -> u8 {
    if !legal(state) {
        return 11;
    }
    if size == 0 {
        return 8;
    }
    let place = state.count;
    if place >= PLACES {
        return 9;
    }
    state.names[place] = name;
    state.sizes[place] = size;
    state.count = place + 1;
    0
}

/// Runs one slot; refusals 11, 10.
pub fn slot(state: &mut State, lost: bool) -> Answer {
    if !legal(state) {
        return Answer::refused(11);
    }
    if state.next > LAST_SLOT {
        return Answer::refused(10);
    }
    let past = state.next - 1;
    let n = state.n.min(ROWS);

    // One walk does the reload and the release: what a row's reload asks of
    // the rows before it is kept in `clear`, so their release is not seen.
    let mut clear = true;
    let mut spare = true;
    let mut work = 0u16;
    let mut due = 0u16;
    for i in 0..n {
        clear &= state.left[i] == 0;
        if clear {
            state.counter[i] = state.k[i];
        }
        spare &= state.counter[i] != 0;
        let phase = remainder(past, state.t[i]);
        if phase == 0 {
            state.left[i] = state.c[i];
        }
        work |= u16::from(state.left[i] != 0) << i;
        due |= u16::from(phase + 1 == u32::from(state.d[i])) << i;
    }

    let waiting = state.count != 0;
    let used = if lost {
        state.lost += 1;
        Use::Lost
    } else if waiting && spare {
        for counter in &mut state.counter[..n] {
            *counter -= 1;
        }
        give(state)
    } else if work != 0 {
        let i = work.trailing_zeros() as usize;
        state.left[i] -= 1;
        work &= !(u16::from(state.left[i] == 0) << i);
        state.hard += 1;
        Use::Hard(i + 1)
    } else if waiting {
        give(state)
    } else {
        state.empty += 1;
        Use::Empty
    };

    let word = work & due;
    let mut rest = word;
    while rest != 0 {
        let i = rest.trailing_zeros() as usize;
        state.late[i] += 1;
        state.left[i] = 0;
        rest &= rest - 1;
    }
    state.next += 1;
    Answer {
        number: 0,
        used,
        word,
        late: word.count_ones(),
    }
}

/// Gives the slot to the head of a queue that is not empty.
fn give(state: &mut State) -> Use {
    let name = state.names[0];
    state.given += 1;
    state.sizes[0] -= 1;
    if state.sizes[0] == 0 {
        // Unused places are zero, so moving all of them keeps them so.
        state.names.copy_within(1.., 0);
        state.sizes.copy_within(1.., 0);
        state.names[PLACES - 1] = 0;
        state.sizes[PLACES - 1] = 0;
        state.count -= 1;
    }
    Use::Given(name)
}

/// The remainder of a number below 2^48 by a period of 1 to 4,096.
///
/// Dividing 32 bits takes far less time than dividing 64, even twice.
fn remainder(past: u64, period: u16) -> u32 {
    let period = u32::from(period);
    match u32::try_from(past) {
        Ok(past) => past % period,
        Err(_) => {
            // The first remainder has 12 bits: with 20 more it still fits.
            let high = (past >> 20) as u32 % period;
            (high << 20 | (past & 0xf_ffff) as u32) % period
        }
    }
}
