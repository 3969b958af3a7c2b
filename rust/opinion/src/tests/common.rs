use crate::*;

pub type Row = (u16, u16, u16);

/// A table of rows C, T, D.
pub fn table(rows: &[Row]) -> Table {
    let mut table = Table::ZERO;
    table.n = rows.len();
    for (i, &(c, t, d)) in rows.iter().enumerate() {
        table.c[i] = c;
        table.t[i] = t;
        table.d[i] = d;
    }
    table
}

/// The state at the start of a run that has to be accepted.
pub fn begin(rows: &[Row]) -> State {
    let (number, row, state) = start(&table(rows));
    assert_eq!((number, row), (0, 0), "{rows:?}");
    state
}

/// The record of rows as they stand, good or not.
pub fn record(rows: &[Row]) -> Vec<u8> {
    let mut bytes = vec![1];
    bytes.extend((1 + 6 * rows.len() as u16).to_be_bytes());
    bytes.push(rows.len() as u8);
    for &(c, t, d) in rows {
        for figure in [c, t, d] {
            bytes.extend(figure.to_be_bytes());
        }
    }
    bytes
}

/// The three rows that the rules work through.
pub const EXAMPLE: [Row; 3] = [(1, 3, 3), (1, 4, 4), (1, 6, 6)];

/// Numbers that are the same in every run of the tests.
pub struct Dice(pub u64);

impl Dice {
    pub fn word(&mut self) -> u64 {
        self.0 = self.0.wrapping_add(0x9e37_79b9_7f4a_7c15);
        let mut x = self.0;
        x = (x ^ (x >> 30)).wrapping_mul(0xbf58_476d_1ce4_e5b9);
        x = (x ^ (x >> 27)).wrapping_mul(0x94d0_49bb_1331_11eb);
        x ^ (x >> 31)
    }

    /// From `low` to `high`, both included.
    pub fn from(&mut self, low: u64, high: u64) -> u64 {
        low + self.word() % (high - low + 1)
    }

    pub fn small(&mut self, low: u16, high: u16) -> u16 {
        self.from(u64::from(low), u64::from(high)) as u16
    }

    pub fn chance(&mut self, one_in: u64) -> bool {
        self.word().is_multiple_of(one_in)
    }

    /// A number of any length: as often short as long.
    pub fn any(&mut self) -> u64 {
        let shift = self.from(0, 63);
        self.word() >> shift
    }

    pub fn any16(&mut self) -> u16 {
        let shift = self.from(0, 15);
        self.word() as u16 >> shift
    }

    /// A well-formed table with periods up to `longest`; accepted or not.
    pub fn table(&mut self, rows: u64, longest: u16) -> Table {
        let n = self.from(1, rows) as usize;
        let mut periods: Vec<u16> = (0..n).map(|_| self.small(1, longest)).collect();
        periods.sort_unstable();
        // Some tables light, some heavy.
        let share = self.small(1, 2 * n as u16);
        let rows: Vec<Row> = periods
            .into_iter()
            .map(|t| {
                let c = self.small(1, (t / share).max(1));
                let d = if self.chance(2) { t } else { self.small(c, t) };
                (c, t, d)
            })
            .collect();
        table(&rows)
    }

    /// A legal state that need not come from a run.
    pub fn legal(&mut self) -> State {
        let longest = [4, 12, 60, 4096][self.from(0, 3) as usize];
        let table = self.table(16, longest);
        let mut state = State::ZERO;
        state.n = table.n;
        state.c = table.c;
        state.t = table.t;
        state.d = table.d;
        let run = match self.from(0, 5) {
            0 => 0,
            1 => self.from(LAST_SLOT - 3, LAST_SLOT),
            2 => self.from(0, LAST_SLOT),
            3 => u64::from(u32::MAX) - 2 + self.from(0, 4),
            _ => self.from(0, 200),
        };
        state.next = run + 1;
        for i in 0..table.n {
            state.k[i] = self.small(0, table.d[i] - table.c[i]);
            let (k, c) = (state.k[i], table.c[i]);
            state.counter[i] = if self.chance(3) { 0 } else { self.small(0, k) };
            state.left[i] = if self.chance(2) { 0 } else { self.small(0, c) };
            state.late[i] = self.from(0, run);
        }
        state.count = if self.chance(3) {
            0
        } else {
            self.from(0, 32) as usize
        };
        for i in 0..state.count {
            state.names[i] = self.any16();
            state.sizes[i] = if self.chance(2) {
                1
            } else {
                self.any16().max(1)
            };
        }
        let mut left = run;
        state.hard = self.from(0, left);
        left -= state.hard;
        state.given = self.from(0, left);
        left -= state.given;
        state.empty = self.from(0, left);
        state.lost = left - state.empty;
        assert!(legal(&state));
        state
    }

    /// Puts some number somewhere into a state.
    pub fn spoil(&mut self, state: &mut State) {
        let (i, j) = (self.from(0, 15) as usize, self.from(0, 31) as usize);
        let near = |old: u64, dice: &mut Dice| match dice.from(0, 3) {
            0 => old.wrapping_add(1),
            1 => old.wrapping_sub(1),
            2 => 0,
            _ => dice.any(),
        };
        macro_rules! spoil {
            ($place:expr) => {
                $place = near($place as u64, self) as _
            };
        }
        match self.from(0, 15) {
            0 => spoil!(state.n),
            1 => spoil!(state.next),
            2 => spoil!(state.c[i]),
            3 => spoil!(state.t[i]),
            4 => spoil!(state.d[i]),
            5 => spoil!(state.k[i]),
            6 => spoil!(state.left[i]),
            7 => spoil!(state.counter[i]),
            8 => spoil!(state.late[i]),
            9 => spoil!(state.count),
            10 => spoil!(state.names[j]),
            11 => spoil!(state.sizes[j]),
            12 => spoil!(state.hard),
            13 => spoil!(state.given),
            14 => spoil!(state.empty),
            _ => spoil!(state.lost),
        }
    }

    /// Any numbers at all.
    pub fn garbage(&mut self) -> State {
        let mut state = State::ZERO;
        state.n = self.any() as usize;
        state.next = self.any();
        for i in 0..ROWS {
            state.c[i] = self.any16();
            state.t[i] = self.any16();
            state.d[i] = self.any16();
            state.k[i] = self.any16();
            state.left[i] = self.any16();
            state.counter[i] = self.any16();
            state.late[i] = self.any();
        }
        state.count = self.any() as usize;
        for i in 0..PLACES {
            state.names[i] = self.any16();
            state.sizes[i] = self.any16();
        }
        state.hard = self.any();
        state.given = self.any();
        state.empty = self.any();
        state.lost = self.any();
        state
    }
}
