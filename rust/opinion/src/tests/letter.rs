//! The rules of a slot and of a legal state, step by step and by value. Slow
//! and plain, so that the quick ones can be held against them.

use crate::*;

/// Errors that look reasonable.
#[derive(Clone, Copy, PartialEq, Debug)]
pub enum Mistake {
    None,
    ReloadAfterRelease,
    ReloadOneRow,
    BanWhenIdle,
    LateInAByte,
    RowOneDecides,
}

pub fn legal(s: &State) -> bool {
    let table = Table {
        n: s.n,
        c: s.c,
        t: s.t,
        d: s.d,
    };
    if form(&table).0 != 0 {
        return false;
    }
    if s.next < 1 || s.next > (1 << 48) + 1 {
        return false;
    }
    let run = s.next - 1;
    for i in 0..16 {
        if i < s.n {
            if s.k[i] > s.d[i] - s.c[i]
                || s.counter[i] > s.k[i]
                || s.left[i] > s.c[i]
                || s.late[i] > run
            {
                return false;
            }
        } else if s.k[i] != 0 || s.counter[i] != 0 || s.left[i] != 0 || s.late[i] != 0 {
            return false;
        }
    }
    let sum = [s.hard, s.given, s.empty, s.lost]
        .iter()
        .map(|&tally| u128::from(tally))
        .sum::<u128>();
    if sum != u128::from(run) {
        return false;
    }
    if s.count > 32 {
        return false;
    }
    for i in 0..32 {
        if i < s.count {
            if s.sizes[i] == 0 {
                return false;
            }
        } else if s.sizes[i] != 0 || s.names[i] != 0 {
            return false;
        }
    }
    true
}

pub fn slot(before: &State, lost: bool, mistake: Mistake) -> (State, Answer) {
    let refused = |number| {
        let answer = Answer {
            number,
            used: Use::Empty,
            word: 0,
            late: 0,
        };
        (before.clone(), answer)
    };
    if !legal(before) {
        return refused(11);
    }
    if before.next == (1 << 48) + 1 {
        return refused(10);
    }
    let mut s = before.clone();
    let n = s.n;
    let t = s.next;
    let mut queue: Vec<(u16, u16)> = (0..s.count).map(|i| (s.names[i], s.sizes[i])).collect();

    // 1 and 2.
    if mistake == Mistake::ReloadAfterRelease {
        release(&mut s, t);
        reload(&mut s, mistake);
    } else {
        reload(&mut s, mistake);
        release(&mut s, t);
    }

    // 3.
    let room = if mistake == Mistake::RowOneDecides {
        s.counter[0] > 0
    } else {
        (0..n).all(|i| s.counter[i] > 0)
    };
    let first = (0..n).find(|&i| s.left[i] > 0);
    let used = if lost {
        Use::Lost
    } else if !queue.is_empty() && room {
        for i in 0..n {
            s.counter[i] = s.counter[i].saturating_sub(1);
        }
        Use::Given(queue[0].0)
    } else if let Some(i) = first {
        s.left[i] -= 1;
        Use::Hard(i + 1)
    } else if !queue.is_empty() && mistake != Mistake::BanWhenIdle {
        Use::Given(queue[0].0)
    } else {
        Use::Empty
    };
    if let Use::Given(_) = used {
        queue[0].1 -= 1;
        if queue[0].1 == 0 {
            queue.remove(0);
        }
    }

    // 4.
    let mut word = 0;
    let mut late = 0;
    for i in 0..n {
        if (t - 1) % u64::from(s.t[i]) == u64::from(s.d[i]) - 1 && s.left[i] > 0 {
            s.late[i] += 1;
            if mistake == Mistake::LateInAByte {
                s.late[i] %= 256;
            }
            s.left[i] = 0;
            word += 2u16.pow(i as u32);
            late += 1;
        }
    }

    // 5.
    match used {
        Use::Hard(_) => s.hard += 1,
        Use::Given(_) => s.given += 1,
        Use::Empty => s.empty += 1,
        Use::Lost => s.lost += 1,
    }
    s.next = t + 1;

    s.count = queue.len();
    s.names = [0; 32];
    s.sizes = [0; 32];
    for (i, (name, size)) in queue.into_iter().enumerate() {
        s.names[i] = name;
        s.sizes[i] = size;
    }
    let number = 0;
    let answer = Answer {
        number,
        used,
        word,
        late,
    };
    (s, answer)
}

fn reload(s: &mut State, mistake: Mistake) {
    let mut largest = 0;
    for i in 1..=s.n {
        if (0..i).all(|h| s.left[h] == 0) {
            largest = i;
        }
    }
    for i in 1..=largest {
        if i == largest || mistake != Mistake::ReloadOneRow {
            s.counter[i - 1] = s.k[i - 1];
        }
    }
}

fn release(s: &mut State, t: u64) {
    for i in 0..s.n {
        if (t - 1).is_multiple_of(u64::from(s.t[i])) {
            s.left[i] = s.c[i];
        }
    }
}
