//! Random tables that pass the check of mirrored counts. Quotes need not lead to them: they may stay between spreads of
//! which one is odd and the other even.

use crate::paper::{Config, Tables};

/// Splitmix64.
pub struct Random(pub u64);

impl Random {
    /// Any word.
    pub fn word(&mut self) -> u64 {
        self.0 = self.0.wrapping_add(0x9e37_79b9_7f4a_7c15);
        let z = (self.0 ^ (self.0 >> 30)).wrapping_mul(0xbf58_476d_1ce4_e5b9);
        let z = (z ^ (z >> 27)).wrapping_mul(0x94d0_49bb_1331_11eb);
        z ^ (z >> 31)
    }

    /// A number below `limit`.
    pub fn below(&mut self, limit: u64) -> u64 {
        self.word() % limit
    }

    /// An index below `length`.
    pub fn index(&mut self, length: usize) -> usize {
        usize::try_from(self.below(length as u64)).expect("an index")
    }

    pub fn one_in(&mut self, times: u64) -> bool {
        self.below(times) == 0
    }

    pub fn choose<T: Copy>(&mut self, from: &[T]) -> T {
        from[self.index(from.len())]
    }
}

#[derive(Clone, Copy, PartialEq)]
enum Habit {
    Busy,
    Quiet,
    Seldom,
}

/// Busy states go anywhere, with moves; quiet ones only to quiet or seldom ones, without a move; seldom ones are left once.
/// Mirrored states have the same habit.
pub fn tables(config: Config, random: &mut Random) -> Tables {
    let states = config.states();
    let mut habits = vec![Habit::Busy; states];
    for x in 0..states {
        if x <= config.mirror(x) {
            let habit = [Habit::Busy, Habit::Busy, Habit::Quiet, Habit::Seldom][random.index(4)];
            habits[x] = habit;
            habits[config.mirror(x)] = habit;
        }
    }
    let mut tables = Tables::new(config);
    for from in 0..states {
        let exits = if habits[from] == Habit::Seldom {
            1
        } else {
            1 + random.below(4)
        };
        for _ in 0..exits {
            let to = random.index(states);
            let still = habits[from] == Habit::Quiet;
            if still && habits[to] == Habit::Busy {
                continue;
            }
            let change = if still || random.below(2) == 0 {
                0
            } else {
                random.below(7) as i64 - 3
            };
            let count = if habits[from] == Habit::Seldom {
                1
            } else {
                1 + random.below(9)
            };
            enter(&mut tables, from, to, change, count);
        }
    }
    tables
}

/// Enters `count` pairs and their mirrors.
pub fn enter(tables: &mut Tables, from: usize, to: usize, change: i64, count: u64) {
    let config = tables.config;
    let states = config.states();
    for (from, to, change) in [
        (from, to, change),
        (config.mirror(from), config.mirror(to), -change),
    ] {
        let table = if change == 0 {
            &mut tables.stay
        } else {
            &mut tables.moved
        };
        table[from * states + to] += count;
        tables.totals[from] += change * count as i64;
    }
    tables.pairs += count;
}
