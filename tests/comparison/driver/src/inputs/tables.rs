//! Tables for the fit: random ones, and ones made to reach each of its answers and limits.

use crate::inputs::quotes::{self, SMALL};
use crate::paper::{Config, DOMAIN, Memory, Tables};
use crate::plain::{self, MOST_PAIRS, MOST_TOTAL};
use crate::random::{self, Random, enter};

/// Tables of at most 27 states, of every kind below.
pub fn small(random: &mut Random) -> Memory {
    let config = Config {
        tick: random.choose(&[1, 1, 5, 7, 100, 999_999_937, DOMAIN]),
        ..quotes::lively_config(random, &SMALL)
    };
    let mut memory = match random.below(26) {
        0..=6 => Memory::of_tables(&random::tables(config, random)),
        7..=9 => Memory::of_tables(&dense(random, config)),
        10..=12 => after_quotes(random, config),
        13..=14 => Memory::of_tables(&at_half_spread(random, config)),
        15 => Memory::of_tables(&slow_exit(random, config)),
        16 => Memory::of_tables(&slow_series(random, config)),
        17 => Memory::of_tables(&about_2_to_96(random, config)),
        18 => Memory::of_tables(&drift(random, config)),
        19 => Memory::of_tables(&signs_of_zero(random, config)),
        20 => Memory::of_tables(&large_counts(random, config)),
        21 => Memory::of_tables(&sparse(random, config)),
        22..=23 => Memory::of_tables(&fallback_adjusted(random, config)),
        _ => {
            let mut memory = Memory::of_tables(&random::tables(config, random));
            spoil(random, &mut memory);
            memory
        }
    };
    memory.record.spread = random.below(3);
    memory.record.gap = random.below(3);
    memory
}

/// Tables of many states: random ones, busy enough for the states to hang together, or a few busy states among empty ones.
pub fn large(random: &mut Random, shapes: &[(u64, u64)]) -> Memory {
    let config = Config {
        tick: random.choose(&[1, 5, DOMAIN]),
        ..quotes::lively_config(random, shapes)
    };
    Memory::of_tables(&match random.below(4) {
        0 => random::tables(config, random),
        1 => sparse(random, config),
        2 => at_half_spread(random, config),
        _ => dense(random, config),
    })
}

/// Every state goes to many others, with small moves.
fn dense(random: &mut Random, config: Config) -> Tables {
    let mut tables = Tables::new(config);
    let states = config.states();
    let most = random.choose(&[2, 10, 1000, 1 << 20]);
    for from in 0..states {
        for _ in 0..1 + random.below(states as u64) {
            let to = random.index(states);
            let change = if random.one_in(3) {
                random.below(5) as i64 - 2
            } else {
                0
            };
            let count = 1 + random.below(most);
            enter(&mut tables, from, to, change, count);
        }
    }
    tables
}

/// A few pairs among all states.
fn sparse(random: &mut Random, config: Config) -> Tables {
    let mut tables = Tables::new(config);
    let states = config.states();
    for _ in 0..1 + random.below(12) {
        let change = random.choose(&[0, 0, 1, -1, 2, 3]);
        let count = 1 + random.below(3);
        enter(
            &mut tables,
            random.index(states),
            random.index(states),
            change,
            count,
        );
    }
    tables
}

/// The counts that quotes lead to.
pub fn after_quotes(random: &mut Random, config: Config) -> Memory {
    let mut memory = Memory::new(config);
    for _ in 0..random.below(60) {
        let last = memory.record.last;
        let quote = quotes::good_quote(random, &config, last.as_ref());
        plain::observe(&mut memory, &quote);
    }
    memory
}

/// States that stay k times and then move by their own spread to a middle state: exactly half the spread, before rounding.
fn at_half_spread(random: &mut Random, config: Config) -> Tables {
    let mut tables = Tables::new(config);
    let buckets = config.buckets as usize;
    for state in 0..config.states() {
        if state % buckets >= buckets / 2 || random.one_in(3) {
            continue;
        }
        let spread = (state / buckets + 1) as i64;
        let middle = buckets / 2;
        let (stays, moves) = (random.below(60), 1 + random.below(3));
        enter(&mut tables, state, state, 0, stays);
        enter(&mut tables, state, middle, spread, moves);
    }
    tables
}

/// A state that is seldom left, so that its pivot is about 1e-12.
fn slow_exit(random: &mut Random, config: Config) -> Tables {
    let mut tables = Tables::new(config);
    let states = config.states();
    let (from, to) = (random.index(states), random.index(states));
    let exits = 1 + random.below(9_000);
    let about = (exits as u128 * 1_000_000_000_000) as u64;
    let stays = (about / 100 * (97 + random.below(6))).min(MOST_PAIRS / 2);
    enter(&mut tables, from, from, 0, stays);
    enter(&mut tables, from, to, random.choose(&[1, 2, -1]), exits);
    if random.one_in(2) {
        enter(
            &mut tables,
            random.index(states),
            random.index(states),
            1,
            3,
        );
    }
    tables
}

/// A series that ends, or would end, after about 10,000 rounds; half the time within two of it.
fn slow_series(random: &mut Random, config: Config) -> Tables {
    let mut tables = Tables::new(config);
    let buckets = config.buckets as usize;
    let from = random.index(buckets / 2);
    let change: i64 = random.choose(&[1, -1, 2]);
    let (goes_on, ends) = if random.one_in(2) {
        (150 + random.below(450), 1)
    } else {
        // The term is |change| × share^rounds, which passes 1e-12.
        let rounds = 9_998.0 + random.below(5) as f64;
        let decay = (1e12 * change.abs() as f64).ln() / rounds;
        let ends = 40 + random.below(60);
        ((ends as f64 / decay.exp_m1()).round() as u64, ends)
    };
    enter(&mut tables, from, from, change, goes_on);
    enter(&mut tables, from, buckets / 2, change, ends);
    tables
}

/// Moves that go on for ever.
fn drift(random: &mut Random, config: Config) -> Tables {
    let mut tables = Tables::new(config);
    let half = config.buckets as usize / 2;
    for _ in 0..1 + random.below(3) {
        let (from, to) = (random.index(half), random.index(half));
        enter(
            &mut tables,
            from,
            to,
            1 + random.below(3) as i64,
            1 + random.below(4),
        );
    }
    tables
}

/// An adjustment about 2^96: the largest total, 2^53 half ticks, times 2^15 visits, times a tick of 2^29, halved.
fn about_2_to_96(random: &mut Random, config: Config) -> Tables {
    let spreads = random.choose(&[2, 3, 5]);
    let config = Config {
        tick: 1 << 29,
        buckets: 5,
        spreads,
        ..config
    };
    let mut tables = Tables::new(Config { least: 1, ..config });
    let visits = (1 << 15) + random.below(3) - 1;
    enter(&mut tables, 0, 1, 0, 1);
    enter(&mut tables, 1, 0, 0, visits - 1);
    enter(&mut tables, 1, 2, 1, 1);
    tables.totals = vec![0; tables.totals.len()];
    let total = (1 << 53) - random.choose(&[0, 0, 1, 2, 1 << 40]);
    tables.totals[0] = total;
    tables.totals[4] = -total;
    // A Calibrated state inside the quotes, so that a table is written.
    enter(&mut tables, 7, 7, 1, 1);
    tables
}

/// Totals that cancel, among states that seldom leave themselves: zeros of both signs are solved.
fn signs_of_zero(random: &mut Random, config: Config) -> Tables {
    let mut tables = Tables::new(config);
    let states = config.states();
    for from in 0..states {
        let (stays, count) = (random.below(12), 1 + random.below(2));
        enter(&mut tables, from, from, 0, stays);
        enter(&mut tables, from, random.index(states), 0, 6);
        enter(&mut tables, from, random.index(states), 1, count);
        enter(&mut tables, from, random.index(states), -1, count);
    }
    tables
}

/// About the case `fallback_adjustment` of fit_cases.txt: a Rare state whose adjustment rounding makes no zero. With counts
/// multiplied and totals not, the adjustments are so small that they may be zero as decimals.
fn fallback_adjusted(random: &mut Random, config: Config) -> Tables {
    const STAY: [(usize, usize, u64); 12] = [
        (0, 1, 5),
        (0, 20, 2),
        (0, 21, 4),
        (1, 1, 5),
        (10, 0, 5),
        (10, 10, 6),
        (10, 20, 2),
        (20, 0, 4),
        (20, 10, 3),
        (20, 21, 5),
        (21, 1, 2),
        (21, 11, 9),
    ];
    let config = Config {
        buckets: 5,
        spreads: 5,
        least: 1,
        ..config
    };
    let times = random.choose(&[0, 0, 30, 40, 44]);
    let mut tables = Tables::new(config);
    for (from, to, count) in STAY {
        let more = if random.one_in(8) { random.below(3) } else { 0 };
        enter(&mut tables, from, to, 0, (count + more) << times);
    }
    enter(&mut tables, 1, 10, 2, 1 << times);
    enter(&mut tables, 10, 0, 2, 1 << times);
    for total in &mut tables.totals {
        *total >>= times;
    }
    tables
}

/// Counts near the most pairs in all.
fn large_counts(random: &mut Random, config: Config) -> Tables {
    let mut tables = Tables::new(config);
    let states = config.states();
    let mut left = MOST_PAIRS;
    for _ in 0..6 {
        let count = left / (2 + random.below(3));
        left -= count;
        let change = random.choose(&[0, 0, 0, 1, -1]);
        enter(
            &mut tables,
            random.index(states),
            random.index(states),
            change,
            count,
        );
    }
    if random.one_in(2) {
        enter(&mut tables, 0, random.index(states), 1, left);
    }
    tables
}

/// Breaks a rule of the counts: 6, 9, 10 or 11, or two of them; or a row over the least.
pub fn spoil(random: &mut Random, memory: &mut Memory) {
    for _ in 0..1 + random.below(2) {
        let cell = random.index(memory.stay.len());
        let state = random.index(memory.totals.len());
        match random.below(8) {
            0 => memory.record.pairs = quotes::special_word(random, memory.record.pairs),
            1 => memory.record.spread = quotes::special_word(random, 0),
            2 => memory.record.gap = quotes::special_word(random, 0),
            3 => memory.stay[cell] = quotes::special_word(random, memory.stay[cell]),
            4 => memory.moved[cell] = quotes::special_word(random, memory.moved[cell]),
            5 => memory.totals[state] = quotes::special_word(random, 0).cast_signed(),
            6 => {
                let total = quotes::special_word(random, MOST_TOTAL).cast_signed();
                memory.totals[state] = total;
                let mirror = memory.config.mirror(state);
                memory.totals[mirror] = total.wrapping_neg();
            }
            _ => memory.stay.swap(cell, 0),
        }
    }
}
