//! Model tables of numbers that are exact as a float and as a decimal, and damaged ones.

use crate::paper::{Config, ROW_WORDS};
use crate::plain;
use crate::random::Random;

/// The least difference between two floats of these tables.
pub const STEP: f64 = 1.0 / 4096.0;

/// So many rows as a model of Rare states has them.
pub fn rare_rows(config: &Config, rows: usize) -> Vec<u64> {
    let n = config.buckets.max(1);
    (0..rows as u64)
        .flat_map(|x| [x % n + 1, x / n + 1, 0, 0, 0, 1f64.to_bits(), 1])
        .collect()
}

fn half_spread(config: &Config, state: usize) -> f64 {
    (config.tick * (state as u64 / config.buckets + 1)) as f64 / 2.0
}

/// A model that the check accepts.
pub fn fine_model(random: &mut Random, config: &Config) -> Vec<u64> {
    let states = config.states();
    let mut model = vec![0; plain::model_length(states)];
    for state in 0..states {
        let mirror = config.mirror(state);
        if mirror < state {
            continue;
        }
        let middle = state == mirror;
        let row = fine_row(random, half_spread(config, state), middle);
        for (at, sign) in [(state, 1.0), (mirror, -1.0)] {
            let signed = |value: f64| {
                if value == 0.0 {
                    0
                } else {
                    (sign * value).to_bits()
                }
            };
            model[ROW_WORDS * at..ROW_WORDS * (at + 1)].copy_from_slice(&[
                at as u64 % config.buckets + 1,
                at as u64 / config.buckets + 1,
                row.observations,
                signed(row.first),
                signed(row.adjustment),
                row.share.to_bits(),
                row.status,
            ]);
        }
    }
    model
}

struct FineRow {
    observations: u64,
    first: f64,
    adjustment: f64,
    share: f64,
    status: u64,
}

fn fine_row(random: &mut Random, half: f64, middle: bool) -> FineRow {
    let status = if middle {
        random.below(3)
    } else {
        random.below(4)
    };
    let part = half.min(1e9) * (random.below(4097) as f64 * STEP);
    let inside = random.choose(&[
        half,
        -half,
        0.0,
        STEP.min(half),
        (part * 16.0).floor() / 16.0,
    ]);
    let adjustment = match status {
        _ if middle => 0.0,
        0 => inside,
        3 => half + random.choose(&[STEP, 1.0, half]),
        _ => 0.0,
    };
    let share = random.choose(&[0.0, 1.0, 0.5, STEP, 1.0 - STEP]);
    FineRow {
        observations: random.choose(&[0, 1, 100, 1 << 53, u64::MAX]),
        first: if middle {
            0.0
        } else {
            inside + random.below(3) as f64
        },
        adjustment,
        share: if status == 1 || status == 2 {
            1.0
        } else {
            share
        },
        status,
    }
}

/// Values for a word of a row, at and beside every limit of the check.
pub fn special_values(config: &Config, state: usize, near: u64) -> Vec<u64> {
    let half = half_spread(config, state);
    let floats = [
        0.0,
        -0.0,
        STEP,
        -STEP,
        1.0,
        1.0 + STEP,
        1.0 - STEP,
        -1.0,
        half,
        -half,
        half + STEP,
        -half - STEP,
        half - STEP,
        half.next_up(),
        2f64.powi(96),
        0.1,
        5e-324,
        f64::MAX,
        f64::INFINITY,
        f64::NEG_INFINITY,
        f64::NAN,
    ];
    let words = [
        0,
        1,
        2,
        3,
        4,
        5,
        1 << 32,
        (1 << 32) + 1,
        u64::MAX,
        near.wrapping_add(1),
        near.wrapping_sub(1),
    ];
    floats.into_iter().map(f64::to_bits).chain(words).collect()
}

/// Damages a model.
pub fn damage(random: &mut Random, config: &Config, model: &mut [u64]) {
    let state = random.index(config.states());
    let mirror = config.mirror(state);
    let word = random.index(ROW_WORDS);
    let values = special_values(config, state, model[ROW_WORDS * state + word]);
    let value = random.choose(&values);
    match random.below(7) {
        0 => model[ROW_WORDS * state + word] = value,
        1 => {
            // The adjustment about half the spread, in both rows.
            let size = half_spread(config, state) + random.choose(&[0.0, STEP, -STEP, 1.0]);
            model[ROW_WORDS * state + 4] = size.to_bits();
            model[ROW_WORDS * mirror + 4] = (-size).to_bits();
        }
        2 => {
            let status = random.choose(&[0, 1, 2, 3, 3, 4, u64::MAX]);
            model[ROW_WORDS * state + 6] = status;
            model[ROW_WORDS * mirror + 6] = status;
        }
        3 => {
            let other = random.index(config.states());
            (0..ROW_WORDS).for_each(|i| model.swap(ROW_WORDS * state + i, ROW_WORDS * other + i));
        }
        4 => {
            model[ROW_WORDS * state + 5] = value;
            model[ROW_WORDS * mirror + 5] = value;
        }
        5 => {
            let other = random.index(config.states());
            model.swap(ROW_WORDS * state + word, ROW_WORDS * other + word);
        }
        _ => model[ROW_WORDS * state + word] = random.word(),
    }
}
