//! The fit of document 01, with the rounds of document 02's Q-10, computed plainly: binary64 in 01's order of operations, with
//! neither the port nor the Rust.
//!
//! At the default rounds the comparison holds it to the Rust; at others, which the Rust does not have, the port is held to it.

use std::cell::OnceCell;

use crate::paper::{Config, Memory, ROUNDS_OUT_OF_RANGE, Rounds, bits};
use crate::plain;

/// A pivot below this is singular.
const LEAST_PIVOT: f64 = 1e-12;
/// A series ends where the largest term is below this.
const SMALL_TERM: f64 = 1e-12;
/// A float of this size or more is unrepresentable: 2^96.
const TOO_LARGE: f64 = (1u128 << 96) as f64;

const CALIBRATED: u64 = 0;
const RARE: u64 = 1;
const NO_PRICE_MOVE: u64 = 2;
const OUTSIDE_QUOTES: u64 = 3;

/// The fits of one memory, whose tables may have any lengths. What does not depend on the rounds is worked out once.
pub struct Fits<'a> {
    memory: &'a Memory,
    solved: OnceCell<Result<Solved, u64>>,
}

impl<'a> Fits<'a> {
    pub fn of(memory: &'a Memory) -> Self {
        Self {
            memory,
            solved: OnceCell::new(),
        }
    }

    /// A fit: its answer, with scratch and the model table as it leaves them.
    pub fn fit(&self, rounds: Rounds, scratch: &mut [f64], model: &mut [u64]) -> u64 {
        let refused = self.refusal(rounds, scratch.len(), model.len());
        if refused != 0 {
            return refused;
        }
        scratch.fill(0.0);
        match self.solved().and_then(|solved| solved.model(rounds)) {
            Err(number) => number,
            Ok(words) => {
                model.copy_from_slice(&words);
                0
            }
        }
    }

    /// How the series of the memory's tables ends; none where the fit comes to no series. The tables have the right lengths.
    pub fn series(&self, rounds: u64) -> Option<Series> {
        if plain::counts_refusal(self.memory) != 0 {
            return None;
        }
        self.solved().ok().map(|solved| solved.series(rounds))
    }

    /// 0, or the first of 1, 26, 7, 6, 9, 10 and 11.
    fn refusal(&self, rounds: Rounds, scratch: usize, model: usize) -> u64 {
        let memory = self.memory;
        if !plain::valid(&memory.config) {
            return 1;
        }
        if !rounds.in_range() {
            return ROUNDS_OUT_OF_RANGE;
        }
        let states = memory.config.states();
        let tables = [memory.stay.len(), memory.moved.len(), memory.totals.len()];
        let room = [plain::scratch_length(states), plain::model_length(states)];
        if tables != [states * states, states * states, states] || room != [scratch, model] {
            return 7;
        }
        plain::counts_refusal(memory)
    }

    fn solved(&self) -> Result<&Solved, u64> {
        let solved = self.solved.get_or_init(|| Solved::of(self.memory));
        solved.as_ref().map_err(|number| *number)
    }
}

/// How a series ends.
#[derive(Debug, Clone, PartialEq)]
pub enum Series {
    /// The largest term of this round is below 1e-12; with the sums.
    Converged(u64, Vec<f64>),
    /// The largest term of this round is infinite.
    Infinite(u64),
    /// Neither in the rounds that it has.
    Cut,
}

/// The states of a memory and its solved system.
struct Solved {
    config: Config,
    observations: Vec<u64>,
    /// Of each state, before its adjustment is known.
    statuses: Vec<u64>,
    /// G1.
    first: Vec<f64>,
    /// F: a fallback state comes before the next move.
    fallback: Vec<f64>,
    /// B, by columns.
    moves: Vec<Vec<f64>>,
}

impl Solved {
    /// Or 16 or 17. The counts are those that 6, 9, 10 and 11 do not refuse, so that each observation count is exact as a float.
    fn of(memory: &Memory) -> Result<Self, u64> {
        let states = memory.config.states();
        let observations = observations(memory);
        let statuses = statuses(memory, &observations);
        if !statuses.contains(&CALIBRATED) {
            return Err(16);
        }
        let mut rows: Vec<Vec<f64>> = (0..states)
            .map(|x| equation(memory, x, statuses[x] == CALIBRATED, observations[x]))
            .collect();
        if !eliminate(&mut rows) {
            return Err(17);
        }
        Ok(Self {
            config: memory.config,
            observations,
            statuses,
            first: rows.iter().map(|row| row[states]).collect(),
            fallback: rows.iter().map(|row| row[states + 1]).collect(),
            moves: (states + 2..2 * states + 2)
                .map(|column| rows.iter().map(|row| row[column]).collect())
                .collect(),
        })
    }

    /// B × values: each row's sum from left to right, starting at minus zero as the Rust's does.
    fn after_a_move(&self, values: &[f64]) -> Vec<f64> {
        let mut sums = vec![-0.0; values.len()];
        for (column, value) in self.moves.iter().zip(values) {
            for (sum, b) in sums.iter_mut().zip(column) {
                *sum += b * value;
            }
        }
        sums
    }

    fn series(&self, rounds: u64) -> Series {
        let mut term = self.first.clone();
        let mut sums = self.first.clone();
        for round in 1..=rounds {
            term = self.after_a_move(&term);
            for (sum, value) in sums.iter_mut().zip(&term) {
                *sum += value;
            }
            let sizes = term.iter().map(|value| value.abs());
            let largest = sizes
                .filter(|size| !size.is_nan())
                .fold(0.0, |most, size| if size > most { size } else { most });
            if largest == f64::INFINITY {
                return Series::Infinite(round);
            }
            if largest < SMALL_TERM {
                return Series::Converged(round, sums);
            }
        }
        Series::Cut
    }

    /// F, then so many times F + B × share, before the clamp.
    fn shares(&self, rounds: u64) -> Vec<f64> {
        let mut shares = self.fallback.clone();
        for _ in 0..rounds {
            let later = self.after_a_move(&shares);
            shares = self
                .fallback
                .iter()
                .zip(later)
                .map(|(f, v)| f + v)
                .collect();
        }
        shares
    }

    /// The words of the model table, or 18, 19 or 16.
    fn model(&self, rounds: Rounds) -> Result<Vec<u64>, u64> {
        let Series::Converged(_, sums) = self.series(rounds.series) else {
            return Err(18);
        };
        let shares = self.shares(rounds.fallback);
        let rows: Vec<Estimate> = (0..shares.len())
            .map(|x| self.estimate(x, &sums, shares[x]))
            .collect();
        if rows.iter().any(|row| !row.floats.iter().all(representable)) {
            return Err(19);
        }
        if rows.iter().all(|row| row.status != CALIBRATED) {
            return Err(16);
        }
        let words = |(x, row): (usize, &Estimate)| {
            let (x, n) = (x as u64, self.config.buckets);
            let [first, adjustment, share] = row.floats.map(bits);
            let seen = self.observations[x as usize];
            [
                x % n + 1,
                x / n + 1,
                seen,
                first,
                adjustment,
                share,
                row.status,
            ]
        };
        Ok(rows.iter().enumerate().flat_map(words).collect())
    }

    fn estimate(&self, x: usize, sums: &[f64], share: f64) -> Estimate {
        let mirror = self.config.mirror(x);
        let half_tick = self.config.tick as f64 / 2.0;
        let adjusted = |values: &[f64]| (values[x] - values[mirror]) / 2.0 * half_tick;
        let adjustment = adjusted(sums);
        let calibrated = self.statuses[x] == CALIBRATED;
        let outside = plain::over_half_spread(&self.config, x, adjustment);
        let share = if calibrated {
            share.clamp(0.0, 1.0)
        } else {
            1.0
        };
        Estimate {
            floats: [adjusted(&self.first), adjustment, share],
            status: if calibrated && outside {
                OUTSIDE_QUOTES
            } else {
                self.statuses[x]
            },
        }
    }
}

/// First adjustment, adjustment and share of a state, and its status.
struct Estimate {
    floats: [f64; 3],
    status: u64,
}

fn representable(value: &f64) -> bool {
    value.is_finite() && value.abs() < TOO_LARGE
}

fn observations(memory: &Memory) -> Vec<u64> {
    let states = memory.config.states();
    let stay = memory.stay.chunks(states);
    let rows = stay.zip(memory.moved.chunks(states));
    rows.map(|(stay, moved)| stay.iter().chain(moved).sum())
        .collect()
}

/// Rare, NoPriceMove or Calibrated: the states with moves are looked for, and from them, against the stay cells, all that
/// lead to them.
fn statuses(memory: &Memory, observations: &[u64]) -> Vec<u64> {
    let states = memory.config.states();
    let mut statuses: Vec<u64> = observations
        .iter()
        .map(|seen| {
            if *seen < memory.config.least {
                RARE
            } else {
                NO_PRICE_MOVE
            }
        })
        .collect();
    let moves = |x: &usize| {
        memory.moved[x * states..(x + 1) * states]
            .iter()
            .any(|v| *v > 0)
    };
    let mut open: Vec<usize> = (0..states).filter(moves).collect();
    while let Some(x) = open.pop() {
        if statuses[x] == NO_PRICE_MOVE {
            statuses[x] = CALIBRATED;
            open.extend((0..states).filter(|from| memory.stay[from * states + x] > 0));
        }
    }
    statuses
}

/// Row x of (1 − Q) | K | 1 for a fallback state, else 0 | T.
fn equation(memory: &Memory, x: usize, calibrated: bool, observations: u64) -> Vec<f64> {
    let states = memory.config.states();
    let share = |count: f64| {
        if calibrated {
            count / observations as f64
        } else {
            0.0
        }
    };
    let cells = x * states..(x + 1) * states;
    let stay = memory.stay[cells.clone()].iter().enumerate();
    let mut row: Vec<f64> = stay
        .map(|(y, count)| match share(*count as f64) {
            q if x == y => 1.0 - q,
            q => -q,
        })
        .collect();
    row.push(share(memory.totals[x] as f64));
    row.push(if calibrated { 0.0 } else { 1.0 });
    row.extend(memory.moved[cells].iter().map(|count| share(*count as f64)));
    row
}

/// Turns the first columns into the identity; false at a pivot that is too small.
fn eliminate(rows: &mut [Vec<f64>]) -> bool {
    for column in 0..rows.len() {
        let best = pivot_row(rows, column);
        let pivot = rows[best][column];
        if pivot.abs() < LEAST_PIVOT {
            return false;
        }
        rows.swap(column, best);
        for value in &mut rows[column] {
            *value /= pivot;
        }
        let top = rows[column].clone();
        for (at, row) in rows.iter_mut().enumerate() {
            let factor = row[column];
            if at == column || factor == 0.0 {
                continue;
            }
            for (value, above) in row.iter_mut().zip(&top) {
                *value -= factor * above;
            }
        }
    }
    true
}

/// From the diagonal down the row with the greatest size in the column, the last of equals; NaN is above all.
fn pivot_row(rows: &[Vec<f64>], column: usize) -> usize {
    let size = |row: usize| rows[row][column].abs();
    (column..rows.len()).fold(column, |best, row| {
        if size(row).is_nan() || size(row) >= size(best) {
            row
        } else {
            best
        }
    })
}
