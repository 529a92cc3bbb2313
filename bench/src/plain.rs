//! The calibrator in plain Rust: whole numbers, flat tables, nothing proved. It gives document 01's answers, and like the port
//! it judges everything at every call, its configuration, lengths and last quote too.

use driver::paper::{Config, DOMAIN, MAX_STATES, Quote, Record, Row};
use driver::plain::{
    HEADER, HEADER_WORDS, MOST_IN_CELL, MOST_PAIRS, MOST_TOTAL, config_in, header, image_length,
    record_in,
};
use std::array;

const TOTALS: i64 = MOST_TOTAL.cast_signed();

/// The number of a refusal.
pub type Refusal = u64;

/// The number of states of a valid configuration.
fn states(c: &Config) -> Result<usize, Refusal> {
    let valid = (1..=DOMAIN).contains(&c.tick)
        && (3..=MAX_STATES).contains(&c.buckets)
        && c.buckets % 2 == 1
        && (1..=MAX_STATES).contains(&c.spreads)
        && c.buckets * c.spreads <= MAX_STATES
        && c.least >= 1
        && c.gap >= 1;
    if valid {
        Ok((c.buckets * c.spreads) as usize)
    } else {
        Err(1)
    }
}

/// Bid and ask in ticks, of a quote that is not refused.
#[inline(always)]
fn in_ticks(c: &Config, q: &Quote) -> Result<(u32, u32), Refusal> {
    if q.bid > DOMAIN || q.ask > DOMAIN || q.bid_size > DOMAIN || q.ask_size > DOMAIN {
        return Err(2);
    }
    if q.bid == 0 || q.ask <= q.bid || (q.bid_size == 0 && q.ask_size == 0) {
        return Err(3);
    }
    let (bid, ask, tick) = (q.bid as u32, q.ask as u32, c.tick as u32);
    if bid % tick != 0 || ask % tick != 0 {
        return Err(4);
    }
    Ok((bid / tick, ask / tick))
}

#[inline(always)]
fn bucket(bid: u64, ask: u64, buckets: u64) -> u64 {
    let lower = (bid.min(ask) * buckets).saturating_sub(1) / (bid + ask);
    if bid <= ask {
        lower
    } else {
        buckets - 1 - lower
    }
}

/// A state and its mirror.
#[inline(always)]
fn place(c: &Config, spread: u32, q: &Quote) -> (usize, usize) {
    let first = (u64::from(spread) - 1) * c.buckets;
    let bucket = bucket(q.bid_size, q.ask_size, c.buckets);
    (
        (first + bucket) as usize,
        (first + c.buckets - 1 - bucket) as usize,
    )
}

fn mirror(buckets: usize, state: usize) -> usize {
    let bucket = state % buckets;
    state - bucket + buckets - 1 - bucket
}

#[derive(Debug, Clone, PartialEq)]
pub struct Calibrator {
    pub config: Config,
    pub record: Record,
    pub stay: Vec<u64>,
    pub moved: Vec<u64>,
    pub totals: Vec<i64>,
}

impl Calibrator {
    pub fn new(config: Config) -> Self {
        let states = config.states();
        Self {
            config,
            record: Record::default(),
            stay: vec![0; states * states],
            moved: vec![0; states * states],
            totals: vec![0; states],
        }
    }

    fn room(&self) -> Result<usize, Refusal> {
        let states = states(&self.config)?;
        let cells = states * states;
        if self.stay.len() != cells || self.moved.len() != cells || self.totals.len() != states {
            return Err(7);
        }
        Ok(states)
    }

    #[inline(never)]
    pub fn observe(&mut self, quote: &Quote) -> Result<(), Refusal> {
        let states = self.room()?;
        let (c, record) = (&self.config, &mut self.record);
        let Some(last) = record.last else {
            in_ticks(c, quote)?;
            record.last = Some(*quote);
            return Ok(());
        };
        let (last_bid, last_ask) = in_ticks(c, &last).map_err(|_| 8u64)?;
        let (bid, ask) = in_ticks(c, quote)?;
        if quote.time < last.time {
            return Err(5);
        }
        let (last_spread, spread) = (last_ask - last_bid, ask - bid);
        let counter = if quote.time - last.time > c.gap {
            &mut record.gap
        } else if u64::from(last_spread) > c.spreads || u64::from(spread) > c.spreads {
            &mut record.spread
        } else {
            let from = place(c, last_spread, &last);
            let to = place(c, spread, quote);
            let change = i64::from(bid + ask) - i64::from(last_bid + last_ask);
            let table = if change == 0 {
                &mut self.stay
            } else {
                &mut self.moved
            };
            let own = from.0 * states + to.0;
            let other = from.1 * states + to.1;
            if record.pairs >= MOST_PAIRS
                || !cells_fit(table, own, other)
                || !totals_fit(&self.totals, from, change)
            {
                return Err(6);
            }
            table[own] += 1;
            table[other] += 1;
            self.totals[from.0] += change;
            self.totals[from.1] -= change;
            record.largest = record.largest.max(change.unsigned_abs());
            &mut record.pairs
        };
        if *counter >= MOST_PAIRS {
            return Err(6);
        }
        *counter += 1;
        record.last = Some(*quote);
        Ok(())
    }
}

#[inline(always)]
fn cells_fit(table: &[u64], own: usize, other: usize) -> bool {
    if own == other {
        table[own] <= MOST_IN_CELL - 2
    } else {
        table[own] < MOST_IN_CELL && table[other] < MOST_IN_CELL
    }
}

#[inline(always)]
fn totals_fit(totals: &[i64], from: (usize, usize), change: i64) -> bool {
    let within = |total: i64| (-TOTALS..=TOTALS).contains(&total);
    let (own, other) = (totals[from.0], totals[from.1]);
    if from.0 == from.1 {
        within(own)
    } else {
        within(own.saturating_add(change)) && within(other.saturating_sub(change))
    }
}

/// A word of a table, or of an image.
trait Word: Copy {
    fn word(self) -> u64;
}

impl Word for u64 {
    fn word(self) -> u64 {
        self
    }
}

impl Word for i64 {
    fn word(self) -> u64 {
        self as u64
    }
}

impl Word for [u8; 8] {
    fn word(self) -> u64 {
        u64::from_le_bytes(self)
    }
}

/// Refusals 6, 9, 10 and 11.
fn check_counts<C: Word, T: Word>(
    c: &Config,
    record: &Record,
    stay: &[C],
    moved: &[C],
    totals: &[T],
) -> Result<(), Refusal> {
    let (states, buckets) = (totals.len(), c.buckets as usize);
    let total = |state: usize| totals[state].word() as i64;
    let counters = [record.pairs, record.spread, record.gap];
    let over = |state| !(-TOTALS..=TOTALS).contains(&total(state));
    if counters.iter().any(|k| *k > MOST_PAIRS) || (0..states).any(over) {
        return Err(6);
    }
    let mut sum = 0u64;
    for own in 0..states {
        let other = mirror(buckets, own);
        if total(own) != -total(other) {
            return Err(9);
        }
        for table in [stay, moved] {
            let row = table[own * states..][..states].chunks_exact(buckets);
            let mirrored = table[other * states..][..states].chunks_exact(buckets);
            for (row, mirrored) in row.zip(mirrored) {
                for (value, other) in row.iter().zip(mirrored.iter().rev()) {
                    if value.word() != other.word() {
                        return Err(10);
                    }
                    sum = sum.saturating_add(value.word());
                }
            }
        }
    }
    if sum == 2 * record.pairs {
        Ok(())
    } else {
        Err(11)
    }
}

fn last_is_sound(c: &Config, record: &Record) -> Result<(), Refusal> {
    match &record.last {
        Some(last) => in_ticks(c, last).map(|_| ()).map_err(|_| 8),
        None => Ok(()),
    }
}

fn put<W: Word>(out: &mut [u8], words: &[W]) {
    for (place, value) in out.as_chunks_mut::<8>().0.iter_mut().zip(words) {
        *place = value.word().to_le_bytes();
    }
}

impl Calibrator {
    /// Refusals 6, 9, 10 and 11.
    #[inline(never)]
    pub fn check_counts(&self) -> Result<(), Refusal> {
        check_counts(
            &self.config,
            &self.record,
            &self.stay,
            &self.moved,
            &self.totals,
        )
    }

    #[inline(never)]
    pub fn save(&self, out: &mut [u8]) -> Result<(), Refusal> {
        let states = self.room()?;
        if out.len() != image_length(states) {
            return Err(7);
        }
        last_is_sound(&self.config, &self.record)?;
        self.check_counts()?;
        let (head, body) = out.split_at_mut(HEADER);
        let (stay, rest) = body.split_at_mut(8 * states * states);
        let (moved, totals) = rest.split_at_mut(8 * states * states);
        put(head, &header(&self.config, &self.record));
        put(stay, &self.stay);
        put(moved, &self.moved);
        put(totals, &self.totals);
        Ok(())
    }

    #[inline(never)]
    pub fn restore(&mut self, image: &[u8]) -> Result<(), Refusal> {
        let (words, rest) = image.as_chunks::<8>();
        if image.len() < HEADER {
            return Err(12);
        }
        let (head, body) = words.split_at(HEADER_WORDS);
        let head: [u64; HEADER_WORDS] = array::from_fn(|i| head[i].word());
        let config = config_in(&head);
        let states = states(&config)?;
        let cells = states * states;
        let record = record_in(&head);
        let same = head == header(&config, &record);
        if !same || image.len() != image_length(states) || !rest.is_empty() {
            return Err(12);
        }
        if self.stay.len() != cells || self.moved.len() != cells || self.totals.len() != states {
            return Err(7);
        }
        last_is_sound(&config, &record)?;
        let (stay, others) = body.split_at(cells);
        let (moved, totals) = others.split_at(cells);
        check_counts(&config, &record, stay, moved, totals)?;
        self.config = config;
        self.record = record;
        self.stay
            .iter_mut()
            .zip(stay)
            .for_each(|(own, v)| *own = v.word());
        self.moved
            .iter_mut()
            .zip(moved)
            .for_each(|(own, v)| *own = v.word());
        self.totals
            .iter_mut()
            .zip(totals)
            .for_each(|(own, v)| *own = v.word() as i64);
        Ok(())
    }
}

/// Reduces the first `size` columns to the identity; `false` where a pivot is too small.
fn gauss_jordan(rows: &mut [f64], size: usize, width: usize) -> bool {
    for column in 0..size {
        let magnitude = |row: usize| rows[row * width + column].abs();
        let best = (column..size).max_by(|a, b| magnitude(*a).total_cmp(&magnitude(*b)));
        let Some(best) = best.filter(|row| magnitude(*row) >= 1e-12) else {
            return false;
        };
        if best != column {
            let (upper, lower) = rows.split_at_mut(best * width);
            upper[column * width..][..width].swap_with_slice(&mut lower[..width]);
        }
        let (above, rest) = rows.split_at_mut(column * width);
        let (top, below) = rest.split_at_mut(width);
        let pivot = top[column];
        top.iter_mut().for_each(|v| *v /= pivot);
        for row in above
            .chunks_exact_mut(width)
            .chain(below.chunks_exact_mut(width))
        {
            let factor = row[column];
            if factor != 0.0 {
                row.iter_mut()
                    .zip(&*top)
                    .for_each(|(v, t)| *v -= factor * t);
            }
        }
    }
    true
}

fn times(rows: &[f64], width: usize, term: &[f64], next: &mut [f64]) {
    for (row, value) in rows.chunks_exact(width).zip(next) {
        let from = row.len() - term.len();
        *value = row[from..].iter().zip(term).map(|(p, v)| p * v).sum();
    }
}

fn sum_series(rows: &[f64], width: usize, first: &[f64]) -> Option<Vec<f64>> {
    let (mut sum, mut term, mut next) = (first.to_vec(), first.to_vec(), first.to_vec());
    for _ in 0..10_000 {
        times(rows, width, &term, &mut next);
        std::mem::swap(&mut term, &mut next);
        sum.iter_mut().zip(&term).for_each(|(total, v)| *total += v);
        let largest = term.iter().fold(0.0f64, |m, v| m.max(v.abs()));
        if !largest.is_finite() {
            return None;
        }
        if largest < 1e-12 {
            return Some(sum);
        }
    }
    None
}

fn fallback_within_moves(rows: &[f64], width: usize, before_move: &[f64]) -> Vec<f64> {
    let (mut share, mut next) = (before_move.to_vec(), before_move.to_vec());
    for _ in 0..10 {
        times(rows, width, &share, &mut next);
        share
            .iter_mut()
            .zip(&next)
            .zip(before_move)
            .for_each(|((s, v), f)| *s = f + v);
    }
    share
}

/// 0 Calibrated, 1 Rare, 2 NoPriceMove, of each state.
fn marks(stay: &[u64], moved: &[u64], observations: &[u64], least: u64) -> Vec<u64> {
    let states = observations.len();
    let mut marks: Vec<u64> = (0..states)
        .map(|x| match () {
            () if observations[x] < least => 1,
            () if moved[x * states..][..states].iter().any(|c| *c > 0) => 0,
            () => 2,
        })
        .collect();
    loop {
        let mut changed = false;
        for x in 0..states {
            let row = &stay[x * states..][..states];
            if marks[x] == 2 && row.iter().zip(&marks).any(|(c, m)| *c > 0 && *m == 0) {
                marks[x] = 0;
                changed = true;
            }
        }
        if !changed {
            return marks;
        }
    }
}

impl Calibrator {
    /// (1 − Q) | K | 1 for a fallback state, else 0 | T.
    fn system(&self, observations: &[u64], marks: &[u64], width: usize) -> Vec<f64> {
        let states = observations.len();
        let mut rows = vec![0.0; states * width];
        for (x, row) in rows.chunks_exact_mut(width).enumerate() {
            row[x] = 1.0;
            if marks[x] != 0 {
                row[states + 1] = 1.0;
                continue;
            }
            let total = observations[x] as f64;
            let stay = &self.stay[x * states..][..states];
            let moved = &self.moved[x * states..][..states];
            row.iter_mut()
                .zip(stay)
                .for_each(|(v, c)| *v -= *c as f64 / total);
            row[states] = self.totals[x] as f64 / total;
            row[states + 2..]
                .iter_mut()
                .zip(moved)
                .for_each(|(v, c)| *v = *c as f64 / total);
        }
        rows
    }

    #[inline(never)]
    pub fn fit(&self) -> Result<Vec<Row>, Refusal> {
        let states = self.room()?;
        self.check_counts()?;
        let buckets = self.config.buckets as usize;
        let row_sum = |table: &[u64], x: usize| table[x * states..][..states].iter().sum::<u64>();
        let observations: Vec<u64> = (0..states)
            .map(|x| row_sum(&self.stay, x) + row_sum(&self.moved, x))
            .collect();
        let marks = marks(&self.stay, &self.moved, &observations, self.config.least);
        if !marks.contains(&0) {
            return Err(16);
        }
        let width = 2 * states + 2;
        let mut rows = self.system(&observations, &marks, width);
        if !gauss_jordan(&mut rows, states, width) {
            return Err(17);
        }
        let column = |k: usize| {
            rows.chunks_exact(width)
                .map(|row| row[k])
                .collect::<Vec<f64>>()
        };
        let first = column(states);
        let sum = sum_series(&rows, width, &first).ok_or(18u64)?;
        let share = fallback_within_moves(&rows, width, &column(states + 1));
        let tick = self.config.tick as f64;
        let model: Vec<Row> = (0..states)
            .map(|x| {
                let other = mirror(buckets, x);
                let adjustment = (sum[x] - sum[other]) / 2.0 * (tick / 2.0);
                let spread = (x / buckets + 1) as u64;
                let outside = marks[x] == 0 && adjustment.abs() > tick * spread as f64 / 2.0;
                Row {
                    bucket: (x % buckets + 1) as u64,
                    spread,
                    observations: observations[x],
                    first: (first[x] - first[other]) / 2.0 * (tick / 2.0),
                    adjustment,
                    share: if marks[x] == 0 {
                        share[x].clamp(0.0, 1.0)
                    } else {
                        1.0
                    },
                    status: if outside { 3 } else { marks[x] },
                }
            })
            .collect();
        let small = |v: f64| v.abs() < 79228162514264337593543950336.0;
        if !model
            .iter()
            .all(|r| small(r.first) && small(r.adjustment) && small(r.share))
        {
            return Err(19);
        }
        if !model.iter().any(|r| r.status == 0) {
            return Err(16);
        }
        Ok(model)
    }
}

/// Half the spread of a state.
fn half_spread(c: &Config, spread: u64) -> f64 {
    (c.tick * spread) as f64 / 2.0
}

fn is_fine(c: &Config, state: usize, row: &Row, other: &Row) -> bool {
    let buckets = c.buckets as usize;
    let half = half_spread(c, (state / buckets + 1) as u64);
    let plain = |v: f64| v.is_finite() && !(v == 0.0 && v.is_sign_negative());
    let size = row.adjustment.abs();
    let status = match row.status {
        0 => size <= half,
        1 | 2 => row.share == 1.0 && row.adjustment == 0.0,
        3 => size > half,
        _ => false,
    };
    row.bucket == (state % buckets + 1) as u64
        && row.spread == (state / buckets + 1) as u64
        && plain(row.first)
        && plain(row.adjustment)
        && plain(row.share)
        && (0.0..=1.0).contains(&row.share)
        && status
        && row.status == other.status
        && row.observations == other.observations
        && row.adjustment + other.adjustment == 0.0
        && row.first + other.first == 0.0
}

/// Refusals 1, 7 and 13.
#[inline(never)]
pub fn check_model(c: &Config, model: &[Row]) -> Result<(), Refusal> {
    if model.len() != states(c)? {
        return Err(7);
    }
    let other = |state| &model[mirror(c.buckets as usize, state)];
    let fine = |(state, row)| is_fine(c, state, row, other(state));
    if model.iter().enumerate().all(fine) {
        Ok(())
    } else {
        Err(13)
    }
}

/// Time, bid + ask, adjustment, source.
pub type Signal = (u64, u64, f64, u64);

#[inline(never)]
pub fn signal(c: &Config, model: &[Row], q: &Quote) -> Result<Signal, Refusal> {
    if model.len() != states(c)? {
        return Err(7);
    }
    let (bid, ask) = in_ticks(c, q)?;
    let spread = ask - bid;
    if u64::from(spread) > c.spreads {
        return Ok((q.time, q.bid + q.ask, 0.0, 4));
    }
    let row = &model[place(c, spread, q).0];
    match row.status {
        0 if row.adjustment.abs() <= half_spread(c, u64::from(spread)) => {
            Ok((q.time, q.bid + q.ask, row.adjustment, 0))
        }
        1..=3 => Ok((q.time, q.bid + q.ask, 0.0, row.status)),
        _ => Err(13),
    }
}
