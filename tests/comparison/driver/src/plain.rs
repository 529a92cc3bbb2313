//! Document 01 computed plainly, with neither the port nor the Rust.
//!
//! The comparison needs it for what the Rust does not have: refusals 2, 6, 7 and 12, the image's bytes, and inputs that the
//! Rust cannot be given (tables that no check has passed, floats that are no decimals, words over 32 bits). Where the Rust can
//! be asked, it is asked too, and must answer as is computed here.

use crate::paper::{
    CONFIG_WORDS, Config, DOMAIN, MAX_STATES, Memory, Quote, RECORD_WORDS, ROW_WORDS, Record,
    SIGNAL_WORDS,
};

/// Most pairs or skips.
pub const MOST_PAIRS: u64 = 1 << 52;
/// Most in a cell.
pub const MOST_IN_CELL: u64 = 1 << 53;
/// Greatest size of a move total.
pub const MOST_TOTAL: u64 = 1 << 53;
/// Words of an image's header.
pub const HEADER_WORDS: usize = 20;
/// Its bytes.
pub const HEADER: usize = 8 * HEADER_WORDS;
/// The header's word that is N.
pub const STATES_AT: usize = 0;
/// Its words of the configuration, in the order in which a configuration is lent.
pub const CONFIG_AT: [usize; CONFIG_WORDS] = [3, 1, 2, 4, 5];
/// Its words that say where stay, moved and the totals begin.
pub const OFFSETS_AT: [usize; 3] = [6, 7, 8];
/// Its words of the record, in the order in which a record is lent.
pub const RECORD_AT: [usize; RECORD_WORDS] = [9, 10, 11, 12, 13, 14, 15, 16, 17, 18];
/// Its word that is the image's length.
pub const LENGTH_AT: usize = 19;

// ---- configurations and quotes

pub fn valid(config: &Config) -> bool {
    (1..=DOMAIN).contains(&config.tick)
        && config.buckets >= 3
        && config.buckets % 2 == 1
        && config.spreads >= 1
        && u128::from(config.buckets) * u128::from(config.spreads) <= u128::from(MAX_STATES)
        && config.least >= 1
        && config.gap >= 1
}

/// 0, or the first of 2, 3 and 4.
pub fn quote_refusal(config: &Config, quote: &Quote) -> u64 {
    if quote.over_domain() {
        2
    } else if quote.bid == 0 || quote.ask <= quote.bid || quote.bid_size + quote.ask_size == 0 {
        3
    } else if !quote.bid.is_multiple_of(config.tick) || !quote.ask.is_multiple_of(config.tick) {
        4
    } else {
        0
    }
}

fn lower_bucket(n: u64, light: u64, heavy: u64) -> u64 {
    (1..n)
        .find(|j| light * n <= (light + heavy) * j)
        .map_or(n - 1, |j| j - 1)
}

/// The bucket of two sizes in the domain.
pub fn bucket(n: u64, bid_size: u64, ask_size: u64) -> u64 {
    if bid_size <= ask_size {
        lower_bucket(n, bid_size, ask_size)
    } else {
        n - 1 - lower_bucket(n, ask_size, bid_size)
    }
}

/// The state of a quote that 2, 3 and 4 do not refuse; none for a spread over s.
pub fn state(config: &Config, quote: &Quote) -> Option<usize> {
    let spread = (quote.ask - quote.bid) / config.tick;
    let bucket = bucket(config.buckets, quote.bid_size, quote.ask_size);
    let state = (spread <= config.spreads).then(|| (spread - 1) * config.buckets + bucket);
    state.map(|state| usize::try_from(state).expect("a state"))
}

fn half_ticks(config: &Config, quote: &Quote) -> i64 {
    i64::try_from((quote.bid + quote.ask) / config.tick).expect("half ticks")
}

// ---- one quote

/// One quote given to a calibrator with tables of the right lengths: 0, or the refusal, which leaves the memory as it is.
pub fn observe(memory: &mut Memory, quote: &Quote) -> u64 {
    let config = memory.config;
    if !valid(&config) {
        return 1;
    }
    if last_broken(&config, &memory.record) {
        return 8;
    }
    let refused = quote_refusal(&config, quote);
    if refused != 0 {
        return refused;
    }
    if let Some(last) = memory.record.last {
        if quote.time < last.time {
            return 5;
        }
        if !count(memory, &last, quote) {
            return 6;
        }
    }
    memory.record.last = Some(*quote);
    0
}

/// Counts two neighbours as a skip or a pair, unless something would pass its limit.
fn count(memory: &mut Memory, last: &Quote, quote: &Quote) -> bool {
    let config = memory.config;
    let record = &mut memory.record;
    let places = state(&config, last).zip(state(&config, quote));
    let (counter, pair) = if quote.time - last.time > config.gap {
        (&mut record.gap, None)
    } else if places.is_none() {
        (&mut record.spread, None)
    } else {
        (&mut record.pairs, places)
    };
    if *counter >= MOST_PAIRS {
        return false;
    }
    *counter += 1;
    let Some((from, to)) = pair else {
        return true;
    };
    let change = half_ticks(&config, quote) - half_ticks(&config, last);
    if !enter(memory, from, to, change) {
        memory.record.pairs -= 1;
        return false;
    }
    memory.record.largest = memory.record.largest.max(change.unsigned_abs());
    true
}

/// Enters a pair and its mirror, unless a touched cell or total would pass its limit after both.
fn enter(memory: &mut Memory, from: usize, to: usize, change: i64) -> bool {
    let config = memory.config;
    let states = config.states();
    let entries = [
        (from * states + to, from, change),
        (
            config.mirror(from) * states + config.mirror(to),
            config.mirror(from),
            -change,
        ),
    ];
    let table = if change == 0 {
        &mut memory.stay
    } else {
        &mut memory.moved
    };
    let fits = entries.iter().all(|(cell, from, _)| {
        let times = entries.iter().filter(|e| e.0 == *cell).count();
        let changes: i128 = entries
            .iter()
            .filter(|e| e.1 == *from)
            .map(|e| i128::from(e.2))
            .sum();
        u128::from(table[*cell]) + times as u128 <= u128::from(MOST_IN_CELL)
            && (i128::from(memory.totals[*from]) + changes).unsigned_abs() <= u128::from(MOST_TOTAL)
    });
    if fits {
        for (cell, from, change) in entries {
            table[cell] += 1;
            memory.totals[from] = memory.totals[from].wrapping_add(change);
        }
    }
    fits
}

// ---- judging a whole calibrator

/// 8: the last quote would meet 2, 3 or 4.
fn last_broken(config: &Config, record: &Record) -> bool {
    record
        .last
        .is_some_and(|last| quote_refusal(config, &last) != 0)
}

/// 6 of a stored calibrator: a counter of pairs or skips, or a total, outside its limit.
pub fn over_limits(memory: &Memory) -> bool {
    let record = &memory.record;
    [record.pairs, record.spread, record.gap]
        .iter()
        .any(|v| *v > MOST_PAIRS)
        || memory.totals.iter().any(|v| v.unsigned_abs() > MOST_TOTAL)
}

/// What the walk of `check_mirrored_counts` answers with its sum taken whole, and whether the sum passes 64 bits on it, where
/// the Rust stops.
pub struct Walk {
    pub answer: u64,
    pub passes_64_bits: bool,
}

pub fn walk(memory: &Memory) -> Walk {
    let mut sum = 0u128;
    let answer = walk_answer(memory, &mut sum);
    Walk {
        answer,
        passes_64_bits: sum > u128::from(u64::MAX),
    }
}

fn walk_answer(memory: &Memory, sum: &mut u128) -> u64 {
    let config = &memory.config;
    let states = config.states();
    for x in 0..states {
        let mirror = config.mirror(x);
        if i128::from(memory.totals[x]) != -i128::from(memory.totals[mirror]) {
            return 9;
        }
        for y in 0..states {
            let other = mirror * states + config.mirror(y);
            for table in [&memory.stay, &memory.moved] {
                if table[x * states + y] != table[other] {
                    return 10;
                }
                *sum += u128::from(table[x * states + y]);
            }
        }
    }
    if 2 * u128::from(memory.record.pairs) != *sum {
        return 11;
    }
    0
}

/// 0, or the first of 6, 9, 10 and 11: how the fit judges counts.
pub fn counts_refusal(memory: &Memory) -> u64 {
    if over_limits(memory) {
        6
    } else {
        walk(memory).answer
    }
}

/// 0, or the first of 8, 6, 9, 10 and 11: how save and restore judge a calibrator of a valid configuration.
pub fn memory_refusal(memory: &Memory) -> u64 {
    if last_broken(&memory.config, &memory.record) {
        8
    } else {
        counts_refusal(memory)
    }
}

// ---- the image

/// Bytes of an image.
pub fn image_length(states: usize) -> usize {
    HEADER + 16 * states * states + 8 * states
}

/// The words of an image's header.
pub fn header(config: &Config, record: &Record) -> [u64; HEADER_WORDS] {
    let states = config.states();
    let cells = 8 * states * states;
    let offsets = [HEADER, HEADER + cells, HEADER + 2 * cells].map(|offset| offset as u64);
    let mut words = [0; HEADER_WORDS];
    words[STATES_AT] = states as u64;
    words[LENGTH_AT] = image_length(states) as u64;
    let places = CONFIG_AT.into_iter().chain(OFFSETS_AT).chain(RECORD_AT);
    let held = config.words().into_iter().chain(offsets);
    for (at, word) in places.zip(held.chain(record.words())) {
        words[at] = word;
    }
    words
}

/// The configuration in a header's words.
pub fn config_in(words: &[u64]) -> Config {
    Config::of_words(&CONFIG_AT.map(|at| words[at]))
}

/// The record in a header's words.
pub fn record_in(words: &[u64]) -> Record {
    Record::of_words(&RECORD_AT.map(|at| words[at]))
}

/// The image of a calibrator.
pub fn image(memory: &Memory) -> Vec<u8> {
    let totals = memory.totals.iter().map(|v| v.cast_unsigned());
    header(&memory.config, &memory.record)
        .into_iter()
        .chain(memory.stay.iter().copied())
        .chain(memory.moved.iter().copied())
        .chain(totals)
        .flat_map(u64::to_le_bytes)
        .collect()
}

/// What an image tells, or the first of 12 (less than a header), 1 and 12 (any word or length unlike that of an image).
pub fn read_image(image: &[u8]) -> Result<Memory, u64> {
    if image.len() < HEADER {
        return Err(12);
    }
    let words: Vec<u64> = image
        .chunks_exact(8)
        .map(|bytes| u64::from_le_bytes(bytes.try_into().expect("eight bytes")))
        .collect();
    let config = config_in(&words);
    if !valid(&config) {
        return Err(1);
    }
    let record = record_in(&words);
    let told = words[..HEADER_WORDS] == header(&config, &record);
    if !told || image.len() != image_length(config.states()) {
        return Err(12);
    }
    let cells = config.states() * config.states();
    let (stay, rest) = words[HEADER_WORDS..].split_at(cells);
    let (moved, totals) = rest.split_at(cells);
    Ok(Memory {
        config,
        record,
        stay: stay.to_vec(),
        moved: moved.to_vec(),
        totals: totals.iter().map(|v| v.cast_signed()).collect(),
    })
}

// ---- models and signals

/// Floats of scratch that a fit asks for.
pub fn scratch_length(states: usize) -> usize {
    states * (2 * states + 10)
}

/// Words of a model table.
pub fn model_length(states: usize) -> usize {
    ROW_WORDS * states
}

/// Twice half the spread of a state: tick × spread.
fn whole_spread(config: &Config, state: usize) -> f64 {
    (config.tick * (state as u64 / config.buckets + 1)) as f64
}

/// The size of an adjustment is over half the spread. Exact: both sides are floats without rounding.
pub fn over_half_spread(config: &Config, state: usize, adjustment: f64) -> bool {
    adjustment.abs() > whole_spread(config, state) / 2.0
}

fn row(model: &[u64], state: usize) -> &[u64] {
    &model[ROW_WORDS * state..ROW_WORDS * (state + 1)]
}

fn floats(row: &[u64]) -> [f64; 3] {
    [row[3], row[4], row[5]].map(f64::from_bits)
}

/// The rules of `TryFrom<RawModel>` for one row, on floats, and the three that 01 adds.
fn row_fine(config: &Config, model: &[u64], state: usize) -> bool {
    let own = row(model, state);
    let mirror = row(model, config.mirror(state));
    let ([first, adjustment, share], status) = (floats(own), own[6]);
    let [mirror_first, mirror_adjustment, _] = floats(mirror);
    let outside = over_half_spread(config, state, adjustment);
    let added = status <= 3
        && floats(own).iter().all(|v| v.is_finite())
        && floats(own).iter().all(|v| v.to_bits() != 1 << 63);
    let placed =
        own[0] == state as u64 % config.buckets + 1 && own[1] == state as u64 / config.buckets + 1;
    let consistent = match status {
        0 => !outside,
        3 => outside,
        _ => share == 1.0 && adjustment == 0.0,
    };
    let mirrored = status == mirror[6]
        && own[2] == mirror[2]
        && adjustment + mirror_adjustment == 0.0
        && first + mirror_first == 0.0;
    added && placed && consistent && (0.0..=1.0).contains(&share) && mirrored
}

/// The first bad row of a model table of the right length.
pub fn bad_row(config: &Config, model: &[u64]) -> Option<u64> {
    let states = config.states();
    (0..states)
        .find(|state| !row_fine(config, model, *state))
        .map(|state| state as u64)
}

/// A signal's words, or its refusal, at 13 with the quote's state. The configuration is valid and the table has its length.
pub fn signal(
    config: &Config,
    model: &[u64],
    quote: &Quote,
) -> Result<[u64; SIGNAL_WORDS], (u64, u64)> {
    let refused = quote_refusal(config, quote);
    if refused != 0 {
        return Err((refused, 0));
    }
    let (bits, source) = match state(config, quote) {
        None => (0, 4),
        Some(state) => {
            let row = row(model, state);
            let adjustment = f64::from_bits(row[4]);
            let outside = over_half_spread(config, state, adjustment) || !adjustment.is_finite();
            if row[6] > 3 || (row[6] == 0 && outside) {
                return Err((13, state as u64));
            }
            (if row[6] == 0 { row[4] } else { 0 }, row[6])
        }
    };
    Ok([quote.time, quote.bid + quote.ask, bits, source])
}

// ---- the window

/// The first quote inside and the one past the last, or 14 or 15.
pub fn window(times: &[u64], start: u64, end: u64) -> Result<(usize, usize), u64> {
    if times.windows(2).any(|pair| pair[1] < pair[0]) {
        return Err(14);
    }
    if end < start && times.iter().any(|t| end <= *t && *t < start) {
        return Err(15);
    }
    let before = |limit: u64| times.iter().filter(|t| **t < limit).count();
    Ok((before(start), before(end)))
}
