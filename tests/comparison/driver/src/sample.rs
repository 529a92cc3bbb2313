//! The cases of the sample, as lines of words (make_sample.sh describes them). Cases are made at random and kept until there
//! are so many of each answer as is wanted here; those that show a listed difference are left out.

use std::collections::BTreeMap;

use crate::answers::{answer, entries};
use crate::inputs::quotes::{self, SMALL};
use crate::inputs::{models, tables};
use crate::paper::{Config, DOMAIN, Memory, Quote, ROW_WORDS, Tables, join};
use crate::plain;
use crate::random::{Random, enter};

/// How many cases of an operation answer with which number first; 99 stands for any.
type Wanted = &'static [(u64, u64)];

const ANY: u64 = 99;

/// Makes the words of a case after its operation.
type Make = fn(&mut Random) -> Vec<u64>;

const OPERATIONS: [(u64, Make, Wanted); 9] = [
    (1, configuration, &[(0, 10), (1, 20)]),
    (2, quote_list, &[(ANY, 70)]),
    (
        3,
        memory,
        &[(0, 30), (1, 4), (8, 8), (9, 6), (10, 8), (11, 6)],
    ),
    (
        4,
        fit,
        &[
            (0, 50),
            (1, 3),
            (9, 3),
            (10, 3),
            (11, 3),
            (16, 8),
            (17, 5),
            (18, 6),
            (19, 5),
        ],
    ),
    (5, model, &[(0, 12), (1, 4), (7, 5), (13, 40)]),
    (6, signals, &[(ANY, 25)]),
    (7, window, &[(0, 25), (14, 8), (15, 8)]),
    (
        8,
        evening,
        &[
            (0, 30),
            (1, 3),
            (14, 3),
            (15, 3),
            (16, 12),
            (17, 1),
            (18, 4),
        ],
    ),
    (9, constructor, &[(ANY, 20)]),
];

/// Words have at most 19 digits.
const WORDS_BELOW: u64 = 10_000_000_000_000_000_000;

/// The lines of the sample.
pub fn sample(seed: u64) -> Vec<String> {
    let mut random = Random(seed);
    let mut lines = Vec::new();
    for (operation, make, wanted) in OPERATIONS {
        lines.extend(of_operation(&mut random, operation, make, wanted));
    }
    // The constructor with words that are all different.
    lines.push(join(&[9, 7, 5, 4]));
    lines.push(largest_fit());
    lines
}

fn of_operation(random: &mut Random, operation: u64, make: Make, wanted: Wanted) -> Vec<String> {
    let mut missing: BTreeMap<u64, u64> = wanted.iter().copied().collect();
    let mut lines = Vec::new();
    while missing.values().any(|count| *count > 0) {
        let words = [vec![operation], make(random)].concat();
        let line = join(&words);
        let short = words.iter().all(|word| *word < WORDS_BELOW);
        let Some(first) = answer(&line).and_then(|answer| answer.first().copied()) else {
            continue;
        };
        if !short {
            continue;
        }
        let key = if missing.contains_key(&ANY) {
            ANY
        } else {
            first
        };
        if let Some(count) = missing.get_mut(&key).filter(|count| **count > 0) {
            *count -= 1;
            lines.push(line);
        }
    }
    lines
}

// ---- words

fn quote_words(quotes: &[Quote]) -> Vec<u64> {
    let words = quotes.iter().flat_map(Quote::words);
    std::iter::once(quotes.len() as u64).chain(words).collect()
}

fn entry_words(memory: &Memory) -> Vec<u64> {
    let entries = entries(memory);
    std::iter::once(entries.len() as u64)
        .chain(entries.concat())
        .collect()
}

fn model_words(model: &[u64]) -> Vec<u64> {
    let halves = |word: u64| [word >> 32, word & 0xffff_ffff];
    let row = |row: &[u64]| {
        let floats = [halves(row[3]), halves(row[4]), halves(row[5])].concat();
        [&row[..3], &floats, &row[6..]].concat()
    };
    std::iter::once((model.len() / ROW_WORDS) as u64)
        .chain(model.chunks(ROW_WORDS).flat_map(row))
        .collect()
}

// ---- cases

/// A configuration, sometimes invalid, whose tables a small program can hold.
fn some_config(random: &mut Random) -> Config {
    let mut config = quotes::lively_config(random, &SMALL[..9]);
    if random.one_in(12) {
        match random.below(5) {
            0 => config.tick = 0,
            1 => config.buckets += 1,
            2 => config.buckets = 1,
            3 => config.least = 0,
            _ => config.gap = 0,
        }
    }
    config
}

fn configuration(random: &mut Random) -> Vec<u64> {
    let config = quotes::changed_config(random);
    if config.tick > DOMAIN {
        return Config { tick: 0, ..config }.words().to_vec();
    }
    config.words().to_vec()
}

/// Tick, buckets and spread states alone, about half of them at or beside a limit.
fn constructor(random: &mut Random) -> Vec<u64> {
    let config = quotes::config(random, &SMALL);
    let mut words = vec![config.tick, config.buckets, config.spreads];
    for word in &mut words {
        if random.one_in(2) {
            *word = quotes::special_word(random, *word);
        }
    }
    words
}

/// Up to `most` quotes of the domain after `last`.
fn some_quotes(random: &mut Random, config: &Config, last: Option<Quote>, most: u64) -> Vec<Quote> {
    let mut last = last;
    let mut quotes = Vec::new();
    for _ in 0..random.below(most + 1) {
        let quote = quotes::quote(random, config, last.as_ref());
        if quote.over_domain() {
            continue;
        }
        if plain::quote_refusal(config, &quote) == 0 {
            last = Some(quote);
        }
        quotes.push(quote);
    }
    quotes
}

fn quote_list(random: &mut Random) -> Vec<u64> {
    let config = quotes::lively_config(random, &SMALL);
    let quotes = some_quotes(random, &config, None, 24);
    [config.words().to_vec(), quote_words(&quotes)].concat()
}

fn memory(random: &mut Random) -> Vec<u64> {
    let config = some_config(random);
    let mut memory = Memory::new(config);
    if plain::valid(&config) {
        memory = tables::after_quotes(random, config);
        if random.one_in(2) {
            tables::spoil(random, &mut memory);
        }
        if random.one_in(4) {
            let last = quotes::quote(random, &config, None);
            memory.record.last = Some(last);
        }
    }
    let last = memory.record.last;
    let quotes = if plain::valid(&config) {
        some_quotes(random, &config, last, 6)
    } else {
        Vec::new()
    };
    [
        config.words().to_vec(),
        memory.record.words().to_vec(),
        entry_words(&memory),
        quote_words(&quotes),
    ]
    .concat()
}

fn fit(random: &mut Random) -> Vec<u64> {
    let memory = if random.one_in(10) {
        Memory::new(some_config(random))
    } else {
        tables::small(random)
    };
    let config = memory.config.words().to_vec();
    [config, vec![memory.record.pairs], entry_words(&memory)].concat()
}

fn model(random: &mut Random) -> Vec<u64> {
    let config = some_config(random);
    let rows = if random.one_in(10) {
        random.index(8)
    } else {
        0
    };
    let mut model = if plain::valid(&config) && rows == 0 {
        models::fine_model(random, &config)
    } else {
        models::rare_rows(&config, rows)
    };
    if plain::valid(&config) && rows == 0 && !random.one_in(4) {
        models::damage(random, &config, &mut model);
    }
    [config.words().to_vec(), model_words(&model)].concat()
}

fn signals(random: &mut Random) -> Vec<u64> {
    let config = quotes::lively_config(random, &SMALL[..9]);
    let model = models::fine_model(random, &config);
    let quotes = some_quotes(random, &config, None, 16);
    [
        config.words().to_vec(),
        model_words(&model),
        quote_words(&quotes),
    ]
    .concat()
}

fn window(random: &mut Random) -> Vec<u64> {
    let mut time = 0;
    let mut quotes = Vec::new();
    for size in 0..random.below(9) {
        time = if random.one_in(12) {
            0
        } else {
            time + random.below(3)
        };
        quotes.push(Quote::of_words(&[time, 1, 2, size + 1, 0]));
    }
    let ends = vec![random.below(time + 3), random.below(time + 3)];
    [ends, quote_words(&quotes)].concat()
}

fn evening(random: &mut Random) -> Vec<u64> {
    if random.one_in(40) {
        let (config, quotes) = quotes::climb(random);
        return evening_words(&config, (0, 1 << 40), &quotes);
    }
    let config = some_config(random);
    let length = random.choose(&[1, 6, 20, 40]);
    let valid = if plain::valid(&config) {
        config
    } else {
        Config::of_words(&[1, 3, 1, 1, 1000])
    };
    let mut quotes = quotes::in_order(random, &valid, length);
    if quotes.len() > 1 && random.one_in(12) {
        quotes.swap(0, 1);
    }
    let start = quotes.first().map_or(0, |q| q.time);
    let end = quotes.last().map_or(0, |q| q.time).saturating_add(1);
    let window = match random.below(8) {
        0 => (end, start),
        1 => (start + 1, end.saturating_sub(2)),
        _ => (start, end),
    };
    evening_words(&config, window, &quotes)
}

fn evening_words(config: &Config, window: (u64, u64), quotes: &[Quote]) -> Vec<u64> {
    [
        config.words().to_vec(),
        vec![window.0, window.1],
        quote_words(quotes),
    ]
    .concat()
}

/// A fit of 255 states, of which a few are left.
fn largest_fit() -> String {
    let config = Config::of_words(&[5, 51, 5, 2, 1000]);
    let mut random = Random(255);
    let mut tables = Tables::new(config);
    for _ in 0..40 {
        let (from, to) = (random.index(60), random.index(60));
        let change = random.choose(&[0, 0, 0, 1, -1]);
        enter(&mut tables, from, to, change, 1 + random.below(9));
    }
    let memory = Memory::of_tables(&tables);
    let words = [vec![4], config.words().to_vec(), vec![memory.record.pairs]];
    join(&[words.concat(), entry_words(&memory)].concat())
}
