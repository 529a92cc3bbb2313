//! The values of document 01, as document 02 has changed them.

/// Largest price, size and tick of the domain.
pub const DOMAIN: u64 = 1_000_000_000;
/// Most states.
pub const MAX_STATES: u64 = 256;

/// The largest gap of a configuration that names none (document 02, Q-5).
pub const DEFAULT_GAP: u64 = 5_000;

/// Most series rounds of a fit (document 02, Q-10); the least is 1.
pub const MOST_SERIES_ROUNDS: u64 = 10_000;
/// Most fallback rounds; the least is 0.
pub const MOST_FALLBACK_ROUNDS: u64 = 100;
/// The refusal of other rounds.
pub const ROUNDS_OUT_OF_RANGE: u64 = 26;

/// Words by which a configuration is lent.
pub const CONFIG_WORDS: usize = 5;
/// Words of a record.
pub const RECORD_WORDS: usize = 10;
/// Words of a quote.
pub const QUOTE_WORDS: usize = 5;
/// Words of a row of the model table.
pub const ROW_WORDS: usize = 7;
/// Words of a signal.
pub const SIGNAL_WORDS: usize = 4;
/// Words of a call in a list that is replayed.
pub const CALL_WORDS: usize = 6;

/// Where a record's counters begin: before them are 1 and the last quote, or zeros.
pub const COUNTERS: usize = 1 + QUOTE_WORDS;

/// A refusal, by its number.
#[derive(Debug, Clone, Copy, PartialEq, Eq)]
pub struct Refusal(pub u8);

#[derive(Debug, Clone, Copy, PartialEq, Eq)]
pub struct Config {
    pub tick: u64,
    pub buckets: u64,
    pub spreads: u64,
    pub least: u64,
    pub gap: u64,
}

impl Config {
    /// N, for a configuration whose tables are to be made.
    pub fn states(&self) -> usize {
        usize::try_from(self.buckets * self.spreads).expect("number of states")
    }

    /// The words by which a configuration is lent.
    pub fn words(&self) -> [u64; CONFIG_WORDS] {
        [self.tick, self.buckets, self.spreads, self.least, self.gap]
    }

    pub fn of_words(words: &[u64]) -> Self {
        Self {
            tick: words[0],
            buckets: words[1],
            spreads: words[2],
            least: words[3],
            gap: words[4],
        }
    }

    pub fn mirror(&self, state: usize) -> usize {
        let buckets = usize::try_from(self.buckets).expect("number of buckets");
        let bucket = state % buckets;
        state - bucket + (buckets - 1 - bucket)
    }
}

/// How many rounds a fit does: of the series at most, of the share exactly.
#[derive(Debug, Clone, Copy, PartialEq, Eq)]
pub struct Rounds {
    pub series: u64,
    pub fallback: u64,
}

impl Rounds {
    /// Those of a fit that is given none, and of the Rust's.
    pub const DEFAULT: Self = Self {
        series: 10_000,
        fallback: 10,
    };

    pub fn in_range(&self) -> bool {
        (1..=MOST_SERIES_ROUNDS).contains(&self.series) && self.fallback <= MOST_FALLBACK_ROUNDS
    }
}

#[derive(Debug, Clone, Copy, PartialEq, Eq)]
pub struct Quote {
    pub time: u64,
    pub bid: u64,
    pub ask: u64,
    pub bid_size: u64,
    pub ask_size: u64,
}

impl Quote {
    /// Time, bid, ask, bid size, ask size.
    pub fn words(&self) -> [u64; QUOTE_WORDS] {
        [self.time, self.bid, self.ask, self.bid_size, self.ask_size]
    }

    pub fn of_words(words: &[u64]) -> Self {
        Self {
            time: words[0],
            bid: words[1],
            ask: words[2],
            bid_size: words[3],
            ask_size: words[4],
        }
    }

    pub fn over_domain(&self) -> bool {
        [self.bid, self.ask, self.bid_size, self.ask_size]
            .iter()
            .any(|v| *v > DOMAIN)
    }
}

/// The three tables, flat, with the counter of pairs.
#[derive(Debug, Clone, PartialEq, Eq)]
pub struct Tables {
    pub config: Config,
    pub pairs: u64,
    pub stay: Vec<u64>,
    pub moved: Vec<u64>,
    pub totals: Vec<i64>,
}

impl Tables {
    pub fn new(config: Config) -> Self {
        let states = config.states();
        Self {
            config,
            pairs: 0,
            stay: vec![0; states * states],
            moved: vec![0; states * states],
            totals: vec![0; states],
        }
    }
}

/// The last quote and the counters; `largest` is in half ticks.
#[derive(Debug, Clone, Copy, PartialEq, Eq, Default)]
pub struct Record {
    pub last: Option<Quote>,
    pub pairs: u64,
    pub spread: u64,
    pub gap: u64,
    pub largest: u64,
}

impl Record {
    /// The words of a record, in an image and where it is lent: 1 and the last quote or zeros, then the counters.
    pub fn words(&self) -> [u64; RECORD_WORDS] {
        let mut words = [0; RECORD_WORDS];
        if let Some(last) = &self.last {
            words[0] = 1;
            words[1..COUNTERS].copy_from_slice(&last.words());
        }
        words[COUNTERS..].copy_from_slice(&[self.pairs, self.spread, self.gap, self.largest]);
        words
    }

    pub fn of_words(words: &[u64]) -> Self {
        Self {
            last: (words[0] == 1).then(|| Quote::of_words(&words[1..COUNTERS])),
            pairs: words[COUNTERS],
            spread: words[COUNTERS + 1],
            gap: words[COUNTERS + 2],
            largest: words[COUNTERS + 3],
        }
    }
}

/// All that a calibrator holds: configuration, record and the three tables.
#[derive(Debug, Clone, PartialEq, Eq)]
pub struct Memory {
    pub config: Config,
    pub record: Record,
    pub stay: Vec<u64>,
    pub moved: Vec<u64>,
    pub totals: Vec<i64>,
}

impl Memory {
    pub fn new(config: Config) -> Self {
        Self::of_tables(&Tables::new(config))
    }

    /// The calibrator with these tables and no last quote and no skips.
    pub fn of_tables(tables: &Tables) -> Self {
        Self {
            config: tables.config,
            record: Record {
                pairs: tables.pairs,
                ..Record::default()
            },
            stay: tables.stay.clone(),
            moved: tables.moved.clone(),
            totals: tables.totals.clone(),
        }
    }

    /// The memory as words, of the tables only the cells that are not zero.
    pub fn print(&self) -> String {
        let states = self.totals.len().max(1);
        let cells = |name: &str, table: &[u64]| -> String {
            let filled = table.iter().enumerate().filter(|(_, v)| **v != 0);
            filled
                .map(|(cell, v)| format!("{name} {} {} {v}\n", cell / states, cell % states))
                .collect()
        };
        let totals = self.totals.iter().enumerate().filter(|(_, v)| **v != 0);
        format!(
            "config {}\nrecord {}\n{}{}{}",
            join(&self.config.words()),
            join(&self.record.words()),
            cells("stay", &self.stay),
            cells("moved", &self.moved),
            totals
                .map(|(state, v)| format!("total {state} {v}\n"))
                .collect::<String>()
        )
    }
}

/// Words with single spaces between them.
pub fn join<T: ToString>(words: &[T]) -> String {
    let words: Vec<String> = words.iter().map(T::to_string).collect();
    words.join(" ")
}

/// A row of the model table, its floats before they become decimals.
#[derive(Debug, Clone, Copy, PartialEq)]
pub struct Row {
    pub bucket: u64,
    pub spread: u64,
    pub observations: u64,
    pub first: f64,
    pub adjustment: f64,
    pub share: f64,
    pub status: u64,
}

pub type Fit = Result<Vec<Row>, Refusal>;

/// Bits of a float as the model table has them: zero as plus zero, one pattern for NaN.
pub fn bits(value: f64) -> u64 {
    if value.is_nan() {
        0x7ff8_0000_0000_0000
    } else if value == 0.0 {
        0
    } else {
        value.to_bits()
    }
}

/// A fit as the evening program prints it.
pub fn print_fit(fit: &Fit) -> String {
    match fit {
        Err(Refusal(number)) => format!("fit {number}\n"),
        Ok(rows) => rows
            .iter()
            .enumerate()
            .map(|(state, row)| {
                format!(
                    "{state} {} {} {} {:016x} {:016x} {:016x} {}\n",
                    row.bucket,
                    row.spread,
                    row.observations,
                    bits(row.first),
                    bits(row.adjustment),
                    bits(row.share),
                    row.status
                )
            })
            .collect(),
    }
}
