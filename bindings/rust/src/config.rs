use crate::refusal::Refusal;
use crate::sys;

/// Discretization and data rules. Any numbers can stand in it; the operations refuse one that is not valid.
#[derive(Debug, Clone, Copy, PartialEq, Eq, Hash)]
pub struct Config {
    /// The price grid: 1 to 1,000,000,000.
    pub tick_size: u64,
    /// Imbalance buckets n: odd, at least 3.
    pub imbalance_buckets: u64,
    /// Spread states s: at least 1; n × s is at most 256.
    pub spread_states: u64,
    /// Fewest observations, mirrors included, of a calibrated state: at least 1.
    pub min_state_observations: u64,
    /// Longest time between two quotes of a pair, in ms: at least 1.
    pub max_quote_gap_ms: u64,
}

impl Config {
    /// The fewest observations of a configuration that does not set them.
    pub const MIN_STATE_OBSERVATIONS: u64 = 100;
    /// The longest gap of a configuration that does not set it: document 02, Q-5.
    pub const MAX_QUOTE_GAP_MS: u64 = 5_000;

    /// A configuration with the two defaults.
    pub const fn new(tick_size: u64, imbalance_buckets: u64, spread_states: u64) -> Self {
        Self {
            tick_size,
            imbalance_buckets,
            spread_states,
            min_state_observations: Self::MIN_STATE_OBSERVATIONS,
            max_quote_gap_ms: Self::MAX_QUOTE_GAP_MS,
        }
    }

    /// The same with the fewest observations set.
    pub const fn with_min_state_observations(mut self, observations: u64) -> Self {
        self.min_state_observations = observations;
        self
    }

    /// The same with the longest gap set.
    pub const fn with_max_quote_gap_ms(mut self, gap_ms: u64) -> Self {
        self.max_quote_gap_ms = gap_ms;
        self
    }

    /// Refuses a configuration that is not valid.
    pub fn validate(&self) -> Result<(), Refusal> {
        let words = self.words();
        // SAFETY: the pointer and the length are those of one array.
        Refusal::check(unsafe { sys::micro_price_validate(words.as_ptr(), words.len()) })
    }

    /// The number of states n × s of a valid configuration, else 0.
    pub fn states(&self) -> usize {
        match self.validate() {
            Ok(()) => (self.imbalance_buckets * self.spread_states) as usize,
            Err(_) => 0,
        }
    }

    /// Its words, as they are lent.
    pub(crate) fn words(&self) -> [u64; sys::CONFIG_WORDS] {
        [
            self.tick_size,
            self.imbalance_buckets,
            self.spread_states,
            self.min_state_observations,
            self.max_quote_gap_ms,
        ]
    }

    pub(crate) fn from_words(words: [u64; sys::CONFIG_WORDS]) -> Self {
        let [tick, buckets, spreads, observations, gap] = words;
        Self::new(tick, buckets, spreads)
            .with_min_state_observations(observations)
            .with_max_quote_gap_ms(gap)
    }
}

/// Best bid and ask with their sizes, in whole units.
#[derive(Debug, Clone, Copy, PartialEq, Eq, Hash)]
pub struct Quote {
    pub timestamp_ms: u64,
    pub bid: u64,
    pub ask: u64,
    pub bid_size: u64,
    pub ask_size: u64,
}

impl Quote {
    /// Its words, as they stand in a recording.
    pub fn words(&self) -> [u64; sys::QUOTE_WORDS] {
        [
            self.timestamp_ms,
            self.bid,
            self.ask,
            self.bid_size,
            self.ask_size,
        ]
    }

    /// The quote of a recording's words.
    pub fn from_words(words: [u64; sys::QUOTE_WORDS]) -> Self {
        let [timestamp_ms, bid, ask, bid_size, ask_size] = words;
        Self {
            timestamp_ms,
            bid,
            ask,
            bid_size,
            ask_size,
        }
    }
}
