use crate::config::{Config, Quote};
use crate::refusal::Refusal;
use crate::sys;

/// Whether a state's adjustment is used.
#[derive(Debug, Clone, Copy, PartialEq, Eq, Hash)]
pub enum Status {
    /// The adjustment is estimated and used.
    Calibrated,
    /// Too few observations.
    Rare,
    /// The counts never lead from this state to a move of the mid.
    NoPriceMove,
    /// The adjustment lies outside the quotes.
    OutsideQuotes,
}

impl Status {
    /// The status of its number from 0 to 3.
    fn of(word: u64) -> Option<Self> {
        match word {
            0 => Some(Self::Calibrated),
            1 => Some(Self::Rare),
            2 => Some(Self::NoPriceMove),
            3 => Some(Self::OutsideQuotes),
            _ => None,
        }
    }
}

/// A row of a model: what was fitted for a state.
#[derive(Debug, Clone, Copy, PartialEq)]
pub struct Estimate {
    /// Imbalance bucket, from 1.
    pub imbalance_bucket: u64,
    /// Spread in ticks, from 1.
    pub spread_ticks: u64,
    /// Pairs out of this state, mirrors included.
    pub observations: u64,
    /// The adjustment of the first move, in price units.
    pub first_adjustment: f64,
    /// The adjustment, in price units.
    pub adjustment: f64,
    /// How likely a Rare or NoPriceMove state is reached within the fallback rounds, 10 by default, each a move of the mid.
    pub fallback_within_moves: f64,
    /// `None` if the row's word is no status; a fitted row always has one.
    pub status: Option<Status>,
}

/// Fitted adjustments: a row of words for each state.
#[derive(Debug, Clone, PartialEq, Eq)]
pub struct Model {
    config: Config,
    words: Vec<u64>,
}

/// Why a signal is what it is.
#[derive(Debug, Clone, Copy, PartialEq, Eq, Hash)]
pub enum Source {
    /// The mid plus the calibrated adjustment.
    MicroPrice,
    /// The mid, for this status of the state.
    MidFallback(Status),
    /// The mid, as the spread is over the configuration's spread states.
    SpreadOutOfRange,
}

/// A fair value at the time of a quote: half of `mid_sum`, plus `adjustment`.
#[derive(Debug, Clone, Copy, PartialEq)]
pub struct Signal {
    pub timestamp_ms: u64,
    /// Bid + ask, twice the mid.
    pub mid_sum: u64,
    /// In price units, at most half the spread in size; 0 unless the source is the micro-price.
    pub adjustment: f64,
    pub source: Source,
}

impl Model {
    /// A model of these words, whatever they are: `check` and `signal` refuse what is not a model's.
    pub fn from_words(config: Config, words: Vec<u64>) -> Self {
        Self { config, words }
    }

    pub fn config(&self) -> Config {
        self.config
    }

    /// Its words, `sys::ROW_WORDS` a state.
    pub fn words(&self) -> &[u64] {
        &self.words
    }

    /// The row of a state.
    pub fn estimate(&self, state: usize) -> Option<Estimate> {
        let row = self.words.chunks_exact(sys::ROW_WORDS).nth(state)?;
        let [
            bucket,
            spread,
            observations,
            first,
            adjustment,
            share,
            status,
        ] = *row.first_chunk::<{ sys::ROW_WORDS }>()?;
        Some(Estimate {
            imbalance_bucket: bucket,
            spread_ticks: spread,
            observations,
            first_adjustment: f64::from_bits(first),
            adjustment: f64::from_bits(adjustment),
            fallback_within_moves: f64::from_bits(share),
            status: Status::of(status),
        })
    }

    /// Refuses a table that is not a model of the configuration. Refusals: 1, 7, 13 at the first bad row.
    ///
    /// A fitted model may be refused: rounding can leave a Rare state an adjustment that is not exactly zero.
    pub fn check(&self) -> Result<(), Refusal> {
        let config = self.config.words();
        let mut row = 0;
        // SAFETY: each pointer and its length are those of one array or vector, and `row` is a number of its own.
        let answer = unsafe {
            sys::micro_price_check_model(
                config.as_ptr(),
                config.len(),
                self.words.as_ptr(),
                self.words.len(),
                &mut row,
            )
        };
        Refusal::of(answer, row).map_or(Ok(()), Err)
    }

    /// The signal of a quote. Refusals: 1, 7, 2, 3, 4, 13 with the quote's state.
    pub fn signal(&self, quote: &Quote) -> Result<Signal, Refusal> {
        let config = self.config.words();
        let mut out = [0; sys::SIGNAL_WORDS];
        let mut row = 0;
        // SAFETY: as in `check`.
        let answer = unsafe {
            sys::micro_price_signal(
                config.as_ptr(),
                config.len(),
                self.words.as_ptr(),
                self.words.len(),
                quote.timestamp_ms,
                quote.bid,
                quote.ask,
                quote.bid_size,
                quote.ask_size,
                out.as_mut_ptr(),
                out.len(),
                &mut row,
            )
        };
        if let Some(refusal) = Refusal::of(answer, row) {
            return Err(refusal);
        }
        let [timestamp_ms, mid_sum, adjustment, source] = out;
        Ok(Signal {
            timestamp_ms,
            mid_sum,
            adjustment: f64::from_bits(adjustment),
            source: match Status::of(source) {
                Some(Status::Calibrated) => Source::MicroPrice,
                Some(status) => Source::MidFallback(status),
                None => Source::SpreadOutOfRange,
            },
        })
    }
}
