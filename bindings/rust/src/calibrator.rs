use crate::config::{Config, Quote};
use crate::model::Model;
use crate::refusal::Refusal;
use crate::rounds::Rounds;
use crate::sys;
use std::fmt;

/// Counts of the transitions seen so far: the record and the tables.
#[derive(Debug, Clone, PartialEq, Eq)]
pub struct Calibrator {
    pub(crate) config: [u64; sys::CONFIG_WORDS],
    pub(crate) rec: [u64; sys::RECORD_WORDS],
    pub(crate) stay: Vec<u64>,
    pub(crate) moved: Vec<u64>,
    pub(crate) move_half_ticks: Vec<i64>,
}

/// What a calibrator counts beside its tables.
#[derive(Debug, Clone, Copy, PartialEq, Eq, Hash)]
pub struct Counters {
    /// Pairs counted, mirrors not included.
    pub pairs: u64,
    /// Pairs left out for a spread out of range.
    pub skipped_spread_pairs: u64,
    /// Pairs left out for a gap that is too long.
    pub skipped_gap_pairs: u64,
    /// The largest absolute move of the mid counted, in half ticks.
    pub largest_move_half_ticks: u64,
}

/// A call of a journal. A save's or restore's bytes are `length` bytes of the room, from `start` on.
#[derive(Debug, Clone, Copy, PartialEq, Eq)]
pub enum Call {
    Quote(Quote),
    Save { start: usize, length: usize },
    Restore { start: usize, length: usize },
}

/// What a replayed call answered.
#[derive(Debug, Clone, Copy, PartialEq, Eq)]
pub enum Replayed {
    Done,
    Refused(Refusal),
    /// A restore that nothing refuses, of an image with another configuration. It is not done, and changes nothing.
    OtherConfiguration,
}

/// A call's bytes lie outside the room.
#[derive(Debug, Clone, Copy, PartialEq, Eq)]
pub struct OutsideRoom;

impl fmt::Display for OutsideRoom {
    fn fmt(&self, f: &mut fmt::Formatter<'_>) -> fmt::Result {
        f.write_str("a call's bytes lie outside the room")
    }
}

impl std::error::Error for OutsideRoom {}

impl Calibrator {
    /// Zeros for a configuration; empty tables for one that is not valid.
    pub(crate) fn zeros(config: &Config) -> Self {
        let states = config.states();
        Self {
            config: config.words(),
            rec: [0; sys::RECORD_WORDS],
            stay: vec![0; states * states],
            moved: vec![0; states * states],
            move_half_ticks: vec![0; states],
        }
    }

    /// A calibrator that has seen no quote. Refusal: 1.
    pub fn new(config: Config) -> Result<Self, Refusal> {
        let mut made = Self::zeros(&config);
        // SAFETY: each pointer and its length are those of one array or vector, and no two are the same.
        let answer = unsafe {
            sys::micro_price_new(
                made.config.as_ptr(),
                made.config.len(),
                made.rec.as_mut_ptr(),
                made.rec.len(),
                made.stay.as_mut_ptr(),
                made.stay.len(),
                made.moved.as_mut_ptr(),
                made.moved.len(),
                made.move_half_ticks.as_mut_ptr(),
                made.move_half_ticks.len(),
            )
        };
        Refusal::check(answer).map(|()| made)
    }

    /// Adds the next quote. Refusals: 2, 3, 4, 5, 6; a refused quote changes nothing.
    pub fn observe(&mut self, quote: &Quote) -> Result<(), Refusal> {
        // SAFETY: as in `new`.
        let answer = unsafe {
            sys::micro_price_observe(
                self.config.as_ptr(),
                self.config.len(),
                self.rec.as_mut_ptr(),
                self.rec.len(),
                self.stay.as_mut_ptr(),
                self.stay.len(),
                self.moved.as_mut_ptr(),
                self.moved.len(),
                self.move_half_ticks.as_mut_ptr(),
                self.move_half_ticks.len(),
                quote.timestamp_ms,
                quote.bid,
                quote.ask,
                quote.bid_size,
                quote.ask_size,
            )
        };
        Refusal::check(answer)
    }

    /// The length of its image in bytes.
    pub fn image_length(&self) -> usize {
        sys::image_length(self.move_half_ticks.len())
    }

    /// Its image.
    pub fn save(&self) -> Result<Vec<u8>, Refusal> {
        let mut out = vec![0; self.image_length()];
        // SAFETY: as in `new`.
        let answer = unsafe {
            sys::micro_price_save(
                self.config.as_ptr(),
                self.config.len(),
                self.rec.as_ptr(),
                self.rec.len(),
                self.stay.as_ptr(),
                self.stay.len(),
                self.moved.as_ptr(),
                self.moved.len(),
                self.move_half_ticks.as_ptr(),
                self.move_half_ticks.len(),
                out.as_mut_ptr(),
                out.len(),
            )
        };
        Refusal::check(answer).map(|()| out)
    }

    /// The calibrator of an image, with the image's configuration. Refusals: 12, 1, 12, 8, 6, 9, 10, 11.
    pub fn restore(image: &[u8]) -> Result<Self, Refusal> {
        let mut made = Self::zeros(&config_in(image));
        // SAFETY: as in `new`.
        let answer = unsafe {
            sys::micro_price_restore(
                image.as_ptr(),
                image.len(),
                made.config.as_mut_ptr(),
                made.config.len(),
                made.rec.as_mut_ptr(),
                made.rec.len(),
                made.stay.as_mut_ptr(),
                made.stay.len(),
                made.moved.as_mut_ptr(),
                made.moved.len(),
                made.move_half_ticks.as_mut_ptr(),
                made.move_half_ticks.len(),
            )
        };
        Refusal::check(answer).map(|()| made)
    }

    /// The model of its counts, with the default rounds. Refusals: 16, 17, 18, 19.
    pub fn fit(&self) -> Result<Model, Refusal> {
        self.fit_with(Rounds::default())
    }

    /// The model of its counts, with these rounds. Refusals: 26, then 16, 17, 18, 19.
    ///
    /// A model that is reached with fewer series rounds is reached unchanged with more, the fallback rounds equal; where fewer
    /// answer 18, more may reach one.
    pub fn fit_with(&self, rounds: Rounds) -> Result<Model, Refusal> {
        let states = self.move_half_ticks.len();
        let mut scratch = vec![0.0; sys::scratch_length(states)];
        let mut model = vec![0; sys::model_length(states)];
        // SAFETY: as in `new`.
        let answer = unsafe {
            sys::micro_price_fit_counts_with(
                self.config.as_ptr(),
                self.config.len(),
                self.rec.as_ptr(),
                self.rec.len(),
                self.stay.as_ptr(),
                self.stay.len(),
                self.moved.as_ptr(),
                self.moved.len(),
                self.move_half_ticks.as_ptr(),
                self.move_half_ticks.len(),
                rounds.series,
                rounds.fallback,
                scratch.as_mut_ptr(),
                scratch.len(),
                model.as_mut_ptr(),
                model.len(),
            )
        };
        Refusal::check(answer).map(|()| Model::from_words(self.config(), model))
    }

    /// Makes the calls of a journal one after another and answers each. Nothing is done if a call's bytes lie outside the room.
    pub fn replay(
        &mut self,
        calls: &[Call],
        room: &mut [u8],
    ) -> Result<Vec<Replayed>, OutsideRoom> {
        let words: Vec<u64> = calls.iter().flat_map(call_words).collect();
        let mut answers = vec![0; calls.len()];
        // SAFETY: as in `new`.
        let answer = unsafe {
            sys::micro_price_replay(
                self.config.as_ptr(),
                self.config.len(),
                self.rec.as_mut_ptr(),
                self.rec.len(),
                self.stay.as_mut_ptr(),
                self.stay.len(),
                self.moved.as_mut_ptr(),
                self.moved.len(),
                self.move_half_ticks.as_mut_ptr(),
                self.move_half_ticks.len(),
                words.as_ptr(),
                words.len(),
                room.as_mut_ptr(),
                room.len(),
                answers.as_mut_ptr(),
                answers.len(),
            )
        };
        if answer != 0 {
            return Err(OutsideRoom);
        }
        Ok(answers.into_iter().map(replayed).collect())
    }

    pub fn config(&self) -> Config {
        Config::from_words(self.config)
    }

    pub fn counters(&self) -> Counters {
        let [.., pairs, spread, gap, largest] = self.rec;
        Counters {
            pairs,
            skipped_spread_pairs: spread,
            skipped_gap_pairs: gap,
            largest_move_half_ticks: largest,
        }
    }

    /// The last accepted quote.
    pub fn last_quote(&self) -> Option<Quote> {
        let [known, time, bid, ask, bid_size, ask_size, ..] = self.rec;
        (known == 1).then(|| Quote::from_words([time, bid, ask, bid_size, ask_size]))
    }

    /// Pairs and mirrors with the mid unchanged, row by row: cell i × N + j counts those from state i to state j.
    pub fn stay(&self) -> &[u64] {
        &self.stay
    }

    /// Pairs and mirrors with the mid changed, in the same order.
    pub fn moved(&self) -> &[u64] {
        &self.moved
    }

    /// The sum of the moves of the mid from each state, in half ticks.
    pub fn move_half_ticks(&self) -> &[i64] {
        &self.move_half_ticks
    }
}

/// The configuration that an image holds, for the lengths of the tables; zeros if it is too short.
fn config_in(image: &[u8]) -> Config {
    let word = |place: usize| {
        let bytes = image.get(8 * place..).and_then(|rest| rest.first_chunk());
        bytes.map_or(0, |bytes| u64::from_le_bytes(*bytes))
    };
    Config::new(
        word(sys::IMAGE_TICK),
        word(sys::IMAGE_BUCKETS),
        word(sys::IMAGE_SPREAD_STATES),
    )
    .with_min_state_observations(word(sys::IMAGE_MIN_STATE_OBSERVATIONS))
    .with_max_quote_gap_ms(word(sys::IMAGE_MAX_QUOTE_GAP_MS))
}

fn call_words(call: &Call) -> [u64; sys::CALL_WORDS] {
    let bytes = |kind, start: usize, length: usize| [kind, start as u64, length as u64, 0, 0, 0];
    match *call {
        Call::Quote(quote) => {
            let [time, bid, ask, bid_size, ask_size] = quote.words();
            [sys::CALL_QUOTE, time, bid, ask, bid_size, ask_size]
        }
        Call::Save { start, length } => bytes(sys::CALL_SAVE, start, length),
        Call::Restore { start, length } => bytes(sys::CALL_RESTORE, start, length),
    }
}

fn replayed(answer: u64) -> Replayed {
    match answer {
        sys::OTHER_CONFIGURATION => Replayed::OtherConfiguration,
        _ => Refusal::of(answer, 0).map_or(Replayed::Done, Replayed::Refused),
    }
}
