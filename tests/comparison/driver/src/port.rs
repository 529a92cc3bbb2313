//! The port, asked through its C ABI (include/micro_price.h). Nothing here looks at what is answered; `faults` can change it.

use crate::faults::hits;
use crate::paper::{
    CALL_WORDS, CONFIG_WORDS, COUNTERS, Config, MOST_FALLBACK_ROUNDS, MOST_SERIES_ROUNDS, Memory,
    QUOTE_WORDS, Quote, RECORD_WORDS, ROUNDS_OUT_OF_RANGE, ROW_WORDS, Rounds, SIGNAL_WORDS,
};
use crate::plain::{self, CONFIG_AT, HEADER, STATES_AT};
use micro_price::sys;

// Document 01's numbers, by which the memory here is made, are those of the header.
const _: () = {
    assert!(CONFIG_WORDS == sys::CONFIG_WORDS && RECORD_WORDS == sys::RECORD_WORDS);
    assert!(QUOTE_WORDS == sys::QUOTE_WORDS && ROW_WORDS == sys::ROW_WORDS);
    assert!(SIGNAL_WORDS == sys::SIGNAL_WORDS && CALL_WORDS == sys::CALL_WORDS);
    assert!(HEADER == sys::IMAGE_HEADER && STATES_AT == sys::IMAGE_STATES);
    let [tick, buckets, spreads, least, gap] = CONFIG_AT;
    assert!(tick == sys::IMAGE_TICK && buckets == sys::IMAGE_BUCKETS);
    assert!(spreads == sys::IMAGE_SPREAD_STATES);
    assert!(least == sys::IMAGE_MIN_STATE_OBSERVATIONS && gap == sys::IMAGE_MAX_QUOTE_GAP_MS);
};

/// Words of a record that `faults` changes.
const PAIRS: usize = COUNTERS;
const GAP_SKIPS: usize = COUNTERS + 2;
const LARGEST: usize = COUNTERS + 3;

/// The answer to words or lengths that are no configuration or record.
pub const BAD_ENCODING: u64 = 100;

/// What a replay answers to the restore of an image with another configuration.
pub const OTHER_CONFIGURATION: u64 = 101;

/// The memory that a calibrator is lent, of any lengths and content.
#[derive(Debug, Clone, PartialEq, Eq)]
pub struct Lent {
    pub config: Vec<u64>,
    pub rec: Vec<u64>,
    pub stay: Vec<u64>,
    pub moved: Vec<u64>,
    pub totals: Vec<i64>,
}

impl Lent {
    pub fn of(memory: &Memory) -> Self {
        Self {
            config: memory.config.words().to_vec(),
            rec: memory.record.words().to_vec(),
            stay: memory.stay.clone(),
            moved: memory.moved.clone(),
            totals: memory.totals.clone(),
        }
    }

    pub fn start_new(&mut self) -> u64 {
        if self.rec.first() > Some(&1) && hits("new_judges_record", &self.config) {
            return BAD_ENCODING;
        }
        // SAFETY: each pointer and length is that of a slice, and each slice that is written is borrowed for the call alone.
        let answer = unsafe {
            sys::micro_price_new(
                self.config.as_ptr(),
                self.config.len(),
                self.rec.as_mut_ptr(),
                self.rec.len(),
                self.stay.as_mut_ptr(),
                self.stay.len(),
                self.moved.as_mut_ptr(),
                self.moved.len(),
                self.totals.as_mut_ptr(),
                self.totals.len(),
            )
        };
        if answer != 0 && hits("new_refusal_writes", &self.config) {
            self.rec.fill(0);
        }
        answer
    }

    pub fn observe(&mut self, quote: &Quote) -> u64 {
        let mut given = *quote;
        let before = self.rec.clone();
        if hits("bucket_swapped", &quote.words()) {
            std::mem::swap(&mut given.bid_size, &mut given.ask_size);
        }
        let answer = self.observe_given(&given);
        self.observe_faults(quote, &before, answer)
    }

    fn observe_given(&mut self, quote: &Quote) -> u64 {
        // SAFETY: as in `start_new`.
        unsafe {
            sys::micro_price_observe(
                self.config.as_ptr(),
                self.config.len(),
                self.rec.as_mut_ptr(),
                self.rec.len(),
                self.stay.as_mut_ptr(),
                self.stay.len(),
                self.moved.as_mut_ptr(),
                self.moved.len(),
                self.totals.as_mut_ptr(),
                self.totals.len(),
                quote.time,
                quote.bid,
                quote.ask,
                quote.bid_size,
                quote.ask_size,
            )
        }
    }

    fn observe_faults(&mut self, quote: &Quote, before: &[u64], answer: u64) -> u64 {
        let hit = |name: &str| hits(name, &quote.words());
        if answer == 0 {
            if hit("count_plus_one") && self.rec[PAIRS] > before[PAIRS] {
                self.stay[0] += 1;
            }
            if hit("last_kept") && self.rec[GAP_SKIPS] > before[GAP_SKIPS] {
                self.rec[..COUNTERS].copy_from_slice(&before[..COUNTERS]);
            }
            if hit("gap_at_limit")
                && self.rec[PAIRS] > before[PAIRS]
                && quote.time - before[1] == Config::of_words(&self.config).gap
            {
                self.rec[PAIRS] -= 1;
                self.rec[GAP_SKIPS] += 1;
            }
            if hit("largest_lost") {
                self.rec[LARGEST] = before[LARGEST];
            }
            if hit("total_sign") && self.rec[PAIRS] > before[PAIRS] {
                self.totals[0] = -self.totals[0];
            }
        }
        match answer {
            5 if hit("time_as_bad") => 3,
            6 if hit("limit_ignored") => 0,
            3 | 4 if hit("refusal_writes") => {
                self.rec[1] = self.rec[0] * quote.time;
                answer
            }
            _ => answer,
        }
    }

    pub fn save(&self, out: &mut [u8]) -> u64 {
        // SAFETY: as in `start_new`.
        let answer = unsafe {
            sys::micro_price_save(
                self.config.as_ptr(),
                self.config.len(),
                self.rec.as_ptr(),
                self.rec.len(),
                self.stay.as_ptr(),
                self.stay.len(),
                self.moved.as_ptr(),
                self.moved.len(),
                self.totals.as_ptr(),
                self.totals.len(),
                out.as_mut_ptr(),
                out.len(),
            )
        };
        if answer == 0 && hits("image_byte", &self.rec) {
            out[HEADER + 10] ^= 1;
        }
        if answer != 0 && !out.is_empty() && hits("save_refusal_writes", &self.rec) {
            out[0] ^= 1;
        }
        answer
    }

    pub fn restore(&mut self, image: &[u8]) -> u64 {
        // SAFETY: as in `start_new`.
        let answer = unsafe {
            sys::micro_price_restore(
                image.as_ptr(),
                image.len(),
                self.config.as_mut_ptr(),
                self.config.len(),
                self.rec.as_mut_ptr(),
                self.rec.len(),
                self.stay.as_mut_ptr(),
                self.stay.len(),
                self.moved.as_mut_ptr(),
                self.moved.len(),
                self.totals.as_mut_ptr(),
                self.totals.len(),
            )
        };
        match answer {
            0 if hits("restored_gap", &self.rec) => {
                self.rec[GAP_SKIPS] = 0;
                0
            }
            11 if hits("restore_unchecked", &[image.len() as u64]) => 0,
            10 if hits("restore_order", &[u64::from(image[HEADER])]) => 9,
            _ => answer,
        }
    }

    pub fn fit(&self, scratch: &mut [f64], model: &mut [u64]) -> u64 {
        // SAFETY: as in `start_new`.
        let answer = unsafe {
            sys::micro_price_fit_counts(
                self.config.as_ptr(),
                self.config.len(),
                self.rec.as_ptr(),
                self.rec.len(),
                self.stay.as_ptr(),
                self.stay.len(),
                self.moved.as_ptr(),
                self.moved.len(),
                self.totals.as_ptr(),
                self.totals.len(),
                scratch.as_mut_ptr(),
                scratch.len(),
                model.as_mut_ptr(),
                model.len(),
            )
        };
        fit_faults(&self.stay, scratch, model, answer)
    }

    /// A fit with these rounds.
    pub fn fit_with(&self, rounds: Rounds, scratch: &mut [f64], model: &mut [u64]) -> u64 {
        let given = rounds_given(&self.stay, rounds);
        let answer = self.fit_given(given, scratch, model);
        self.fit_with_faults(rounds, scratch, model, answer)
    }

    fn fit_given(&self, rounds: Rounds, scratch: &mut [f64], model: &mut [u64]) -> u64 {
        // SAFETY: as in `start_new`.
        unsafe {
            sys::micro_price_fit_counts_with(
                self.config.as_ptr(),
                self.config.len(),
                self.rec.as_ptr(),
                self.rec.len(),
                self.stay.as_ptr(),
                self.stay.len(),
                self.moved.as_ptr(),
                self.moved.len(),
                self.totals.as_ptr(),
                self.totals.len(),
                rounds.series,
                rounds.fallback,
                scratch.as_mut_ptr(),
                scratch.len(),
                model.as_mut_ptr(),
                model.len(),
            )
        }
    }

    fn fit_with_faults(
        &self,
        rounds: Rounds,
        scratch: &mut [f64],
        model: &mut [u64],
        answer: u64,
    ) -> u64 {
        let hit = |name: &str| hits(name, &self.stay);
        match answer {
            1 if !rounds.in_range() && hit("twenty_six_before_one") => ROUNDS_OUT_OF_RANGE,
            ROUNDS_OUT_OF_RANGE if hit("twenty_six_writes") => {
                scratch.fill(0.0);
                answer
            }
            ROUNDS_OUT_OF_RANGE if hit("twenty_six_after_seven") => {
                let (other, _) = self.fit_by_default(scratch, model);
                if other == 7 { 7 } else { answer }
            }
            18 if hit("cut_series_as_whole") => {
                let (other, table) = self.fit_by_default(scratch, model);
                if other == 0 {
                    model.copy_from_slice(&table);
                }
                other
            }
            _ => answer,
        }
    }

    /// What the port answers to the default rounds with room of these lengths, and the model table that it leaves.
    fn fit_by_default(&self, scratch: &[f64], model: &[u64]) -> (u64, Vec<u64>) {
        let (mut scratch, mut model) = (scratch.to_vec(), model.to_vec());
        let answer = self.fit_given(Rounds::DEFAULT, &mut scratch, &mut model);
        (answer, model)
    }

    /// An evening; `invalid` is written as the port writes it.
    pub fn calibrate(
        &mut self,
        recording: &[u64],
        window: (u64, u64),
        room: &mut Room,
        invalid: &mut u64,
    ) -> u64 {
        // SAFETY: as in `start_new`.
        let answer = unsafe {
            sys::micro_price_calibrate(
                self.config.as_ptr(),
                self.config.len(),
                self.rec.as_mut_ptr(),
                self.rec.len(),
                self.stay.as_mut_ptr(),
                self.stay.len(),
                self.moved.as_mut_ptr(),
                self.moved.len(),
                self.totals.as_mut_ptr(),
                self.totals.len(),
                recording.as_ptr(),
                recording.len(),
                window.0,
                window.1,
                room.scratch.as_mut_ptr(),
                room.scratch.len(),
                room.model.as_mut_ptr(),
                room.model.len(),
                invalid,
            )
        };
        self.calibrate_faults(recording, invalid, answer)
    }

    fn calibrate_faults(&mut self, recording: &[u64], invalid: &mut u64, answer: u64) -> u64 {
        if matches!(answer, 0 | 16..=19) {
            if *invalid > 0 && hits("invalid_dropped", recording) {
                *invalid -= 1;
            }
            if hits("evening_last", recording) {
                self.rec[..COUNTERS].fill(0);
            }
        }
        answer
    }

    pub fn replay(&mut self, calls: &[u64], room: &mut [u8], answers: &mut [u64]) -> u64 {
        // SAFETY: as in `start_new`.
        let answer = unsafe {
            sys::micro_price_replay(
                self.config.as_ptr(),
                self.config.len(),
                self.rec.as_mut_ptr(),
                self.rec.len(),
                self.stay.as_mut_ptr(),
                self.stay.len(),
                self.moved.as_mut_ptr(),
                self.moved.len(),
                self.totals.as_mut_ptr(),
                self.totals.len(),
                calls.as_ptr(),
                calls.len(),
                room.as_mut_ptr(),
                room.len(),
                answers.as_mut_ptr(),
                answers.len(),
            )
        };
        if answer == 0 && hits("replay_answer", calls) && answers.last() == Some(&0) {
            *answers.last_mut().expect("an answer") = 5;
        }
        if answers.contains(&OTHER_CONFIGURATION) && hits("other_configuration_fills", calls) {
            self.rec.fill(0);
        }
        answer
    }
}

/// Scratch and model table for a fit.
#[derive(Debug, Clone, PartialEq)]
pub struct Room {
    pub scratch: Vec<f64>,
    pub model: Vec<u64>,
}

impl Room {
    /// The room for so many states, holding neither zeros nor a model.
    pub fn used(states: usize) -> Self {
        Self {
            scratch: vec![7.25; plain::scratch_length(states)],
            model: vec![0x5555; plain::model_length(states)],
        }
    }
}

/// The rounds that the port is given in place of those asked for.
fn rounds_given(stay: &[u64], rounds: Rounds) -> Rounds {
    let hit = |name: &str| hits(name, stay);
    let mut given = rounds;
    if rounds.series == 0 && hit("zero_series_rounds_accepted") {
        given.series = 1;
    }
    if rounds.series == MOST_SERIES_ROUNDS + 1 && hit("rounds_10001_accepted") {
        given.series = MOST_SERIES_ROUNDS;
    }
    if rounds.fallback == MOST_FALLBACK_ROUNDS + 1 && hit("fallback_101_accepted") {
        given.fallback = MOST_FALLBACK_ROUNDS;
    }
    if hit("low_word_of_rounds_judged") {
        given.series %= 1 << 32;
        given.fallback %= 1 << 32;
    }
    if rounds.fallback <= MOST_FALLBACK_ROUNDS && hit("fallback_rounds_ignored") {
        given.fallback = Rounds::DEFAULT.fallback;
    }
    if hit("rounds_exchanged") {
        given.series = rounds.fallback;
        given.fallback = rounds.series;
    }
    given
}

fn fit_faults(stay: &[u64], scratch: &mut [f64], model: &mut [u64], answer: u64) -> u64 {
    let hit = |name: &str| hits(name, stay);
    if answer == 0 {
        for row in model.chunks_mut(ROW_WORDS) {
            if hit("last_bit") && row[4] != 0 {
                row[4] ^= 1;
            }
            if hit("minus_zero") && row[3] == 0 {
                row[3] = 1 << 63;
            }
            if hit("status") && row[6] == 3 {
                row[6] = 0;
            }
            if hit("observations") {
                row[2] += 1;
            }
        }
    }
    if hit("scratch_left") && matches!(answer, 0 | 16..=19) {
        scratch[0] = 1.0;
    }
    if hit("fit_refusal") && answer == 18 {
        return 17;
    }
    answer
}

pub fn validate(config: &[u64]) -> u64 {
    // SAFETY: as in `Lent::start_new`.
    unsafe { sys::micro_price_validate(config.as_ptr(), config.len()) }
}

pub fn check_model(config: &[u64], model: &[u64], row: &mut u64) -> u64 {
    // SAFETY: as in `Lent::start_new`.
    let answer = unsafe {
        sys::micro_price_check_model(
            config.as_ptr(),
            config.len(),
            model.as_ptr(),
            model.len(),
            row,
        )
    };
    if answer == 13 && hits("row_one_on", model) {
        *row += 1;
    }
    if answer == 13 && hits("model_accepted", model) {
        return 0;
    }
    answer
}

pub fn signal(config: &[u64], model: &[u64], quote: &Quote, out: &mut [u64], row: &mut u64) -> u64 {
    // SAFETY: as in `Lent::start_new`.
    let answer = unsafe {
        sys::micro_price_signal(
            config.as_ptr(),
            config.len(),
            model.as_ptr(),
            model.len(),
            quote.time,
            quote.bid,
            quote.ask,
            quote.bid_size,
            quote.ask_size,
            out.as_mut_ptr(),
            out.len(),
            row,
        )
    };
    if answer == 0 && out[2] != 0 && hits("signal_sign", &quote.words()) {
        out[2] ^= 1 << 63;
    }
    if answer == 0 && out[3] == 1 && hits("signal_source", &quote.words()) {
        out[3] = 2;
    }
    answer
}

pub fn window_of(recording: &[u64], start: u64, end: u64, first: &mut u64, past: &mut u64) -> u64 {
    // SAFETY: as in `Lent::start_new`.
    let answer = unsafe {
        sys::micro_price_window_of(recording.as_ptr(), recording.len(), start, end, first, past)
    };
    if answer == 0 && hits("window_past", recording) {
        *past += 1;
    }
    answer
}
