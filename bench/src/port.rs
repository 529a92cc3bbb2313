//! The port through its C functions, on memory that it is lent.

use crate::plain;
use driver::paper::{Config, Quote, Row, bits};
use micro_price::sys::{self, CONFIG_WORDS, RECORD_WORDS, ROW_WORDS, SIGNAL_WORDS};

#[derive(Clone, PartialEq)]
pub struct Port {
    pub config: [u64; CONFIG_WORDS],
    pub rec: [u64; RECORD_WORDS],
    pub stay: Vec<u64>,
    pub moved: Vec<u64>,
    pub totals: Vec<i64>,
}

impl Port {
    pub fn new(config: &Config) -> Self {
        let states = config.states();
        Self {
            config: config.words(),
            rec: [0; RECORD_WORDS],
            stay: vec![0; states * states],
            moved: vec![0; states * states],
            totals: vec![0; states],
        }
    }

    /// The memory of a calibrator in plain Rust.
    pub fn of(plain: &plain::Calibrator) -> Self {
        Self {
            config: plain.config.words(),
            rec: plain.record.words(),
            stay: plain.stay.clone(),
            moved: plain.moved.clone(),
            totals: plain.totals.clone(),
        }
    }

    #[inline(always)]
    pub fn observe(&mut self, q: &Quote) -> u64 {
        // SAFETY: each pointer comes from a slice with its length; what is written is borrowed once.
        unsafe {
            sys::micro_price_observe(
                self.config.as_ptr(),
                self.config.len(),
                self.rec.as_mut_ptr(),
                self.rec.len(),
                self.stay.as_mut_ptr(),
                self.stay.len(),
                self.moved.as_mut_ptr(),
                self.moved.len(),
                self.totals.as_mut_ptr(),
                self.totals.len(),
                q.time,
                q.bid,
                q.ask,
                q.bid_size,
                q.ask_size,
            )
        }
    }

    pub fn save(&self, out: &mut [u8]) -> u64 {
        // SAFETY: as above.
        unsafe {
            sys::micro_price_save(
                self.config.as_ptr(),
                self.config.len(),
                self.rec.as_ptr(),
                self.rec.len(),
                self.stay.as_ptr(),
                self.stay.len(),
                self.moved.as_ptr(),
                self.moved.len(),
                self.totals.as_ptr(),
                self.totals.len(),
                out.as_mut_ptr(),
                out.len(),
            )
        }
    }

    pub fn restore(&mut self, image: &[u8]) -> u64 {
        // SAFETY: as above.
        unsafe {
            sys::micro_price_restore(
                image.as_ptr(),
                image.len(),
                self.config.as_mut_ptr(),
                self.config.len(),
                self.rec.as_mut_ptr(),
                self.rec.len(),
                self.stay.as_mut_ptr(),
                self.stay.len(),
                self.moved.as_mut_ptr(),
                self.moved.len(),
                self.totals.as_mut_ptr(),
                self.totals.len(),
            )
        }
    }

    pub fn fit(&self, scratch: &mut [f64], model: &mut [u64]) -> u64 {
        // SAFETY: as above.
        unsafe {
            sys::micro_price_fit_counts(
                self.config.as_ptr(),
                self.config.len(),
                self.rec.as_ptr(),
                self.rec.len(),
                self.stay.as_ptr(),
                self.stay.len(),
                self.moved.as_ptr(),
                self.moved.len(),
                self.totals.as_ptr(),
                self.totals.len(),
                scratch.as_mut_ptr(),
                scratch.len(),
                model.as_mut_ptr(),
                model.len(),
            )
        }
    }

    /// With one round of the series and none of the share.
    pub fn fit_one_round(&self, scratch: &mut [f64], model: &mut [u64]) -> u64 {
        // SAFETY: as above.
        unsafe {
            sys::micro_price_fit_counts_with(
                self.config.as_ptr(),
                self.config.len(),
                self.rec.as_ptr(),
                self.rec.len(),
                self.stay.as_ptr(),
                self.stay.len(),
                self.moved.as_ptr(),
                self.moved.len(),
                self.totals.as_ptr(),
                self.totals.len(),
                1,
                0,
                scratch.as_mut_ptr(),
                scratch.len(),
                model.as_mut_ptr(),
                model.len(),
            )
        }
    }
}

#[inline(always)]
pub fn signal(
    config: &[u64],
    model: &[u64],
    q: &Quote,
    out: &mut [u64; SIGNAL_WORDS],
    row: &mut u64,
) -> u64 {
    // SAFETY: as above.
    unsafe {
        sys::micro_price_signal(
            config.as_ptr(),
            config.len(),
            model.as_ptr(),
            model.len(),
            q.time,
            q.bid,
            q.ask,
            q.bid_size,
            q.ask_size,
            out.as_mut_ptr(),
            out.len(),
            row,
        )
    }
}

#[inline(always)]
pub fn check_model(config: &[u64], model: &[u64], row: &mut u64) -> u64 {
    // SAFETY: as above.
    unsafe {
        sys::micro_price_check_model(
            config.as_ptr(),
            config.len(),
            model.as_ptr(),
            model.len(),
            row,
        )
    }
}

/// The words of a model table.
pub fn table(rows: &[Row]) -> Vec<u64> {
    rows.iter()
        .flat_map(|r| -> [u64; ROW_WORDS] {
            [
                r.bucket,
                r.spread,
                r.observations,
                bits(r.first),
                bits(r.adjustment),
                bits(r.share),
                r.status,
            ]
        })
        .collect()
}
