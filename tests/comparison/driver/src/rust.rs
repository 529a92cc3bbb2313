//! What the Rust answers, in document 01's numbers.
//!
//! Answers come from the original. Floats come from the copy that records them, after a check that it answers the same.

use market_maker_rs::analytics::micro_price::{
    MicroPriceCalibrator, MicroPriceConfig, MicroPriceFailure, MicroPriceFit, MicroPriceModel,
    MicroPriceRecord, SignalSource, StateEstimate, StateStatus, TopOfBook, calibrate_micro_price,
};
use market_maker_rs::strategy::walk_forward::TimeWindow;
use market_maker_rs::types::error::MMError;
use recorded::analytics::micro_price as copy;
use rust_decimal::Decimal;
use rust_decimal::prelude::{FromPrimitive, ToPrimitive};
use serde::de::DeserializeOwned;
use serde::{Deserialize, Serialize};

use crate::paper::{
    Config, DEFAULT_GAP, DOMAIN, Fit, Memory, Quote, ROW_WORDS, Record, Refusal, Row, Tables,
};

/// The Rust's configuration, or refusal 1. The largest tick is document 01's.
pub fn config(config: &Config) -> Result<MicroPriceConfig, Refusal> {
    let made = unjudged_config(config);
    if made.validate().is_err() || config.tick > DOMAIN {
        return Err(Refusal(1));
    }
    Ok(made)
}

/// Whether the Rust takes a configuration, whatever document 01 says of its tick.
pub fn taken_by_the_rust(config: &Config) -> bool {
    unjudged_config(config).validate().is_ok()
}

/// A count of buckets or spreads above 32 bits becomes the largest of them, which is refused too.
fn unjudged_config(config: &Config) -> MicroPriceConfig {
    let narrow = |v: u64| u32::try_from(v).unwrap_or(u32::MAX);
    MicroPriceConfig::new(
        Decimal::from(config.tick),
        narrow(config.buckets),
        narrow(config.spreads),
    )
    .with_min_state_observations(config.least)
    .with_max_quote_gap_ms(config.gap)
}

/// What the Rust's constructor makes of these alone, with the gap set: its own default is another (document 02, Q-5).
pub fn made(tick: u64, buckets: u32, spreads: u32) -> Config {
    let made = MicroPriceConfig::new(Decimal::from(tick), buckets, spreads)
        .with_max_quote_gap_ms(DEFAULT_GAP);
    Config {
        tick: made.tick_size.to_u64().expect("a whole tick"),
        buckets: u64::from(made.imbalance_buckets),
        spreads: u64::from(made.spread_states),
        least: made.min_state_observations,
        gap: made.max_quote_gap_ms,
    }
}

pub fn quote(quote: &Quote) -> TopOfBook {
    TopOfBook {
        timestamp_ms: quote.time,
        bid: Decimal::from(quote.bid),
        ask: Decimal::from(quote.ask),
        bid_size: Decimal::from(quote.bid_size),
        ask_size: Decimal::from(quote.ask_size),
    }
}

/// A value of one copy as a value of the other, or as a part of it.
fn carried<A: Serialize, B: DeserializeOwned>(value: &A) -> B {
    serde_json::from_str(&json(value)).expect("a value of the Rust is read back")
}

fn json<A: Serialize>(value: &A) -> String {
    serde_json::to_string(value).expect("a value of the Rust is written")
}

/// The serialized form of a calibrator.
#[derive(Serialize)]
struct RawCalibrator<'a> {
    config: MicroPriceConfig,
    states: usize,
    stay: &'a [u64],
    moved: &'a [u64],
    move_half_ticks: &'a [i64],
    previous: Option<TopOfBook>,
    pairs: u64,
    skipped_spread_pairs: u64,
    skipped_gap_pairs: u64,
    largest_move_half_ticks: u64,
    hash: u128,
}

/// Why the Rust's serde does not take a calibrator.
#[derive(Debug, Clone, Copy, PartialEq, Eq)]
pub enum Unrestored {
    /// 1, 8, 9, 10 or 11.
    Refused(Refusal),
    /// The sum of the cells passes 64 bits; document 01 takes it whole.
    SumOverflows,
}

/// The calibrator with this memory, judged by the Rust's serde. Its tables have the lengths of its configuration.
pub fn restore(memory: &Memory) -> Result<MicroPriceCalibrator, Unrestored> {
    let raw = RawCalibrator {
        config: unjudged_config(&memory.config),
        states: memory.totals.len(),
        stay: &memory.stay,
        moved: &memory.moved,
        move_half_ticks: &memory.totals,
        previous: memory.record.last.as_ref().map(quote),
        pairs: memory.record.pairs,
        skipped_spread_pairs: memory.record.spread,
        skipped_gap_pairs: memory.record.gap,
        largest_move_half_ticks: memory.record.largest,
        hash: 0,
    };
    serde_json::from_str(&json(&raw)).map_err(|error| unrestored(&error.to_string()))
}

fn unrestored(message: &str) -> Unrestored {
    let of = |number| Unrestored::Refused(Refusal(number));
    let known = [
        ("invalid micro-price configuration", of(1)),
        ("invalid quote at", of(8)),
        ("is off the tick", of(8)),
        ("calibrator mid moves do not match", of(9)),
        ("calibrator transition counts do not match", of(10)),
        ("calibrator pair counts do not match", of(11)),
        ("transition counts overflows", Unrestored::SumOverflows),
    ];
    let found = known.iter().find(|(text, _)| message.contains(text));
    found.map_or_else(
        || panic!("the Rust refuses a calibrator otherwise: {message}"),
        |(_, answer)| *answer,
    )
}

/// The calibrator with these tables, judged by the Rust's serde; or refusal 1, 9, 10 or 11.
///
/// Panics if the Rust's sum of cells passes 64 bits, which document 01 takes whole.
pub fn calibrator_of(tables: &Tables) -> Result<MicroPriceCalibrator, Refusal> {
    config(&tables.config)?;
    restore(&Memory::of_tables(tables)).map_err(|unrestored| match unrestored {
        Unrestored::Refused(refusal) => refusal,
        Unrestored::SumOverflows => panic!("the sum of the cells passes 64 bits"),
    })
}

/// The number of the Rust's error about a quote: 3, 4 and 5 are one kind there, told apart by the text.
fn quote_error(error: &MMError) -> u64 {
    let MMError::InvalidMarketState(text) = error else {
        panic!("the Rust refuses a quote otherwise: {error}")
    };
    if text.starts_with("invalid quote at ") {
        3
    } else if text.contains(" is off the tick ") {
        4
    } else if text.contains(" follows one at ") {
        5
    } else {
        panic!("the Rust refuses a quote otherwise: {error}")
    }
}

/// A new calibrator of a configuration that was judged.
pub fn new(config: MicroPriceConfig) -> MicroPriceCalibrator {
    MicroPriceCalibrator::new(config).expect("a valid configuration")
}

/// A quote of the domain given to a calibrator: 0, 3, 4 or 5.
pub fn observe(calibrator: &mut MicroPriceCalibrator, given: &Quote) -> u64 {
    match calibrator.observe(&quote(given)) {
        Ok(()) => 0,
        Err(error) => quote_error(&error),
    }
}

/// Pairs, spread skips, gap skips and the largest change in half ticks.
pub fn counters(calibrator: &MicroPriceCalibrator) -> [u64; 4] {
    [
        calibrator.pairs(),
        calibrator.skipped_spread_pairs(),
        calibrator.skipped_gap_pairs(),
        doubled(calibrator.largest_mid_move_ticks()),
    ]
}

/// Twice a decimal that is a whole number of halves.
fn doubled(value: Decimal) -> u64 {
    let doubled = value
        .checked_mul(Decimal::TWO)
        .filter(|v| v.fract().is_zero());
    doubled
        .and_then(|v| v.to_u64())
        .expect("a number of halves")
}

/// All that a calibrator holds, read through the Rust's serde.
pub fn memory_of(config: &Config, calibrator: &MicroPriceCalibrator) -> Memory {
    #[derive(Deserialize)]
    struct Whole {
        stay: Vec<u64>,
        moved: Vec<u64>,
        move_half_ticks: Vec<i64>,
        previous: Option<TopOfBook>,
        pairs: u64,
        skipped_spread_pairs: u64,
        skipped_gap_pairs: u64,
        largest_move_half_ticks: u64,
    }
    let whole: Whole = carried(calibrator);
    Memory {
        config: *config,
        record: Record {
            last: whole.previous.as_ref().map(quote_of),
            pairs: whole.pairs,
            spread: whole.skipped_spread_pairs,
            gap: whole.skipped_gap_pairs,
            largest: whole.largest_move_half_ticks,
        },
        stay: whole.stay,
        moved: whole.moved,
        totals: whole.move_half_ticks,
    }
}

fn quote_of(book: &TopOfBook) -> Quote {
    let whole = |value: Decimal| {
        let whole = Some(value).filter(|v| v.fract().is_zero());
        whole.and_then(|v| v.to_u64()).expect("a whole number")
    };
    Quote {
        time: book.timestamp_ms,
        bid: whole(book.bid),
        ask: whole(book.ask),
        bid_size: whole(book.bid_size),
        ask_size: whole(book.ask_size),
    }
}

/// A new calibrator after these quotes, or what the Rust refuses.
pub fn calibrator_after(
    settings: &Config,
    quotes: &[Quote],
) -> Result<MicroPriceCalibrator, String> {
    let made = config(settings).map_err(|refusal| format!("{refusal:?}"))?;
    let mut calibrator = MicroPriceCalibrator::new(made).map_err(|e| e.to_string())?;
    for given in quotes {
        calibrator
            .observe(&quote(given))
            .map_err(|e| e.to_string())?;
    }
    Ok(calibrator)
}

/// The tables of a calibrator.
pub fn tables_of(config: &Config, calibrator: &MicroPriceCalibrator) -> Tables {
    let memory = memory_of(config, calibrator);
    Tables {
        config: *config,
        pairs: memory.record.pairs,
        stay: memory.stay,
        moved: memory.moved,
        totals: memory.totals,
    }
}

pub fn fit(calibrator: &MicroPriceCalibrator) -> Fit {
    fitted(calibrator).fit
}

/// A fit, with the Rust's model where there is one.
pub struct Fitted {
    pub fit: Fit,
    pub model: Option<MicroPriceModel>,
}

impl Fitted {
    fn of(fit: &MicroPriceFit, floats: &[f64]) -> Self {
        Self {
            fit: rows(fit, floats),
            model: match fit {
                MicroPriceFit::Calibrated(model) => Some(model.clone()),
                _ => None,
            },
        }
    }
}

pub fn fitted(calibrator: &MicroPriceCalibrator) -> Fitted {
    let fit = calibrator.fit().expect("a fit of the Rust");
    let other: copy::MicroPriceCalibrator = carried(calibrator);
    copy::take_recorded();
    let other_fit = other.fit().expect("a fit of the copy");
    assert_eq!(
        json(&fit),
        json(&other_fit),
        "the copy answers as the original"
    );
    Fitted::of(&fit, &copy::take_recorded())
}

/// The floats of a fit arrive state by state, three each; of a fit that fails they are not used.
fn rows(fit: &MicroPriceFit, floats: &[f64]) -> Fit {
    let model = match fit {
        MicroPriceFit::Calibrated(model) => model,
        MicroPriceFit::Insufficient(failure) => return Err(failure_number(*failure)),
        _ => panic!("an unknown fit: {fit:?}"),
    };
    let states = model.states();
    assert_eq!(floats.len(), 3 * states.len(), "three floats a state");
    Ok(states
        .iter()
        .zip(floats.chunks(3))
        .map(|(state, floats)| row(state, floats))
        .collect())
}

/// A row from a state's estimate and its floats: first adjustment, adjustment, share.
fn row(state: &StateEstimate, floats: &[f64]) -> Row {
    let decimals = [
        state.first_adjustment,
        state.adjustment,
        state.fallback_within_moves,
    ];
    for (float, decimal) in floats.iter().zip(decimals) {
        assert_eq!(
            Decimal::from_f64(*float),
            Some(decimal),
            "the decimal of this float"
        );
    }
    Row {
        bucket: u64::from(state.imbalance_bucket),
        spread: u64::from(state.spread_ticks),
        observations: state.observations,
        first: floats[0],
        adjustment: floats[1],
        share: floats[2],
        status: status_number(state.status),
    }
}

fn failure_number(failure: MicroPriceFailure) -> Refusal {
    Refusal(match failure {
        MicroPriceFailure::NoCalibratedState => 16,
        MicroPriceFailure::SingularTransitions => 17,
        MicroPriceFailure::NotConverged => 18,
        MicroPriceFailure::Unrepresentable => 19,
        _ => panic!("an unknown failure: {failure:?}"),
    })
}

pub fn status_number(status: StateStatus) -> u64 {
    match status {
        StateStatus::Calibrated => 0,
        StateStatus::Rare => 1,
        StateStatus::NoPriceMove => 2,
        StateStatus::OutsideQuotes => 3,
        _ => panic!("an unknown status: {status:?}"),
    }
}

/// What an evening answers: its counters, then the fit.
pub struct Evening {
    pub pairs: u64,
    pub spread: u64,
    pub gap: u64,
    pub largest: u64,
    pub invalid: u64,
    /// FNV-1a 128 of the quotes that were not invalid.
    pub hash: u128,
    pub fitted: Fitted,
}

impl Evening {
    fn of(record: &MicroPriceRecord, floats: &[f64]) -> Self {
        Self {
            pairs: record.pairs,
            spread: record.skipped_spread_pairs,
            gap: record.skipped_gap_pairs,
            largest: doubled(record.largest_mid_move_ticks),
            invalid: record.invalid_quotes,
            hash: record.dataset_hash,
            fitted: Fitted::of(&record.fit, floats),
        }
    }
}

/// `calibrate_micro_price`. Refusal 2 and the largest tick are document 01's and judged here.
pub fn evening(
    settings: &Config,
    start: u64,
    end: u64,
    quotes: &[Quote],
) -> Result<Evening, Refusal> {
    let made = unjudged_config(settings);
    let window = TimeWindow {
        start_ms: start,
        end_ms: end,
    };
    let recording: Vec<TopOfBook> = quotes.iter().map(quote).collect();
    let answer = calibrate_micro_price(&recording, &window, &made, "");
    match &answer {
        Err(MMError::InvalidMarketState(_)) => return Err(Refusal(14)),
        Err(MMError::NumericalError(what)) if what == "quote window overflows" => {
            return Err(Refusal(15));
        }
        _ => {}
    }
    config(settings)?;
    if quotes
        .iter()
        .any(|q| start <= q.time && q.time < end && q.over_domain())
    {
        return Err(Refusal(2));
    }
    let record = answer.expect("an evening in the domain");
    let floats = evening_floats(&recording, &window, &made, &record);
    Ok(Evening::of(&record, &floats))
}

/// The floats of the copy's evening, which must answer as the original's.
fn evening_floats(
    recording: &[TopOfBook],
    window: &TimeWindow,
    config: &MicroPriceConfig,
    record: &MicroPriceRecord,
) -> Vec<f64> {
    let quotes: Vec<copy::TopOfBook> = carried(&recording);
    copy::take_recorded();
    let other = copy::calibrate_micro_price(&quotes, &carried(window), &carried(config), "")
        .expect("the copy's evening");
    assert_eq!(
        json(record),
        json(&other),
        "the copy answers as the original"
    );
    copy::take_recorded()
}

// ---- models and signals

/// The decimal that is exactly this float. None for minus zero, and where the number has over 12 binary places or is so large
/// that a sum of two might be rounded.
pub fn exact_decimal(value: f64) -> Option<Decimal> {
    if value == 0.0 {
        return value.is_sign_positive().then_some(Decimal::ZERO);
    }
    let places = (0..=12).find(|k| (value * f64::from(1 << k)).fract() == 0.0)?;
    let scaled = value * f64::from(1 << places);
    if scaled.abs() >= 9_007_199_254_740_992.0 {
        return None;
    }
    let mantissa = scaled as i128 * 5i128.pow(places);
    Decimal::try_from_i128_with_scale(mantissa, places).ok()
}

/// The serialized form of a state's estimate.
#[derive(Serialize)]
struct RawState {
    imbalance_bucket: u32,
    spread_ticks: u32,
    observations: u64,
    first_adjustment: Decimal,
    adjustment: Decimal,
    fallback_within_moves: Decimal,
    status: StateStatus,
}

/// A row of the model table for the Rust, or none if the Rust cannot hold it exactly.
fn raw_state(row: &[u64]) -> Option<RawState> {
    let decimal = |bits: u64| exact_decimal(f64::from_bits(bits));
    Some(RawState {
        imbalance_bucket: u32::try_from(row[0]).ok()?,
        spread_ticks: u32::try_from(row[1]).ok()?,
        observations: row[2],
        first_adjustment: decimal(row[3])?,
        adjustment: decimal(row[4])?,
        fallback_within_moves: decimal(row[5])?,
        status: match row[6] {
            0 => StateStatus::Calibrated,
            1 => StateStatus::Rare,
            2 => StateStatus::NoPriceMove,
            3 => StateStatus::OutsideQuotes,
            _ => return None,
        },
    })
}

/// What the Rust's serde says of a model.
pub enum Checked {
    Fine(MicroPriceModel),
    /// 1, or 7 for another number of rows.
    Refused(Refusal),
    /// 13, at this row.
    Row(u64),
}

/// A model table of whole rows judged by the Rust's `TryFrom<RawModel>`; none if the Rust cannot hold one of its rows exactly.
pub fn check_model(config: &Config, model: &[u64]) -> Option<Checked> {
    #[derive(Serialize)]
    struct RawModel {
        config: MicroPriceConfig,
        states: Vec<RawState>,
    }
    let raw = RawModel {
        config: unjudged_config(config),
        states: model
            .chunks(ROW_WORDS)
            .map(raw_state)
            .collect::<Option<Vec<RawState>>>()?,
    };
    Some(checked(serde_json::from_str(&json(&raw))))
}

/// The Rust's check of its own fitted model.
pub fn check_fitted(model: &MicroPriceModel) -> Checked {
    checked(serde_json::from_str(&json(model)))
}

fn checked(read: serde_json::Result<MicroPriceModel>) -> Checked {
    let error = match read {
        Ok(model) => return Checked::Fine(model),
        Err(error) => error.to_string(),
    };
    if error.contains("invalid micro-price configuration") {
        return Checked::Refused(Refusal(1));
    }
    if error.contains("states do not match the configuration") {
        return Checked::Refused(Refusal(7));
    }
    let row = error
        .split_once("invalid state ")
        .and_then(|(_, rest)| rest.split(':').next())
        .and_then(|row| row.parse().ok());
    Checked::Row(row.unwrap_or_else(|| panic!("the Rust refuses a model otherwise: {error}")))
}

/// A signal: time, bid + ask, adjustment, source as the port numbers it.
pub struct Signal {
    pub time: u64,
    pub mid_sum: u64,
    pub adjustment: Decimal,
    pub source: u64,
}

/// The signal of a quote of the domain, or 3 or 4.
pub fn signal(model: &MicroPriceModel, given: &Quote) -> Result<Signal, u64> {
    let signal = model
        .signal(&quote(given))
        .map_err(|error| quote_error(&error))?;
    Ok(Signal {
        time: signal.timestamp_ms,
        mid_sum: doubled(signal.mid),
        adjustment: signal.adjustment,
        source: match signal.source {
            SignalSource::MicroPrice => 0,
            SignalSource::MidFallback(status) => status_number(status),
            SignalSource::SpreadOutOfRange => 4,
            _ => panic!("an unknown source: {signal:?}"),
        },
    })
}
