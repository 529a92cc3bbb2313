//! Times of the port beside the original and beside plain Rust. README.md says how they are measured.

mod data;
mod plain;
mod port;
mod timing;

use data::Stream;
use driver::paper::{Config, Fit, Refusal, Tables};
use driver::rust;
use market_maker_rs::analytics::micro_price::{
    MicroPriceCalibrator, MicroPriceFit, MicroPriceModel, MicroPriceSignal, SignalSource,
    StateStatus, TopOfBook,
};
use micro_price::sys::{self, SIGNAL_WORDS};
use port::Port;
use rust_decimal::Decimal;
use rust_decimal::prelude::FromPrimitive;
use std::hint::black_box;
use timing::{Run, median, print_heads, print_line, readable, timed, timed_again};

const RUNS: usize = 31;
const SLOW_RUNS: usize = 15;
/// Quotes of a run.
const QUOTES: usize = 20_000;
/// Model checks of a run.
const CHECKS: usize = 20;

fn config(buckets: u64, spreads: u64) -> Config {
    Config {
        tick: 5,
        buckets,
        spreads,
        least: 100,
        gap: 60_000,
    }
}

fn tables(c: &plain::Calibrator) -> Tables {
    Tables {
        config: c.config,
        pairs: c.record.pairs,
        stay: c.stay.clone(),
        moved: c.moved.clone(),
        totals: c.totals.clone(),
    }
}

/// A calibrator in plain Rust after many quotes.
fn counted(config: Config, mut stream: Stream) -> plain::Calibrator {
    let mut calibrator = plain::Calibrator::new(config);
    for _ in 0..2_000_000 {
        assert_eq!(calibrator.observe(&stream.next()), Ok(()));
    }
    calibrator
}

/// The three have the same counters and tables.
fn assert_same(original: &MicroPriceCalibrator, port: &Port, plain: &plain::Calibrator) {
    let r = &plain.record;
    assert!(r.pairs > 0 && r.spread > 0 && r.gap > 0, "each kind is met");
    assert!(
        Port::of(plain) == *port,
        "port and plain Rust count the same"
    );
    assert_eq!(
        rust::tables_of(&plain.config, original),
        tables(plain),
        "the original's tables"
    );
    assert_eq!(original.skipped_spread_pairs(), r.spread, "spread skips");
    assert_eq!(original.skipped_gap_pairs(), r.gap, "gap skips");
    let largest = original.largest_mid_move_ticks() * Decimal::TWO;
    assert_eq!(largest, Decimal::from(r.largest), "largest change");
}

/// A quote: each run is the next part of one stream, given to calibrators that count on.
fn quotes(config: Config) {
    let mut stream = Stream::new(config, 1);
    let made = rust::config(&config).expect("a valid configuration");
    let mut original = MicroPriceCalibrator::new(made).expect("a calibrator");
    let mut port = Port::new(&config);
    let mut plain = plain::Calibrator::new(config);
    let mut runs = Vec::new();
    for run in 0..=RUNS {
        let part = stream.take(QUOTES);
        let decimals: Vec<TopOfBook> = part.iter().map(rust::quote).collect();
        let times = timed(
            run,
            [
                &mut || {
                    for quote in black_box(&part) {
                        assert_eq!(port.observe(quote), 0);
                    }
                },
                &mut || {
                    for quote in black_box(&decimals) {
                        assert!(original.observe(quote).is_ok());
                    }
                },
                &mut || {
                    for quote in black_box(&part) {
                        assert!(plain.observe(quote).is_ok());
                    }
                },
            ],
        );
        runs.push(times.map(|time| time / QUOTES as f64));
    }
    assert_same(&original, &port, &plain);
    let what = format!("a quote, N = {}", config.states());
    print_line(&what, &runs[1..], [Some(0.05), Some(1.2)]);
}

/// A fit of the same tables by all sides, which is refused by `expected` or, if that is `None`, gives a model.
fn fits(name: &str, counts: &plain::Calibrator, expected: Option<u64>, runs: usize) {
    let states = counts.config.states();
    let original = rust::calibrator_of(&tables(counts)).expect("tables that the Rust takes");
    let port = Port::of(counts);
    let mut scratch = vec![0.0; sys::scratch_length(states)];
    let mut table = vec![0; sys::model_length(states)];
    let wanted: Fit = rust::fit(&original);
    assert_eq!(
        wanted.as_ref().err(),
        expected.map(|k| Refusal(k as u8)).as_ref()
    );
    let mut times = Vec::new();
    for run in 0..=runs {
        let (mut answer, mut fit, mut plain) = (0, None, None);
        times.push(timed(
            run,
            [
                &mut || answer = port.fit(black_box(&mut scratch), &mut table),
                &mut || fit = Some(black_box(&original).fit()),
                &mut || plain = Some(black_box(counts).fit()),
            ],
        ));
        assert_eq!(answer, expected.unwrap_or(0), "the port's answer");
        assert!(matches!(fit, Some(Ok(_))), "the original's fit");
        match (plain, &wanted) {
            (Some(Ok(rows)), Ok(wanted)) => {
                assert_eq!(
                    port::table(&rows),
                    port::table(wanted),
                    "plain Rust's model"
                );
                assert_eq!(table, port::table(wanted), "the port's model");
            }
            (plain, _) => assert_eq!(plain.and_then(Result::err), expected),
        }
    }
    print_line(
        &format!("{name}, N = {states}"),
        &times[1..],
        [Some(0.7), None],
    );
}

/// The port's fit of `counts` with one round of the series and none of the share, which ends in 18.
fn one_round(counts: &plain::Calibrator) {
    let states = counts.config.states();
    let port = Port::of(counts);
    let mut scratch = vec![0.0; sys::scratch_length(states)];
    let mut table = vec![0; sys::model_length(states)];
    let mut times = Vec::new();
    for run in 0..=RUNS {
        let mut answer = 0;
        let [time] = timed(
            run,
            [&mut || answer = port.fit_one_round(black_box(&mut scratch), &mut table)],
        );
        assert_eq!(answer, 18, "the port's answer");
        times.push(time);
    }
    let time = readable(median(times[1..].iter().copied()));
    println!("The port's fit with one round, N = {states}: {time}.");
}

fn source_number(source: SignalSource) -> u64 {
    match source {
        SignalSource::MicroPrice => 0,
        SignalSource::MidFallback(StateStatus::Rare) => 1,
        SignalSource::MidFallback(StateStatus::NoPriceMove) => 2,
        SignalSource::MidFallback(StateStatus::OutsideQuotes) => 3,
        SignalSource::SpreadOutOfRange => 4,
        other => panic!("a source that no signal has: {other:?}"),
    }
}

fn same_signal(
    original: &MicroPriceSignal,
    port: &[u64; SIGNAL_WORDS],
    plain: &plain::Signal,
) -> bool {
    let [time, mid_sum, bits, source] = *port;
    let adjustment = f64::from_bits(bits);
    (time, mid_sum, adjustment, source) == *plain
        && original.timestamp_ms == time
        && original.mid * Decimal::TWO == Decimal::from(mid_sum)
        && Decimal::from_f64(adjustment) == Some(original.adjustment)
        && source_number(original.source) == source
}

/// The original's model of `counts`.
fn fitted(counts: &plain::Calibrator) -> MicroPriceModel {
    let original = rust::calibrator_of(&tables(counts)).expect("tables that the Rust takes");
    match original.fit() {
        Ok(MicroPriceFit::Calibrated(model)) => model,
        other => panic!("no model: {other:?}"),
    }
}

/// The check of the model fitted on `counts`. The original checks a model where its serde reads one.
fn models(counts: &plain::Calibrator) {
    let config = counts.config;
    let text = serde_json::to_string(&fitted(counts)).expect("JSON");
    let rows = counts.fit().expect("a model of plain Rust");
    let (words, table) = (config.words(), port::table(&rows));
    let mut row = 0;
    let mut runs = Vec::new();
    for run in 0..=RUNS {
        let times = timed(
            run,
            [
                &mut || {
                    for _ in 0..CHECKS {
                        let answer = port::check_model(&words, black_box(&table), &mut row);
                        assert_eq!(answer, 0);
                    }
                },
                &mut || {
                    for _ in 0..CHECKS {
                        let read = serde_json::from_str::<MicroPriceModel>(black_box(&text));
                        assert!(read.is_ok());
                    }
                },
                &mut || {
                    for _ in 0..CHECKS {
                        assert_eq!(plain::check_model(&config, black_box(&rows)), Ok(()));
                    }
                },
            ],
        );
        runs.push(times.map(|time| time / CHECKS as f64));
    }
    let (states, spreads) = (config.states(), config.spreads);
    let what = format!("a model check, N = {states}, s = {spreads}");
    print_line(&what, &runs[1..], [None, None]);
}

/// A signal of the model fitted on `counts`.
fn signals(counts: &plain::Calibrator) {
    let config = counts.config;
    let model = fitted(counts);
    let rows = counts.fit().expect("a model of plain Rust");
    let (words, table) = (config.words(), port::table(&rows));
    let mut stream = Stream::new(config, 2);
    let mut sent = vec![[0; SIGNAL_WORDS]; QUOTES];
    let (mut originals, mut plains) = (Vec::new(), Vec::new());
    let mut row = 0;
    let mut runs = Vec::new();
    for run in 0..=RUNS {
        let part = stream.take(QUOTES);
        let decimals: Vec<TopOfBook> = part.iter().map(rust::quote).collect();
        originals.clear();
        plains.clear();
        let times = timed(
            run,
            [
                &mut || {
                    for (quote, out) in black_box(&part).iter().zip(&mut sent) {
                        assert_eq!(port::signal(&words, &table, quote, out, &mut row), 0);
                    }
                },
                &mut || {
                    for quote in black_box(&decimals) {
                        originals.push(model.signal(quote).expect("a signal"));
                    }
                },
                &mut || {
                    for quote in black_box(&part) {
                        plains.push(plain::signal(&config, &rows, quote).expect("a signal"));
                    }
                },
            ],
        );
        for ((original, port), plain) in originals.iter().zip(&sent).zip(&plains) {
            assert!(
                same_signal(original, port, plain),
                "{original:?} {port:?} {plain:?}"
            );
        }
        runs.push(times.map(|time| time / QUOTES as f64));
    }
    print_line(
        &format!("a signal, N = {}", config.states()),
        &runs[1..],
        [None, None],
    );
}

/// Save and restore beside a copy of the image and the check's pass, and beside plain Rust's own.
fn images(counts: &plain::Calibrator) {
    let states = counts.config.states();
    let mut port = Port::of(counts);
    let mut plain = counts.clone();
    let mut image = vec![0; sys::image_length(states)];
    let mut plain_image = image.clone();
    let source = vec![1u8; image.len()];
    let mut copy = source.clone();
    let (mut saves, mut restores) = (Vec::new(), Vec::new());
    for _ in 0..=RUNS {
        let (mut answer, mut checked, mut fine) = (1, Err(1), Err(1));
        saves.push(timed_again([
            &mut || answer = black_box(&port).save(&mut image),
            &mut || {
                copy.copy_from_slice(black_box(&source));
                checked = black_box(counts).check_counts();
            },
            &mut || fine = black_box(counts).save(&mut plain_image),
        ]));
        assert_eq!((answer, checked, fine), (0, Ok(()), Ok(())));
        assert!(image == plain_image, "the same image");
        port.stay.fill(1);
        plain.stay.fill(1);
        restores.push(timed_again([
            &mut || answer = port.restore(black_box(&image)),
            &mut || {
                copy.copy_from_slice(black_box(&source));
                checked = black_box(counts).check_counts();
            },
            &mut || fine = plain.restore(black_box(&image)),
        ]));
        assert_eq!((answer, checked, fine), (0, Ok(()), Ok(())));
        assert!(
            plain == *counts && port == Port::of(counts),
            "restored as saved"
        );
    }
    print_line(
        &format!("save, N = {states}"),
        &saves[1..],
        [Some(3.0), None],
    );
    print_line(
        &format!("restore, N = {states}"),
        &restores[1..],
        [Some(3.0), None],
    );
}

/// The original's own way to save and restore.
fn texts(counts: &plain::Calibrator) {
    let original = rust::calibrator_of(&tables(counts)).expect("tables that the Rust takes");
    let mut runs: Vec<Run<2>> = Vec::new();
    for _ in 0..=RUNS {
        let (mut text, mut read) = (String::new(), None);
        let [written] = timed(
            0,
            [&mut || text = serde_json::to_string(black_box(&original)).expect("JSON")],
        );
        let [taken] = timed(
            0,
            [&mut || read = serde_json::from_str::<MicroPriceCalibrator>(&text).ok()],
        );
        assert!(read.as_ref() == Some(&original), "read back as written");
        runs.push([written, taken]);
    }
    let [written, taken] =
        [0, 1].map(|side| readable(median(runs[1..].iter().map(|run| run[side]))));
    println!(
        "The original has no image. By serde, as JSON: {written} to write, {taken} to read back and check."
    );
}

fn main() {
    let configs = [config(9, 3), config(51, 5)];
    print_heads(["original", "plain Rust"]);
    for config in configs {
        quotes(config);
    }
    let counts = configs.map(|config| counted(config, Stream::new(config, 3)));
    for counts in &counts {
        signals(counts);
    }
    for counts in &counts {
        models(counts);
    }
    let many_spreads = config(3, 85);
    models(&counted(many_spreads, Stream::new(many_spreads, 3)));
    let one_sided = configs.map(|config| counted(config, Stream::one_sided(config, 4)));
    for counts in &counts {
        fits("a fit", counts, None, RUNS);
    }
    for counts in &one_sided {
        fits("a fit that ends in 18", counts, Some(18), SLOW_RUNS);
    }
    for counts in &counts {
        one_round(counts);
    }
    println!();
    print_heads(["copy and check", "plain Rust"]);
    images(&counts[1]);
    texts(&counts[1]);
}
