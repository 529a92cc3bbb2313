//! Signals: of models that the Rust's check takes, of damaged ones (by `plain` alone), and of fitted ones.

use market_maker_rs::analytics::micro_price::MicroPriceModel;
use rust_decimal::Decimal;
use rust_decimal::prelude::FromPrimitive;

use crate::compare::models;
use crate::compare::{Case, Compared, Run};
use crate::inputs::models::{STEP, damage, fine_model};
use crate::inputs::quotes::{self as inputs, LARGE, MIDDLE, SMALL};
use crate::paper::{Config, Quote, ROW_WORDS, SIGNAL_WORDS, join};
use crate::plain;
use crate::port;
use crate::random::Random;
use crate::rust::{self, Checked, Signal, status_number};
use crate::seen::{Operation, Rule, Seen};

pub fn run(run: &mut Run) -> Compared {
    small_sizes(run)?;
    for (shapes, tables) in [(&SMALL[..], 5_000), (&MIDDLE[..], 800), (&LARGE[..], 500)] {
        for _ in 0..run.times(tables) {
            let config = signal_config(&mut run.random, shapes);
            let mut model = fine_model(&mut run.random, &config);
            if run.random.one_in(4) {
                damage(&mut run.random, &config, &mut model);
            }
            let rust = taken(&config, &model);
            for _ in 0..250 {
                let quote = inputs::quote(&mut run.random, &config, None);
                compare_signal(run.seen, &config, &model, rust.as_ref(), &quote)?;
            }
        }
    }
    Ok(())
}

/// A configuration in which most quotes are on the tick.
fn signal_config(random: &mut Random, shapes: &[(u64, u64)]) -> Config {
    let config = inputs::config(random, shapes);
    if random.one_in(3) {
        return config;
    }
    Config {
        tick: random.choose(&[1, 2, 100]),
        ..config
    }
}

/// The Rust's model of a table, if its check takes it.
fn taken(config: &Config, model: &[u64]) -> Option<MicroPriceModel> {
    match rust::check_model(config, model)? {
        Checked::Fine(model) => Some(model),
        _ => None,
    }
}

/// All sizes of up to 30 units for n up to 255: the adjustment shows the bucket, as each has another.
fn small_sizes(run: &mut Run) -> Compared {
    let most = if run.share == 1 { 30 } else { 12 };
    for n in [3, 5, 7, 9, 15, 31, 63, 85, 101, 127, 253, 255] {
        let config = Config {
            tick: 1,
            buckets: n,
            spreads: 1,
            least: 1,
            gap: 1,
        };
        let adjustment = |bucket: u64| (bucket as f64 - (n / 2) as f64) * STEP;
        let model: Vec<u64> = (0..n)
            .flat_map(|b| [b + 1, 1, 1, 0, adjustment(b).to_bits(), 0, 0])
            .collect();
        let rust = taken(&config, &model);
        assert!(rust.is_some(), "the Rust takes the model of small sizes");
        for bid_size in 0..=most {
            for ask_size in 0..=most {
                let quote = Quote {
                    time: 9,
                    bid: 1,
                    ask: 2,
                    bid_size,
                    ask_size,
                };
                compare_signal(run.seen, &config, &model, rust.as_ref(), &quote)?;
            }
        }
    }
    Ok(())
}

const UNWRITTEN: u64 = 0x7777;

/// A signal's words where nothing is written.
const NO_SIGNAL: [u64; SIGNAL_WORDS] = [UNWRITTEN; SIGNAL_WORDS];

/// The port's signal: its answer, its words and the row.
fn asked(
    seen: &mut Seen,
    config: &Config,
    model: &[u64],
    quote: &Quote,
) -> (u64, [u64; SIGNAL_WORDS], u64) {
    let (mut out, mut row) = (NO_SIGNAL, UNWRITTEN);
    let answer = port::signal(&config.words(), model, quote, &mut out, &mut row);
    seen.answer(Operation::Signal, answer);
    if answer == 0 {
        seen.source(out[3]);
    }
    (answer, out, row)
}

fn input(config: &Config, model: &[u64], quote: &Quote) -> String {
    format!(
        "quote {}\n{}",
        join(&quote.words()),
        models::print(config, model)
    )
}

/// Compares a signal of a table of the right length; `rust` is the Rust's model, if its check takes the table.
fn compare_signal(
    seen: &mut Seen,
    config: &Config,
    model: &[u64],
    rust: Option<&MicroPriceModel>,
    quote: &Quote,
) -> Compared {
    let case = Case {
        operation: Operation::Signal,
        input: &|| input(config, model, quote),
    };
    let (answer, out, row) = asked(seen, config, model, quote);
    seen.volume("signals", 1);
    let want = match plain::signal(config, model, quote) {
        Ok(words) => (0, words, UNWRITTEN),
        Err((13, state)) => (13, NO_SIGNAL, state),
        Err((number, _)) => (number, NO_SIGNAL, UNWRITTEN),
    };
    case.equal("answer, words and row", (answer, out, row), want)?;
    match rust {
        None => seen.rule(Rule::SignalOfUncheckedModel),
        Some(_) if answer == 2 => seen.rule(Rule::OverDomain),
        Some(rust) => {
            seen.volume("signals of the Rust too", 1);
            let decimal = rust::exact_decimal(f64::from_bits(out[2]));
            same_as_rust(&case, rust, quote, (answer, out), decimal)?;
        }
    }
    Ok(())
}

/// The Rust's answer to the same quote. `decimal` is the port's adjustment as the Rust has it.
fn same_as_rust(
    case: &Case,
    model: &MicroPriceModel,
    quote: &Quote,
    (answer, out): (u64, [u64; SIGNAL_WORDS]),
    decimal: Option<Decimal>,
) -> Compared {
    match rust::signal(model, quote) {
        Err(number) => case.equal("the Rust's answer", answer, number),
        Ok(Signal {
            time,
            mid_sum,
            adjustment,
            source,
        }) => case.equal(
            "the Rust's signal",
            (answer, out[0], out[1], decimal, out[3]),
            (0, time, mid_sum, Some(adjustment), source),
        ),
    }
}

/// Compares signals of a fitted model: the Rust's adjustment is the decimal of the port's float. A state whose status differs
/// by the listed rule was counted with the fit and is left out.
pub fn compare_fitted(
    seen: &mut Seen,
    config: &Config,
    model: &[u64],
    fitted: &MicroPriceModel,
) -> Compared {
    let mut random = Random(
        model
            .iter()
            .fold(1, |sum, word| sum ^ word.wrapping_mul(31)),
    );
    for _ in 0..2 {
        let quote = inputs::good_quote(&mut random, config, None);
        if plain::quote_refusal(config, &quote) != 0 {
            continue;
        }
        let outside = |state: usize| {
            let rust = status_number(fitted.states()[state].status);
            model[ROW_WORDS * state + 6] == 3 && rust == 0
        };
        if plain::state(config, &quote).is_some_and(outside) {
            continue;
        }
        let case = Case {
            operation: Operation::Signal,
            input: &|| input(config, model, &quote),
        };
        let (answer, out, _) = asked(seen, config, model, &quote);
        seen.volume("signals of fitted models", 1);
        let decimal = Decimal::from_f64(f64::from_bits(out[2]));
        same_as_rust(&case, fitted, &quote, (answer, out), decimal)?;
    }
    Ok(())
}
