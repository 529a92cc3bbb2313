//! Model checks. Tables are made of numbers that are exact as a float and as a decimal, so that the Rust's
//! `TryFrom<RawModel>` can be asked; where a row has something that the Rust cannot hold, `plain` judges alone.

use market_maker_rs::analytics::micro_price::MicroPriceModel;

use crate::compare::{Case, Compared, Run};
use crate::inputs::models::{damage, fine_model, rare_rows, special_values};
use crate::inputs::quotes::{self, LARGE, SMALL};
use crate::paper::{Config, ROW_WORDS, Refusal, join};
use crate::plain;
use crate::port;
use crate::rust::{self, Checked};
use crate::seen::{Operation, Rule, Seen};

pub fn run(run: &mut Run) -> Compared {
    for (shapes, tables) in [(&SMALL[..], 20_000), (&LARGE[..], 60)] {
        for _ in 0..run.times(tables) {
            let config = quotes::config(&mut run.random, shapes);
            let model = fine_model(&mut run.random, &config);
            compare_check(run.seen, &config, &model)?;
            for _ in 0..12 {
                let mut damaged = model.clone();
                damage(&mut run.random, &config, &mut damaged);
                compare_check(run.seen, &config, &damaged)?;
            }
        }
    }
    every_word(run)?;
    for _ in 0..run.times(4_000) {
        let config = quotes::changed_config(&mut run.random);
        let rows = if plain::valid(&config) {
            (config.states() + run.random.index(5)).saturating_sub(2)
        } else {
            run.random.index(5)
        };
        let model = rare_rows(&config, rows);
        compare_check(run.seen, &config, &model)?;
    }
    Ok(())
}

/// Each word of a model of six states replaced by each of many values, alone and in the mirrored row too.
fn every_word(run: &mut Run) -> Compared {
    for _ in 0..run.times(20) {
        let config = quotes::config(&mut run.random, &[(3, 2)]);
        let model = fine_model(&mut run.random, &config);
        for at in 0..model.len() {
            let (state, word) = (at / ROW_WORDS, at % ROW_WORDS);
            for value in special_values(&config, state, model[at]) {
                let mut damaged = model.clone();
                damaged[at] = value;
                compare_check(run.seen, &config, &damaged)?;
                let negated = -f64::from_bits(value);
                let mirrored = if word == 3 || word == 4 {
                    negated.to_bits()
                } else {
                    value
                };
                damaged[ROW_WORDS * config.mirror(state) + word] = mirrored;
                compare_check(run.seen, &config, &damaged)?;
            }
        }
    }
    Ok(())
}

// ---- comparing

/// Compares the check of a table of whole rows.
fn compare_check(seen: &mut Seen, config: &Config, model: &[u64]) -> Compared {
    let case = Case {
        operation: Operation::ModelCheck,
        input: &|| print(config, model),
    };
    const UNWRITTEN: u64 = 0x7777;
    let (want, row) = if !plain::valid(config) {
        (1, UNWRITTEN)
    } else if model.len() != plain::model_length(config.states()) {
        (7, UNWRITTEN)
    } else {
        plain::bad_row(config, model).map_or((0, UNWRITTEN), |row| (13, row))
    };
    let over = want == 1 && rust::taken_by_the_rust(config);
    match rust::check_model(config, model) {
        _ if over => seen.rule(Rule::TickOverDomain),
        None => seen.rule(Rule::RowNotOfTheRust),
        Some(checked) => {
            let rust = match checked {
                Checked::Fine(_) => (0, UNWRITTEN),
                Checked::Refused(Refusal(number)) => (u64::from(number), UNWRITTEN),
                Checked::Row(row) => (13, row),
            };
            case.equal("the Rust's answer and row", (want, row), rust)?;
        }
    }
    let mut written = UNWRITTEN;
    let answer = port::check_model(&config.words(), model, &mut written);
    seen.answer(Operation::ModelCheck, answer);
    seen.volume("model tables checked", 1);
    case.equal("answer and row", (answer, written), (want, row))
}

/// Compares the check of a fitted model, whose floats the Rust has as rounded decimals. A fallback row may have an adjustment
/// that is no zero as a float and zero as a decimal; nothing else may differ.
pub fn compare_fitted(
    seen: &mut Seen,
    config: &Config,
    model: &[u64],
    fitted: &MicroPriceModel,
) -> Compared {
    let case = Case {
        operation: Operation::ModelCheck,
        input: &|| print(config, model),
    };
    let rust = match rust::check_fitted(fitted) {
        Checked::Fine(_) => None,
        Checked::Row(row) => Some(row),
        Checked::Refused(refusal) => panic!("the Rust refuses its own model: {refusal:?}"),
    };
    let mut row = u64::MAX;
    let answer = port::check_model(&config.words(), model, &mut row);
    seen.answer(Operation::ModelCheck, answer);
    seen.volume("fitted models checked", 1);
    let bad = (answer == 13).then_some(row);
    case.holds("the answer is 0 or 13", answer == 0 || answer == 13)?;
    if bad == rust {
        return Ok(());
    }
    let explained = bad.is_some_and(|bad| {
        let state = bad as usize;
        let words = &model[ROW_WORDS * state..ROW_WORDS * (state + 1)];
        let fallback = words[6] == 1 || words[6] == 2;
        let decimal_zero = fitted.states()[state].adjustment.is_zero();
        let before = rust.is_none_or(|row| bad < row);
        fallback && words[4] != 0 && decimal_zero && before
    });
    case.holds("rounding to decimals explains the row", explained)?;
    seen.rule(Rule::FallbackNotZero);
    Ok(())
}

pub fn print(config: &Config, model: &[u64]) -> String {
    let rows = model.chunks(ROW_WORDS).enumerate();
    let rows = rows.map(|(i, row)| format!("row {i}: {}\n", join(row)));
    format!(
        "config {}\n{}",
        join(&config.words()),
        rows.collect::<String>()
    )
}
