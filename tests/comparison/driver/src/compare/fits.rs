//! Fits, bit for bit. The floats of the Rust are those of the copy that records them (see `rust`).
//!
//! Three listed differences are told apart here, each by its own rule: OutsideQuotes judged on floats, 19 at exactly 2^96, and
//! minus zero. The first is accepted only where exact whole-number arithmetic shows that the float is over half the spread by
//! less than the rounding to a decimal, and that the Rust's decimal is not over it.

use market_maker_rs::analytics::micro_price::MicroPriceModel;
use rust_decimal::Decimal;

use crate::compare::{Case, Compared, Difference, Run, models, signals, smallest};
use crate::faults::hits;
use crate::inputs::quotes::{self as inputs, LARGE, MIDDLE};
use crate::inputs::tables;
use crate::paper::{Config, Memory, ROW_WORDS, Record, Refusal, Rounds, Row, bits};
use crate::plain;
use crate::plain_fit::Fits;
use crate::port::{Lent, Room};
use crate::rust::{self, Fitted, Unrestored};
use crate::seen::{Operation, Rule, Seen};

pub fn run(run: &mut Run) -> Compared {
    for _ in 0..run.times(200_000) {
        let memory = tables::small(&mut run.random);
        compare(run, &memory)?;
    }
    for _ in 0..run.times(2_000) {
        let memory = tables::large(&mut run.random, &MIDDLE);
        compare(run, &memory)?;
    }
    for _ in 0..run.times(2_000) {
        let memory = tables::large(&mut run.random, &LARGE);
        run.seen.volume("fits of 200 states or more", 1);
        compare(run, &memory)?;
    }
    for _ in 0..run.times(3_000) {
        let config = inputs::changed_config(&mut run.random);
        if !plain::valid(&config) {
            invalid_config(run.seen, &config)?;
        }
    }
    Ok(())
}

fn compare(run: &mut Run, memory: &Memory) -> Compared {
    compare_fit(run.seen, memory).map_err(|found| {
        shrunk(memory, found, |less| {
            compare_fit(&mut Seen::default(), less)
        })
    })
}

/// A difference, told with the tables of as few pairs as still give one.
pub fn shrunk(
    memory: &Memory,
    found: Difference,
    compare: impl Fn(&Memory) -> Compared,
) -> Difference {
    let states = memory.totals.len();
    let all = memory.stay.iter().chain(&memory.moved).enumerate();
    let cells: Vec<usize> = all
        .filter(|(_, v)| **v != 0)
        .map(|(cell, _)| cell)
        .collect();
    if cells.len() > 60 {
        return found;
    }
    smallest(&cells, found, |kept| {
        let mut less = memory.clone();
        let (stay, moved) = (&mut less.stay, &mut less.moved);
        for cell in cells.iter().filter(|cell| !kept.contains(cell)) {
            if *cell < states * states {
                stay[*cell] = 0;
            } else {
                moved[*cell - states * states] = 0;
            }
        }
        let sum = |table: &[u64]| table.iter().map(|v| u128::from(*v)).sum::<u128>();
        if plain::walk(memory).answer == 0 {
            less.record.pairs = ((sum(&less.stay) + sum(&less.moved)) / 2) as u64;
        }
        compare(&less)
    })
}

/// What a fit has to answer, and the model table if it writes one.
pub struct Wanted {
    pub answer: u64,
    pub model: Option<Vec<u64>>,
}

/// Compares a fit of a valid configuration and tables of its lengths.
pub fn compare_fit(seen: &mut Seen, memory: &Memory) -> Compared {
    let case = Case {
        operation: Operation::Fit,
        input: &|| memory.print(),
    };
    let fitted = fitted(&case, seen, memory)?;
    let wanted = match &fitted {
        Err(answer) => Wanted {
            answer: *answer,
            model: None,
        },
        Ok(fitted) => wanted(&case, seen, &memory.config, fitted)?,
    };
    let lent = Lent::of(memory);
    let mut room = Room::used(memory.totals.len());
    let answer = lent.fit(&mut room.scratch, &mut room.model);
    seen.answer(Operation::Fit, answer);
    seen.volume("fits", 1);
    same_fit(&case, &wanted, answer, &room)?;
    case.holds("the lent counts are as they were", lent == Lent::of(memory))?;
    same_plain(&case, &wanted, memory)?;
    let rust = fitted.ok().and_then(|fitted| fitted.model);
    if let (Some(model), Some(rust)) = (&wanted.model, &rust) {
        let statuses = model.chunks(ROW_WORDS).map(|row| row[6]);
        statuses.for_each(|status| seen.status(Operation::Fit, status));
        models::compare_fitted(seen, &memory.config, model, rust)?;
        signals::compare_fitted(seen, &memory.config, model, rust)?;
    }
    Ok(())
}

/// The answer, the table and scratch are as wanted, in room that was `Room::used` before.
pub fn same_fit(case: &Case, wanted: &Wanted, answer: u64, room: &Room) -> Compared {
    case.equal("answer", answer, wanted.answer)?;
    let unused = Room::used(room.model.len() / ROW_WORDS);
    let model = wanted.model.as_ref().unwrap_or(&unused.model);
    case.same("model table", &room.model, model)?;
    let cleared = matches!(answer, 0 | 16..=19);
    let word = if cleared {
        0
    } else {
        unused.scratch[0].to_bits()
    };
    let scratch = room.scratch.iter().all(|v| v.to_bits() == word);
    case.holds(
        "scratch is cleared, or as it was at a refusal before the fit",
        scratch,
    )
}

/// The fit computed plainly, with the default rounds, is as wanted too.
fn same_plain(case: &Case, wanted: &Wanted, memory: &Memory) -> Compared {
    let mut room = Room::used(memory.totals.len());
    let mut rounds = Rounds::DEFAULT;
    if hits("plain_share_9_rounds", &memory.stay) {
        rounds.fallback = 9;
    }
    let answer = Fits::of(memory).fit(rounds, &mut room.scratch, &mut room.model);
    case.holds(
        "the fit computed plainly is the Rust's",
        same_fit(case, wanted, answer, &room).is_ok(),
    )
}

/// The Rust's fit, or the refusal before it: 6 by `plain`, else 9, 10 or 11 by the Rust's serde.
fn fitted(
    case: &Case,
    seen: &mut Seen,
    memory: &Memory,
) -> Result<Result<Fitted, u64>, Difference> {
    let want = plain::counts_refusal(memory);
    let counts = Memory {
        record: Record {
            last: None,
            ..memory.record
        },
        ..memory.clone()
    };
    let rust = rust::restore(&counts);
    if want == 6 {
        seen.rule(Rule::CountsOverLimit);
        return Ok(Err(6));
    }
    match rust {
        Ok(calibrator) => {
            case.equal("the Rust's check of the counts", want, 0)?;
            Ok(Ok(rust::fitted(&calibrator)))
        }
        Err(Unrestored::Refused(Refusal(number))) => {
            case.equal("the Rust's check of the counts", want, u64::from(number))?;
            Ok(Err(want))
        }
        Err(Unrestored::SumOverflows) => {
            seen.rule(Rule::SumOver64Bits);
            case.holds("the sum passes 64 bits", plain::walk(memory).passes_64_bits)?;
            Ok(Err(want))
        }
    }
}

/// What the Rust's fit is by document 01, with the listed differences.
pub fn wanted(
    case: &Case,
    seen: &mut Seen,
    config: &Config,
    fitted: &Fitted,
) -> Result<Wanted, Difference> {
    let only = |answer| Wanted {
        answer,
        model: None,
    };
    let rows = match &fitted.fit {
        Err(Refusal(number)) => return Ok(only(u64::from(*number))),
        Ok(rows) => rows,
    };
    if unrepresentable(case, rows)? {
        seen.rule(Rule::Exactly2To96);
        return Ok(only(19));
    }
    let model = fitted.model.as_ref().expect("a fitted model");
    let mut words = Vec::with_capacity(plain::model_length(rows.len()));
    for (state, row) in rows.iter().enumerate() {
        let status = status_on_floats(case, seen, config, state, row, model)?;
        words.extend([row.bucket, row.spread, row.observations]);
        words.extend([row.first, row.adjustment, row.share].map(bits));
        words.push(status);
        let floats = [row.first, row.adjustment, row.share];
        let zeros = floats.iter().filter(|v| v.to_bits() == 1 << 63);
        zeros.for_each(|_| seen.rule(Rule::MinusZeroFitted));
    }
    if words.chunks(ROW_WORDS).any(|row| row[6] == 0) {
        return Ok(Wanted {
            answer: 0,
            model: Some(words),
        });
    }
    seen.rule(Rule::OutsideOnFloatsThen16);
    Ok(only(16))
}

/// Whether a float that the Rust took is of size 2^96; none may be larger.
fn unrepresentable(case: &Case, rows: &[Row]) -> Result<bool, Difference> {
    let floats = rows.iter().flat_map(|r| [r.first, r.adjustment, r.share]);
    let most = 2f64.powi(96);
    let large: Vec<f64> = floats.filter(|v| v.abs() >= most).collect();
    case.holds(
        "the Rust takes no float over 2^96",
        large.iter().all(|v| v.abs() == most),
    )?;
    Ok(!large.is_empty())
}

/// The status on floats; where it is another than the Rust's, the rule must hold that explains it.
fn status_on_floats(
    case: &Case,
    seen: &mut Seen,
    config: &Config,
    state: usize,
    row: &Row,
    model: &MicroPriceModel,
) -> Result<u64, Difference> {
    if row.status == 1 || row.status == 2 {
        return Ok(row.status);
    }
    let status = 3 * u64::from(plain::over_half_spread(config, state, row.adjustment));
    if status != row.status {
        let decimal = model.states()[state].adjustment;
        let twice = config.tick * row.spread;
        let explained = row.status == 0 && just_over(row.adjustment, decimal, twice);
        case.holds("rounding to decimals explains the status", explained)?;
        seen.rule(Rule::OutsideOnFloats);
    }
    Ok(status)
}

/// In exact arithmetic, of sizes: the float is over half of `twice`, by less than 2^-48 of it, and the decimal is not over it.
fn just_over(float: f64, decimal: Decimal, twice: u64) -> bool {
    let raw = float.abs().to_bits();
    let (exponent, mantissa) = (
        (raw >> 52) as i64 - 1075,
        (raw & ((1 << 52) - 1)) | (1 << 52),
    );
    // 2 × size = mantissa × 2^(exponent + 1), compared with `twice` in units of 2^-shift.
    let Ok(shift) = u32::try_from(-(exponent + 1)) else {
        return false;
    };
    if shift > 60 {
        return false;
    }
    let half = u128::from(twice) << shift;
    let over = u128::from(mantissa).checked_sub(half);
    let float_over = over.is_some_and(|over| over > 0 && over << 48 < half);
    // 2 × mantissa × 10^-scale > twice, unless the right side passes 128 bits, which the left does not.
    let right = 10u128
        .checked_pow(decimal.scale())
        .and_then(|p| p.checked_mul(u128::from(twice)));
    let left = 2 * decimal.mantissa().unsigned_abs();
    let decimal_over = right.is_some_and(|right| left > right);
    float_over && !decimal_over
}

/// 1: an invalid configuration, lent tables of three states.
fn invalid_config(seen: &mut Seen, config: &Config) -> Compared {
    let memory = Memory {
        config: *config,
        record: Record::default(),
        stay: vec![0; 9],
        moved: vec![0; 9],
        totals: vec![0; 3],
    };
    let case = Case {
        operation: Operation::Fit,
        input: &|| memory.print(),
    };
    let rust = rust::config(config).is_err();
    case.holds("the Rust refuses the configuration", rust)?;
    let mut room = Room::used(3);
    let answer = Lent::of(&memory).fit(&mut room.scratch, &mut room.model);
    seen.answer(Operation::Fit, answer);
    let wanted = Wanted {
        answer: 1,
        model: None,
    };
    same_fit(&case, &wanted, answer, &room)
}
