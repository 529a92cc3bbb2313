//! The sample of the Rust's answers: for each line of words a line of numbers. make_sample.sh describes both.

use market_maker_rs::analytics::micro_price::MicroPriceCalibrator;
use rust_decimal::Decimal;
use rust_decimal::prelude::ToPrimitive;

use crate::paper::{
    CONFIG_WORDS, Config, Fit, Memory, QUOTE_WORDS, Quote, RECORD_WORDS, ROW_WORDS, Record,
    Refusal, bits,
};
use crate::plain;
use crate::rust::{self, Checked, Unrestored};

/// Words of a model's row in a line: each of its three floats is two.
const SPLIT_ROW: usize = ROW_WORDS + 3;

/// The words of a line that are not read yet.
struct Words(std::vec::IntoIter<u64>);

impl Words {
    fn of(line: &str) -> Option<Self> {
        let words: Option<Vec<u64>> = line.split(' ').map(|word| word.parse().ok()).collect();
        Some(Self(words?.into_iter()))
    }

    fn one(&mut self) -> Option<u64> {
        self.0.next()
    }

    fn some<const COUNT: usize>(&mut self) -> Option<[u64; COUNT]> {
        let words: Vec<u64> = self.0.by_ref().take(COUNT).collect();
        words.try_into().ok()
    }

    /// A count, then so many groups of words.
    fn groups<const COUNT: usize>(&mut self) -> Option<Vec<[u64; COUNT]>> {
        (0..self.one()?).map(|_| self.some()).collect()
    }

    fn config(&mut self) -> Option<Config> {
        Some(Config::of_words(&self.some::<CONFIG_WORDS>()?))
    }

    fn quotes(&mut self) -> Option<Vec<Quote>> {
        let quotes = self.groups::<QUOTE_WORDS>()?;
        Some(quotes.iter().map(|words| Quote::of_words(words)).collect())
    }

    /// The tables of a calibrator from their entries.
    fn tables(&mut self, config: Config, record: Record) -> Option<Memory> {
        let mut memory = Memory {
            record,
            ..Memory::new(config)
        };
        let states = config.states();
        for [kind, i, j, v] in self.groups()? {
            let (i, j) = (usize::try_from(i).ok()?, usize::try_from(j).ok()?);
            match kind {
                0 => *memory.stay.get_mut(i * states + j)? = v,
                1 => *memory.moved.get_mut(i * states + j)? = v,
                2 => *memory.totals.get_mut(i)? = i64::try_from(v).ok()?,
                3 => *memory.totals.get_mut(i)? = -i64::try_from(v).ok()?,
                _ => return None,
            }
        }
        Some(memory)
    }

    /// A model table; each float is two words.
    fn model(&mut self) -> Option<Vec<u64>> {
        let rows = self.groups::<SPLIT_ROW>()?;
        let float = |high: u64, low: u64| high << 32 | low;
        let row = |w: &[u64; SPLIT_ROW]| -> [u64; ROW_WORDS] {
            let floats = [float(w[3], w[4]), float(w[5], w[6]), float(w[7], w[8])];
            [w[0], w[1], w[2], floats[0], floats[1], floats[2], w[9]]
        };
        Some(rows.iter().flat_map(row).collect())
    }
}

/// The entries of tables: stay, moved and totals that are not zero, each as kind, i, j and v.
pub fn entries(memory: &Memory) -> Vec<[u64; 4]> {
    let states = memory.totals.len();
    let cells = |kind: u64, table: &[u64]| -> Vec<[u64; 4]> {
        let filled = table.iter().enumerate().filter(|(_, v)| **v != 0);
        filled
            .map(|(cell, v)| [kind, (cell / states) as u64, (cell % states) as u64, *v])
            .collect()
    };
    let totals = memory.totals.iter().enumerate().filter(|(_, v)| **v != 0);
    let totals = totals.map(|(i, v)| [if *v > 0 { 2 } else { 3 }, i as u64, 0, v.unsigned_abs()]);
    let mut entries = cells(0, &memory.stay);
    entries.extend(cells(1, &memory.moved));
    entries.extend(totals);
    entries
}

/// The answer to a line; none if it is no case, or if the Rust cannot be asked.
pub fn answer(line: &str) -> Option<Vec<u64>> {
    let mut words = Words::of(line)?;
    let answer = match words.one()? {
        1 => vec![u64::from(rust::config(&words.config()?).is_err())],
        2 => quotes(&mut words)?,
        3 => restore(&mut words)?,
        4 => fit(&mut words)?,
        5 => model_check(&mut words)?,
        6 => signals(&mut words)?,
        7 => window(&mut words)?,
        8 => evening(&mut words)?,
        9 => made(&mut words)?,
        _ => return None,
    };
    words.one().is_none().then_some(answer)
}

/// None for a number that the Rust's 32 bits do not hold.
fn made(words: &mut Words) -> Option<Vec<u64>> {
    let [tick, buckets, spreads] = words.some()?;
    let (buckets, spreads) = (buckets.try_into().ok()?, spreads.try_into().ok()?);
    Some(rust::made(tick, buckets, spreads).words().to_vec())
}

/// What a calibrator holds: its record, then its entries.
fn held(config: &Config, calibrator: &MicroPriceCalibrator) -> Vec<u64> {
    let memory = rust::memory_of(config, calibrator);
    let entries = entries(&memory);
    let mut words = memory.record.words().to_vec();
    words.push(entries.len() as u64);
    words.extend(entries.concat());
    words
}

/// The answer to each quote, then what is held.
fn observed(
    config: &Config,
    calibrator: MicroPriceCalibrator,
    quotes: &[Quote],
) -> Option<Vec<u64>> {
    let mut calibrator = calibrator;
    let mut answers = Vec::new();
    for quote in quotes {
        if quote.over_domain() {
            return None;
        }
        answers.push(rust::observe(&mut calibrator, quote));
    }
    answers.extend(held(config, &calibrator));
    Some(answers)
}

fn quotes(words: &mut Words) -> Option<Vec<u64>> {
    let config = words.config()?;
    let quotes = words.quotes()?;
    observed(&config, rust::new(rust::config(&config).ok()?), &quotes)
}

/// The Rust's calibrator of a memory, or its refusal. None for what only document 01 refuses.
fn restored(memory: &Memory) -> Option<Result<MicroPriceCalibrator, u64>> {
    let over = memory.record.last.is_some_and(|last| last.over_domain());
    if over || plain::over_limits(memory) {
        return None;
    }
    match rust::restore(memory) {
        Ok(calibrator) => Some(Ok(calibrator)),
        Err(Unrestored::Refused(Refusal(number))) => Some(Err(u64::from(number))),
        Err(Unrestored::SumOverflows) => None,
    }
}

fn restore(words: &mut Words) -> Option<Vec<u64>> {
    let config = words.config()?;
    let record = Record::of_words(&words.some::<RECORD_WORDS>()?);
    let memory = words.tables(config, record)?;
    let quotes = words.quotes()?;
    match restored(&memory)? {
        Err(number) => Some(vec![number]),
        Ok(calibrator) => {
            let mut answers = vec![0];
            answers.extend(observed(&config, calibrator, &quotes)?);
            Some(answers)
        }
    }
}

/// The number of a fit and its table. None where a listed difference would show.
fn fitted(config: &Config, fit: &Fit) -> Option<(u64, Vec<u64>)> {
    let rows = match fit {
        Err(Refusal(number)) => return Some((u64::from(*number), Vec::new())),
        Ok(rows) => rows,
    };
    let mut table = Vec::new();
    for (state, row) in rows.iter().enumerate() {
        let floats = [row.first, row.adjustment, row.share];
        let outside = plain::over_half_spread(config, state, row.adjustment);
        let same = matches!((row.status, outside), (0, false) | (3, true) | (1 | 2, _));
        if !same || floats.iter().any(|v| v.abs() >= 2f64.powi(96)) {
            return None;
        }
        table.extend([row.bucket, row.spread, row.observations]);
        table.extend(floats.map(bits));
        table.push(row.status);
    }
    Some((0, table))
}

fn fit(words: &mut Words) -> Option<Vec<u64>> {
    let config = words.config()?;
    let record = Record {
        pairs: words.one()?,
        ..Record::default()
    };
    let memory = words.tables(config, record)?;
    match restored(&memory)? {
        Err(number) => Some(vec![number]),
        Ok(calibrator) => {
            let (number, table) = fitted(&config, &rust::fit(&calibrator))?;
            Some([vec![number], table].concat())
        }
    }
}

fn model_check(words: &mut Words) -> Option<Vec<u64>> {
    let config = words.config()?;
    let model = words.model()?;
    Some(match rust::check_model(&config, &model)? {
        Checked::Fine(_) => vec![0],
        Checked::Refused(Refusal(number)) => vec![u64::from(number)],
        Checked::Row(row) => vec![13, row],
    })
}

/// The bits of a decimal that is exactly a float.
fn exact_bits(decimal: Decimal) -> Option<u64> {
    let float = decimal.to_f64()?;
    (rust::exact_decimal(float) == Some(decimal)).then(|| float.to_bits())
}

fn signals(words: &mut Words) -> Option<Vec<u64>> {
    let config = words.config()?;
    let model = words.model()?;
    let Checked::Fine(model) = rust::check_model(&config, &model)? else {
        return None;
    };
    let mut answers = Vec::new();
    for quote in words.quotes()? {
        if quote.over_domain() {
            return None;
        }
        match rust::signal(&model, &quote) {
            Err(number) => answers.push(number),
            Ok(signal) => answers.extend([
                0,
                signal.time,
                signal.mid_sum,
                exact_bits(signal.adjustment)?,
                signal.source,
            ]),
        }
    }
    Some(answers)
}

/// The Rust's part is known by the hash of its quotes: the part that 01 gives must have the same.
fn window(words: &mut Words) -> Option<Vec<u64>> {
    let [start, end] = words.some()?;
    let quotes = words.quotes()?;
    let config = Config::of_words(&[1, 3, 1, 1, 1]);
    match rust::evening(&config, start, end, &quotes) {
        Err(Refusal(number)) => Some(vec![u64::from(number)]),
        Ok(evening) => {
            let times: Vec<u64> = quotes.iter().map(|quote| quote.time).collect();
            let (first, past) = plain::window(&times, start, end).ok()?;
            let part = rust::calibrator_after(&config, &quotes[first..past]).ok()?;
            let same = part.dataset_hash() == evening.hash;
            same.then(|| vec![0, first as u64, past as u64])
        }
    }
}

fn evening(words: &mut Words) -> Option<Vec<u64>> {
    let config = words.config()?;
    let [start, end] = words.some()?;
    let quotes = words.quotes()?;
    let evening = match rust::evening(&config, start, end, &quotes) {
        Err(Refusal(2)) => return None,
        Err(Refusal(number)) => return Some(vec![u64::from(number)]),
        Ok(evening) => evening,
    };
    let mut calibrator = rust::new(rust::config(&config).ok()?);
    for quote in quotes.iter().filter(|q| start <= q.time && q.time < end) {
        rust::observe(&mut calibrator, quote);
    }
    if calibrator.dataset_hash() != evening.hash {
        return None;
    }
    let (number, table) = fitted(&config, &evening.fitted.fit)?;
    let mut answers = vec![number, evening.invalid];
    answers.extend(held(&config, &calibrator));
    answers.extend(table);
    Some(answers)
}
