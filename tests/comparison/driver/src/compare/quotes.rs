//! Quotes: all short lists over a small alphabet, all small sizes, configurations, and calibrators near the limits of 6.

use crate::compare::sides::{Sides, same_memory};
use crate::compare::{Case, Compared, Difference, Run, fits, smallest};
use crate::inputs::quotes::{self as inputs, SMALL};
use crate::paper::{Config, DOMAIN, Memory, Quote, join};
use crate::plain::{self, MOST_IN_CELL, MOST_PAIRS, MOST_TOTAL};
use crate::port::{self, Lent};
use crate::random::Random;
use crate::rust;
use crate::seen::{Operation, Rule, Seen};

pub fn run(run: &mut Run) -> Compared {
    for _ in 0..run.times(100_000) {
        let config = inputs::changed_config(&mut run.random);
        compare_config(run.seen, &mut run.random, &config)?;
    }
    short_lists(run)?;
    small_sizes(run)?;
    for _ in 0..run.times(60_000) {
        near_limits(run)?;
    }
    Ok(())
}

// ---- configurations

/// The check of a configuration, and new.
fn compare_config(seen: &mut Seen, random: &mut Random, config: &Config) -> Compared {
    let want = u64::from(!plain::valid(config));
    let rust = u64::from(rust::config(config).is_err());
    let case = |operation| {
        move |what: &str, answer: u64, want: u64| {
            let input = || format!("config {}", join(&config.words()));
            let input = &input;
            Case { operation, input }.equal(what, answer, want)
        }
    };
    case(Operation::Validate)("the Rust's answer", want, rust)?;
    let answer = port::validate(&config.words());
    seen.answer(Operation::Validate, answer);
    case(Operation::Validate)("answer", answer, want)?;
    if rust::taken_by_the_rust(config) && want == 1 {
        seen.rule(Rule::TickOverDomain);
    }
    compare_new(seen, random, config, want)
}

/// New, on memory that holds anything; an invalid configuration is lent tables of nine cells.
fn compare_new(seen: &mut Seen, random: &mut Random, config: &Config, want: u64) -> Compared {
    let states = if want == 0 { config.states() } else { 3 };
    let mut lent = Lent {
        config: config.words().to_vec(),
        rec: inputs::any_record(random).words().to_vec(),
        stay: vec![random.word(); states * states],
        moved: vec![random.word(); states * states],
        totals: vec![random.word().cast_signed(); states],
    };
    let before = lent.clone();
    let answer = lent.start_new();
    seen.answer(Operation::New, answer);
    let case = Case {
        operation: Operation::New,
        input: &|| format!("config {}", join(&config.words())),
    };
    case.equal("answer", answer, want)?;
    if want == 0 {
        same_memory(&case, &lent, &Memory::new(*config))
    } else {
        case.equal("memory", &lent, &before)
    }
}

// ---- short lists

/// Quotes of each kind: all buckets, spreads of 1, s and s + 1, a move, bad, off tick and over the domain.
fn alphabet(config: &Config, times: &[u64]) -> Vec<Quote> {
    let (tick, s) = (config.tick, config.spreads);
    let of = |time: &u64, [bid, spread, bid_size, ask_size]: [u64; 4]| {
        Quote::of_words(&[*time, bid * tick, (bid + spread) * tick, bid_size, ask_size])
    };
    let kinds = [
        [20, 1, 1, 9],
        [20, 1, 5, 5],
        [21, 1, 9, 1],
        [19, s, 4, 4],
        [19, s + 1, 9, 1],
    ];
    let mut quotes: Vec<Quote> = times
        .iter()
        .flat_map(|time| kinds.map(|kind| of(time, kind)))
        .collect();
    let good = quotes[1].words();
    for (word, value) in [(1, 0), (2, good[1]), (2, good[2] + 1), (4, DOMAIN + 1)] {
        let mut words = good;
        words[word] = value;
        quotes.push(Quote::of_words(&words));
    }
    quotes.push(of(&times[0], [20, 1, 0, 0]));
    quotes
}

/// All lists of up to three quotes, or four in a full run, with gaps of 0, the limit and one over it; and the fit after each.
fn short_lists(run: &mut Run) -> Compared {
    let full = run.share == 1;
    let gap = 1000;
    for (buckets, spreads, tick, length) in [
        (3, 2, 5, if full { 4 } else { 3 }),
        (5, 1, 2, 3),
        (3, 1, 7, 3),
    ] {
        let config = Config {
            tick,
            buckets,
            spreads,
            least: 1,
            gap,
        };
        let quotes = alphabet(&config, &[gap, 2 * gap, 3 * gap + 1]);
        let sides = Sides::of(&Memory::new(config));
        let mut list = Vec::new();
        longer(run.seen, &sides, &quotes, length, &mut list)?;
    }
    Ok(())
}

/// Compares every list that begins with `list`, after which the calibrator is as in `sides`.
fn longer(
    seen: &mut Seen,
    sides: &Sides,
    quotes: &[Quote],
    more: u64,
    list: &mut Vec<Quote>,
) -> Compared {
    if more == 0 {
        return Ok(());
    }
    for quote in quotes {
        let mut next = sides.clone();
        list.push(*quote);
        seen.volume("short lists of quotes, all of them", 1);
        next.quote(seen, quote)
            .and_then(|_| next.whole(Operation::Quote))
            .map_err(|found| with_list(&sides.plain.config, list, found))?;
        fits::compare_fit(seen, &next.plain)?;
        longer(seen, &next, quotes, more - 1, list)?;
        list.pop();
    }
    Ok(())
}

/// A difference at the last quote of a list, told with the shortest list that gives one.
fn with_list(config: &Config, list: &[Quote], found: Difference) -> Difference {
    let again = |list: &[Quote]| {
        let mut sides = Sides::of(&Memory::new(*config));
        let told = |difference: Difference| Difference {
            input: format!(
                "config {}\n{}{}",
                join(&config.words()),
                list.iter()
                    .map(|q| format!("quote {}\n", join(&q.words())))
                    .collect::<String>(),
                difference.input
            ),
            ..difference
        };
        let mut seen = Seen::default();
        list.iter()
            .try_for_each(|quote| sides.quote(&mut seen, quote).map(drop))
            .and_then(|()| sides.whole(Operation::Quote))
            .map_err(told)
    };
    smallest(list, found, again)
}

// ---- sizes

/// All sizes of up to 30 units for several n, each quote given twice: the cell that counts shows the state.
fn small_sizes(run: &mut Run) -> Compared {
    let most = if run.share == 1 { 30 } else { 12 };
    for n in [3, 5, 7, 9, 11, 13, 15, 21, 27, 31] {
        let config = Config {
            tick: 1,
            buckets: n,
            spreads: 1,
            least: 1,
            gap: 1,
        };
        let new = Sides::of(&Memory::new(config));
        for bid_size in 0..=most {
            for ask_size in 0..=most {
                let quote = Quote {
                    time: 0,
                    bid: 1,
                    ask: 2,
                    bid_size,
                    ask_size,
                };
                let mut sides = new.clone();
                run.seen.volume("pairs of sizes, all of them", 1);
                [quote; 2]
                    .iter()
                    .try_for_each(|quote| sides.quote(run.seen, quote).map(drop))
                    .and_then(|()| sides.whole(Operation::Quote))
                    .map_err(|found| with_list(&config, &[quote; 2], found))?;
            }
        }
    }
    Ok(())
}

// ---- limits

/// A few quotes given to a calibrator whose counters, cells or totals stand at or beside the limits of 6.
fn near_limits(run: &mut Run) -> Compared {
    let random = &mut run.random;
    let config = inputs::lively_config(random, &SMALL[..8]);
    let mut memory = Memory::new(config);
    let last = inputs::good_quote(random, &config, None);
    if plain::quote_refusal(&config, &last) == 0 {
        memory.record.last = Some(last);
    }
    raise(random, &mut memory);
    let mut sides = Sides::of(&memory);
    for _ in 0..4 {
        let last = sides.plain.record.last;
        let quote = inputs::quote(&mut run.random, &config, last.as_ref());
        run.seen.volume("quotes given near the limits of 6", 1);
        sides.quote(run.seen, &quote)?;
    }
    sides.whole(Operation::Quote)
}

/// Raises a counter, totals or cells to about their limits.
fn raise(random: &mut Random, memory: &mut Memory) {
    let pairs = MOST_PAIRS + 1 - random.below(4);
    match random.below(5) {
        0 => memory.record.spread = pairs,
        1 => memory.record.gap = pairs,
        2 => {
            // Every pair is from a middle state to itself.
            let middle = (memory.config.buckets / 2) as usize;
            memory.record.pairs = pairs;
            memory.stay[middle * memory.totals.len() + middle] = 2 * pairs;
        }
        3 => raise_totals(random, memory),
        _ => raise_all(random, memory),
    }
}

/// Totals about their limits, mirrored, so that the Rust takes them.
fn raise_totals(random: &mut Random, memory: &mut Memory) {
    for x in 0..memory.totals.len() {
        let mirror = memory.config.mirror(x);
        if x < mirror && random.one_in(2) {
            let size = (MOST_TOTAL + 3 - random.below(6)).cast_signed();
            let total = if random.one_in(2) { size } else { -size };
            memory.totals[x] = total;
            memory.totals[mirror] = -total;
        }
    }
}

/// Cells and totals of any size, unmirrored: for `plain` alone.
fn raise_all(random: &mut Random, memory: &mut Memory) {
    const CELLS: [u64; 5] = [
        0,
        MOST_IN_CELL,
        MOST_IN_CELL - 1,
        MOST_IN_CELL - 2,
        u64::MAX,
    ];
    const MOST: i64 = MOST_TOTAL.cast_signed();
    const TOTALS: [i64; 6] = [0, MOST, -MOST, MOST + 1, i64::MAX, i64::MIN];
    for cell in memory.stay.iter_mut().chain(&mut memory.moved) {
        *cell = random.choose(&CELLS);
    }
    for total in &mut memory.totals {
        *total = random.choose(&TOTALS);
    }
}
