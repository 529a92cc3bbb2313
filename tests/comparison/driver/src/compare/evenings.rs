//! Evenings: counters, tables, last quote, invalid quotes and the fit of `calibrate_micro_price`.

use crate::compare::sides::same_memory;
use crate::compare::{Case, Compared, Run, fits, smallest};
use crate::inputs::quotes::{self as inputs, LARGE, SMALL};
use crate::paper::{
    COUNTERS, Config, DOMAIN, Memory, QUOTE_WORDS, Quote, RECORD_WORDS, ROW_WORDS, Refusal, join,
};
use crate::plain::{self, MOST_TOTAL};
use crate::port::{Lent, Room};
use crate::random::Random;
use crate::rust::{self, Evening};
use crate::seen::{Operation, Rule, Seen};

struct Given {
    config: Config,
    window: (u64, u64),
    quotes: Vec<Quote>,
}

pub fn run(run: &mut Run) -> Compared {
    for _ in 0..run.times(200_000) {
        let given = random_evening(&mut run.random);
        compare(run.seen, &given)?;
    }
    for _ in 0..run.times(600) {
        let given = climb(&mut run.random);
        compare(run.seen, &given)?;
    }
    for _ in 0..run.times(150) {
        let config = inputs::lively_config(&mut run.random, &LARGE);
        let given = busy_evening(&mut run.random, config, 400);
        compare(run.seen, &given)?;
    }
    if run.share == 1 {
        count_limit(run.seen)?;
    }
    Ok(())
}

fn compare(seen: &mut Seen, given: &Given) -> Compared {
    compare_evening(seen, given).map_err(|found| {
        smallest(&given.quotes, found, |quotes| {
            let less = Given {
                quotes: quotes.to_vec(),
                ..*given
            };
            compare_evening(&mut Seen::default(), &less)
        })
    })
}

// ---- inputs

fn random_evening(random: &mut Random) -> Given {
    let config = match random.below(24) {
        0 => inputs::changed_config(random),
        1 => inputs::config(random, &SMALL),
        _ => inputs::lively_config(random, &SMALL),
    };
    let valid = if plain::valid(&config) {
        config
    } else {
        inputs::lively_config(random, &SMALL)
    };
    let length = random.choose(&[1, 6, 20, 40, 60, 80]);
    let mut given = busy_evening(random, valid, length);
    given.config = config;
    let (first, last) = given.window;
    match random.below(12) {
        0 => given.window = (last, first),
        1 => given.window.0 = first.saturating_add(random.below(5)),
        2 => given.window.1 = last.saturating_sub(random.below(5)),
        3 => given.window = (random.below(9), random.below(9)),
        4 if given.quotes.len() > 1 => {
            let at = random.index(given.quotes.len() - 1);
            given.quotes.swap(at, at + 1);
        }
        _ => {}
    }
    given
}

/// Quotes in order of time and the window that has all of them.
fn busy_evening(random: &mut Random, config: Config, length: u64) -> Given {
    let quotes = inputs::in_order(random, &config, length);
    let start = quotes.first().map_or(0, |q| q.time);
    let end = quotes.last().map_or(0, |q| q.time).saturating_add(1);
    Given {
        config,
        window: (start, end),
        quotes,
    }
}

fn climb(random: &mut Random) -> Given {
    let (config, quotes) = inputs::climb(random);
    Given {
        config,
        window: (0, u64::MAX),
        quotes,
    }
}

// ---- comparing

fn print(given: &Given) -> String {
    let quotes: Vec<String> = given.quotes.iter().map(|q| join(&q.words())).collect();
    format!(
        "{} {} {}\n{}\n",
        join(&given.config.words()),
        given.window.0,
        given.window.1,
        quotes.join("\n")
    )
}

/// Memory that holds anything, of the lengths of the configuration; of three states for an invalid one.
fn used_memory(given: &Given) -> Lent {
    let states = if plain::valid(&given.config) {
        given.config.states()
    } else {
        3
    };
    let mut lent = Lent {
        config: given.config.words().to_vec(),
        rec: (1..=RECORD_WORDS as u64).collect(),
        stay: vec![11; states * states],
        moved: vec![12; states * states],
        totals: vec![-13; states],
    };
    if given.quotes.len().is_multiple_of(2) {
        lent.rec[..COUNTERS].fill(0);
    }
    lent
}

fn compare_evening(seen: &mut Seen, given: &Given) -> Compared {
    let case = Case {
        operation: Operation::Evening,
        input: &|| print(given),
    };
    const UNWRITTEN: u64 = 0x7777;
    let recording: Vec<u64> = given.quotes.iter().flat_map(Quote::words).collect();
    let mut lent = used_memory(given);
    let before = lent.clone();
    let mut room = Room::used(lent.totals.len());
    let mut invalid = UNWRITTEN;
    let answer = lent.calibrate(&recording, given.window, &mut room, &mut invalid);
    seen.answer(Operation::Evening, answer);
    seen.volume("evenings", 1);
    let (start, end) = given.window;
    match rust::evening(&given.config, start, end, &given.quotes) {
        Err(Refusal(number)) => {
            let wanted = fits::Wanted {
                answer: u64::from(number),
                model: None,
            };
            fits::same_fit(&case, &wanted, answer, &room)?;
            case.equal("invalid quotes after a refusal", invalid, UNWRITTEN)?;
            if number == 2 {
                seen.rule(Rule::OverDomain);
                return same_memory(&case, &lent, &Memory::new(given.config));
            }
            case.holds("a refusal leaves the memory as it was", lent == before)
        }
        Ok(evening) => {
            case.equal("invalid quotes", invalid, evening.invalid)?;
            compare_counts(&case, given, &lent, &evening)?;
            let wanted = fits::wanted(&case, seen, &given.config, &evening.fitted)?;
            let rows = wanted.model.iter().flat_map(|m| m.chunks(ROW_WORDS));
            rows.for_each(|row| seen.status(Operation::Evening, row[6]));
            fits::same_fit(&case, &wanted, answer, &room)
        }
    }
}

/// The record and tables are those of the Rust's calibrator after the same quotes, which are the evening's by its hash.
fn compare_counts(case: &Case, given: &Given, lent: &Lent, evening: &Evening) -> Compared {
    let made = rust::config(&given.config).expect("a configuration that the evening took");
    let mut calibrator = rust::new(made);
    let (start, end) = given.window;
    let inside = given
        .quotes
        .iter()
        .filter(|q| start <= q.time && q.time < end);
    inside.for_each(|quote| {
        rust::observe(&mut calibrator, quote);
    });
    case.equal(
        "the evening's quotes, by their hash",
        calibrator.dataset_hash(),
        evening.hash,
    )?;
    let counters = [evening.pairs, evening.spread, evening.gap, evening.largest];
    case.same("the Rust's counters", &lent.rec[COUNTERS..], &counters)?;
    same_memory(case, lent, &rust::memory_of(&given.config, &calibrator))
}

// ---- refusal 6

/// Each quote moves from one end of the domain to the other.
fn end_to_end(number: u64) -> [u64; QUOTE_WORDS] {
    if number.is_multiple_of(2) {
        [number / 2, 1, 2, 0, 9]
    } else {
        [number / 2, DOMAIN - 1, DOMAIN, 9, 0]
    }
}

/// An evening long enough for a move total to pass its limit, which takes over four million quotes; and one a quote shorter. The
/// Rust has no such limit and is not asked.
fn count_limit(seen: &mut Seen) -> Compared {
    let config = Config {
        tick: 1,
        buckets: 3,
        spreads: 1,
        least: 1,
        gap: 1,
    };
    // Each pair, or its mirror, goes from the lower bucket to the upper one with this change.
    let change = 2 * (DOMAIN - 2);
    let most = MOST_TOTAL / change;
    let mut full = Memory::new(config);
    full.totals = vec![
        (most * change).cast_signed(),
        0,
        -(most * change).cast_signed(),
    ];
    (full.moved[2], full.moved[6]) = (most, most);
    full.record.pairs = most;
    full.record.largest = change;
    full.record.last = Some(Quote::of_words(&end_to_end(most)));
    for (pairs, passes, after) in [(most, false, full), (most + 1, true, Memory::new(config))] {
        let recording: Vec<u64> = (0..=pairs).flat_map(end_to_end).collect();
        let mut lent = Lent::of(&Memory::new(config));
        let answer = lent.calibrate(&recording, (0, u64::MAX), &mut Room::used(3), &mut 0);
        seen.answer(Operation::Evening, answer);
        let case = Case {
            operation: Operation::Evening,
            input: &|| format!("{} quotes from end to end of the domain", pairs + 1),
        };
        case.equal("6 or not", answer == 6, passes)?;
        same_memory(&case, &lent, &after)?;
    }
    Ok(())
}
