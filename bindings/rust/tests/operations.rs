//! Each operation against results worked out by hand from documents 01 and 02. "Its configuration" is n = 3, s = 2, tick 1,
//! least observations 1, gap 1,000: six states, 0 to 2 for a spread of one tick, 3 to 5 for two.

use micro_price::sys::{
    IMAGE_BUCKETS, IMAGE_HEADER, IMAGE_MAX_QUOTE_GAP_MS, IMAGE_SPREAD_STATES, IMAGE_STATES,
    IMAGE_TICK, QUOTE_WORDS, RECORD_WORDS, ROW_WORDS, image_length,
};
use micro_price::{
    Calibrator, Call, Config, Counters, Estimate, Model, OutsideRoom, Quote, Refusal, Replayed,
    Rounds, Signal, Source, Status, calibrate, quotes_in,
};

const CONFIG: Config = Config::new(1, 3, 2)
    .with_min_state_observations(1)
    .with_max_quote_gap_ms(1000);
/// The largest price, size and tick.
const DOMAIN: u64 = 1_000_000_000;
/// Most pairs or skips.
const COUNTER_LIMIT: u64 = 1 << 52;
/// Greatest size of a move total.
const TOTAL_LIMIT: i64 = 1 << 53;
// Words of an image beside N and the configuration's: where stay begins, the record's first, the length, the tables' first.
const STAY_OFFSET: usize = 6;
const RECORD: usize = 9;
const LENGTH: usize = 19;
const TABLES: usize = IMAGE_HEADER / 8;
const HALF: u64 = 0x3fe0_0000_0000_0000;
const MINUS_HALF: u64 = 0xbfe0_0000_0000_0000;
const ONE: u64 = 0x3ff0_0000_0000_0000;

/// A configuration with the default observations and a gap of 60,000.
fn shaped(tick_size: u64, imbalance_buckets: u64, spread_states: u64) -> Config {
    Config::new(tick_size, imbalance_buckets, spread_states).with_max_quote_gap_ms(60_000)
}

fn quote(words: [u64; QUOTE_WORDS]) -> Quote {
    Quote::from_words(words)
}

/// A new calibrator after these quotes.
fn after(config: Config, quotes: &[[u64; QUOTE_WORDS]]) -> Calibrator {
    let mut calibrator = Calibrator::new(config).unwrap();
    for words in quotes {
        calibrator.observe(&quote(*words)).unwrap();
    }
    calibrator
}

/// A table with zeros but for these cells: row, column, content.
fn table(states: usize, cells: &[(usize, usize, u64)]) -> Vec<u64> {
    let mut table = vec![0; states * states];
    for (row, column, content) in cells {
        table[row * states + column] = *content;
    }
    table
}

/// An image, word by word as document 01 lays it out.
fn image(
    config: Config,
    rec: [u64; RECORD_WORDS],
    stay: &[u64],
    moved: &[u64],
    totals: &[i64],
) -> Vec<u8> {
    let states = totals.len() as u64;
    let cells = states * states;
    let stay_at = IMAGE_HEADER as u64;
    let mut words = vec![
        states,
        config.imbalance_buckets,
        config.spread_states,
        config.tick_size,
        config.min_state_observations,
        config.max_quote_gap_ms,
        stay_at,
        stay_at + 8 * cells,
        stay_at + 16 * cells,
    ];
    words.extend(rec);
    words.push(image_length(totals.len()) as u64);
    words.extend(stay);
    words.extend(moved);
    words.extend(totals.iter().map(|total| *total as u64));
    words.into_iter().flat_map(u64::to_le_bytes).collect()
}

/// Eight quotes: four pairs, two spread skips, a gap skip.
const DAY: [[u64; QUOTE_WORDS]; 8] = [
    [0, 100, 101, 9, 1],
    [1, 100, 102, 5, 5],
    [2, 100, 102, 1, 2],
    [3, 99, 101, 7, 0],
    [4, 99, 102, 1, 1],
    [5, 99, 100, 1, 1],
    [1006, 99, 100, 1, 1],
    [2006, 99, 100, 1, 1],
];

/// What `DAY` leaves. States 2, 4, 3, 5, none, 1, 1, 1; mids 201, 202, 202, 200 half ticks, then 199 from the sixth on.
fn day_tables() -> (Vec<u64>, Vec<u64>, [i64; 6]) {
    let stay = table(6, &[(4, 3, 1), (4, 5, 1), (1, 1, 2)]);
    let moved = table(6, &[(2, 4, 1), (0, 4, 1), (3, 5, 1), (5, 3, 1)]);
    (stay, moved, [-1, 0, 1, -2, 0, 2])
}

const DAY_RECORD: [u64; RECORD_WORDS] = [1, 2006, 99, 100, 1, 1, 4, 2, 1, 2];

#[test]
fn a_configuration_has_defaults_and_is_judged() {
    let made = Config::new(7, 5, 4);
    assert_eq!(
        (made.min_state_observations, made.max_quote_gap_ms),
        (100, 5_000)
    );
    let valid = [
        shaped(1, 3, 1),
        shaped(DOMAIN, 3, 85),
        shaped(1, 255, 1),
        CONFIG,
    ];
    for config in valid {
        assert_eq!(config.validate(), Ok(()), "{config:?}");
    }
    let invalid = [
        shaped(0, 3, 2),
        shaped(DOMAIN + 1, 3, 2),
        shaped(1, 1, 2),
        shaped(1, 4, 2),
        shaped(1, 3, 0),
        shaped(1, 3, 86),
        shaped(1, 257, 1),
        shaped(1, (1 << 32) + 3, 2),
        CONFIG.with_min_state_observations(0),
        CONFIG.with_max_quote_gap_ms(0),
    ];
    for config in invalid {
        assert_eq!(config.validate(), Err(Refusal::Configuration), "{config:?}");
        assert_eq!(Calibrator::new(config), Err(Refusal::Configuration));
    }
    assert_eq!((CONFIG.states(), shaped(1, 51, 5).states()), (6, 255));
}

#[test]
fn a_new_calibrator_is_empty() {
    let made = Calibrator::new(CONFIG).unwrap();
    assert_eq!(made.config(), CONFIG);
    assert_eq!(made.last_quote(), None);
    assert_eq!(
        made.counters(),
        Counters {
            pairs: 0,
            skipped_spread_pairs: 0,
            skipped_gap_pairs: 0,
            largest_move_half_ticks: 0
        }
    );
    assert_eq!(made.stay(), vec![0; 36]);
    assert_eq!(made.moved(), vec![0; 36]);
    assert_eq!(made.move_half_ticks(), vec![0; 6]);
}

/// P1 to P10: a quote given twice is a pair from its state to itself with no change, and the mirror likewise.
#[test]
fn states_and_mirrors_are_those_of_the_marked_table() {
    let marked = [
        ([0, 7], 1, 0, 2),
        ([1, 2], 1, 0, 2),
        ([2, 3], 1, 1, 1),
        ([5, 5], 1, 1, 1),
        ([3, 2], 1, 1, 1),
        ([2, 1], 1, 2, 0),
        ([7, 0], 1, 2, 0),
        ([5, 5], 2, 4, 4),
        ([1, 2], 2, 3, 5),
    ];
    for ([bid_size, ask_size], spread, state, mirror) in marked {
        let quotes = [0, 1].map(|time| [time, 100, 100 + spread, bid_size, ask_size]);
        let mut wanted = table(6, &[]);
        wanted[state * 6 + state] += 1;
        wanted[mirror * 6 + mirror] += 1;
        let calibrator = after(CONFIG, &quotes);
        assert_eq!(calibrator.stay(), wanted, "{bid_size} {ask_size} {spread}");
        assert_eq!(calibrator.moved(), table(6, &[]));
    }
}

/// P11 and P12.
#[test]
fn the_longest_gap_counts() {
    let at_limit = after(CONFIG, &[[0, 100, 101, 5, 5], [1000, 100, 101, 5, 5]]);
    assert_eq!(at_limit.counters().pairs, 1);
    let over = after(CONFIG, &[[0, 100, 101, 5, 5], [1001, 100, 101, 5, 5]]);
    assert_eq!(over.counters().pairs, 0);
    assert_eq!(over.counters().skipped_gap_pairs, 1);
    assert_eq!(over.last_quote(), Some(quote([1001, 100, 101, 5, 5])));
}

/// Document 02, Q-5: a gap of 5,000 counts where none is named, and one of 5,001 is skipped.
#[test]
fn the_default_gap_is_five_seconds() {
    let counted = |config, pause| {
        let quotes = [0, pause].map(|time| [time, 100, 101, 9, 1]);
        let counters = after(config, &quotes).counters();
        (counters.pairs, counters.skipped_gap_pairs)
    };
    let by_default = Config::new(1, 3, 2).with_min_state_observations(1);
    assert_eq!(counted(by_default, 5_000), (1, 0));
    assert_eq!(counted(by_default, 5_001), (0, 1));
    let named = by_default.with_max_quote_gap_ms(60_000);
    assert_eq!(counted(named, 5_001), (1, 0));
}

/// Document 02, Q-5: "Saved images carry their own gap and continue with it".
#[test]
fn an_image_carries_its_own_gap() {
    let first = [0, 100, 101, 9, 1];
    let config = CONFIG.with_max_quote_gap_ms(60_000);
    let saved = after(config, &[first]).save().unwrap();
    let restored = |gap: u64| {
        let mut image = saved.clone();
        image[8 * IMAGE_MAX_QUOTE_GAP_MS..][..8].copy_from_slice(&gap.to_le_bytes());
        let mut calibrator = Calibrator::restore(&image).unwrap();
        calibrator.observe(&quote([6_000, 100, 101, 9, 1])).unwrap();
        let counters = calibrator.counters();
        let gap = calibrator.config().max_quote_gap_ms;
        (gap, counters.pairs, counters.skipped_gap_pairs)
    };
    assert_eq!(restored(60_000), (60_000, 1, 0));
    assert_eq!(restored(5_000), (5_000, 0, 1));
}

#[test]
fn quotes_are_counted_with_their_mirrors() {
    let calibrator = after(CONFIG, &DAY);
    let (stay, moved, totals) = day_tables();
    assert_eq!(calibrator.stay(), stay);
    assert_eq!(calibrator.moved(), moved);
    assert_eq!(calibrator.move_half_ticks(), totals);
    assert_eq!(
        calibrator.counters(),
        Counters {
            pairs: 4,
            skipped_spread_pairs: 2,
            skipped_gap_pairs: 1,
            largest_move_half_ticks: 2
        }
    );
    assert_eq!(calibrator.last_quote(), Some(quote(DAY[7])));
}

/// P13 and the other refusals of a quote, the first of several, and that a refused quote changes nothing.
#[test]
fn a_refused_quote_changes_nothing() {
    let over = DOMAIN + 1;
    let config = CONFIG.with_max_quote_gap_ms(5);
    let by_five = Config {
        tick_size: 5,
        ..config
    };
    let mut calibrator = after(by_five, &[[10, 100, 105, 5, 5], [11, 105, 110, 5, 5]]);
    let before = calibrator.clone();
    let cases = [
        ([12, over, 105, 5, 5], Refusal::OverDomain),
        ([12, 100, over, 5, 5], Refusal::OverDomain),
        ([12, 100, 105, over, 5], Refusal::OverDomain),
        ([12, 100, 105, 5, over], Refusal::OverDomain),
        ([12, 0, 105, 5, over], Refusal::OverDomain),
        ([12, 0, 105, 5, 5], Refusal::BadQuote),
        ([12, 105, 105, 5, 5], Refusal::BadQuote),
        ([12, 105, 100, 5, 5], Refusal::BadQuote),
        ([12, 100, 105, 0, 0], Refusal::BadQuote),
        ([12, 101, 101, 5, 5], Refusal::BadQuote),
        ([12, 100, 107, 5, 5], Refusal::OffTick),
        ([12, 101, 105, 5, 5], Refusal::OffTick),
        ([10, 100, 107, 5, 5], Refusal::OffTick),
        ([10, 100, 105, 5, 5], Refusal::EarlierTime),
    ];
    for (words, refusal) in cases {
        assert_eq!(calibrator.observe(&quote(words)), Err(refusal), "{words:?}");
        assert_eq!(calibrator, before);
    }
    assert_eq!(calibrator.observe(&quote([11, 100, 105, 5, 5])), Ok(()));
}

/// 6: pairs at their limit take no further one.
#[test]
fn counts_have_limits() {
    let limit = COUNTER_LIMIT;
    let rec = [1, 0, 100, 101, 9, 1, limit, 0, 0, 0];
    let stay = table(6, &[(2, 2, limit), (0, 0, limit)]);
    let full = image(CONFIG, rec, &stay, &table(6, &[]), &[0; 6]);
    let mut calibrator = Calibrator::restore(&full).unwrap();
    let before = calibrator.clone();
    let counted = quote([1, 100, 101, 9, 1]);
    assert_eq!(calibrator.observe(&counted), Err(Refusal::CountLimit));
    assert_eq!(calibrator, before);
    let skipped = quote([1, 100, 103, 9, 1]);
    assert_eq!(calibrator.observe(&skipped), Ok(()));
}

#[test]
fn an_image_is_laid_out_as_document_01_says() {
    let calibrator = after(CONFIG, &DAY);
    let (stay, moved, totals) = day_tables();
    let saved = calibrator.save().unwrap();
    assert_eq!(saved.len(), image_length(6));
    assert_eq!(saved, image(CONFIG, DAY_RECORD, &stay, &moved, &totals));
    let empty = Calibrator::new(CONFIG).unwrap().save().unwrap();
    let zeros = [0; RECORD_WORDS];
    assert_eq!(empty, image(CONFIG, zeros, &[0; 36], &[0; 36], &[0; 6]));
}

#[test]
fn a_restored_calibrator_goes_on_as_if_it_had_never_stopped() {
    let mut running = after(CONFIG, &DAY[..4]);
    let mut restored = Calibrator::restore(&running.save().unwrap()).unwrap();
    assert_eq!(restored, running);
    for words in &DAY[4..] {
        assert_eq!(
            restored.observe(&quote(*words)),
            running.observe(&quote(*words))
        );
    }
    assert_eq!(restored, running);
    assert_eq!(restored.save(), running.save());
    assert_eq!(restored, after(CONFIG, &DAY));
    let empty = Calibrator::new(CONFIG).unwrap();
    assert_eq!(Calibrator::restore(&empty.save().unwrap()), Ok(empty));
}

#[test]
fn a_broken_image_is_refused() {
    let (stay, moved, totals) = day_tables();
    let good = image(CONFIG, DAY_RECORD, &stay, &moved, &totals);
    assert!(Calibrator::restore(&good).is_ok());
    let refused = |image: &[u8]| Calibrator::restore(image).unwrap_err().number();
    assert_eq!(refused(&[]), 12);
    assert_eq!(refused(&good[..IMAGE_HEADER - 1]), 12);
    assert_eq!(refused(&good[..good.len() - 1]), 12);
    assert_eq!(refused(&[&good[..], &[0]].concat()), 12);
    let with_word = |place: usize, word: u64| {
        let mut changed = good.clone();
        changed[8 * place..8 * place + 8].copy_from_slice(&word.to_le_bytes());
        refused(&changed)
    };
    assert_eq!(with_word(IMAGE_STATES, 7), 12, "N");
    assert_eq!(with_word(IMAGE_BUCKETS, 4), 1, "n");
    assert_eq!(with_word(IMAGE_BUCKETS, u64::MAX), 1, "n");
    assert_eq!(
        with_word(IMAGE_SPREAD_STATES, 3),
        12,
        "s, with the lengths of another"
    );
    assert_eq!(with_word(IMAGE_TICK, 0), 1, "tick");
    let other_offset = IMAGE_HEADER as u64 + 8;
    assert_eq!(with_word(STAY_OFFSET, other_offset), 12, "offset of stay");
    assert_eq!(with_word(RECORD, 2), 12, "whether there is a last quote");
    assert_eq!(
        with_word(RECORD, 0),
        12,
        "no last quote, its words not zero"
    );
    assert_eq!(
        with_word(RECORD + 3, 99),
        8,
        "the last quote's ask is its bid"
    );
    assert_eq!(
        with_word(IMAGE_TICK, 3),
        8,
        "the last quote's prices are off the tick"
    );
    assert_eq!(
        with_word(RECORD + 8, COUNTER_LIMIT + 1),
        6,
        "gap skips over their limit"
    );
    assert_eq!(with_word(LENGTH, 0), 12, "length");
    let totals_at = TABLES + 36 + 36;
    let over = TOTAL_LIMIT.unsigned_abs() + 1;
    assert_eq!(with_word(totals_at + 1, over), 6, "a total");
    assert_eq!(with_word(totals_at + 2, 2), 9, "a total without its mirror");
    assert_eq!(with_word(TABLES + 5, 1), 10, "a cell without its mirror");
    assert_eq!(
        with_word(TABLES + 7, 4),
        11,
        "cells are not twice the pairs"
    );
}

/// Document 01's example.
fn example() -> Vec<u64> {
    [
        [1, 1, 1, MINUS_HALF, MINUS_HALF, ONE, 0],
        [2, 1, 0, 0, 0, ONE, 1],
        [3, 1, 1, HALF, HALF, ONE, 0],
        [1, 2, 0, 0, 0, ONE, 1],
        [2, 2, 0, 0, 0, ONE, 1],
        [3, 2, 0, 0, 0, ONE, 1],
    ]
    .concat()
}

#[test]
fn the_example_is_fitted() {
    let calibrator = after(CONFIG, &[[0, 100, 101, 9, 1], [1, 100, 102, 5, 5]]);
    let model = calibrator.fit().unwrap();
    assert_eq!(model.words(), example());
    assert_eq!(model.config(), CONFIG);
    assert_eq!(model.check(), Ok(()));
    assert_eq!(
        model.estimate(2),
        Some(Estimate {
            imbalance_bucket: 3,
            spread_ticks: 1,
            observations: 1,
            first_adjustment: 0.5,
            adjustment: 0.5,
            fallback_within_moves: 1.0,
            status: Some(Status::Calibrated),
        })
    );
    assert_eq!(model.estimate(4).unwrap().status, Some(Status::Rare));
    assert_eq!(model.estimate(6), None);
}

#[test]
fn fits_that_fail_say_why() {
    let no_quotes = Calibrator::new(CONFIG).unwrap();
    assert_eq!(no_quotes.fit(), Err(Refusal::NoCalibratedState));
    let outside = after(CONFIG, &[[0, 100, 101, 9, 1], [1, 101, 102, 5, 5]]);
    assert_eq!(outside.fit(), Err(Refusal::NoCalibratedState));
    let growing = after(CONFIG, &[[0, 100, 101, 9, 1], [1, 101, 102, 9, 1]]);
    assert_eq!(growing.fit(), Err(Refusal::NotConverged));

    let pairs = (1 << 43) + 1;
    let stay = table(6, &[(1, 1, 1 << 44)]);
    let moved = table(6, &[(1, 1, 2)]);
    let rec = [0, 0, 0, 0, 0, 0, pairs, 0, 0, 0];
    let singular = Calibrator::restore(&image(CONFIG, rec, &stay, &moved, &[0; 6])).unwrap();
    assert_eq!(singular.fit(), Err(Refusal::SingularTransitions));

    let large = Config {
        tick_size: DOMAIN,
        imbalance_buckets: 5,
        ..CONFIG
    };
    let many = 10_000_000_000;
    let stay = table(10, &[(0, 1, 1), (4, 3, 1), (1, 0, many), (3, 4, many)]);
    let moved = table(10, &[(1, 2, 1), (3, 2, 1)]);
    let rec = [0, 0, 0, 0, 0, 0, 10_000_000_002, 0, 0, 0];
    let mut totals = [0; 10];
    (totals[0], totals[4]) = (TOTAL_LIMIT, -TOTAL_LIMIT);
    let unrepresentable = Calibrator::restore(&image(large, rec, &stay, &moved, &totals)).unwrap();
    assert_eq!(unrepresentable.fit(), Err(Refusal::Unrepresentable));
}

/// Document 02, Q-10: the series of the example ends in its first round. With 0 fallback rounds the share is F, which is 0 for
/// its calibrated states, as they move to a Rare one and never stay.
#[test]
fn the_example_is_fitted_in_one_round() {
    let calibrator = after(CONFIG, &[[0, 100, 101, 9, 1], [1, 100, 102, 5, 5]]);
    let words = |series, fallback| {
        let model = calibrator.fit_with(Rounds { series, fallback }).unwrap();
        assert_eq!(model.config(), CONFIG);
        model.words().to_vec()
    };
    for series in [1, 2, 10_000] {
        for fallback in [1, 10, 100] {
            assert_eq!(words(series, fallback), example(), "{series} {fallback}");
        }
        let mut wanted = example();
        (wanted[5], wanted[2 * ROW_WORDS + 5]) = (0, 0);
        assert_eq!(words(series, 0), wanted, "{series} 0");
    }
}

/// Document 02, Q-10: the defaults, and 26 outside of the ranges, judged before 16.
#[test]
fn rounds_have_defaults_and_are_judged() {
    let (series, fallback) = (10_000, 10);
    assert_eq!(Rounds::default(), Rounds { series, fallback });
    let fitted = after(CONFIG, &[[0, 100, 101, 9, 1], [1, 100, 102, 5, 5]]);
    let empty = Calibrator::new(CONFIG).unwrap();
    let invalid = [
        (0, 10),
        (10_001, 10),
        ((1 << 32) + 1, 10),
        (u64::MAX, 10),
        (1, 101),
        (1, 1 << 32),
        (1, u64::MAX),
        (0, 101),
    ];
    for (series, fallback) in invalid {
        let rounds = Rounds { series, fallback };
        for calibrator in [&fitted, &empty] {
            let refused = calibrator.fit_with(rounds);
            assert_eq!(refused, Err(Refusal::RoundsOutOfRange), "{rounds:?}");
        }
    }
    for (series, fallback) in [(1, 0), (1, 100), (10_000, 0), (10_000, 100)] {
        let rounds = Rounds { series, fallback };
        assert!(fitted.fit_with(rounds).is_ok(), "{rounds:?}");
        let refused = empty.fit_with(rounds);
        assert_eq!(refused, Err(Refusal::NoCalibratedState), "{rounds:?}");
    }
}

/// n = 3, s = 1: half of the moves from states 0 and 2 end in the same state, half in state 1, which is Rare. No quotes of one
/// tick's spread move the mid by half a tick, so the counts come from an image.
fn halving() -> Calibrator {
    let config = Config {
        spread_states: 1,
        ..CONFIG
    };
    let moved = table(3, &[(0, 0, 1), (0, 1, 1), (2, 1, 1), (2, 2, 1)]);
    let rec = [0, 0, 0, 0, 0, 0, 2, 0, 0, 0];
    Calibrator::restore(&image(config, rec, &[0; 9], &moved, &[-1, 0, 1])).unwrap()
}

/// Document 02, Q-10. G1 is -1/2 and 1/2 and a round halves the term, so that the 39th is 2^-40, the first below 1e-12. The sum
/// is 1 - 2^-40 in size, the adjustment half of it.
#[test]
fn fewer_series_rounds_give_the_same_model_or_18() {
    let calibrator = halving();
    let fit = |series| {
        calibrator.fit_with(Rounds {
            series,
            ..Rounds::default()
        })
    };
    for series in [1, 38] {
        assert_eq!(fit(series), Err(Refusal::NotConverged), "{series}");
    }
    let model = fit(39).unwrap();
    let [low, middle, high] = [0, 1, 2].map(|state| model.estimate(state).unwrap());
    assert_eq!(low.first_adjustment, -0.25);
    assert_eq!(low.adjustment.to_bits(), 0xbfdf_ffff_ffff_e000);
    assert_eq!(high.adjustment, -low.adjustment);
    assert_eq!(low.status, Some(Status::Calibrated));
    assert_eq!(middle.status, Some(Status::Rare));
    for series in [40, 10_000] {
        assert_eq!(fit(series).as_ref(), Ok(&model), "{series}");
    }
    assert_eq!(calibrator.fit(), Ok(model));
}

/// Document 02, Q-10. F is 0 for states 0 and 2, and a round takes them half of the way to 1: after k rounds the share is
/// 1 - 2^-k, which is 1 from the 54th on, rounded. Nothing else depends on these rounds.
#[test]
fn fallback_rounds_change_the_share_alone() {
    let calibrator = halving();
    let by_default = calibrator.fit().unwrap();
    let shares = [
        (0, 0.0),
        (1, 0.5),
        (2, 0.75),
        (10, 0.9990234375),
        (53, 1.0 - f64::EPSILON / 2.0),
        (54, 1.0),
        (100, 1.0),
    ];
    for (fallback, share) in shares {
        let rounds = Rounds {
            fallback,
            ..Rounds::default()
        };
        let mut wanted = by_default.words().to_vec();
        for state in [0, 2] {
            wanted[ROW_WORDS * state + 5] = f64::to_bits(share);
        }
        let model = calibrator.fit_with(rounds).unwrap();
        assert_eq!(model.words(), wanted, "{fallback}");
    }
    let share = by_default.estimate(0).unwrap().fallback_within_moves;
    assert_eq!(share.to_bits(), 0x3fef_f800_0000_0000);
}

#[test]
fn signals_are_the_mid_plus_the_adjustment() {
    let model = Model::from_words(CONFIG, example());
    let signal = |words| model.signal(&quote(words));
    let sent = |timestamp_ms, mid_sum, adjustment, source| {
        Ok(Signal {
            timestamp_ms,
            mid_sum,
            adjustment,
            source,
        })
    };
    assert_eq!(
        signal([7, 100, 101, 9, 1]),
        sent(7, 201, 0.5, Source::MicroPrice)
    );
    assert_eq!(
        signal([8, 300, 301, 1, 9]),
        sent(8, 601, -0.5, Source::MicroPrice)
    );
    assert_eq!(
        signal([9, 100, 101, 5, 5]),
        sent(9, 201, 0.0, Source::MidFallback(Status::Rare))
    );
    assert_eq!(
        signal([9, 100, 103, 9, 1]),
        sent(9, 203, 0.0, Source::SpreadOutOfRange)
    );
    assert_eq!(
        signal([9, 100, 101, 9, DOMAIN + 1]),
        Err(Refusal::OverDomain)
    );
    assert_eq!(signal([9, 101, 101, 9, 1]), Err(Refusal::BadQuote));
    let by_two = Config {
        tick_size: 2,
        ..CONFIG
    };
    let model = Model::from_words(by_two, example());
    assert_eq!(
        model.signal(&quote([9, 100, 101, 9, 1])),
        Err(Refusal::OffTick)
    );
}

/// A model table that is not one of the configuration: the check names its first bad row, a signal only that of its own state.
#[test]
fn a_bad_model_is_refused() {
    let heavy_bid = quote([9, 100, 101, 9, 1]);
    let with_word = |row: usize, word: usize, content: u64| {
        let mut words = example();
        words[ROW_WORDS * row + word] = content;
        let model = Model::from_words(CONFIG, words);
        (model.check(), model.signal(&heavy_bid))
    };
    let row = |state| Err(Refusal::ModelRow(state));
    let sent = Model::from_words(CONFIG, example()).signal(&heavy_bid);
    assert!(sent.is_ok());
    assert_eq!(with_word(4, 0, 3), (row(4), sent), "bucket");
    assert_eq!(with_word(3, 1, 1), (row(3), sent), "spread");
    assert_eq!(
        with_word(5, 2, 8),
        (row(3), sent),
        "observations unlike the mirror's"
    );
    assert_eq!(with_word(1, 5, HALF), (row(1), sent), "a fallback's share");
    assert_eq!(with_word(1, 4, 1 << 63), (row(1), sent), "minus zero");
    let (checked, sent) = with_word(2, 6, 4);
    assert_eq!(
        (checked, sent),
        (row(0), Err(Refusal::ModelRow(2))),
        "status"
    );
    let (checked, sent) = with_word(2, 4, 0.75f64.to_bits());
    assert_eq!(checked, row(0), "not the mirror's adjustment negated");
    assert_eq!(sent, Err(Refusal::ModelRow(2)), "outside the quotes");
    let (_, sent) = with_word(2, 4, f64::NAN.to_bits());
    assert_eq!(sent, Err(Refusal::ModelRow(2)), "not a number");

    let short = Model::from_words(CONFIG, example()[ROW_WORDS..].to_vec());
    assert_eq!(short.check(), Err(Refusal::SliceLength));
    assert_eq!(short.signal(&heavy_bid), Err(Refusal::SliceLength));
    let even = Model::from_words(shaped(1, 2, 3), example());
    assert_eq!(even.check(), Err(Refusal::Configuration));
    assert_eq!(even.signal(&heavy_bid), Err(Refusal::Configuration));
}

#[test]
fn the_window_is_a_part_of_the_recording() {
    let recording = [
        [0, 100, 101, 1, 1],
        [5, 100, 101, 2, 1],
        [5, 100, 101, 3, 1],
        [9, 100, 101, 4, 1],
    ]
    .concat();
    assert_eq!(quotes_in(&recording, 0, 10), Ok(&recording[..]));
    let part = quotes_in(&recording, 1, 9).unwrap();
    assert_eq!(part, &recording[QUOTE_WORDS..3 * QUOTE_WORDS]);
    let second = recording[QUOTE_WORDS..].as_ptr();
    assert_eq!(part.as_ptr(), second, "the caller's own");
    assert_eq!(quotes_in(&recording, 5, 5), Ok(&[][..]));
    assert_eq!(
        quotes_in(&recording, 8, 6),
        Ok(&[][..]),
        "backward, holding none"
    );
    assert_eq!(quotes_in(&recording, 9, 5), Err(Refusal::WindowBackward));
    assert_eq!(quotes_in(&recording[1..], 0, 10), Err(Refusal::SliceLength));
    let unsorted = [&recording[QUOTE_WORDS..], &recording[..QUOTE_WORDS]].concat();
    assert_eq!(quotes_in(&unsorted, 0, 10), Err(Refusal::RecordingUnsorted));
    assert_eq!(quotes_in(&[], 0, 10), Ok(&[][..]));
}

#[test]
fn an_evening_counts_its_window_and_fits() {
    let recording = [
        [0, 100, 101, 9, 1],
        [1, 0, 102, 5, 5],
        [1, 100, 102, 5, 5],
        [10, DOMAIN + 1, 102, 5, 5],
    ]
    .concat();
    let evening = calibrate(CONFIG, &recording, 0, 10).unwrap();
    assert_eq!(evening.invalid, 1);
    assert_eq!(evening.fit, Ok(Model::from_words(CONFIG, example())));
    let counted = after(CONFIG, &[[0, 100, 101, 9, 1], [1, 100, 102, 5, 5]]);
    assert_eq!(evening.calibrator, counted);

    let no_pair = calibrate(CONFIG, &recording, 1, 10).unwrap();
    assert_eq!(no_pair.invalid, 1);
    assert_eq!(no_pair.fit, Err(Refusal::NoCalibratedState));
    assert_eq!(
        no_pair.calibrator.last_quote(),
        Some(quote([1, 100, 102, 5, 5]))
    );

    let refused = |config, recording: &[u64], start, end| {
        calibrate(config, recording, start, end)
            .unwrap_err()
            .number()
    };
    let even = shaped(1, 4, 2);
    let unsorted = [&recording[QUOTE_WORDS..], &recording[..QUOTE_WORDS]].concat();
    assert_eq!(refused(even, &recording[1..], 0, 10), 7);
    assert_eq!(refused(even, &unsorted, 10, 0), 14);
    assert_eq!(refused(even, &recording, 10, 0), 15);
    assert_eq!(refused(even, &recording, 0, 10), 1);
    assert_eq!(refused(CONFIG, &recording, 0, 11), 2);
}

#[test]
fn a_journal_is_replayed() {
    let quotes = DAY.map(quote);
    let length = Calibrator::new(CONFIG).unwrap().image_length();
    let save = Call::Save { start: 8, length };
    let restore = Call::Restore { start: 8, length };
    let other = image(
        CONFIG.with_max_quote_gap_ms(999),
        [0; RECORD_WORDS],
        &[0; 36],
        &[0; 36],
        &[0; 6],
    );
    let mut room = vec![0; 8 + length + other.len()];
    room[8 + length..].copy_from_slice(&other);
    let mut calibrator = Calibrator::new(CONFIG).unwrap();
    let journal = [
        Call::Quote(quotes[0]),
        Call::Quote(quotes[1]),
        save,
        Call::Quote(quotes[2]),
        Call::Quote(quotes[1]),
        Call::Save {
            start: 0,
            length: 8,
        },
        Call::Restore {
            start: 0,
            length: 8,
        },
        restore,
    ];
    let answers = calibrator.replay(&journal, &mut room).unwrap();
    let done = Replayed::Done;
    let refused = Replayed::Refused;
    assert_eq!(
        answers,
        [
            done,
            done,
            done,
            done,
            refused(Refusal::EarlierTime),
            refused(Refusal::SliceLength),
            refused(Refusal::ImageLayout),
            done,
        ]
    );
    let at_save = after(CONFIG, &DAY[..2]);
    assert_eq!(calibrator, at_save);
    assert_eq!(room[8..8 + length], at_save.save().unwrap());
    assert_eq!(room[..8], [0; 8]);

    let outside = [
        Call::Quote(quotes[2]),
        Call::Save {
            start: 9,
            length: usize::MAX,
        },
    ];
    assert_eq!(calibrator.replay(&outside, &mut room), Err(OutsideRoom));
    assert_eq!(calibrator, at_save, "nothing is done");
    let of_another = [Call::Restore {
        start: 8 + length,
        length,
    }];
    assert_eq!(
        calibrator.replay(&of_another, &mut room),
        Ok(vec![Replayed::OtherConfiguration])
    );
    assert_eq!(calibrator, at_save, "nothing is done");
    assert_eq!(calibrator.replay(&[], &mut []), Ok(vec![]));
}

#[test]
fn refusals_have_the_numbers_of_the_documents() {
    let all = [
        Refusal::Configuration,
        Refusal::OverDomain,
        Refusal::BadQuote,
        Refusal::OffTick,
        Refusal::EarlierTime,
        Refusal::CountLimit,
        Refusal::SliceLength,
        Refusal::LastQuoteBroken,
        Refusal::TotalsUnmirrored,
        Refusal::CellsUnmirrored,
        Refusal::CellsNotTwicePairs,
        Refusal::ImageLayout,
        Refusal::ModelRow(0),
        Refusal::RecordingUnsorted,
        Refusal::WindowBackward,
        Refusal::NoCalibratedState,
        Refusal::SingularTransitions,
        Refusal::NotConverged,
        Refusal::Unrepresentable,
        Refusal::RoundsOutOfRange,
    ];
    let numbers: Vec<u64> = all.iter().map(|refusal| refusal.number()).collect();
    assert_eq!(numbers, (1..=19).chain([26]).collect::<Vec<u64>>());
    assert_eq!(Refusal::OffTick.to_string(), "a price is off the tick (4)");
}
