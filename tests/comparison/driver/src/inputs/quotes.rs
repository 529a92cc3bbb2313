//! Configurations and quotes, most of them near a limit of document 01.

use crate::paper::{
    CONFIG_WORDS, COUNTERS, Config, DOMAIN, MAX_STATES, QUOTE_WORDS, Quote, RECORD_WORDS, Record,
};
use crate::plain::{self, MOST_PAIRS, MOST_TOTAL};
use crate::random::Random;

/// Buckets and spreads of at most 27 states.
pub const SMALL: [(u64, u64); 14] = [
    (3, 1),
    (3, 2),
    (3, 2),
    (3, 3),
    (5, 1),
    (5, 2),
    (7, 1),
    (5, 3),
    (3, 5),
    (9, 2),
    (7, 3),
    (9, 3),
    (27, 1),
    (3, 9),
];

/// Buckets and spreads of 28 to 199 states.
pub const MIDDLE: [(u64, u64); 8] = [
    (31, 1),
    (5, 6),
    (3, 17),
    (9, 8),
    (15, 5),
    (33, 3),
    (127, 1),
    (7, 21),
];

/// Buckets and spreads of 200 to 255 states; 256 cannot be, as n is odd.
pub const LARGE: [(u64, u64); 12] = [
    (255, 1),
    (85, 3),
    (51, 5),
    (17, 15),
    (15, 17),
    (5, 51),
    (3, 85),
    (127, 2),
    (63, 4),
    (3, 84),
    (201, 1),
    (67, 3),
];

const TICKS: [u64; 10] = [
    1,
    1,
    2,
    5,
    25,
    100,
    1_000_000,
    333_333_333,
    500_000_000,
    DOMAIN,
];

/// A valid configuration with one of these numbers of buckets and spreads.
pub fn config(random: &mut Random, shapes: &[(u64, u64)]) -> Config {
    let (buckets, spreads) = random.choose(shapes);
    Config {
        tick: random.choose(&TICKS),
        buckets,
        spreads,
        least: random.choose(&[1, 1, 1, 2, 3, 10, 100, u64::MAX]),
        gap: random.choose(&[1, 2, 1000, 1000, 60_000, u64::MAX]),
    }
}

/// A valid configuration in which quotes move a lot: a small tick and a small least.
pub fn lively_config(random: &mut Random, shapes: &[(u64, u64)]) -> Config {
    Config {
        tick: random.choose(&[1, 1, 5, 100]),
        least: random.choose(&[1, 1, 2, 3]),
        gap: random.choose(&[2, 1000]),
        ..config(random, shapes)
    }
}

/// A valid configuration with one word changed, often so that it is invalid.
pub fn changed_config(random: &mut Random) -> Config {
    let mut words = config(random, &SMALL).words();
    let at = random.index(CONFIG_WORDS);
    words[at] = special_word(random, words[at]);
    Config::of_words(&words)
}

/// A word at or beside a limit of document 01, or beside `near`.
pub fn special_word(random: &mut Random, near: u64) -> u64 {
    const SPECIAL: [u64; 22] = [
        0,
        1,
        2,
        3,
        4,
        85,
        86,
        MAX_STATES - 1,
        MAX_STATES,
        MAX_STATES + 1,
        DOMAIN - 1,
        DOMAIN,
        DOMAIN + 1,
        1 << 32,
        (1 << 32) + 3,
        MOST_PAIRS - 1,
        MOST_PAIRS,
        MOST_PAIRS + 1,
        MOST_TOTAL,
        MOST_TOTAL + 1,
        1 << 63,
        u64::MAX,
    ];
    match random.below(4) {
        0 => near.wrapping_add(1),
        1 => near.wrapping_sub(1),
        2 => random.choose(&SPECIAL).wrapping_neg(),
        _ => random.choose(&SPECIAL),
    }
}

/// Two sizes: on and beside the limits of the buckets, or at those of the domain.
fn sizes(random: &mut Random, n: u64) -> (u64, u64) {
    match random.below(8) {
        0 => (random.below(12), random.below(12)),
        1 => (
            random.choose(&[0, 1, DOMAIN]),
            random.choose(&[0, 1, DOMAIN]),
        ),
        2 => (random.below(DOMAIN + 1), random.below(DOMAIN + 1)),
        _ => {
            // The share of the bid is j / n, or one unit to either side.
            let unit = random.choose(&[1, 2, 1000, DOMAIN / 256]);
            let j = random.below(n + 1);
            let bid = (j * unit + random.below(3)).saturating_sub(1);
            (bid, (n - j) * unit)
        }
    }
}

/// A time after `last`: equal, one later, or with a gap about the limit; sometimes earlier.
fn time_after(random: &mut Random, last: u64, gap: u64) -> u64 {
    match random.below(16) {
        0 => last.saturating_sub(1 + random.below(3)),
        1 => last.saturating_add(gap),
        2 => last.saturating_add(gap).saturating_add(1),
        3 => last.saturating_add(gap - 1),
        4..=6 => last,
        _ => last.saturating_add(1 + random.below(3).min(gap)),
    }
}

/// A bid in ticks: near the last one, or at an end of the domain.
fn bid_ticks(random: &mut Random, config: &Config, last: Option<&Quote>) -> u64 {
    let most = DOMAIN / config.tick;
    let near = last.map_or(100, |q| q.bid / config.tick);
    let ticks = match random.below(32) {
        0 => 1,
        1 => most.saturating_sub(random.below(config.spreads + 2)),
        2..=10 => (near + random.below(5)).saturating_sub(2),
        _ => near,
    };
    ticks.clamp(1, most)
}

/// A quote after `last`, in most cases one that nothing refuses.
pub fn good_quote(random: &mut Random, config: &Config, last: Option<&Quote>) -> Quote {
    let bid = bid_ticks(random, config, last);
    let spread = if random.one_in(12) {
        config.spreads + 1 + random.below(2)
    } else {
        1 + random.below(config.spreads.min(6))
    };
    let spread = if random.one_in(24) {
        config.spreads
    } else {
        spread
    };
    let (bid_size, ask_size) = sizes(random, config.buckets);
    Quote {
        time: match last {
            Some(last) => time_after(random, last.time, config.gap),
            None => random.choose(&[0, 5, 1 << 40, u64::MAX - 5000]),
        },
        bid: bid * config.tick,
        ask: (bid + spread) * config.tick,
        bid_size,
        ask_size,
    }
}

/// A quote after `last` of a calm market: few sizes, small spreads, and seldom a move, of one tick.
pub fn calm_quote(random: &mut Random, config: &Config, last: Option<&Quote>) -> Quote {
    let near = last.map_or(100, |q| q.bid / config.tick);
    let step = if random.one_in(6) { random.below(3) } else { 1 };
    let bid = (near + step).saturating_sub(1).max(1);
    let spread = 1 + random.below(config.spreads.min(3));
    let (bid_size, ask_size) = random.choose(&[(1, 9), (5, 5), (9, 1), (3, 7), (7, 3)]);
    Quote {
        time: last.map_or(5, |q| q.time + random.below(config.gap.min(3) + 1)),
        bid: bid * config.tick,
        ask: (bid + spread) * config.tick,
        bid_size,
        ask_size,
    }
}

/// A quote after `last`, now and then one that is refused.
pub fn quote(random: &mut Random, config: &Config, last: Option<&Quote>) -> Quote {
    let quote = good_quote(random, config, last);
    now_and_then_refused(random, config, quote)
}

pub fn now_and_then_refused(random: &mut Random, config: &Config, quote: Quote) -> Quote {
    let mut quote = quote;
    match random.below(24) {
        0 => spoil(random, config, &mut quote),
        1 => {
            // A price beside the tick.
            let off = 1 + random.below(config.tick);
            if random.one_in(2) {
                quote.bid = quote.bid.saturating_sub(off).max(1);
            } else {
                quote.ask += off;
            }
        }
        2 if random.one_in(3) => {
            let word = random.index(QUOTE_WORDS - 1);
            let over = random.choose(&[DOMAIN + 1, 1 << 32, u64::MAX]);
            let mut words = quote.words();
            words[1 + word] = over;
            quote = Quote::of_words(&words);
        }
        _ => {}
    }
    quote
}

/// Makes a quote bad: no bid, an ask that is not above it, or no sizes.
fn spoil(random: &mut Random, config: &Config, quote: &mut Quote) {
    match random.below(4) {
        0 => quote.bid = 0,
        1 => quote.ask = quote.bid,
        2 => quote.ask = quote.bid.saturating_sub(config.tick),
        _ => (quote.bid_size, quote.ask_size) = (0, 0),
    }
}

/// A record of any words that a record may have.
pub fn any_record(random: &mut Random) -> Record {
    let word = |random: &mut Random| {
        let near = random.word();
        special_word(random, near)
    };
    let mut words = [0; RECORD_WORDS];
    if random.one_in(2) {
        words[0] = 1;
        (1..COUNTERS).for_each(|i| words[i] = word(random));
    }
    (COUNTERS..RECORD_WORDS).for_each(|i| words[i] = word(random));
    Record::of_words(&words)
}

/// Up to `length` quotes in order of time, some of them refused.
pub fn in_order(random: &mut Random, config: &Config, length: u64) -> Vec<Quote> {
    let mut quotes: Vec<Quote> = Vec::new();
    let mut last: Option<Quote> = None;
    let calm = random.below(3) != 0;
    for _ in 0..random.below(length + 1) {
        let good = if calm {
            calm_quote(random, config, last.as_ref())
        } else {
            good_quote(random, config, last.as_ref())
        };
        let mut quote = now_and_then_refused(random, config, good);
        // A quote over the domain ends an evening: most are left out.
        if quote.over_domain() && !random.one_in(40) {
            continue;
        }
        quote.time = quote.time.max(quotes.last().map_or(0, |q| q.time));
        quotes.push(quote);
        if plain::quote_refusal(config, &quote) == 0 {
            last = Some(quote);
        }
    }
    quotes
}

/// Pairs far apart from each other, so that any counts can be made: each bucket of the lower half goes up once for so many
/// times that it goes down, and the chance to leave is about 1e-12 (17, or just not).
pub fn climb(random: &mut Random) -> (Config, Vec<Quote>) {
    let config = Config {
        tick: 1,
        buckets: 27,
        spreads: 1,
        least: 1,
        gap: 1,
    };
    let mut quotes = Vec::new();
    let mut time = 0;
    let mut pair = |from: u64, to: u64, up: u64| {
        time += 2;
        for (bucket, bid) in [(from, 100), (to, 100 + up)] {
            let sizes = [2 * bucket + 1, 2 * (26 - bucket) + 1];
            let words = [time, bid, bid + 1, sizes[0], sizes[1]];
            quotes.push(Quote::of_words(&words));
        }
    };
    let downs = 9 + random.below(5);
    for bucket in 0..13 {
        pair(bucket, bucket + 1, 0);
        if bucket > 0 {
            (0..downs).for_each(|_| pair(bucket, bucket - 1, 0));
        }
    }
    pair(13, 13, 1);
    (config, quotes)
}
