//! The evening program of document 01, "Marked and run": its text in, its text out.

use crate::paper::{Config, Quote, Refusal, print_fit};
use crate::rust;

const MOST_STATES: u128 = 27;
const MOST_QUOTES: usize = 1_000;

/// What line 1 and the lines after it say.
pub struct Input {
    pub config: Config,
    pub start: u64,
    pub end: u64,
    pub quotes: Vec<Quote>,
}

/// Reads the program's input; `None` is bad input.
pub fn read(text: &[u8]) -> Option<Input> {
    let text = std::str::from_utf8(text).ok()?.strip_suffix('\n')?;
    let mut lines = text.split('\n');
    let [tick, buckets, spreads, least, gap, start, end] = numbers(lines.next()?)?;
    let quotes = lines
        .map(|line| {
            let [time, bid, ask, bid_size, ask_size] = numbers(line)?;
            Some(Quote {
                time,
                bid,
                ask,
                bid_size,
                ask_size,
            })
        })
        .collect::<Option<Vec<Quote>>>()?;
    if u128::from(buckets) * u128::from(spreads) > MOST_STATES || quotes.len() > MOST_QUOTES {
        return None;
    }
    let config = Config {
        tick,
        buckets,
        spreads,
        least,
        gap,
    };
    Some(Input {
        config,
        start,
        end,
        quotes,
    })
}

/// Exactly COUNT numbers with single spaces between them.
fn numbers<const COUNT: usize>(line: &str) -> Option<[u64; COUNT]> {
    let numbers = line.split(' ').map(number).collect::<Option<Vec<u64>>>()?;
    numbers.try_into().ok()
}

/// A decimal number below 2^64 without leading zeros.
fn number(word: &str) -> Option<u64> {
    let plain = word.bytes().all(|b| b.is_ascii_digit()) && (word == "0" || !word.starts_with('0'));
    if plain { word.parse().ok() } else { None }
}

/// What the evening program prints for this input.
pub fn run(text: &[u8]) -> String {
    let Some(input) = read(text) else {
        return "bad input\n".to_string();
    };
    match rust::evening(&input.config, input.start, input.end, &input.quotes) {
        Err(Refusal(number)) => format!("refused {number}\n"),
        Ok(evening) => format!(
            "pairs {}\nspread {}\ngap {}\nlargest {}\ninvalid {}\n{}",
            evening.pairs,
            evening.spread,
            evening.gap,
            evening.largest,
            evening.invalid,
            print_fit(&evening.fitted.fit)
        ),
    }
}
