//! Windows. The Rust's `quotes_in` is not public: its answer is seen in `calibrate_micro_price`, whose errors are 14 and 15 and
//! whose hash of the quotes that it observed shows which part it took.

use crate::compare::{Case, Compared, Run};
use crate::paper::{Config, Quote, Refusal, join};
use crate::plain;
use crate::port;
use crate::random::Random;
use crate::rust;
use crate::seen::{Operation, Seen};

/// A configuration of three states. The quotes below differ in their sizes, so that the hash tells them apart.
const CONFIG: Config = Config {
    tick: 1,
    buckets: 3,
    spreads: 1,
    least: 1,
    gap: 1,
};

pub fn run(run: &mut Run) -> Compared {
    let length = if run.share == 1 { 5 } else { 4 };
    all_windows(run.seen, length)?;
    for _ in 0..run.times(40_000) {
        let random = &mut run.random;
        let mut time = random.choose(&[0, 1 << 40, u64::MAX - 60]);
        let mut times = Vec::new();
        for _ in 0..random.below(40) {
            let earlier = random.one_in(200);
            time = if earlier {
                time.saturating_sub(1)
            } else {
                time.saturating_add(random.below(4))
            };
            times.push(time);
        }
        let end = |random: &mut Random| {
            let near = if times.is_empty() {
                time
            } else {
                random.choose(&times)
            };
            (near.saturating_add(random.below(3))).saturating_sub(1)
        };
        let (start, end) = (end(random), end(random));
        compare_window(run.seen, &times, start, end)?;
    }
    Ok(())
}

/// All recordings of up to `length` quotes with times from 1 to `length`, in all windows from 0 to `length` + 2.
fn all_windows(seen: &mut Seen, length: usize) -> Compared {
    for quotes in 0..=length {
        for number in 0..length.pow(quotes as u32) {
            let times: Vec<u64> = (0..quotes)
                .map(|i| (number / length.pow(i as u32) % length + 1) as u64)
                .collect();
            for start in 0..=length as u64 + 2 {
                for end in 0..=length as u64 + 2 {
                    compare_window(seen, &times, start, end)?;
                }
            }
        }
    }
    Ok(())
}

/// Quotes at these times, each with another size.
fn quotes_at(times: &[u64]) -> Vec<Quote> {
    let quote = |(i, time): (usize, &u64)| Quote::of_words(&[*time, 1, 2, i as u64 + 1, 0]);
    times.iter().enumerate().map(quote).collect()
}

fn compare_window(seen: &mut Seen, times: &[u64], start: u64, end: u64) -> Compared {
    const UNWRITTEN: u64 = 0x7777;
    let quotes = quotes_at(times);
    let recording: Vec<u64> = quotes.iter().flat_map(Quote::words).collect();
    let (mut first, mut past) = (UNWRITTEN, UNWRITTEN);
    let answer = port::window_of(&recording, start, end, &mut first, &mut past);
    seen.answer(Operation::Window, answer);
    seen.volume("windows", 1);
    let case = Case {
        operation: Operation::Window,
        input: &|| format!("window {start} {end}, times {}", join(times)),
    };
    let want = match plain::window(times, start, end) {
        Ok((first, past)) => (0, first as u64, past as u64),
        Err(number) => (number, UNWRITTEN, UNWRITTEN),
    };
    case.equal("answer and part", (answer, first, past), want)?;
    match rust::evening(&CONFIG, start, end, &quotes) {
        Err(Refusal(number)) => case.equal("the Rust's answer", answer, u64::from(number)),
        Ok(evening) => {
            case.equal("the Rust's answer", answer, 0)?;
            let part = &quotes[first as usize..past as usize];
            let counted = rust::calibrator_after(&CONFIG, part).expect("good quotes");
            case.equal(
                "the part, by its hash",
                counted.dataset_hash(),
                evening.hash,
            )
        }
    }
}
