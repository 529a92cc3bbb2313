//! A day: quotes are counted, the standby site takes over from the saved image, the counts are fitted in the evening, and the
//! model answers signals.
//!
//!     cargo run --offline --example day

use micro_price::{Calibrator, Config, Model, Quote, Refusal, Source};

/// Quotes made up from a seed: the imbalance wanders, and the mid follows it now and then.
struct Market {
    seed: u64,
    quote: Quote,
}

impl Market {
    fn new() -> Self {
        let quote = Quote {
            timestamp_ms: 0,
            bid: 10_000,
            ask: 10_005,
            bid_size: 50,
            ask_size: 50,
        };
        Self { seed: 2018, quote }
    }

    /// A number below `limit`.
    fn below(&mut self, limit: u64) -> u64 {
        self.seed = self
            .seed
            .wrapping_mul(6_364_136_223_846_793_005)
            .wrapping_add(1_442_695_040_888_963_407);
        (self.seed >> 33) % limit
    }

    fn next(&mut self) -> Quote {
        let step = self.below(81);
        let bid_size = (self.quote.bid_size + step).saturating_sub(40).clamp(1, 99);
        let spread = match self.below(50) {
            0 => 15,
            1..=12 => 10,
            _ => 5,
        };
        let moves = self.below(5) == 0;
        let up = self.below(400) < 150 + bid_size;
        let bid = match (moves, up) {
            (false, _) => self.quote.bid,
            (true, true) => self.quote.bid + 5,
            (true, false) => self.quote.bid - 5,
        };
        let pause = if self.below(1000) == 0 { 120_000 } else { 0 };
        self.quote = Quote {
            timestamp_ms: self.quote.timestamp_ms + pause + self.below(200),
            bid,
            ask: bid + spread,
            bid_size,
            ask_size: 100 - bid_size,
        };
        self.quote
    }
}

fn print_counters(when: &str, calibrator: &Calibrator) {
    let counted = calibrator.counters();
    println!(
        "{when}: {} pairs, {} and {} left out for spread and gap, largest move {} half ticks",
        counted.pairs,
        counted.skipped_spread_pairs,
        counted.skipped_gap_pairs,
        counted.largest_move_half_ticks
    );
}

fn print_model(model: &Model) {
    println!("bucket  spread  observations  adjustment  status");
    for state in 0..model.config().states() {
        let Some(row) = model.estimate(state) else {
            continue;
        };
        let status = row.status.map_or("none".to_string(), |s| format!("{s:?}"));
        println!(
            "{:>6}  {:>6}  {:>12}  {:>10.4}  {status}",
            row.imbalance_bucket, row.spread_ticks, row.observations, row.adjustment
        );
    }
}

fn print_signal(model: &Model, quote: &Quote) {
    let sizes = format!("{} x {}", quote.bid_size, quote.ask_size);
    print!("{} / {}, sizes {sizes}: ", quote.bid, quote.ask);
    match model.signal(quote) {
        Err(refusal) => println!("refused, {refusal}"),
        Ok(signal) => {
            let mid = signal.mid_sum as f64 / 2.0;
            let reason = match signal.source {
                Source::MicroPrice => "micro-price".to_string(),
                Source::MidFallback(status) => format!("the mid, as the state is {status:?}"),
                Source::SpreadOutOfRange => "the mid, as the spread is out of range".to_string(),
            };
            println!("fair value {:.4}, {reason}", mid + signal.adjustment);
        }
    }
}

fn main() -> Result<(), Refusal> {
    let config = Config::new(5, 5, 2)
        .with_min_state_observations(50)
        .with_max_quote_gap_ms(60_000);
    let mut market = Market::new();
    let mut calibrator = Calibrator::new(config)?;
    for _ in 0..10_000 {
        calibrator.observe(&market.next())?;
    }
    print_counters("noon", &calibrator);

    let image = calibrator.save()?;
    println!("saved: an image of {} bytes", image.len());
    let mut standby = Calibrator::restore(&image)?;
    for _ in 0..10_000 {
        let quote = market.next();
        calibrator.observe(&quote)?;
        standby.observe(&quote)?;
    }
    print_counters("evening", &standby);
    println!("standby and first site agree: {}", standby == calibrator);

    let model = standby.fit()?;
    match model.check() {
        Ok(()) => println!("the model passes its check"),
        Err(refusal) => println!("the model is refused: {refusal}"),
    }
    print_model(&model);

    let sizes = [(90, 10), (50, 50), (10, 90)];
    for (bid_size, ask_size) in sizes {
        let quote = Quote {
            timestamp_ms: 0,
            bid: 10_000,
            ask: 10_005,
            bid_size,
            ask_size,
        };
        print_signal(&model, &quote);
    }
    let wide = Quote {
        ask: 10_020,
        ..market.quote
    };
    print_signal(
        &model,
        &Quote {
            bid: 10_000,
            ..wide
        },
    );
    print_signal(
        &model,
        &Quote {
            bid: 10_003,
            ..wide
        },
    );
    Ok(())
}
