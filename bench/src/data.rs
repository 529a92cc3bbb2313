//! The quotes that all sides are given, made from a seed.

use driver::paper::{Config, Quote};
use driver::random::Random;

/// An endless stream of quotes on the grid: the imbalance wanders, the mid follows it, now and then the spread is out of range
/// or the gap too long.
pub struct Stream {
    config: Config,
    random: Random,
    time: u64,
    bid: u64,
    spread: u64,
    /// Bid size in thousandths of the total.
    share: u64,
    least_share: u64,
}

impl Stream {
    pub fn new(config: Config, seed: u64) -> Self {
        Self {
            config,
            random: Random(seed),
            time: 0,
            bid: 100_000,
            spread: 1,
            share: 700,
            least_share: 0,
        }
    }

    /// A stream whose bid is always the heavier: its chain never comes to the mirrored states, so its series does not converge.
    pub fn one_sided(config: Config, seed: u64) -> Self {
        Self {
            least_share: 600,
            ..Self::new(config, seed)
        }
    }

    pub fn next(&mut self) -> Quote {
        let random = &mut self.random;
        self.time += random.below(50);
        if random.below(1000) == 0 {
            self.time += self.config.gap;
        }
        self.share = (self.share + random.below(801)).saturating_sub(400);
        self.share = self.share.clamp(self.least_share, 1000);
        if random.below(4) == 0 {
            self.spread = 1 + random.below(self.config.spreads);
        }
        if random.below(200) == 0 {
            self.spread = self.config.spreads + 1;
        }
        if random.below(4) == 0 {
            let up = random.below(2000) < 500 + self.share;
            self.bid = if up { self.bid + 1 } else { self.bid - 1 };
        }
        let total = 1000 + random.below(9000);
        let bid_size = total * self.share / 1000;
        Quote {
            time: self.time,
            bid: self.bid * self.config.tick,
            ask: (self.bid + self.spread) * self.config.tick,
            bid_size,
            ask_size: total - bid_size,
        }
    }

    pub fn take(&mut self, count: usize) -> Vec<Quote> {
        (0..count).map(|_| self.next()).collect()
    }
}
