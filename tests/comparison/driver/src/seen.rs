//! What a run has seen: answers by operation, statuses, sources, listed differences by rule, and volumes.

use std::collections::BTreeMap;

#[derive(Debug, Clone, Copy, PartialEq, Eq, PartialOrd, Ord)]
pub enum Operation {
    Validate,
    New,
    Quote,
    Save,
    Restore,
    Replay,
    Fit,
    FitWith,
    ModelCheck,
    Signal,
    Window,
    Evening,
}

/// The operations, with the answers that a full run has to see: those that the Rust can give too, and all of a fit with rounds.
pub const OPERATIONS: [(Operation, &str, &[u64]); 12] = [
    (Operation::Validate, "configuration", &[0, 1]),
    (Operation::New, "new", &[0, 1]),
    (Operation::Quote, "quote", &[0, 3, 4, 5]),
    (Operation::Save, "save", &[]),
    (Operation::Restore, "restore", &[0, 1, 8, 9, 10, 11]),
    (Operation::Replay, "replay", &[]),
    (Operation::Fit, "fit", &[0, 1, 9, 10, 11, 16, 17, 18, 19]),
    (
        Operation::FitWith,
        "fit, rounds",
        &[0, 1, 6, 7, 9, 10, 11, 16, 17, 18, 19, 26, 100],
    ),
    (Operation::ModelCheck, "model check", &[0, 1, 7, 13]),
    (Operation::Signal, "signal", &[0, 3, 4]),
    (Operation::Window, "window", &[0, 14, 15]),
    (Operation::Evening, "evening", &[0, 1, 14, 15, 16, 17, 18]),
];

impl Operation {
    pub fn name(self) -> &'static str {
        OPERATIONS[self as usize].1
    }
}

/// The differences that docs/DIFFERENCES.md lists, as far as a run can meet them. Each is counted only where its own rule holds.
#[derive(Debug, Clone, Copy, PartialEq, Eq, PartialOrd, Ord)]
pub enum Rule {
    /// A tick over 10^9, in a configuration that the Rust takes: 1.
    TickOverDomain,
    /// A quote over the domain, judged by 01: 2.
    OverDomain,
    /// A last quote over the domain, judged by 01: 8.
    LastOverDomain,
    /// A quote that the Rust takes and that would pass a limit of 01: 6.
    QuoteAtLimit,
    /// Counts that pass a limit of 01, whatever the Rust says of them: 6.
    CountsOverLimit,
    /// The whole sum of the cells passes 64 bits, where the Rust's error is an overflow.
    SumOver64Bits,
    /// A float that is just over half the spread, and as a decimal is not: OutsideQuotes.
    OutsideOnFloats,
    /// The fit answers 16, as those were the last Calibrated states.
    OutsideOnFloatsThen16,
    /// A float of size exactly 2^96, which the Rust takes as a decimal: 19.
    Exactly2To96,
    /// A fitted float is minus zero in the Rust and plus zero in the table.
    MinusZeroFitted,
    /// A row with a float or a word that the Rust cannot hold, judged by 01: 13.
    RowNotOfTheRust,
    /// A fitted fallback row whose adjustment is no zero as a float, and zero as a decimal: 13.
    FallbackNotZero,
    /// A signal of a row of which the Rust's model would be refused, judged by 01.
    SignalOfUncheckedModel,
    /// A replayed restore of an image with another configuration: 101.
    OtherConfiguration,
}

/// Each rule as the printed table names it.
pub const RULES: [(Rule, &str); 14] = [
    (Rule::TickOverDomain, "tick over 10^9: 1"),
    (Rule::OverDomain, "quote over the domain: 2"),
    (Rule::LastOverDomain, "last quote over the domain: 8"),
    (Rule::QuoteAtLimit, "quote at a limit: 6"),
    (Rule::CountsOverLimit, "stored counts over a limit: 6"),
    (Rule::SumOver64Bits, "sum of cells over 64 bits"),
    (Rule::OutsideOnFloats, "OutsideQuotes on floats alone"),
    (Rule::OutsideOnFloatsThen16, "no other Calibrated state: 16"),
    (Rule::Exactly2To96, "float of exactly 2^96: 19"),
    (Rule::MinusZeroFitted, "minus zero as plus zero"),
    (Rule::RowNotOfTheRust, "model row that no decimals hold"),
    (
        Rule::FallbackNotZero,
        "fallback float that is decimal zero: 13",
    ),
    (
        Rule::SignalOfUncheckedModel,
        "signal of a model not checked",
    ),
    (
        Rule::OtherConfiguration,
        "replayed restore of another configuration: 101",
    ),
];

const STATUSES: [&str; 4] = ["Calibrated", "Rare", "NoPriceMove", "OutsideQuotes"];
const SOURCES: [&str; 5] = [
    "MicroPrice",
    "MidFallback Rare",
    "MidFallback NoPriceMove",
    "MidFallback OutsideQuotes",
    "SpreadOutOfRange",
];

/// The least count, in a full run, of each answer in `OPERATIONS` and of each status and source.
const LEAST: u64 = 100;

#[derive(Default, Clone)]
pub struct Seen {
    answers: BTreeMap<(Operation, u64), u64>,
    rules: BTreeMap<Rule, u64>,
    statuses: [u64; 4],
    evening_statuses: [u64; 4],
    sources: [u64; 5],
    volumes: BTreeMap<&'static str, u64>,
}

impl Seen {
    pub fn answer(&mut self, operation: Operation, answer: u64) {
        *self.answers.entry((operation, answer)).or_default() += 1;
    }

    pub fn rule(&mut self, rule: Rule) {
        *self.rules.entry(rule).or_default() += 1;
    }

    pub fn status(&mut self, operation: Operation, status: u64) {
        let counts = if operation == Operation::Evening {
            &mut self.evening_statuses
        } else {
            &mut self.statuses
        };
        counts[usize::try_from(status).expect("a status")] += 1;
    }

    pub fn source(&mut self, source: u64) {
        self.sources[usize::try_from(source).expect("a source")] += 1;
    }

    pub fn volume(&mut self, what: &'static str, count: u64) {
        *self.volumes.entry(what).or_default() += count;
    }

    pub fn print(&self) -> String {
        let mut text = String::from("volumes\n");
        for (what, count) in &self.volumes {
            text += &format!("  {count:>9}  {what}\n");
        }
        text += "answers\n";
        for (operation, name, _) in OPERATIONS {
            let seen = self.answers.iter().filter(|((of, _), _)| *of == operation);
            let seen: Vec<String> = seen
                .map(|((_, answer), count)| format!("{answer}: {count}"))
                .collect();
            text += &format!("  {name:<14} {}\n", seen.join("  "));
        }
        text += &named("statuses of fits", &STATUSES, &self.statuses);
        text += &named("statuses of evenings", &STATUSES, &self.evening_statuses);
        text += &named("sources of signals", &SOURCES, &self.sources);
        text += "listed differences and judgements by 01 alone\n";
        for (rule, name) in RULES {
            let count = self.rules.get(&rule).copied().unwrap_or(0);
            text += &format!("  {count:>9}  {name}\n");
        }
        text
    }

    /// What a full run has to see and was seen too seldom.
    pub fn too_seldom(&self) -> Vec<String> {
        let mut seldom = Vec::new();
        for (operation, name, answers) in OPERATIONS {
            for answer in answers {
                let count = self
                    .answers
                    .get(&(operation, *answer))
                    .copied()
                    .unwrap_or(0);
                if count < LEAST {
                    seldom.push(format!("{name} {answer}: {count}"));
                }
            }
        }
        let named = STATUSES.iter().zip(&self.statuses).map(|v| ("fit", v));
        let named = named.chain(
            STATUSES
                .iter()
                .zip(&self.evening_statuses)
                .map(|v| ("evening", v)),
        );
        let named = named.chain(SOURCES.iter().zip(&self.sources).map(|v| ("signal", v)));
        let rare = named.filter(|(_, (_, count))| **count < LEAST);
        seldom.extend(rare.map(|(of, (name, count))| format!("{of} {name}: {count}")));
        seldom
    }
}

fn named(title: &str, names: &[&str], counts: &[u64]) -> String {
    let counts: Vec<String> = names
        .iter()
        .zip(counts)
        .map(|(name, count)| format!("{name}: {count}"))
        .collect();
    format!("{title}\n  {}\n", counts.join("  "))
}
