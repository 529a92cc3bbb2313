//! A calibrator on all sides: the port's memory, document 01 computed plainly, and the Rust's calibrator.

use market_maker_rs::analytics::micro_price::MicroPriceCalibrator;

use crate::compare::{Case, Compared, Difference};
use crate::paper::{COUNTERS, Memory, Quote, join};
use crate::plain;
use crate::port::Lent;
use crate::rust;
use crate::seen::{Operation, Rule, Seen};

#[derive(Clone)]
pub struct Sides {
    pub port: Lent,
    pub plain: Memory,
    /// None where the memory is not one that the Rust takes.
    pub rust: Option<MicroPriceCalibrator>,
}

/// Tables of at most so many states are compared after each quote; larger ones at refusals, at the end of a list, and now
/// and then.
const EACH_TIME: usize = 27;

impl Sides {
    pub fn of(memory: &Memory) -> Self {
        Self {
            port: Lent::of(memory),
            plain: memory.clone(),
            rust: if plain::valid(&memory.config) {
                rust::restore(memory).ok()
            } else {
                None
            },
        }
    }

    /// Gives a quote to all sides, compares their answers and what they hold after it, and gives the answer.
    pub fn quote(&mut self, seen: &mut Seen, quote: &Quote) -> Result<u64, Difference> {
        let before = self.plain.record.words();
        let want = plain::observe(&mut self.plain, quote);
        let answer = self.port.observe(quote);
        seen.answer(Operation::Quote, answer);
        let memory = &self.plain;
        let case = Case {
            operation: Operation::Quote,
            input: &|| {
                format!(
                    "record before {}\nquote {}\nmemory wanted after it\n{}",
                    join(&before),
                    join(&quote.words()),
                    memory.print()
                )
            },
        };
        case.equal("answer", answer, want)?;
        case.same("record", &self.port.rec, &memory.record.words())?;
        let many = memory.totals.len() > EACH_TIME;
        if !many || answer != 0 || memory.record.pairs.is_multiple_of(64) {
            same_memory(&case, &self.port, memory)?;
        }
        if let Some(rust) = &mut self.rust {
            ask_rust(&case, seen, rust, quote, want)?;
            case.equal(
                "the Rust's counters",
                &memory.record.words()[COUNTERS..],
                &rust::counters(rust),
            )?;
        }
        Ok(answer)
    }

    /// Compares all that the sides hold, the Rust's tables too.
    pub fn whole(&self, operation: Operation) -> Compared {
        let memory = &self.plain;
        let case = Case {
            operation,
            input: &|| memory.print(),
        };
        same_memory(&case, &self.port, memory)?;
        if let Some(rust) = &self.rust {
            let held = rust::memory_of(&memory.config, rust);
            same_memory(&case, &self.port, &held)?;
        }
        Ok(())
    }
}

/// The port's memory holds what is wanted.
pub fn same_memory(case: &Case, port: &Lent, want: &Memory) -> Compared {
    case.same("configuration", &port.config, &want.config.words())?;
    case.same("record", &port.rec, &want.record.words())?;
    case.same("stay", &port.stay, &want.stay)?;
    case.same("moved", &port.moved, &want.moved)?;
    case.same("move totals", &port.totals, &want.totals)
}

/// The Rust's answer to a quote. It is not asked at 2, and at 6 a copy of it is asked, which takes the quote.
fn ask_rust(
    case: &Case,
    seen: &mut Seen,
    rust: &mut MicroPriceCalibrator,
    quote: &Quote,
    want: u64,
) -> Compared {
    match want {
        2 => {
            seen.rule(Rule::OverDomain);
            Ok(())
        }
        6 => {
            seen.rule(Rule::QuoteAtLimit);
            case.equal(
                "the Rust's answer to a quote at a limit",
                0,
                rust::observe(&mut rust.clone(), quote),
            )
        }
        _ => {
            seen.volume("quotes given to the Rust too", 1);
            case.equal("the Rust's answer", want, rust::observe(rust, quote))
        }
    }
}
