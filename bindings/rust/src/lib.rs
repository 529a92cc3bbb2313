//! The micro-price calibrator for Rust callers: safe types over the proved functions of `include/micro_price.h`.
//!
//! A [`Calibrator`] counts quotes, a fit of its counts is a [`Model`], and the model answers a [`Signal`] for each quote: the
//! mid plus an adjustment. Prices and sizes are whole numbers of at most 1,000,000,000. What is refused, and in which order,
//! is that of documents 01 and 02; a [`Refusal`] has their numbers.
//!
//! ```
//! use micro_price::{Calibrator, Config, Quote, Source};
//!
//! let config = Config::new(1, 3, 2)
//!     .with_min_state_observations(1)
//!     .with_max_quote_gap_ms(60_000);
//! let mut calibrator = Calibrator::new(config)?;
//! calibrator.observe(&Quote { timestamp_ms: 0, bid: 100, ask: 101, bid_size: 9, ask_size: 1 })?;
//! calibrator.observe(&Quote { timestamp_ms: 1, bid: 100, ask: 102, bid_size: 5, ask_size: 5 })?;
//!
//! let model = calibrator.fit()?;
//! let quote = Quote { timestamp_ms: 2, bid: 100, ask: 101, bid_size: 9, ask_size: 1 };
//! let signal = model.signal(&quote)?;
//! assert_eq!((signal.mid_sum, signal.adjustment), (201, 0.5));
//! assert_eq!(signal.source, Source::MicroPrice);
//! # Ok::<(), micro_price::Refusal>(())
//! ```
//!
//! The proofs are about the functions that are called. This crate lends them memory of its own, so no pointer or length is the
//! caller's to get right; that it does is not proved.
//!
//! [`Calibrator::fit`], [`Calibrator::fit_with`], [`calibrate`], [`Model::check`] and [`Model::signal`] rest on binary64 rounded
//! to nearest, subnormals kept, floating-point exceptions masked. Rust asks that of every program, and no Rust code changes it;
//! a C or C++ part of the same process may, as one linked with `-ffast-math` does. `include/micro_price_env.h` has the C
//! functions that set it and put it back. The other functions of the header have no floating-point instruction.

mod calibrator;
mod config;
mod evening;
mod model;
mod refusal;
mod rounds;
pub mod sys;

pub use calibrator::{Calibrator, Call, Counters, OutsideRoom, Replayed};
pub use config::{Config, Quote};
pub use evening::{Evening, calibrate, quotes_in};
pub use model::{Estimate, Model, Signal, Source, Status};
pub use refusal::Refusal;
pub use rounds::Rounds;
