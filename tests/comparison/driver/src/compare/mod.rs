//! The port compared with the Rust, operation by operation.

pub mod calls;
pub mod evenings;
pub mod fits;
pub mod images;
pub mod lengths;
pub mod models;
pub mod quotes;
pub mod rounds;
pub mod sides;
pub mod signals;
pub mod windows;

use std::fmt::Debug;

use crate::random::Random;
use crate::seen::{Operation, Seen};

/// A result of the port that is neither the Rust's nor a listed difference.
#[derive(Debug, Clone)]
pub struct Difference {
    pub operation: Operation,
    pub what: String,
    pub input: String,
}

pub type Compared = Result<(), Difference>;

/// A run of one part: its random numbers, what is seen, and how much of the full volume is wanted.
pub struct Run<'a> {
    pub random: Random,
    pub seen: &'a mut Seen,
    /// The full volume is divided by this.
    pub share: u64,
}

impl Run<'_> {
    /// How many of a full volume this run does.
    pub fn times(&self, full: u64) -> u64 {
        full.div_ceil(self.share)
    }
}

/// One call, compared: what was asked, and its input as text for a difference.
pub struct Case<'a> {
    pub operation: Operation,
    pub input: &'a dyn Fn() -> String,
}

impl Case<'_> {
    pub fn fails(&self, what: String) -> Compared {
        Err(Difference {
            operation: self.operation,
            what,
            input: (self.input)(),
        })
    }

    pub fn equal<T: PartialEq + Debug>(&self, what: &str, port: T, want: T) -> Compared {
        if port == want {
            return Ok(());
        }
        self.fails(format!("{what}: the port has {port:?}, wanted is {want:?}"))
    }

    /// Fails unless something holds that the input and the answers must meet.
    pub fn holds(&self, what: &str, so: bool) -> Compared {
        if so {
            return Ok(());
        }
        self.fails(format!("does not hold: {what}"))
    }

    /// Like `equal`, for slices; only the first place where they differ is shown.
    pub fn same<T: PartialEq + Debug>(&self, what: &str, port: &[T], want: &[T]) -> Compared {
        if port == want {
            return Ok(());
        }
        let lengths = (port.len(), want.len());
        match (0..lengths.0.min(lengths.1)).find(|i| port[*i] != want[*i]) {
            Some(i) => self.equal(&format!("{what}, place {i}"), &port[i], &want[i]),
            None => self.equal(&format!("{what}, length"), lengths.0, lengths.1),
        }
    }
}

/// The shortest list found by leaving parts out while the difference stays, with its difference.
pub fn smallest<T: Clone>(
    list: &[T],
    found: Difference,
    compare: impl Fn(&[T]) -> Compared,
) -> Difference {
    let mut list = list.to_vec();
    let mut found = found;
    let mut part = list.len().div_ceil(2);
    while part > 0 {
        let mut at = 0;
        while at < list.len() {
            let end = (at + part).min(list.len());
            let shorter = [&list[..at], &list[end..]].concat();
            match compare(&shorter) {
                Err(difference) => {
                    list = shorter;
                    found = difference;
                }
                Ok(()) => at = end,
            }
        }
        part /= 2;
    }
    found
}
