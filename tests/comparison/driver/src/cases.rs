//! Fit cases as text:
//!
//! ```text
//! case NAME
//! config TICK N S LEAST GAP
//! pairs P
//! stay I J V
//! moved I J V
//! total I V
//! end
//! ```
//!
//! `N` is the number of buckets and `S` that of spreads. Any number of `stay`, `moved` and `total` lines; other cells are 0.

use std::str::{FromStr, SplitAsciiWhitespace};

use crate::paper::{Config, MAX_STATES, Tables};

pub struct Case {
    pub name: String,
    pub tables: Tables,
}

/// Reads cases; the error says what is wrong and in which line.
pub fn read(text: &str) -> Result<Vec<Case>, String> {
    let mut cases = Vec::new();
    let mut open: Option<(String, Option<Tables>)> = None;
    for (number, line) in text.lines().enumerate() {
        let read = read_line(line, &mut open);
        if let Some(case) = read.map_err(|what| format!("line {}: {what}: {line}", number + 1))? {
            cases.push(case);
        }
    }
    match open {
        Some((name, _)) => Err(format!("case {name} does not end")),
        None => Ok(cases),
    }
}

/// Takes one line into the open case; gives the case when the line ends it.
fn read_line(
    line: &str,
    open: &mut Option<(String, Option<Tables>)>,
) -> Result<Option<Case>, String> {
    let mut words = line.split_ascii_whitespace();
    let kind = words.next().ok_or("an empty line")?;
    match (kind, open.as_mut()) {
        ("case", None) => *open = Some((word(&mut words)?, None)),
        ("config", Some((_, tables @ None))) => *tables = Some(Tables::new(config(&mut words)?)),
        ("end", Some((_, Some(_)))) => {
            let case = open.take().and_then(|(name, tables)| {
                Some(Case {
                    name,
                    tables: tables?,
                })
            });
            return Ok(case);
        }
        (_, Some((_, Some(tables)))) => fill(kind, &mut words, tables)?,
        _ => return Err("this line does not belong here".to_string()),
    }
    match words.next() {
        Some(_) => Err("too many words".to_string()),
        None => Ok(None),
    }
}

fn config(words: &mut SplitAsciiWhitespace) -> Result<Config, String> {
    let config = Config {
        tick: word(words)?,
        buckets: word(words)?,
        spreads: word(words)?,
        least: word(words)?,
        gap: word(words)?,
    };
    match config.buckets.checked_mul(config.spreads) {
        Some(1..=MAX_STATES) => Ok(config),
        _ => Err("no such number of states".to_string()),
    }
}

fn fill(kind: &str, words: &mut SplitAsciiWhitespace, tables: &mut Tables) -> Result<(), String> {
    let states = tables.config.states();
    let state = |words: &mut SplitAsciiWhitespace| {
        word(words).and_then(|v: usize| {
            if v < states {
                Ok(v)
            } else {
                Err("no such state".to_string())
            }
        })
    };
    match kind {
        "pairs" => tables.pairs = word(words)?,
        "stay" | "moved" => {
            let cell = state(words)? * states + state(words)?;
            let table = if kind == "stay" {
                &mut tables.stay
            } else {
                &mut tables.moved
            };
            table[cell] = word(words)?;
        }
        "total" => {
            let at = state(words)?;
            tables.totals[at] = word(words)?;
        }
        _ => return Err("unknown line".to_string()),
    }
    Ok(())
}

fn word<T: FromStr>(words: &mut SplitAsciiWhitespace) -> Result<T, String> {
    words
        .next()
        .and_then(|w| w.parse().ok())
        .ok_or_else(|| "a word is missing or wrong".to_string())
}

/// The cells of a table that are not zero, by row and column.
fn cells(table: &[u64], states: usize) -> impl Iterator<Item = (usize, usize, u64)> {
    table
        .iter()
        .enumerate()
        .filter(|(_, v)| **v != 0)
        .map(move |(cell, v)| (cell / states, cell % states, *v))
}

fn totals(tables: &Tables) -> impl Iterator<Item = (usize, i64)> {
    tables
        .totals
        .iter()
        .copied()
        .enumerate()
        .filter(|(_, v)| *v != 0)
}

/// The case in the form that `read` takes.
pub fn print(case: &Case) -> String {
    let Tables {
        config,
        pairs,
        stay,
        moved,
        ..
    } = &case.tables;
    let states = config.states();
    let mut lines = vec![
        format!("case {}", case.name),
        format!(
            "config {} {} {} {} {}",
            config.tick, config.buckets, config.spreads, config.least, config.gap
        ),
        format!("pairs {pairs}"),
    ];
    lines.extend(cells(stay, states).map(|(i, j, v)| format!("stay {i} {j} {v}")));
    lines.extend(cells(moved, states).map(|(i, j, v)| format!("moved {i} {j} {v}")));
    lines.extend(totals(&case.tables).map(|(i, v)| format!("total {i} {v}")));
    lines.push("end\n".to_string());
    lines.join("\n")
}

/// The case as one line of words, without signs:
/// `NAME: tick n s least gap pairs COUNT`, then COUNT times `kind i j v`, where kind is 0 for stay, 1 for moved, 2 for a
/// positive total and 3 for a negative one, whose size is v; j is 0 for a total.
pub fn print_words(case: &Case) -> String {
    let Tables {
        config,
        pairs,
        stay,
        moved,
        ..
    } = &case.tables;
    let states = config.states();
    let quadruples: Vec<String> = cells(stay, states)
        .map(|(i, j, v)| format!("0 {i} {j} {v}"))
        .chain(cells(moved, states).map(|(i, j, v)| format!("1 {i} {j} {v}")))
        .chain(
            totals(&case.tables)
                .map(|(i, v)| format!("{} {i} 0 {}", if v > 0 { 2 } else { 3 }, v.unsigned_abs())),
        )
        .collect();
    let mut words = vec![format!(
        "{}: {} {} {} {} {} {pairs} {}",
        case.name,
        config.tick,
        config.buckets,
        config.spreads,
        config.least,
        config.gap,
        quadruples.len()
    )];
    words.extend(quadruples);
    words.join(" ") + "\n"
}
