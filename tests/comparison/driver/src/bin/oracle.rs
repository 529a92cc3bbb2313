//! What the Rust answers, as text.

use std::io::{Read, Write};
use std::process::ExitCode;

use driver::cases::{self, Case};
use driver::paper::{Config, join, print_fit};
use driver::random::{self, Random};
use driver::{answers, evening, rust, sample};

const USAGE: &str = "\
oracle fit < CASES              what the fit of each case answers
oracle words < CASES            each case as one line of words
oracle evening < INPUT          what the evening program prints
oracle tables NAME < INPUT      the tables that an evening's quotes lead to, as a case (the window is not looked at)
oracle random NAME SEED TICK N S LEAST   a case with random tables
oracle sample SEED              cases of every operation, as lines of words (make_sample.sh describes them)
oracle answers < LINES          what the Rust answers to such lines";

fn main() -> ExitCode {
    let arguments: Vec<String> = std::env::args().skip(1).collect();
    let words: Vec<&str> = arguments.iter().map(String::as_str).collect();
    let answer = match words.as_slice() {
        ["fit"] => on_cases(|case| format!("case {}\n{}", case.name, fit(case))),
        ["words"] => on_cases(cases::print_words),
        ["evening"] => input().map(|text| evening::run(&text)),
        ["tables", name] => input().and_then(|text| tables(name, &text)),
        ["random", name, numbers @ ..] => random_case(name, numbers),
        ["sample", seed] => sample_lines(seed),
        ["answers"] => input().and_then(|text| answer_lines(&text)),
        _ => Err(USAGE.to_string()),
    };
    let printed = answer.and_then(|text| {
        let mut output = std::io::stdout();
        output.write_all(text.as_bytes()).map_err(|e| e.to_string())
    });
    match printed {
        Ok(()) => ExitCode::SUCCESS,
        Err(what) => {
            eprintln!("{what}");
            ExitCode::FAILURE
        }
    }
}

fn input() -> Result<Vec<u8>, String> {
    let mut text = Vec::new();
    std::io::stdin()
        .read_to_end(&mut text)
        .map_err(|e| e.to_string())?;
    Ok(text)
}

fn on_cases(answer: impl Fn(&Case) -> String) -> Result<String, String> {
    let text = String::from_utf8(input()?).map_err(|e| e.to_string())?;
    Ok(cases::read(&text)?.iter().map(answer).collect())
}

fn fit(case: &Case) -> String {
    print_fit(&rust::calibrator_of(&case.tables).and_then(|calibrator| rust::fit(&calibrator)))
}

fn tables(name: &str, text: &[u8]) -> Result<String, String> {
    let input = evening::read(text).ok_or("bad input")?;
    let calibrator = rust::calibrator_after(&input.config, &input.quotes)?;
    let tables = rust::tables_of(&input.config, &calibrator);
    Ok(cases::print(&Case {
        name: name.to_string(),
        tables,
    }))
}

fn random_case(name: &str, numbers: &[&str]) -> Result<String, String> {
    let numbers: Option<Vec<u64>> = numbers.iter().map(|n| n.parse().ok()).collect();
    let Some([seed, tick, buckets, spreads, least]) = numbers.as_deref() else {
        return Err(USAGE.to_string());
    };
    let config = Config {
        tick: *tick,
        buckets: *buckets,
        spreads: *spreads,
        least: *least,
        gap: 1000,
    };
    rust::config(&config).map_err(|refusal| format!("{refusal:?}"))?;
    let tables = random::tables(config, &mut Random(*seed));
    Ok(cases::print(&Case {
        name: name.to_string(),
        tables,
    }))
}

fn sample_lines(seed: &str) -> Result<String, String> {
    let seed = seed.parse().map_err(|_| USAGE.to_string())?;
    Ok(sample::sample(seed).join("\n") + "\n")
}

fn answer_lines(text: &[u8]) -> Result<String, String> {
    let text = std::str::from_utf8(text).map_err(|e| e.to_string())?;
    let answer = |(number, line): (usize, &str)| {
        let answer = answers::answer(line).ok_or(format!("line {}: no case", number + 1))?;
        Ok(join(&answer) + "\n")
    };
    text.lines().enumerate().map(answer).collect()
}
