//! Compares the port with the Rust: the same inputs to both, and every result held against the other's.

use std::process::ExitCode;
use std::time::Instant;

use driver::compare::{
    Compared, Difference, Run, calls, evenings, fits, images, lengths, models, quotes, rounds,
    signals, windows,
};
use driver::faults;
use driver::random::Random;
use driver::seen::Seen;

const USAGE: &str = "\
compare [--quick] [--seed SEED] [--only PART] [--fault NAME]
  --quick       about a tenth of the volume
  --seed SEED   other random numbers (1 unless said)
  --only PART   one part: quotes calls images fits models signals windows evenings lengths rounds
  --fault NAME  with this fault put into the port's answers, which has to be noticed; `--fault list` names them";

type Part = (&'static str, fn(&mut Run) -> Compared);

const PARTS: [Part; 10] = [
    ("quotes", quotes::run),
    ("calls", calls::run),
    ("images", images::run),
    ("fits", fits::run),
    ("models", models::run),
    ("signals", signals::run),
    ("windows", windows::run),
    ("evenings", evenings::run),
    ("lengths", lengths::run),
    ("rounds", rounds::run),
];

struct Options {
    quick: bool,
    seed: u64,
    only: Option<String>,
}

fn main() -> ExitCode {
    let arguments: Vec<String> = std::env::args().skip(1).collect();
    let options = match options(&arguments) {
        Ok(options) => options,
        Err(what) => {
            eprintln!("{what}");
            return ExitCode::FAILURE;
        }
    };
    println!("rustc: {}", env!("RUSTC_VERSION"));
    println!("mode: {}", if options.quick { "quick" } else { "full" });
    println!("seed: {}", options.seed);
    let mut seen = Seen::default();
    let found = run_parts(&options, &mut seen);
    print!("{}", seen.print());
    if let Err((part, seed, difference)) = found {
        print_difference(part, seed, &difference);
        return ExitCode::FAILURE;
    }
    println!("unexplained differences: 0");
    let seldom = seen.too_seldom();
    if !options.quick && options.only.is_none() && !seldom.is_empty() {
        println!("seen fewer than 100 times: {}", seldom.join(", "));
        return ExitCode::FAILURE;
    }
    ExitCode::SUCCESS
}

fn options(arguments: &[String]) -> Result<Options, String> {
    let mut options = Options {
        quick: false,
        seed: 1,
        only: None,
    };
    let mut words = arguments.iter();
    while let Some(word) = words.next() {
        let mut value = || words.next().ok_or_else(|| USAGE.to_string());
        match word.as_str() {
            "--quick" => options.quick = true,
            "--seed" => options.seed = value()?.parse().map_err(|_| USAGE.to_string())?,
            "--only" => options.only = Some(value()?.clone()),
            "--fault" => match value()?.as_str() {
                "list" => return Err(fault_list()),
                name => faults::choose(name)?,
            },
            _ => return Err(USAGE.to_string()),
        }
    }
    match &options.only {
        Some(part) if !PARTS.iter().any(|(name, _)| name == part) => Err(USAGE.to_string()),
        _ => Ok(options),
    }
}

fn fault_list() -> String {
    let lines = faults::FAULTS
        .iter()
        .map(|(name, what)| format!("{name}: {what}"));
    lines.collect::<Vec<String>>().join("\n")
}

/// Runs the parts; at a difference its part and that part's seed.
fn run_parts(options: &Options, seen: &mut Seen) -> Result<(), (&'static str, u64, Difference)> {
    for (number, (name, part)) in PARTS.iter().enumerate() {
        if options.only.as_ref().is_some_and(|only| only != name) {
            continue;
        }
        let seed = options.seed.wrapping_mul(1000) + number as u64;
        let start = Instant::now();
        let mut run = Run {
            random: Random(seed),
            seen,
            share: if options.quick { 10 } else { 1 },
        };
        eprint!("{name}: ");
        let compared = part(&mut run);
        eprintln!("{:.1} s", start.elapsed().as_secs_f64());
        compared.map_err(|difference| (*name, seed, difference))?;
        println!("part {name}: seed {seed}");
    }
    Ok(())
}

fn print_difference(part: &str, seed: u64, difference: &Difference) {
    println!("DIFFERENCE in part {part}, whose seed is {seed}");
    println!("operation: {}", difference.operation.name());
    println!("{}", difference.what);
    println!("input:\n{}", difference.input);
}
