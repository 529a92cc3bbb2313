//! Medians of interleaved runs, and the table that is printed.

use std::time::Instant;

/// The nanoseconds of one run, one for each side.
pub type Run<const SIDES: usize> = [f64; SIDES];

/// Times the sides one after another; each run begins with another side.
pub fn timed<const SIDES: usize>(run: usize, sides: [&mut dyn FnMut(); SIDES]) -> Run<SIDES> {
    let mut times = [0.0; SIDES];
    for turn in 0..SIDES {
        let side = (run + turn) % SIDES;
        let start = Instant::now();
        sides[side]();
        times[side] = start.elapsed().as_nanos() as f64;
    }
    times
}

/// The same, of work that may be repeated: the second of two calls is timed, which finds its memory in the cache.
pub fn timed_again<const SIDES: usize>(sides: [&mut dyn FnMut(); SIDES]) -> Run<SIDES> {
    let mut times = [0.0; SIDES];
    for (turn, work) in sides.into_iter().enumerate() {
        work();
        [times[turn]] = timed(0, [work]);
    }
    times
}

pub fn median(values: impl Iterator<Item = f64>) -> f64 {
    let mut values: Vec<f64> = values.collect();
    values.sort_by(f64::total_cmp);
    values[values.len() / 2]
}

pub fn readable(nanoseconds: f64) -> String {
    match nanoseconds {
        t if t < 1e3 => format!("{t:.1} ns"),
        t if t < 1e6 => format!("{:.1} us", t / 1e3),
        t => format!("{:.1} ms", t / 1e6),
    }
}

/// Prints the port's time, that of two others, and the ratios to them with the most that each may be. A run has the three
/// times; a ratio is the median of the runs' ratios.
pub fn print_line(what: &str, runs: &[Run<3>], targets: [Option<f64>; 2]) {
    let others = [1, 2].map(|side| {
        let ratio = median(runs.iter().map(|run| run[0] / run[side]));
        let verdict = match targets[side - 1] {
            None => String::new(),
            Some(most) if ratio <= most => format!("at most {most}: met"),
            Some(most) => format!("at most {most}: missed"),
        };
        let time = median(runs.iter().map(|run| run[side]));
        format!("{:>16}{ratio:>8.3}  {verdict:<20}", readable(time))
    });
    let port = median(runs.iter().map(|run| run[0]));
    let line = format!("{what:<31}{:>10}{}{}", readable(port), others[0], others[1]);
    println!("{}", line.trim_end());
}

/// The heads of the columns, for the two that the port is beside.
pub fn print_heads(names: [&str; 2]) {
    let [first, second] = names.map(|name| format!("{name:>16}{:>8}  {:<20}", "ratio", "target"));
    println!(
        "{}",
        format!("{:<31}{:>10}{first}{second}", "", "port").trim_end()
    );
}
