// Prints the bits that crates/cases_linear/stdout holds. The constants and the functions between the two marks are those of
// src/analytics/micro_price.rs at commit ae8cf040d3, letter for letter; what follows makes the systems of crates/cases_linear/src/main.rt.

// ---- from micro_price.rs

const PIVOT_TOLERANCE: f64 = 1e-12;
const SERIES_TOLERANCE: f64 = 1e-12;
const MAX_SERIES_TERMS: usize = 10_000;
const FALLBACK_HORIZON_MOVES: usize = 10;

/// `F + B F + ... ` over 10 mid moves, which stays at 1 on fallback states.
fn fallback_within_moves(before_move: &[f64], b: &[&[f64]]) -> Vec<f64> {
    let mut within = before_move.to_vec();
    for _ in 0..FALLBACK_HORIZON_MOVES {
        within = b
            .iter()
            .zip(before_move)
            .map(|(row, first)| first + row.iter().zip(&within).map(|(p, v)| p * v).sum::<f64>())
            .collect();
    }
    within
}

/// Reduces the first `size` columns to the identity, in place. Returns false
/// when a pivot is too small.
fn gauss_jordan(rows: &mut [Vec<f64>], size: usize) -> bool {
    for column in 0..size {
        let best = rows
            .iter()
            .enumerate()
            .skip(column)
            .map(|(r, row)| (r, row.get(column).copied().unwrap_or(0.0).abs()))
            .max_by(|a, b| a.1.total_cmp(&b.1));
        let Some((best, magnitude)) = best else {
            return false;
        };
        if magnitude < PIVOT_TOLERANCE {
            return false;
        }
        rows.swap(column, best);
        let Some(pivot_row) = rows.get(column).cloned() else {
            return false;
        };
        let pivot = pivot_row.get(column).copied().unwrap_or(0.0);
        let normalized: Vec<f64> = pivot_row.iter().map(|v| v / pivot).collect();
        for (r, row) in rows.iter_mut().enumerate() {
            if r == column {
                row.clone_from(&normalized);
                continue;
            }
            let factor = row.get(column).copied().unwrap_or(0.0);
            if factor != 0.0 {
                for (value, top) in row.iter_mut().zip(&normalized) {
                    *value -= factor * top;
                }
            }
        }
    }
    true
}

/// `G¹ + Σ Bⁱ G¹`, or `None` if it does not converge.
fn sum_series(g1: &[f64], b: &[&[f64]]) -> Option<Vec<f64>> {
    let mut term = g1.to_vec();
    let mut sum = g1.to_vec();
    for _ in 0..MAX_SERIES_TERMS {
        term = b
            .iter()
            .map(|row| row.iter().zip(&term).map(|(p, v)| p * v).sum())
            .collect();
        for (total, value) in sum.iter_mut().zip(&term) {
            *total += value;
        }
        let largest = term.iter().fold(0.0f64, |m, v| m.max(v.abs()));
        if !largest.is_finite() {
            return None;
        }
        if largest < SERIES_TOLERANCE {
            return Some(sum);
        }
    }
    None
}

// ---- the cases

fn mixed(kind: u64, n: u64, r: u64, k: u64) -> u64 {
    let seed = (kind % 8) * 7919 + (n % 32) * 104729 + (r % 32) * 1009 + (k % 64) * 31 + 1;
    let once = (seed % 2147483648 * 1103515245 + 12345) % 2147483648;
    (once * 1103515245 + 12345) % 2147483648
}

fn part(kind: u64, n: u64, r: u64, k: u64) -> f64 {
    mixed(kind, n, r, k) as f64 / 2147483648.0
}

fn special(kind: u64, n: u64, r: u64, k: u64, of: u64) -> f64 {
    match mixed(kind, n, r, k) / 65536 % of {
        0 => f64::INFINITY,
        1 => f64::NEG_INFINITY,
        2 => f64::NAN,
        _ => part(kind, n, r, k) / 32.0 - 0.015625,
    }
}

fn usual(kind: u64, n: u64, r: u64, k: u64, most: f64) -> f64 {
    if k == r {
        1.0 - part(kind, n, r, k) / 32.0
    } else if k < n {
        -(part(kind, n, r, k) / 32.0)
    } else if k == n {
        part(kind, n, r, k) - 0.5
    } else if k == n + 1 {
        if r % 3 == 2 { 1.0 } else { 0.0 }
    } else {
        part(kind, n, r, k) * most
    }
}

fn cell(kind: u64, n: u64, r: u64, k: u64) -> f64 {
    let pick = |of: u64| mixed(kind, n, r, k) / 65536 % of;
    match kind {
        1 if k + 1 == n => -0.0,
        2 => special(2, n, r, k, 23),
        3 => [1.0, -1.0, 2.0, -2.0][pick(4) as usize],
        4 if r == k => 1.0 + part(4, n, r, k),
        4 => match pick(6) {
            0 | 1 => 0.0,
            2 | 3 => -0.0,
            _ => part(4, n, r, k) / 16.0 - 0.03125,
        },
        5 => usual(5, n, r, k, 8.0),
        6 => {
            if k == r || k == n || k == n + 2 + r {
                1.0
            } else {
                0.0
            }
        }
        7 if n <= k => special(7, n, r, k, 11),
        8 => {
            if k == r {
                1.0
            } else if k < n {
                0.0
            } else if k < n + 2 {
                -0.0
            } else {
                0.5
            }
        }
        _ => usual(kind, n, r, k, 0.015625),
    }
}

// Any NaN as one pattern.
fn show(values: impl IntoIterator<Item = f64>) {
    for x in values {
        let bits = if x.is_nan() { 0x7ff8_0000_0000_0000 } else { x.to_bits() };
        println!("{bits:016x}");
    }
}

fn run(kind: u64, n: usize) {
    let mut rows: Vec<Vec<f64>> = (0..n)
        .map(|r| (0..2 * n + 2).map(|k| cell(kind, n as u64, r as u64, k as u64)).collect())
        .collect();
    let solved = gauss_jordan(&mut rows, n);
    println!("kind {kind} states {n} {}", if solved { "solved" } else { "singular" });
    show(rows.concat());
    if !solved {
        return;
    }
    let g1: Vec<f64> = rows.iter().map(|row| row[n]).collect();
    let before_move: Vec<f64> = rows.iter().map(|row| row[n + 1]).collect();
    let b: Vec<&[f64]> = rows.iter().map(|row| &row[n + 2..]).collect();
    match sum_series(&g1, &b) {
        Some(sum) => {
            println!("converged");
            show(sum);
        }
        None => println!("not converged"),
    }
    println!("share");
    show(fallback_within_moves(&before_move, &b).into_iter().map(|share| share.clamp(0.0, 1.0)));
}

fn main() {
    for kind in 0..9 {
        for n in [1, 2, 3, 6] {
            run(kind, n);
        }
    }
    for kind in [0, 3, 4, 7] {
        run(kind, 27);
    }
}
