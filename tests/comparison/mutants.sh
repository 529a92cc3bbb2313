#!/bin/sh
# Shows which cases of fit_cases.txt tell the original from a wrong program. Each wrong program is the original with small edits;
# the oracle is built with it, and the cases that it answers otherwise are printed.
#   mutants.sh             all wrong programs
#   mutants.sh NAME...     these
#   CASES=FILE mutants.sh  on other cases
set -eu
here=$(cd "$(dirname "$0")" && pwd)
work=$(cd "$here/../.." && pwd)/target/comparison-mutants
cases=${CASES:-$here/fit_cases.txt}
chosen=" $* "
mkdir -p "$work"

# One line a case, its name first.
by_case() {
    awk '/^case / { if (NR > 1) print line; line = $2; next } { line = line " " $0 } END { print line }'
}

"$here/build.sh"
"$work/../comparison/target/release/oracle" fit <"$cases" | by_case >"$work/want"

# mutant NAME [OLD NEW]...: the original with each OLD, found once, replaced by NEW.
mutant() {
    name=$1
    shift
    case "$chosen" in "  " | *" $name "*) ;; *) return 0 ;; esac
    cp "$here/original/micro_price.rs" "$work/mutant.rs"
    while [ $# -gt 0 ]; do
        "$here/replace_once.pl" "$work/mutant.rs" "$1" "$2"
        shift 2
    done
    RUSTFLAGS=-Awarnings "$here/build.sh" --instead "$work/mutant.rs" "$work/build"
    "$work/build/target/release/oracle" fit <"$cases" >"$work/answers"
    by_case <"$work/answers" >"$work/got"
    echo "$name:$(awk 'NR == FNR { want[$1] = $0; next } want[$1] != $0 { printf " %s", $1 }' "$work/want" "$work/got")"
}

# Which states the fit uses.
mark='    mark_no_price_move(&mut q, &mut t, &mut expected_move, &mut status)?;'
mark_then_empty_rare="$mark"'
    for x in (0..states).filter(|x| status[*x] == StateStatus::Rare) {
        q[x].fill(0.0);
        t[x].fill(0.0);
    }'
rare='            *status.get_mut(x).or_overflow("state")? = StateStatus::Rare;
            continue;'
mutant rare_at_least 'if count < counts.config.min_state_observations' 'if count <= counts.config.min_state_observations'
mutant rare_end_counts "$mark" "$mark_then_empty_rare" "$rare" "t[x] = moved;
$rare"
mutant rare_between_counts "$mark" "$mark_then_empty_rare" "$rare" "q[x] = stay;
$rare"
mutant one_step_of_reach '    loop {
        let mut changed = false;' '    let first = exits.clone();
    loop {
        let mut changed = false;' '.zip(&exits)' '.zip(&first)'
mutant one_pass_of_reach 'if !changed {' 'if true {'
mutant no_move_q_kept '            q.get_mut(x).or_overflow("state")?.fill(0.0);' ''
mutant no_move_t_kept '            t.get_mut(x).or_overflow("state")?.fill(0.0);' ''
mutant no_move_k_kept '            *expected_move.get_mut(x).or_overflow("state")? = 0.0;' ''

# The system.
mutant rare_k_kept "$rare" "expected_move[x] = counts.move_half_ticks[x] as f64 / total.max(1.0);
$rare"
mutant rare_q_kept "$rare" "q[x] = stay.iter().map(|c| c / total.max(1.0)).collect();
$rare"
mutant rare_t_kept "$rare" "t[x] = moved.iter().map(|c| c / total.max(1.0)).collect();
$rare"
mutant k_of_the_mirror 'counts.move_half_ticks.get(x)' 'counts.move_half_ticks.get(counts.config.mirror(x)?)'
mutant k_of_the_next_row 'counts.move_half_ticks.get(x)' 'counts.move_half_ticks.get((x + 1) % states)'
mutant fallback_not_entered 'row.push(if fallback { 1.0 } else { 0.0 });' 'row.push(0.0);'

# The elimination.
pivot='.max_by(|a, b| a.1.total_cmp(&b.1));'
mutant first_of_equal_pivots "$pivot" '.max_by(|a, b| a.1.total_cmp(&b.1).then(b.0.cmp(&a.0)));'
mutant diagonal_pivots "$pivot" '.next();'
mutant tolerance_above 'const PIVOT_TOLERANCE: f64 = 1e-12;' 'const PIVOT_TOLERANCE: f64 = 1.0001e-12;'
mutant tolerance_below 'const PIVOT_TOLERANCE: f64 = 1e-12;' 'const PIVOT_TOLERANCE: f64 = 0.9999e-12;'
mutant product_not_rounded '*value -= factor * top;' '*value = (-factor).mul_add(*top, *value);'
mutant times_the_inverse '.map(|v| v / pivot)' '.map(|v| v * (1.0 / pivot))'
mutant zero_factor_not_skipped 'if factor != 0.0 {' 'if true {'

# The series and the share.
series='.map(|row| row.iter().zip(&term).map(|(p, v)| p * v).sum())'
share='.map(|(row, first)| first + row.iter().zip(&within).map(|(p, v)| p * v).sum::<f64>())'
mutant series_from_plus_zero "$series" '.map(|row| row.iter().zip(&term).map(|(p, v)| p * v).fold(0.0, |a, b| a + b))'
mutant series_right_to_left "$series" '.map(|row| row.iter().zip(&term).rev().map(|(p, v)| p * v).sum())'
add='        for (total, value) in sum.iter_mut().zip(&term) {
            *total += value;
        }
'
ended='            return Some(sum);
        }
'
mutant series_last_term_left_out "$add" '' "$ended" "$ended$add"
mutant series_5000_rounds 'MAX_SERIES_TERMS: usize = 10_000' 'MAX_SERIES_TERMS: usize = 5_000'
mutant series_20000_rounds 'MAX_SERIES_TERMS: usize = 10_000' 'MAX_SERIES_TERMS: usize = 20_000'
mutant share_from_plus_zero "$share" \
    '.map(|(row, first)| first + row.iter().zip(&within).map(|(p, v)| p * v).fold(0.0, |a, b| a + b))'
mutant share_sum_from_f "$share" '.map(|(row, first)| row.iter().zip(&within).map(|(p, v)| p * v).fold(*first, |a, b| a + b))'
mutant share_9_rounds 'FALLBACK_HORIZON_MOVES: usize = 10' 'FALLBACK_HORIZON_MOVES: usize = 9'
mutant share_11_rounds 'FALLBACK_HORIZON_MOVES: usize = 10' 'FALLBACK_HORIZON_MOVES: usize = 11'

# The estimates.
mutant adjustment_not_halved 'Ok((own - mirrored) / 2.0 * half_tick)' 'Ok((own - mirrored) * half_tick)'
mutant adjustment_by_the_tick 'let half_tick = tick / 2.0;' 'let half_tick = tick;'
mutant adjustment_of_own_only 'Ok((own - mirrored) / 2.0 * half_tick)' 'Ok(own * half_tick)'
fallback='status[x] != StateStatus::Calibrated'
mutant adjustment_of_fallback_0 'let first = antisymmetric(&g1)?;' "let first = if $fallback { 0.0 } else { antisymmetric(&g1)? };" \
    'let star = antisymmetric(&g_star)?;' "let star = if $fallback { 0.0 } else { antisymmetric(&g_star)? };"
mutant share_of_fallback_0 'let share = if absorbing {
            1.0' 'let share = if absorbing {
            0.0'
mutant share_of_fallback_solved 'let share = if absorbing {' 'let share = if false {'
mutant clamp_left_out 'share.clamp(0.0, 1.0)' 'share'
mutant clamp_above_left_out 'share.clamp(0.0, 1.0)' 'share.max(0.0)'
mutant clamp_below_left_out 'share.clamp(0.0, 1.0)' 'share.min(1.0)'
outside='if adjustment.abs() > half_spread => StateStatus::OutsideQuotes'
mutant outside_at_equality "$outside" 'if adjustment.abs() >= half_spread => StateStatus::OutsideQuotes'
mutant outside_by_first "$outside" 'if first_adjustment.abs() > half_spread => StateStatus::OutsideQuotes'
mutant outside_adjustment_is_first 'let star = antisymmetric(&g_star)?;' 'let star = antisymmetric(&g_star)?;
        let star = if star.abs() > half_tick * f64::from(spread_ticks) { first } else { star };'
mutant outside_of_spread_1 'half_spread_of(&counts.config, spread_ticks)' 'half_spread_of(&counts.config, 1)'
mutant second_16_left_out 'if !estimates
        .iter()
        .any(|e| e.status == StateStatus::Calibrated)' 'if false'

# Not wrong: the comparison in floats that document 01 orders, a listed difference.
mutant outside_in_floats "$outside" 'if star.abs() > tick * f64::from(spread_ticks) / 2.0 => StateStatus::OutsideQuotes'
