#!/bin/sh
# Shows that the comparison can fail: `compare --quick` is run with each fault that it can put into the port's answers, and with
# each wrong program below in place of the original. Each must end in a difference; where it was noticed is printed.
#   faults.sh            all
#   faults.sh NAME...    these
# It takes the port's archive as build.sh --port does.
set -eu
here=$(cd "$(dirname "$0")" && pwd)
root=$(cd "$here/../.." && pwd)
work=$root/target/comparison-faults
chosen=" $* "
missed=0
mkdir -p "$work"

wanted() {
    case "$chosen" in "  " | *" $1 "*) return 0 ;; *) return 1 ;; esac
}

# noticed NAME PROGRAM ARGUMENTS...: the run must find a difference.
noticed() {
    name=$1
    shift
    if nice "$@" >"$work/out" 2>"$work/err"; then
        echo "$name: NOT NOTICED"
        missed=1
    elif grep -q '^DIFFERENCE' "$work/out"; then
        echo "$name: $(sed -n '/^DIFFERENCE/ { s/.*part \([a-z]*\),.*/\1/; p; n; n; p }' "$work/out" | paste -s -d ' ' | cut -c 1-120)"
    else
        echo "$name: the run stopped: $(tail -n 1 "$work/err")"
        missed=1
    fi
}

"$here/build.sh" --port
compare=$root/target/comparison/target/release/compare

echo "faults put into the port's answers"
for name in $({ "$compare" --fault list 2>&1 || true; } | sed 's/:.*//'); do
    if wanted "$name"; then noticed "$name" "$compare" --quick --fault "$name"; fi
done

# wrong NAME OLD NEW: the original with OLD, found once, replaced by NEW.
wrong() {
    wanted "$1" || return 0
    cp "$here/original/micro_price.rs" "$work/wrong.rs"
    "$here/replace_once.pl" "$work/wrong.rs" "$2" "$3"
    RUSTFLAGS=-Awarnings "$here/build.sh" --port --instead "$work/wrong.rs" "$work/build"
    noticed "$1" "$work/build/target/release/compare" --quick
}

echo "wrong programs in place of the original"
# Document 01's wrong turns.
wrong stay_by_state 'let table = if change == 0 {' 'let table = if from == to {'
wrong middle_pair_once '                self.count(self.config.mirror(from)?, self.config.mirror(to)?, negated)?;' \
    '                let (a, b) = (self.config.mirror(from)?, self.config.mirror(to)?);
                if (a, b) != (from, to) {
                    self.count(a, b, negated)?;
                }'
wrong skip_keeps_older 'self.skipped_gap_pairs.checked_add(1).or_overflow("pairs")?;' \
    'self.skipped_gap_pairs.checked_add(1).or_overflow("pairs")?;
                return Ok(());'
wrong first_of_equal_pivots '.max_by(|a, b| a.1.total_cmp(&b.1));' '.max_by(|a, b| a.1.total_cmp(&b.1).then(b.0.cmp(&a.0)));'
wrong heavy_as_light 'let bucket = if quote.bid_size <= quote.ask_size {' 'let bucket = if true {'
# Quotes.
wrong bucket_below_limit 'if scaled <= bound {' 'if scaled < bound {'
wrong gap_of_the_limit 'if gap > self.config.max_quote_gap_ms {' 'if gap >= self.config.max_quote_gap_ms {'
wrong equal_time_refused 'if quote.timestamp_ms < previous.timestamp_ms {' 'if quote.timestamp_ms <= previous.timestamp_ms {'
wrong bid_of_zero 'if self.bid <= Decimal::ZERO' 'if self.bid < Decimal::ZERO'
wrong spread_of_s 'if spread > i64::from(self.spread_states) {' 'if spread >= i64::from(self.spread_states) {'
wrong n_of_255 'const MAX_STATES: usize = 256;' 'const MAX_STATES: usize = 254;'
# Images.
wrong last_not_judged '            raw.config.usable_state(previous)?;' '            let _ = previous;'
wrong pairs_not_judged 'if raw.pairs.checked_mul(2) != Some(total) {' 'if false {'
wrong moved_not_judged 'for table in [&raw.stay, &raw.moved] {' 'for table in [&raw.stay, &raw.stay] {'
wrong totals_not_judged 'if moves.checked_neg() != Some(*mirror_moves) {' 'if false {'
# The fit.
wrong rare_at_least 'if count < counts.config.min_state_observations' 'if count <= counts.config.min_state_observations'
wrong one_pass_of_reach 'if !changed {' 'if true {'
wrong product_not_rounded '*value -= factor * top;' '*value = (-factor).mul_add(*top, *value);'
wrong series_right_to_left '.map(|row| row.iter().zip(&term).map(|(p, v)| p * v).sum())' \
    '.map(|row| row.iter().zip(&term).rev().map(|(p, v)| p * v).sum())'
wrong series_9999_rounds 'MAX_SERIES_TERMS: usize = 10_000' 'MAX_SERIES_TERMS: usize = 9_999'
wrong share_9_rounds 'FALLBACK_HORIZON_MOVES: usize = 10' 'FALLBACK_HORIZON_MOVES: usize = 9'
wrong pivot_tolerance 'const PIVOT_TOLERANCE: f64 = 1e-12;' 'const PIVOT_TOLERANCE: f64 = 1.01e-12;'
wrong outside_at_equality 'if adjustment.abs() > half_spread => StateStatus::OutsideQuotes' \
    'if adjustment.abs() >= half_spread => StateStatus::OutsideQuotes'
# Models and signals.
wrong calibrated_at_half '(state.status == StateStatus::Calibrated && state.adjustment.abs() > half_spread)' \
    '(state.status == StateStatus::Calibrated && state.adjustment.abs() >= half_spread)'
wrong share_of_one 'share <= Decimal::ONE' 'share < Decimal::ONE'
wrong first_not_mirrored '
            && state.first_adjustment.checked_add(m.first_adjustment) == Some(Decimal::ZERO)' ''
wrong signal_of_outside '                | StateStatus::OutsideQuotes) => (Decimal::ZERO, SignalSource::MidFallback(status)),' \
    '                | StateStatus::OutsideQuotes) => (estimate.adjustment, SignalSource::MidFallback(status)),'
# Windows and evenings.
wrong window_to_end 'let to = quotes.partition_point(|q| q.timestamp_ms < window.end_ms);' \
    'let to = quotes.partition_point(|q| q.timestamp_ms <= window.end_ms);'
wrong invalid_not_counted '        match calibrator.observe(quote) {
            Ok(()) => {}
            Err(MMError::InvalidMarketState(_)) => {
                invalid_quotes = invalid_quotes.saturating_add(1);' '        match calibrator.observe(quote) {
            Ok(()) => {}
            Err(MMError::InvalidMarketState(_)) => {
                invalid_quotes = invalid_quotes.saturating_add(0);'
exit "$missed"
