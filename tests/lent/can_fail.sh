#!/bin/sh
# Shows that run.sh can fail: each change below, made in a copy of the files that it reads, must make the named program print
# something else than day.txt has.
set -eu
name=lent
files="crates.txt crates/*/src tests/lent"
# shellcheck source=tests/common/can_fail.sh
. "$(dirname "$0")/../common/can_fail.sh"

# prints_else PROGRAM WHAT FILE OLD NEW: with OLD replaced by NEW in FILE.
prints_else() {
    copy
    change "$3" "$4" "$5"
    must_fail "$2" "$here/run.sh" "$work/tree"
    grep -q "^lent: $1 prints something else" "$work/errors" || { echo "NOT BY $1: $2" && missed=1; }
}

passes
fine='
    Ok(())'
new='*rec = inner::new(tables, config)?;'
observe='*rec = inner::observe(*rec, tables, config, quote)?;'
save='inner::save(*rec, tables, config, out)'
restore='let taken = inner::restore(image, tables)?;'
store='
    *rec = taken.rec;'
answer='
    Ok(taken.config)'
fit='fit_counts_with(rec, tables, config, Rounds::default(), scratch, model)'
fit_with='inner::fit_counts_with(*rec, tables, config, rounds, scratch, model)'
window='let ends = recording::window_of(recording, start, end)?;'
lengths='
    fit::inner::check_lengths(config, tables.view(), scratch.len(), model.len())?;'
part='
    let part = recording::inner::part_of(recording, ends);'
evening='inner::count_and_fit(rec, tables, config, part, scratch, model)'
encoding='inner::check_encoding(calls, room.len(), answers.len())'
prints_else lent "new does not store the record" crates/calibrator/src/lib.rt "$new" "inner::new(tables, config)?;"
prints_else lent "new answers 0 to all" crates/calibrator/src/lib.rt "$new$fine" "if let Ok(next) = inner::new(tables, config) {
        *rec = next;
    }$fine"
prints_else lent "observe does not store the record" crates/calibrator/src/lib.rt "$observe" \
    "inner::observe(*rec, tables, config, quote)?;"
prints_else lent "observe answers 0 to all" crates/calibrator/src/lib.rt "$observe$fine" \
    "if let Ok(next) = inner::observe(*rec, tables, config, quote) {
        *rec = next;
    }$fine"
prints_else lent "save writes another record's image" crates/image/src/lib.rt "$save" "let mut other = *rec;
    other.previous = None;
    inner::save(other, tables, config, out)"
prints_else lent "save answers 0 to all" crates/image/src/lib.rt "$save" "let _ = $save;$fine"
prints_else lent "restore does not store the record" crates/image/src/lib.rt "$store" ""
prints_else lent "restore answers 12 to all" crates/image/src/lib.rt "$restore$store$answer" \
    "if let Ok(taken) = inner::restore(image, tables) {
        *rec = taken.rec;
    }
    Err(Refusal::ImageLayout)"
prints_else lent "fit_counts fits another record" crates/fit/src/lib.rt "$fit" "let mut other = *rec;
    other.counters.pairs = 0;
    fit_counts_with(&other, tables, config, Rounds::default(), scratch, model)"
prints_else lent "fit_counts answers 0 to all" crates/fit/src/lib.rt "$fit" "let _ = $fit;$fine"
prints_else lent "fit_counts makes a round of the share less" crates/fit/src/lib.rt "$fit" \
    "let mut rounds = Rounds::default();
    rounds.fallback -= 1;
    fit_counts_with(rec, tables, config, rounds, scratch, model)"
prints_else lent "fit_counts_with fits another record" crates/fit/src/lib.rt "$fit_with" "let mut other = *rec;
    other.counters.pairs = 0;
    inner::fit_counts_with(other, tables, config, rounds, scratch, model)"
prints_else lent "fit_counts_with answers 0 to all" crates/fit/src/lib.rt "$fit_with" "let _ = $fit_with;$fine"
prints_else lent "fit_counts_with exchanges the rounds" crates/fit/src/lib.rt "$fit_with" \
    "let exchanged = Rounds {
        series: rounds.fallback,
        fallback: rounds.series,
    };
    inner::fit_counts_with(*rec, tables, config, exchanged, scratch, model)"
prints_else lent "calibrate_micro_price does not store the record" crates/evening/src/lib.rt "$evening" "let mut other = *rec;
    inner::count_and_fit(&mut other, tables, config, part, scratch, model)"
prints_else lent "calibrate_micro_price answers 15 to all" crates/evening/src/lib.rt "$window$lengths$part
    $evening" "let Ok(ends) = recording::window_of(recording, start, end) else {
        return Err(Refusal::WindowBackward);
    };
    if fit::inner::check_lengths(config, tables.view(), scratch.len(), model.len()).is_ok() {
        let part = recording::inner::part_of(recording, ends);
        let _ = $evening;
    }
    Err(Refusal::WindowBackward)"
prints_else lent "replay does not store the record" crates/history_replay/src/lib.rt "$encoding?;" "$encoding?;
    let mut other = *rec;
    let rec = &mut other;"
prints_else lent "replay answers that it is done to all" crates/history_replay/src/lib.rt "$encoding?;" \
    "if $encoding.is_err() {
        return Ok(());
    }"
prints_else lent "the core of observe counts a pair twice" crates/calibrator/src/inner.rt "counters.pairs + 1" "counters.pairs + 2"
prints_else by_value "the program by value keeps the record after a restore" tests/lent/by_value.rt.txt \
    "shared::show_restored(rt, Ok(taken.config));
            taken.rec" "shared::show_restored(rt, Ok(taken.config));
            rec"
prints_else by_value "the program by value fits with the default rounds" tests/lent/by_value.rt.txt \
    "shared::rounds_of(line)," "Rounds::default(),"
prints_else lent "day.txt has another last bit in a float of the model table" tests/lent/day.txt \
    "bff0000000000000 3ff0000000000000 0" "bff0000000000001 3ff0000000000000 0"
exit $missed
