//! Faults that can be put into the port's answers, and one into the fit computed plainly, to show that the comparison notices
//! them. None is on unless the program is asked for it. Whether a call is hit depends on its arguments alone, so that a smaller
//! input can be looked for.

use std::sync::OnceLock;

/// Every fault and what it does.
pub const FAULTS: [(&str, &str); 42] = [
    (
        "new_judges_record",
        "new: words that are no record's are answered 100",
    ),
    (
        "new_refusal_writes",
        "new: a refusal writes the record's words",
    ),
    ("count_plus_one", "a quote: a stay cell has one more"),
    ("bucket_swapped", "a quote: the sizes are exchanged"),
    ("last_kept", "a quote: at a gap skip the older quote stays"),
    ("gap_at_limit", "a quote: a gap of the limit is skipped"),
    ("largest_lost", "a quote: the largest change is not kept"),
    ("total_sign", "a quote: a move total is negated"),
    ("time_as_bad", "a quote: 5 is answered as 3"),
    (
        "refusal_writes",
        "a quote: a refusal takes the quote as last",
    ),
    ("limit_ignored", "a quote: 6 is answered as 0"),
    ("image_byte", "save: one bit of the image"),
    ("save_refusal_writes", "save: a refusal writes"),
    ("restored_gap", "restore: the gap skips are lost"),
    ("restore_unchecked", "restore: 11 is answered as 0"),
    ("restore_order", "restore: 10 is answered as 9"),
    ("last_bit", "fit: the last bit of an adjustment"),
    ("minus_zero", "fit: a zero is minus zero"),
    ("status", "fit: OutsideQuotes is answered as Calibrated"),
    ("observations", "fit: one observation more"),
    ("scratch_left", "fit: scratch is not cleared"),
    ("fit_refusal", "fit: 18 is answered as 17"),
    (
        "plain_share_9_rounds",
        "the fit computed plainly, beside a fit: the share has 9 rounds",
    ),
    (
        "twenty_six_before_one",
        "fit with rounds: 1 is answered as 26 where that holds too",
    ),
    (
        "twenty_six_after_seven",
        "fit with rounds: 26 is answered as 7 where that holds too",
    ),
    (
        "twenty_six_writes",
        "fit with rounds: a refusal 26 clears scratch",
    ),
    (
        "zero_series_rounds_accepted",
        "fit with rounds: 0 series rounds are taken as 1",
    ),
    (
        "rounds_10001_accepted",
        "fit with rounds: 10,001 series rounds are taken as 10,000",
    ),
    (
        "fallback_101_accepted",
        "fit with rounds: 101 fallback rounds are taken as 100",
    ),
    (
        "low_word_of_rounds_judged",
        "fit with rounds: only the low 32 bits of each number are taken",
    ),
    (
        "fallback_rounds_ignored",
        "fit with rounds: the fallback rounds are always 10",
    ),
    (
        "rounds_exchanged",
        "fit with rounds: series and fallback rounds are exchanged",
    ),
    (
        "cut_series_as_whole",
        "fit with rounds: a series that its rounds cut is answered as with 10,000",
    ),
    ("row_one_on", "model check: the row after the bad one"),
    ("model_accepted", "model check: 13 is answered as 0"),
    ("signal_sign", "signal: the adjustment is negated"),
    ("signal_source", "signal: Rare is answered as NoPriceMove"),
    ("window_past", "window: the part is one quote longer"),
    (
        "invalid_dropped",
        "evening: an invalid quote is not counted",
    ),
    ("evening_last", "evening: no last quote is left"),
    ("replay_answer", "replay: an answer 0 is 5"),
    (
        "other_configuration_fills",
        "replay: a restore answered 101 empties the record",
    ),
];

static CHOSEN: OnceLock<String> = OnceLock::new();

/// Puts a fault in for the rest of the run.
pub fn choose(name: &str) -> Result<(), String> {
    if !FAULTS.iter().any(|(known, _)| *known == name) {
        return Err(format!("no fault {name}"));
    }
    CHOSEN
        .set(name.to_string())
        .map_err(|_| "one fault at a time".to_string())
}

/// Whether this fault hits a call of which these words are known: about one in seven.
pub fn hits(name: &str, words: &[u64]) -> bool {
    let Some(chosen) = CHOSEN.get() else {
        return false;
    };
    debug_assert!(FAULTS.iter().any(|(known, _)| *known == name));
    chosen == name
        && words
            .iter()
            .fold(3u64, |sum, w| sum.wrapping_mul(31).wrapping_add(*w))
            % 7
            == 0
}
