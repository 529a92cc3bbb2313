#!/bin/sh
# Shows that run.sh can fail: it must pass on a copy of the files that it reads, and refuse each change below made in such a copy.
set -eu
name=header
files="include docs/PROMISES.md crates/*/src bindings/rust/src"
# shellcheck source=tests/common/can_fail.sh
. "$(dirname "$0")/../common/can_fail.sh"

# refused_in_both WHAT FILE OLD NEW OLD NEW: in the header, and in FILE.
refused_in_both() {
    copy
    change $header "$3" "$4"
    change "$2" "$5" "$6"
    must_fail "$1" "$here/run.sh" "$work/tree"
}

# number_of NAME: the header's number.
number_of() {
    sed -n "s/^#define MICRO_PRICE_$1 \([0-9]*\)$/\1/p" "$root/$header"
}

# greater MORE NAME: a number that the header and bindings/rust have, greater by MORE in either and in both.
greater() {
    was=$(number_of "$2")
    now=$((was + $1))
    refused "$1 more: $2" $header "MICRO_PRICE_$2 $was" "MICRO_PRICE_$2 $now"
    refused "$1 more in Rust: $2" $rust "const $2: usize = $was;" "const $2: usize = $now;"
    refused_in_both "$1 more in both: $2" $rust "MICRO_PRICE_$2 $was" "MICRO_PRICE_$2 $now" \
        "const $2: usize = $was;" "const $2: usize = $now;"
}

# another NAME: a number of a fit's rounds, greater by 1 in the header, in bindings/rust and in both.
another() {
    was="MICRO_PRICE_$1 $(number_of "$1")"
    was_rust=$(grep -o "const $1: u64 = [0-9_]*" "$root/$rounds")
    refused "one more: $1" $header "$was" "${was%0}1"
    refused "one more in Rust: $1" $rounds "$was_rust" "${was_rust%0}1"
    refused_in_both "one more in both: $1" $rounds "$was" "${was%0}1" "$was_rust" "${was_rust%0}1"
}

header=include/micro_price.h
promises=docs/PROMISES.md
rust=bindings/rust/src/sys.rs
rounds=bindings/rust/src/rounds.rs
passes
refused "a function less" $header \
    'uint64_t micro_price_validate(const uint64_t *config, size_t config_len);' ''
refused "a function more" $header \
    'uint64_t micro_price_validate(' 'uint64_t micro_price_fit(void);
uint64_t micro_price_validate('
refused "a pointer to constant words that are written" $header \
    'size_t out_len, uint64_t *row);' 'size_t out_len, const uint64_t *row);'
refused "a signed number for an unsigned one" $header \
    'uint64_t start, uint64_t end, uint64_t *first' 'int64_t start, uint64_t end, uint64_t *first'
refused "start and end exchanged" $header \
    'uint64_t start,
                               uint64_t end, double *scratch' 'uint64_t end,
                               uint64_t start, double *scratch'
refused "the rounds exchanged" $header \
    'uint64_t series_rounds,
                                     uint64_t fallback_rounds,' 'uint64_t fallback_rounds,
                                     uint64_t series_rounds,'
refused "a length left out" $header \
    'const uint64_t *calls, size_t calls_len,' 'const uint64_t *calls,'
refused "another result" $header \
    'uint64_t micro_price_save(' 'void micro_price_save('
refused "a refusal with another's number" $header \
    'MICRO_PRICE_OFF_TICK 4' 'MICRO_PRICE_OFF_TICK 5'
refused "a header that needs another before it" $header \
    '#include <stdint.h>' ''
refused "a parameter more in the code" crates/abi_counting_c/src/lib.rt \
    'pub extern "C" fn micro_price_validate(config: &[u64])' 'pub extern "C" fn micro_price_validate(config: &[u64], n: u64)'
refused "the rounds exchanged in Rust" $rust \
    'series_rounds: u64,
        fallback_rounds: u64,' 'fallback_rounds: u64,
        series_rounds: u64,'
refused "totals without a sign in Rust" $rust \
    'move_half_ticks: *const i64,
        move_half_ticks_len: usize,
        out: *mut u8,' 'move_half_ticks: *const u64,
        move_half_ticks_len: usize,
        out: *mut u8,'

# Lists of answers, and what is written at each.
refused "a refusal left out" $header '100, 1, 7, 8, 2, 3, 4, 5, 6 ' '100, 1, 7, 8, 2, 3, 4, 6 '
refused "a refusal in another place" $header '100, 1, 7, 8, 6, 9, 10, 11 ' '100, 1, 7, 6, 8, 9, 10, 11 '
refused "a refusal more" $header '100, 1, 7, 2, 3, 4 ' '100, 1, 7, 2, 3, 4, 5 '
refused "a refusal that stands twice, without its reason" $header '12 (any other), 7' '12, 7'
refused "a refusal left out of PROMISES.md" $promises '100, 1, 7, 8, 2, 3, 4, 5, 6, 0' '100, 1, 7, 8, 2, 3, 4, 5, 0'
refused_in_both "a refusal left out of both" $promises '7, 14, 15  ' '7, 14  ' '| 7, 14, 15, 0 |' '| 7, 14, 0 |'
refused_in_both "a refusal in another place in both" $promises '7, 14, 15  ' '7, 15, 14  ' '| 7, 14, 15, 0 |' '| 7, 15, 14, 0 |'
refused "26 left out" $header '100, 1, 26, 7, 6, 9, 10, 11 ' '100, 1, 7, 6, 9, 10, 11     '
refused "26 in another place" $header '100, 1, 26, 7, 6, 9, 10, 11 ' '100, 1, 7, 26, 6, 9, 10, 11 '
refused "26 left out of PROMISES.md" $promises '| 100, 1, 26, 7, ' '| 100, 1, 7, '
refused_in_both "26 left out of both" $promises '100, 1, 26, 7, 6, 9, 10, 11 ' '100, 1, 7, 6, 9, 10, 11     ' \
    '| 100, 1, 26, 7, ' '| 100, 1, 7, '
refused_in_both "26 in another place in both" $promises '100, 1, 26, 7, 6, 9, 10, 11 ' '100, 26, 1, 7, 6, 9, 10, 11 ' \
    '| 100, 1, 26, 7, ' '| 100, 26, 1, 7, '
refused_in_both "19 in another place in both, which no run meets" $promises '16 (none to fit), 17, 18, 19         rec' \
    '16 (none to fit), 19, 17, 18         rec' '2, 6, 16, 17, 18, 19, 16, 0' '2, 6, 16, 19, 17, 18, 16, 0'
refused_in_both "19 left out of both, which no run meets" $promises '16 (none to fit), 17, 18, 19         rec' \
    '16 (none to fit), 17, 18             rec' '2, 6, 16, 17, 18, 19, 16, 0' '2, 6, 16, 17, 18, 16, 0'
refused "a table that the header does not name as written" $header \
    '2, 6                                 rec, stay, moved, move_half_ticks' '2, 6                                 rec, stay, moved'
for fit in fit_counts fit_counts_with; do
    refused "scratch that is said to stay at 16 of $fit" $header \
        "16 (none inside the quotes)          scratch
 *   0                                    scratch, model
 */
MICRO_PRICE_MUST_USE
uint64_t micro_price_$fit(" "16 (none inside the quotes)          nothing
 *   0                                    scratch, model
 */
MICRO_PRICE_MUST_USE
uint64_t micro_price_$fit("
done
refused "scratch that is said to be written at 26" $header \
    '100, 1, 26, 7, 6, 9, 10, 11          nothing' '100, 1, 26, 7, 6, 9, 10, 11          scratch'
refused "memory that is never written" $header \
    '0                                    out
 */
MICRO_PRICE_MUST_USE
uint64_t micro_price_save(' '0                                    out, rec
 */
MICRO_PRICE_MUST_USE
uint64_t micro_price_save('

# Sizes and other numbers.
refused "a cell more" $header '((size_t)(states) * (size_t)(states))' '((size_t)(states) * (size_t)(states) + 1)'
refused "a float less" $header '(2 * (size_t)(states) + 10)' '(2 * (size_t)(states) + 9)'
refused "a word more of the model" $header \
    '(MICRO_PRICE_ROW_WORDS * (size_t)(states))' '(MICRO_PRICE_ROW_WORDS * (size_t)(states) + 1)'
refused "a byte less of the image" $header \
    '16 * MICRO_PRICE_CELLS(states) + 8 * (size_t)(states))' '16 * MICRO_PRICE_CELLS(states) + 8 * (size_t)(states) - 1)'
greater 8 IMAGE_HEADER
for words in CONFIG RECORD QUOTE ROW SIGNAL CALL; do
    greater 1 "${words}_WORDS"
done
refused "a number that Rust does not have" $rust "pub const IMAGE_TICK: usize = $(number_of IMAGE_TICK);" ''
refused "a number that Rust alone has" $rust 'pub const CALL_QUOTE: u64 = 0;' 'pub const CALL_QUOTE: u64 = 0;
pub const MOST_QUOTES: usize = 1000;'
refused "n and s exchanged in an image in Rust" $rust 'IMAGE_BUCKETS: usize = 1;
/// That of the spread states s.
pub const IMAGE_SPREAD_STATES: usize = 2;' 'IMAGE_BUCKETS: usize = 2;
pub const IMAGE_SPREAD_STATES: usize = 1;'
refused_in_both "n and s exchanged in an image in both" $rust 'IMAGE_BUCKETS 1
#define MICRO_PRICE_IMAGE_SPREAD_STATES 2' 'IMAGE_BUCKETS 2
#define MICRO_PRICE_IMAGE_SPREAD_STATES 1' 'IMAGE_BUCKETS: usize = 1;
/// That of the spread states s.
pub const IMAGE_SPREAD_STATES: usize = 2;' 'IMAGE_BUCKETS: usize = 2;
pub const IMAGE_SPREAD_STATES: usize = 1;'
refused_in_both "save and restore exchanged in both" $rust 'CALL_SAVE 1
#define MICRO_PRICE_CALL_RESTORE 2' 'CALL_SAVE 2
#define MICRO_PRICE_CALL_RESTORE 1' 'CALL_SAVE: u64 = 1;
/// That of one that restores.
pub const CALL_RESTORE: u64 = 2;' 'CALL_SAVE: u64 = 2;
pub const CALL_RESTORE: u64 = 1;'
refused "another default" $header 'MAX_QUOTE_GAP_MS 5000' 'MAX_QUOTE_GAP_MS 60000'
refused "another default in Rust" bindings/rust/src/config.rs 'MAX_QUOTE_GAP_MS: u64 = 5_000' 'MAX_QUOTE_GAP_MS: u64 = 60_000'
refused_in_both "another default in both" bindings/rust/src/config.rs 'MAX_QUOTE_GAP_MS 5000' 'MAX_QUOTE_GAP_MS 60000' \
    'MAX_QUOTE_GAP_MS: u64 = 5_000' 'MAX_QUOTE_GAP_MS: u64 = 60_000'
for number in MAX_SERIES_TERMS FALLBACK_HORIZON_MOVES SERIES_ROUNDS_LIMIT FALLBACK_ROUNDS_LIMIT; do
    another $number
done
refused "26 with another's number" $header 'ROUNDS_OUT_OF_RANGE 26' 'ROUNDS_OUT_OF_RANGE 20'
refused "another status" $header 'STATUS_RARE 1' 'STATUS_RARE 2'
refused "another source" $header 'SOURCE_SPREAD_OUT_OF_RANGE 4' 'SOURCE_SPREAD_OUT_OF_RANGE 5'
refused "a number that nothing has" $header '#define MICRO_PRICE_STATUS_RARE 1' '#define MICRO_PRICE_STATUS_RARE 1
#define MICRO_PRICE_MOST_QUOTES 1000'
refused "an answer that may be dropped" $header 'MICRO_PRICE_MUST_USE
uint64_t micro_price_observe(' 'uint64_t micro_price_observe('

MICRO_PRICE_LIB=$work/less.a
objcopy --localize-symbol=micro_price_save "$archive" "$MICRO_PRICE_LIB"
must_fail "an archive without a function" "$here/run.sh"
MICRO_PRICE_LIB=$work/more.a
cp "$archive" "$MICRO_PRICE_LIB"
echo 'int micro_price_fit(void) { return 0; }' | gcc -x c -c - -o "$work/more.o"
ar r "$MICRO_PRICE_LIB" "$work/more.o"
must_fail "an archive with a function more" "$here/run.sh"
exit $missed
