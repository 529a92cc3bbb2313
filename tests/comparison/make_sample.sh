#!/bin/sh
# Writes sample_words.txt and sample.expected: a fixed sample of the Rust's answers over every operation, and after it the cases
# of fit_cases.txt. They are the input and the expected output of the program cases_sample. But for one line the port must answer
# as the Rust does: in the case half_spread_difference the Rust judges OutsideQuotes in decimals; by document 01, which judges in
# floats, the answer is 16 (see README.md).
#
# sample_words.txt has a case a line: decimal words of at most 19 digits without leading zeros, single spaces between them, one
# newline after each line. sample.expected has the answer to each case in the line of the same number, in the same form but with
# words of up to 20 digits. The first word of a case is its operation.
#
# Parts of a line:
#   CONFIG   tick n s least gap
#   QUOTES   how many, then for each: time bid ask bid_size ask_size
#   RECORD   ten words: 1 and the last quote, or six zeros; then pairs, spread skips, gap skips, largest change
#   ENTRIES  how many, then for each: kind i j v. Kind 0 is cell (i, j) of stay, 1 of moved, 2 the total of state i (j is 0),
#            3 the same with a minus sign; v is not 0. Stay comes first, by i and then j, then moved, then totals by i. All
#            other cells and totals are 0.
#   MODEL    how many rows, then for each ten words: bucket, spread, observations, then of first adjustment, adjustment and
#            share the upper and the lower 32 bits of the float, then status
#   TABLE    a fitted model: for each of the N states seven words, of each float its 64 bits as one word
#
# Cases and their answers:
#   1 CONFIG                        0 or 1
#   2 CONFIG QUOTES                 a new calibrator and its quotes: the answer to each quote, then RECORD ENTRIES
#   3 CONFIG RECORD ENTRIES QUOTES  the image with this content restored, and then quotes: 1, 8, 9, 10 or 11 alone; or 0, the
#                                   answer to each quote, then RECORD ENTRIES
#   4 CONFIG pairs ENTRIES          a fit, with no last quote and no skips: 1, 9, 10, 11, 16, 17, 18 or 19 alone; or 0 TABLE
#   5 CONFIG MODEL                  a model check: 0, 1 or 7; or 13 and the row
#   6 CONFIG MODEL QUOTES           signals: for each quote 3 or 4; or 0, time, bid + ask, the 64 bits of the adjustment, source
#   7 start end QUOTES              a window: 14 or 15 alone; or 0, first, past
#   8 CONFIG start end QUOTES       an evening: 1, 14 or 15 alone; or 0, 16, 17 or 18, then invalid quotes RECORD ENTRIES, and
#                                   after 0 TABLE
#   9 tick n s                      a configuration made from these alone: CONFIG. The Rust's constructor is asked with the gap
#                                   set to 5,000, which is document 02's default and not the Rust's
#
# Where the answer is 1, n × s is at most 27 in cases 3, 4 and 8, and the image of case 3 is as long as that of a valid n and s.
# No case has over 27 states but the last of the sample, a fit of 255. Most in a case: 2,200 words, 350 quotes, 600 entries, 15 rows.
set -eu
cd "$(dirname "$0")"
./build.sh
oracle=../../target/comparison/target/release/oracle
to=../../crates/cases_sample
"$oracle" sample 1 >sample_words.txt
difference=$(($(wc -l <sample_words.txt) + $(sed -n '/^half_spread_difference:/=' fit_cases_words.txt)))
sed 's/^[^ ]*:/4/' fit_cases_words.txt >>sample_words.txt
sed "${difference}d" sample_words.txt | "$oracle" answers | sed "$((difference - 1))a 16" >sample.expected
cp sample_words.txt $to/stdin
cp sample.expected $to/stdout
