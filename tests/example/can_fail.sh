#!/bin/sh
# Shows that run.sh can fail: it must pass on a copy of the files that it reads, and refuse each change below made in such a copy.
set -eu
name=example
files="README.md include examples/c bindings/rust/src/refusal.rs tests/example/expected"
# shellcheck source=tests/common/can_fail.sh
. "$(dirname "$0")/../common/can_fail.sh"

passes
day=examples/c/day.c
helpers=include/micro_price_helpers.h
expected=tests/example/expected
refused "another quote in the morning" $day '{2000, 10125, 10150, 5, 5}' '{2000, 10125, 10150, 2, 1}'
refused "another quote after the restore" $day '{3606000, 10125, 10175, 5, 5}' '{3606000, 10125, 10175, 1, 2}'
refused "a quote that the standby alone is given" $day \
    'observe(&first, afternoon, COUNT_OF(afternoon));' 'observe(&first, afternoon, 1);'
refused "an answer that is dropped" $day 'check(micro_price_save(' '(micro_price_save('
refused "memory that is not freed" $day '    free(site->moved);
' ''
refused "memory that is too short" $day 'room(model_len, sizeof *model)' 'room(model_len - 1, sizeof *model)'
refused "another adjustment expected" $expected \
    '           -6.2500     -9.3750  0.8267' '           -6.2500     -6.2500  0.8267'
refused "another refusal expected" $expected 'off the tick (4)' 'off the tick (3)'
refused "a line less expected" $expected 'both sites hold the same: yes
' ''
refused "another number in the snippet" README.md \
    '{25, 3, 2, 1, 60000}' '{25, 5, 2, 1, 60000}'
refused "a line less in the snippet" README.md 'int64_t move_half_ticks[STATES];
' ''
refused "no snippet" README.md '<!-- from examples/c/day.c -->' ''
refused "another text of a refusal" $helpers 'the series does not converge' 'the series diverges'
refused "a refusal of document 02 without its text" $helpers \
    '    case MICRO_PRICE_ROUNDS_OUT_OF_RANGE: return "the rounds of a fit are out of range";
' ''
refused "a text for a number that is no answer" $helpers 'case 0:' 'case 99: return "no text";
    case 0:'
refused "words with the greatest byte first" $helpers 'image[8 * word + byte - 1]' 'image[8 * word + 8 - byte]'
refused "floats by their value" $helpers 'memcpy(&value, &bits, sizeof value);' 'value = (double)bits;'
refused "helpers that are no C++" $helpers 'uint64_t value = 0;' 'uint64_t value = 0, *none = (void *)0;
    (void)none;'
exit $missed
