#!/bin/sh
# Shows that run.sh can fail: it must pass on a copy of the files that it reads, and refuse each change below made in such a copy, the
# remainder put back among them; instructions.py must refuse each archive below.
set -eu
name=divisions
files="crates.txt crates/basics crates/refusals crates/config crates/quotes crates/tally/src crates/calibrator/src
crates/count_check/src crates/model_check/src include tests/common tests/divisions"
# shellcheck source=tests/common/can_fail.sh
. "$(dirname "$0")/../common/can_fail.sh"
inner=crates/quotes/src/inner.rt
table=tests/divisions/archive.txt

# refused_archive WHAT ARCHIVE TABLE
refused_archive() {
    must_fail "$1" python3 "$here/instructions.py" "$2" "$3"
}

# The mirror by a remainder, as it was before Q-4, in the copy. It is proved without a file of its own.
by_remainder() {
    copy
    change $inner '    let mut first: usize = 0;
    while first + w <= state {
        first += w;
    }
    mirror_in(w, first, state)' '    let bucket = state % w;
    state - bucket + (w - 1 - bucket)'
    rm -r "$work/tree/crates/quotes/proofs/inner/mirror_of"
}

passes
by_remainder
must_fail "a remainder in mirror_of" "$here/run.sh" "$work/tree"
must_fail "a remainder in the machine code of mirror_of" "$work/tree/tests/divisions/mirror.sh"
refused "a remainder in the table of mirrors" crates/count_check/src/lib.rt 'mirror_in(w, level.first, i)' 'mirror_in(w, i - i % w, i)'
refused "a remainder in the model check" crates/model_check/src/inner.rt 'usize, level.first, i)' 'usize, i - i % w, i)'
copy
rm -r "$work/tree/crates/tally"
must_fail "a crate whose code is not there" "$here/run.sh" "$work/tree"
refused "a quotient by a product" $inner '(scaled - 1) / (lighter + heavier)' '(scaled - 1) / ((lighter + heavier) * n) * n'
refused "a division by the tick less" $inner '    price / config.tick_size' '    ticks_of(config, price)'
refused "another rule of mirrors" tests/divisions/mirrors.h '(n - 1 - state % n)' '(n - state % n) % n'
refused "a division more in save" $table 'micro_price_save ' 'micro_price_save 1'
refused "a function that the table has not" $table 'micro_price_new ' '# micro_price_new '

objcopy --redefine-sym micro_price_new=exchanged "$archive" "$work/once.a"
objcopy --redefine-sym micro_price_observe=micro_price_new "$work/once.a" "$work/twice.a"
objcopy --redefine-sym exchanged=micro_price_observe "$work/twice.a" "$work/exchanged.a"
refused_archive "new and observe exchanged" "$work/exchanged.a" "$here/archive.txt"

# memset is a function with a division: all that calls it has a division more.
objcopy --redefine-sym memset=more "$archive" "$work/more.a"
printf '%s\n' 'unsigned long more(unsigned long n, unsigned long k) { return n / k; }' |
    gcc -O1 -ffunction-sections -x c -c - -o "$work/more.o"
ar r "$work/more.a" "$work/more.o" 2>"$work/said"
{ cat "$here/archive.txt" && echo "more 1"; } >"$work/table"
refused_archive "a division in a function that is called" "$work/more.a" "$work/table"
exit $missed
