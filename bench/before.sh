#!/bin/sh
# Prints the times of the archive beside those of an earlier one of the same functions, in one run.
#   bench/before.sh EARLIER    the other is target/staticlib/libmicro_price.a, or the archive that MICRO_PRICE_LIB names
set -eu
here=$(cd "$(dirname "$0")" && pwd)
archive=${MICRO_PRICE_LIB:-$here/../target/staticlib/libmicro_price.a}
work=$(mktemp -d)
trap 'rm -rf "$work"' EXIT

# The functions of the earlier archive under names of their own, and the code of both at addresses of one kind.
nm --defined-only --extern-only "$1" | sed -n 's/^[0-9a-f]* T \(micro_price_.*\)/\1 before_\1/p' >"$work/names"
objcopy --set-section-alignment '.text.*=64' --redefine-syms="$work/names" "$1" "$work/before.a"
objcopy --set-section-alignment '.text.*=64' "$archive" "$work/now.a"
gcc -std=gnu11 -O2 -Wall -Wextra -Werror -I "$here/../include" "$here/before.c" "$work/now.a" "$work/before.a" -o "$work/times"

# As root the run is preferred to others on the same machine.
if [ "$(id -u)" = 0 ]; then
    nice -n -15 "$work/times"
else
    "$work/times"
fi
