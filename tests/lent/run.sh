#!/bin/sh
# Runs the calls of day.txt over a lent record (lent.rt.txt) and by value (by_value.rt.txt), and holds what each program prints to
# day.txt.
#   run.sh [TREE]   TREE is this repository, or a copy of it.
set -eu
here=$(cd "$(dirname "$0")" && pwd)
tree=$(cd "${1:-$here/../..}" && pwd)
day=$tree/tests/lent/day.txt
uses="refusals floats config quotes tally calibrator image_words image_layout image fit_rounds fit recording evening history_replay program_text program_lines abi_encoding cases_shared"
work=$(mktemp -d)
trap 'rm -rf "$work"' EXIT

# add NAME: the program becomes a crate of the copy. Its input is the calls without what is printed after them.
add() {
    crate=$work/crates/$1
    mkdir -p "$crate/src"
    cp "$tree/tests/lent/$1.rt.txt" "$crate/src/main.rt"
    cp "$tree/tests/lent/shared.rt.txt" "$crate/src/shared.rt"
    grep '^[#a-z]' "$day" >"$crate/stdin"
    echo "$1: $uses" >>"$work/crates.txt"
}

# differs NAME: says what was found, and after which call the first difference is.
differs() {
    cat "$work/said" >&2
    at=$(LC_ALL=C cmp "$work/printed" "$day" 2>&1 | sed -nE 's/.* (byte|char) ([0-9]+).*/\2/p')
    [ -z "$at" ] || echo "lent: $1 prints something else after: $(head -c "$at" "$day" | grep '^[a-z]' | tail -n 1)" >&2
    exit 1
}

(cd "$tree" && tar cf - crates.txt crates/*/src) | (cd "$work" && tar xf -)
for program in lent by_value; do
    add $program
    (cd "$work/crates/$program" && rt try <stdin) >"$work/printed" 2>"$work/said" || differs $program
    cmp -s "$work/printed" "$day" || differs $program
    echo "lent: $program.rt.txt: $(tail -n 1 "$work/said")"
done
echo "lent: both programs print what day.txt has after each of $(grep -c '^[a-z]' "$day") calls"
