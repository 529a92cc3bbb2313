#!/bin/sh
# Builds examples/c/day.c, runs it and compares what it prints with `expected`, which README.md beside it works out by hand. Holds
# include/micro_price_helpers.h against bindings/rust, and the snippet in the repository's README.md against day.c.
#   run.sh [TREE]   as ../common/run.sh says
set -eu
name=example
# shellcheck source=tests/common/run.sh
. "$(dirname "$0")/../common/run.sh"

# prints_expected PROGRAM
prints_expected() {
    "$work/$1" >"$work/$1.out" || stop "$1 ends with status $?"
    diff "$tree/tests/example/expected" "$work/$1.out" >&2 || stop "$1 prints something else than expected"
}

build day "$tree/examples/c/day.c"
build day_sanitized "$tree/examples/c/day.c" -g -fsanitize=address,undefined -fno-sanitize-recover=all
prints_expected day
prints_expected day_sanitized
echo "example: day.c prints what is expected, with sanitizers too"

build in_c "$here/helpers.c"
build_cpp in_cpp "$here/helpers.c"
for program in in_c in_cpp; do
    "$work/$program" >"$work/texts" || stop "$program: check $? of helpers.c fails"
    python3 "$here/texts.py" "$tree/bindings/rust/src/refusal.rs" <"$work/texts"
done
echo "example: the helpers speak as bindings/rust does, from C and from C++"

python3 "$here/snippet.py" "$tree/README.md" "$tree/examples/c/day.c"
echo "example: README.md's snippet stands in day.c"
