#!/bin/sh
# Writes fit_cases.expected and fit_cases_words.txt from fit_cases.txt, after a check that the cases that come from quotes or
# from random numbers are what the oracle makes of them.
set -eu
cd "$(dirname "$0")"
./build.sh
build=../../target/comparison
oracle=$build/target/release/oracle

# same NAME: standard input is the case NAME of fit_cases.txt.
same() {
    cat >$build/made
    sed -n "/^case $1\$/,/^end\$/p" fit_cases.txt | cmp -s - $build/made ||
        { echo "make_fit_cases.sh: case $1 is not what the oracle makes" >&2; exit 1; }
}

# quotes NAME QUOTE...: the case NAME holds the tables of these quotes.
quotes() {
    name=$1
    shift
    { echo '1 3 2 1 1000 0 0'; printf '%s\n' "$@"; } | "$oracle" tables "$name" | same "$name"
}

quotes run_not_converged '0 100 101 9 1' '1 101 102 9 1'
quotes run_outside_quotes '0 100 101 9 1' '1 101 102 5 5'
quotes worked_example '0 100 101 9 1' '1 100 102 5 5'
quotes two_rounds '0 100 101 1 9' '1 100 102 1 9' '2 101 103 5 5'
quotes half_spread_difference '0 100 101 1 9' '1 100 101 1 9' '2 100 101 1 9' '3 100 101 1 9' '4 100 101 1 9' '5 99 101 5 5'
"$oracle" tables fallback_adjustment <evening_fallback_adjustment.txt | same fallback_adjustment

# A random case is named random_NxS_SEED.
awk '/^case random_/ { name = $2; getline; print name, $2, $3, $4, $5 }' fit_cases.txt |
    while read -r name tick buckets spreads least; do
        "$oracle" random "$name" "${name##*_}" "$tick" "$buckets" "$spreads" "$least" </dev/null | same "$name"
    done

"$oracle" fit <fit_cases.txt >fit_cases.expected
"$oracle" words <fit_cases.txt >fit_cases_words.txt
