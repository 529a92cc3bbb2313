#!/bin/sh
# Runs every test that the gate does not run, one after another, and prints how long each took.
#   tests/run.sh            all
#   tests/run.sh NAME...    these, by the names at the end of this file, after the library and the evening program
# What a test prints is in target/tests/NAME. The last line says how many passed; the exit status is 0 if all did. It needs rt,
# Rust 1.95 or newer and Debian, whose packages it installs with apt-get, as root, where they are missing.
set -u
cd "$(dirname "$0")/.." || exit 1
logs=target/tests
chosen=" $* "
known=" library evening_main "
passed=0
failed=0
mkdir -p "$logs"
unset MICRO_PRICE_LIB

missing=
for tool in gcc g++ python3 perl; do
    command -v "$tool" >/dev/null || missing="$missing $tool"
done
if [ -n "$missing" ]; then
    # shellcheck disable=SC2086
    { apt-get update && DEBIAN_FRONTEND=noninteractive apt-get install -y --no-install-recommends $missing; } >"$logs/packages" 2>&1 ||
        { echo "could not install$missing: $logs/packages" && exit 1; }
fi

# test_of NAME COMMAND...: runs it, unless other tests were chosen.
test_of() {
    known="$known$1 "
    case "$chosen" in "  " | *" $1 "*) run "$@" ;; esac
}

# run NAME COMMAND...
run() {
    name=$1
    shift
    began=$(date +%s)
    if "$@" >"$logs/$name" 2>&1; then
        passed=$((passed + 1))
        answer=passed
    else
        failed=$((failed + 1))
        answer="FAILED, see $logs/$name"
    fi
    printf '%-22s %5d s  %s\n' "$name" $(($(date +%s) - began)) "$answer"
}

# Proves the evening program, leaves it in out/, and runs it on its example.
evening_main() (
    cd crates/evening_main && rt run <stdin | cmp - stdout
)

bindings() (
    cd bindings/rust && cargo test --offline && cargo run --offline --example day
)

# The Rust's own functions print what cases_linear must print.
linear_bits() {
    rustc -O -o "$logs/linear_bits.bin" tests/linear_bits/linear_bits.rs && "$logs/linear_bits.bin" | cmp - crates/cases_linear/stdout
}

run library bindings/library.sh
run evening_main evening_main
test_of header tests/header/run.sh
test_of header_can_fail tests/header/can_fail.sh
test_of environment tests/environment/run.sh
test_of environment_can_fail tests/environment/can_fail.sh
test_of example tests/example/run.sh
test_of example_can_fail tests/example/can_fail.sh
test_of divisions tests/divisions/run.sh
test_of divisions_can_fail tests/divisions/can_fail.sh
test_of bindings bindings
test_of evening python3 tests/evening/run.py
test_of lent tests/lent/run.sh
test_of lent_can_fail tests/lent/can_fail.sh
test_of linear_bits linear_bits
test_of comparison tests/comparison/compare.sh
test_of faults tests/comparison/faults.sh
for name in "$@"; do
    case "$known" in *" $name "*) ;; *) failed=$((failed + 1)) && echo "no test is named $name" ;; esac
done
echo "$passed passed, $failed failed"
[ "$failed" = 0 ]
