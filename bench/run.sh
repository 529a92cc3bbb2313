#!/bin/sh
# Proves and writes the port's archive, builds the original and plain Rust for release, and prints the times side by side.
#   bench/run.sh    the port is target/staticlib/libmicro_price.a, or the archive that MICRO_PRICE_LIB names
set -eu
here=$(cd "$(dirname "$0")" && pwd)
root=$(cd "$here/.." && pwd)
build=$root/target/bench

if [ -z "${MICRO_PRICE_LIB:-}" ]; then
    "$root/bindings/library.sh"
    MICRO_PRICE_LIB=$root/target/staticlib/libmicro_price.a
    export MICRO_PRICE_LIB
fi
"$root/tests/comparison/build.sh"
mkdir -p "$build/.cargo"
cp -pR "$here/Cargo.toml" "$here/src" "$build/"
cp "$root/target/comparison/.cargo/config.toml" "$build/.cargo/config.toml"
cd "$build"
cargo build --quiet --release --offline --jobs 1

# As root the run is preferred to others on the same machine.
if [ "$(id -u)" = 0 ]; then
    exec nice -n -15 target/release/bench
fi
exec target/release/bench
