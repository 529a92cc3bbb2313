#!/bin/sh
# Builds the Rust side of the comparison in target/comparison: the original, the copy that records its floats, and the driver.
#   build.sh                        the program is target/comparison/target/release/oracle
#   build.sh --port                 the program compare too, with the port from the archive that MICRO_PRICE_LIB names, or else
#                                   from target/staticlib/libmicro_price.a
#   build.sh [--port] --instead FILE FOLDER
#                                   the same with FILE instead of the original micro_price.rs, in FOLDER (for mutants.sh and
#                                   faults.sh)
set -eu
here=$(cd "$(dirname "$0")" && pwd)
root=$(cd "$here/../.." && pwd)
source=$here/original/micro_price.rs
build=$root/target/comparison
features=
if [ "${1:-}" = --port ]; then
    features="--features port"
    shift
fi
if [ "${1:-}" = --instead ]; then
    source=$2
    build=$3
fi
registry=/usr/share/cargo/registry
packages="librust-rust-decimal-dev librust-thiserror-dev librust-serde-dev librust-serde-derive-dev librust-serde-json-dev"

stop() {
    echo "build.sh: $*" >&2
    exit 1
}

if [ -n "$features" ]; then
    MICRO_PRICE_LIB=$(realpath -m "${MICRO_PRICE_LIB:-$root/target/staticlib/libmicro_price.a}")
    export MICRO_PRICE_LIB
    [ -f "$MICRO_PRICE_LIB" ] || stop "no archive $MICRO_PRICE_LIB; bindings/library.sh writes it"
fi

# Rust 1.95 or newer, with cargo.
version=$(rustc --version 2>/dev/null | cut -d ' ' -f 2) || true
[ -n "$version" ] || stop "no rustc here; it needs Rust 1.95 or newer"
command -v cargo >/dev/null || stop "no cargo here; it needs Rust 1.95 or newer with cargo"
[ "$(printf '%s\n' 1.95 "$version" | sort -V | head -n 1)" = 1.95 ] ||
    stop "rustc is $version; it needs Rust 1.95 or newer"

# The crates come from Debian's packages and not from crates.io.
missing=
for package in $packages; do
    dpkg-query -W -f '${Status}' "$package" 2>/dev/null | grep -q 'ok installed' || missing="$missing $package"
done
if [ -n "$missing" ]; then
    command -v apt-get >/dev/null || stop "no apt-get here; it needs the Debian packages$missing"
    [ "$(id -u)" = 0 ] || stop "run it as root once, or install the Debian packages$missing"
    export DEBIAN_FRONTEND=noninteractive
    # shellcheck disable=SC2086
    apt-get install -y --no-install-recommends $missing ||
        { apt-get update && apt-get install -y --no-install-recommends $missing; } ||
        stop "apt-get could not install$missing"
fi

# The originals are the published files.
(cd "$here/original" && sha256sum --check --quiet) <<'SUMS' || stop "original/ is not as published"
dc2ab612a774e46b44695b5f84075570ac427d9b076565217eaa733acf9dbee0  micro_price.rs
6c1c9dc2cbaa964404f38053068ef0ac2195414c8a99e5e029fdc287046ff4c0  walk_forward.rs
c06c95c99b05f0b33e7523eb3351c218a7bb82b1af5b386460f1ea40cc2b12ab  decimal.rs
cf714a0462878134d0d00891f155982623cb6b3a8d8a27a4e122bc11ee4ad7ed  error.rs
e39769f967a17b7e0be3b1e34718e8bee7f989c57cc844464e40e58fb814a457  LICENSE.txt
SUMS

# put FILE: standard input becomes FILE; an equal file keeps its time, so that cargo does not build it again.
put() {
    mkdir -p "$(dirname "$1")"
    cat >"$1.new"
    if cmp -s "$1.new" "$1"; then rm "$1.new"; else mv "$1.new" "$1"; fi
}

# lift START: the item of walk_forward.rs whose first line begins with START, which must be one.
lift() {
    awk -v start="$1" '
        index($0, start) == 1 { on = 1; seen++ }
        on { print }
        on && /^}|^[^ ].*;$/ { on = 0 }
        END { exit seen != 1 }' "$here/original/walk_forward.rs" || stop "walk_forward.rs does not have once: $1"
}

lifted() {
    echo 'use crate::types::error::{MMError, MMResult};'
    echo 'use serde::{Deserialize, Serialize};'
    lift '/// Half-open time interval `[start_ms, end_ms)`.'
    lift 'impl TimeWindow {'
    lift 'pub(crate) const FNV_OFFSET: '
    lift 'const FNV_PRIME: '
    lift 'pub(crate) fn fnv('
}

# crate NAME FILE: a crate around FILE as its micro_price.rs.
crate() {
    put "$build/$1/Cargo.toml" <<TOML
[package]
name = "$1"
version = "0.0.0"
edition = "2024"

[features]
default = ["serde"]
serde = []
options = []

[dependencies]
rust_decimal = "1"
serde = { version = "1", features = ["derive"] }
thiserror = "1"
TOML
    put "$build/$1/src/lib.rs" <"$here/skeleton/lib.rs"
    put "$build/$1/src/types/action.rs" <"$here/skeleton/action.rs"
    put "$build/$1/src/types/decimal.rs" <"$here/original/decimal.rs"
    put "$build/$1/src/types/error.rs" <"$here/original/error.rs"
    put "$build/$1/src/strategy/walk_forward.rs" <"$build/walk_forward.rs"
    put "$build/$1/src/analytics/micro_price.rs" <"$2"
}

mkdir -p "$build"
lifted >"$build/walk_forward.rs"
crate market_maker_rs "$source"

# The copy that records each float that reaches `decimal_or_none`.
cp "$source" "$build/recorded.rs"
"$here/replace_once.pl" "$build/recorded.rs" \
    'fn decimal_or_none(value: f64) -> Option<Decimal> {
' 'fn decimal_or_none(value: f64) -> Option<Decimal> {
    RECORDED.with_borrow_mut(|floats| floats.push(value));
'
"$here/replace_once.pl" "$build/recorded.rs" \
    'use rust_decimal::prelude::{FromPrimitive, ToPrimitive};
' 'use rust_decimal::prelude::{FromPrimitive, ToPrimitive};

thread_local! {
    static RECORDED: std::cell::RefCell<Vec<f64>> = const { std::cell::RefCell::new(Vec::new()) };
}

/// The floats that reached `decimal_or_none` on this thread since the last call.
pub fn take_recorded() -> Vec<f64> {
    RECORDED.take()
}
'
crate recorded "$build/recorded.rs"

rm -rf "$build/driver" "$build/micro_price"
cp -pR "$here/driver" "$build/driver"
cp -p "$here/fit_cases.txt" "$build/fit_cases.txt"
cp -pR "$root/bindings/rust" "$build/micro_price"
put "$build/Cargo.toml" <<'TOML'
[workspace]
resolver = "3"
members = ["market_maker_rs", "recorded", "driver"]
exclude = ["micro_price"]
TOML
put "$build/.cargo/config.toml" <<TOML
[source.crates-io]
replace-with = "debian"

[source.debian]
directory = "$registry"
TOML

cd "$build"
# shellcheck disable=SC2086
cargo build --quiet --release --offline --jobs 1 --package driver $features
