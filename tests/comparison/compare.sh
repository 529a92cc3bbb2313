#!/bin/sh
# Compares the port with the Rust, from a fresh machine on: proves and writes the port's archive, builds both sides, runs the
# program compare with the arguments given, and ends in 0 only if nothing differs but what docs/DIFFERENCES.md lists.
#   compare.sh          the full run, some minutes
#   compare.sh --quick  about a minute
# MICRO_PRICE_LIB=ARCHIVE compare.sh takes this archive and does not call rt.
set -eu
here=$(cd "$(dirname "$0")" && pwd)
root=$(cd "$here/../.." && pwd)
if [ -z "${MICRO_PRICE_LIB:-}" ]; then
    (cd "$root" && bindings/library.sh)
fi
"$here/build.sh" --port
echo "archive: $(sha256sum <"${MICRO_PRICE_LIB:-$root/target/staticlib/libmicro_price.a}" | cut -d ' ' -f 1)"
exec nice "$root/target/comparison/target/release/compare" "$@"
