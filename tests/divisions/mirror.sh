#!/bin/sh
# Proves and compiles quotes::mirror, which no exported function calls, and holds its machine code and its answers to document 02, Q-4.
#   mirror.sh [TREE]   TREE is this repository, or a copy of the files that are read
set -eu
here=$(cd "$(dirname "$0")" && pwd)
tree=$(cd "${1:-$here/../..}" && pwd)
work=$(mktemp -d)
trap 'rm -rf "$work"' EXIT
below="basics refusals config quotes"

# shellcheck disable=SC2086
(cd "$tree/crates" && tar cf - --exclude=out $below) | (mkdir "$work/crates" && cd "$work/crates" && tar xf -)
mkdir -p "$work/crates/mirror_number/src"
cp "$here/mirror_number.rt.txt" "$work/crates/mirror_number/src/lib.rt"
for crate in $below; do
    grep "^$crate:" "$tree/crates.txt"
done >"$work/crates.txt"
echo "mirror_number staticlib: config quotes" >>"$work/crates.txt"
(cd "$work/crates/mirror_number" && rt lib --cpu x86-64) >"$work/said" 2>&1 || { cat "$work/said" >&2 && exit 1; }
archive=$work/crates/mirror_number/out/libmirror_number.a

echo "mirror_number 0" >"$work/table"
python3 "$here/instructions.py" "$archive" "$work/table"
gcc -std=c11 -Wall -Wextra -Werror -pedantic "$here/direct.c" "$archive" -o "$work/direct"
shapes=$("$work/direct")
echo "divisions: quotes::mirror has no division and mirrors every state for each of $shapes valid n and s"
