# shellcheck shell=sh disable=SC2154
# What the scripts run.sh of tests/header, tests/environment, tests/example and tests/divisions share. A script sets `name` and
# sources this. Its argument is [TREE], this repository or a copy of the files that it reads; the archive is the tree's
# target/staticlib/libmicro_price.a, or the one that MICRO_PRICE_LIB names. It has `work` for files of its own, and says on standard
# error what it finds.
here=$(cd "$(dirname "$0")" && pwd)
root=$(cd "$here/../.." && pwd)
tree=$(cd "${1:-$root}" && pwd)
archive=${MICRO_PRICE_LIB:-$tree/target/staticlib/libmicro_price.a}

stop() {
    echo "$name: $*" >&2
    exit 1
}

[ -f "$archive" ] || stop "no archive at $archive: run 'bindings/library.sh', or set MICRO_PRICE_LIB"
archive=$(realpath "$archive")
work=$(mktemp -d)
trap 'rm -rf "$work"' EXIT

# build PROGRAM ARGUMENT..: compiles in C, all warnings errors, and links the archive.
build() {
    built=$1
    shift
    gcc -std=c11 -Wall -Wextra -Werror -pedantic -I "$tree/include" -I "$root/tests/common" "$@" "$archive" -lm -o "$work/$built" ||
        stop "$built does not compile in C"
}

# build_cpp PROGRAM SOURCE OPTION..: the same of one source in C++.
build_cpp() {
    built=$1
    source=$2
    shift 2
    g++ -std=c++11 -Wall -Wextra -Werror -pedantic -I "$tree/include" -I "$root/tests/common" "$@" -x c++ "$source" -x none \
        "$archive" -o "$work/$built" || stop "$built does not compile in C++"
}
