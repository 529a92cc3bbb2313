# shellcheck shell=sh disable=SC2034,SC2154
# What the scripts can_fail.sh of tests/header, tests/environment, tests/example, tests/lent and tests/divisions share. A script sets
# `name` and `files`, those that its run.sh reads, and sources this. It ends with `exit $missed`.
here=$(cd "$(dirname "$0")" && pwd)
root=$(cd "$here/../.." && pwd)
work=$(mktemp -d)
trap 'rm -rf "$work"' EXIT
archive=${MICRO_PRICE_LIB:-$root/target/staticlib/libmicro_price.a}
export MICRO_PRICE_LIB="$archive"
missed=0

# A copy of the files that run.sh reads, in $work/tree.
copy() {
    rm -rf "$work/tree"
    mkdir -p "$work/tree"
    # shellcheck disable=SC2086
    (cd "$root" && tar cf - --exclude=out $files) | (cd "$work/tree" && tar xf -)
}

# change FILE OLD NEW: replaces OLD, which stands there once, in the copy.
change() {
    "$root/tests/comparison/replace_once.pl" "$work/tree/$1" "$2" "$3"
}

# must_fail WHAT COMMAND..: it must fail and say on standard error why.
must_fail() {
    what=$1
    shift
    if ! "$@" >"$work/said" 2>"$work/errors" && grep -E "^($name:|[<>] )|error:|ERROR:" "$work/errors" >"$work/why"; then
        echo "refused: $what"
        head -n 2 "$work/why" | sed "s|$work/||g; s/^/    /"
    else
        echo "NOT REFUSED: $what"
        missed=1
    fi
}

# refused WHAT FILE OLD NEW: run.sh must fail on a copy with OLD replaced by NEW in FILE.
refused() {
    copy
    change "$2" "$3" "$4"
    must_fail "$1" "$here/run.sh" "$work/tree"
}

# run.sh must pass on a copy without a change.
passes() {
    copy
    "$here/run.sh" "$work/tree" >"$work/said"
}
