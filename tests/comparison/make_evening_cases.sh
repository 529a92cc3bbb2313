#!/bin/sh
# Writes the input and the expected output of the program cases_evening. By document 01 a case named bad_.. prints `bad input` and
# one named refused_K_.. `refused K`; the script stops unless the oracle says so too. The other outputs are what the Rust answers,
# but for the case half_spread_difference: there the Rust judges OutsideQuotes in decimals; by document 01, which judges in floats,
# the fit answers 16 (see README.md).
set -eu
cd "$(dirname "$0")"
./build.sh
build=../../target/comparison
to=../../crates/cases_evening

# text NAME: the text of the case NAME.
text() {
    awk -v name="$1" '
        /^case / { on = ($2 == name); next }
        /^end$/ { on = 0 }
        on { times = $1; sub(/^[0-9]+ /, ""); while (times-- > 0) printf "%s", $0 }
    ' evening_cases.txt | tr '|^~' '\n\r\t'
}

# expected NAME: what the case NAME prints, where the oracle's answer is in the file answer.
expected() {
    case $1 in
    bad_*) echo 'bad input' ;;
    refused_*)
        number=${1#refused_}
        echo "refused ${number%%_*}"
        ;;
    half_spread_difference)
        head -n 5 $build/answer
        echo 'fit 16'
        ;;
    *) cat $build/answer ;;
    esac
}

cp evening_cases.txt $to/stdin
sed -n 's/^case //p' evening_cases.txt | while read -r name; do
    text "$name" >$build/text
    $build/target/release/oracle evening <$build/text >$build/answer
    expected "$name" >$build/expected
    if [ "$name" != half_spread_difference ] && ! cmp -s $build/answer $build/expected; then
        echo "make_evening_cases.sh: the oracle answers otherwise to $name" >&2
        exit 1
    fi
    echo "case $name"
    cat $build/expected
done >$to/stdout
