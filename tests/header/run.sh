#!/bin/sh
# Holds include/micro_price.h against the code, docs/PROMISES.md and the archive, and calls each function through it.
#   run.sh [TREE]   as ../common/run.sh says
set -eu
name=header
# shellcheck source=tests/common/run.sh
. "$(dirname "$0")/../common/run.sh"
cd "$here"

python3 signatures.py "$tree" "$archive"

build in_c header.c
build_cpp in_cpp header.c
for program in in_c in_cpp; do
    "$work/$program" || stop "$program: check $? of header.c fails"
done
echo "header: each function answers as document 01 says, from C and from C++"

build sizes sizes.c
shapes=$("$work/sizes") || stop "sizes.c fails"
echo "header: the sizes are those of the functions for each of $shapes valid n and s"

build refusals refusals.c refusals_counts.c refusals_models.c refusals_batch.c lent.c
"$work/refusals" >"$work/runs" || stop "refusals.c fails"
python3 answers.py "$tree/include/micro_price.h" "$tree/docs/PROMISES.md" <"$work/runs"

# warned LANGUAGE: the functions of dropped.c that the compiler warns of.
warned() {
    LC_ALL=C gcc -x "$1" -Wall -Wextra -I "$tree/include" -c dropped.c -o "$work/dropped.o" 2>"$work/warnings" ||
        stop "dropped.c does not compile"
    sed -n "s/.*ignoring return value of '[^']*\(micro_price_[a-z_]*\).*/\1/p" "$work/warnings" | sort
}

sed -n 's/^uint64_t \(micro_price_[a-z_]*\)(.*/\1/p' "$tree/include/micro_price.h" | sort >"$work/declared"
for language in c c++; do
    warned $language >"$work/warned"
    diff "$work/declared" "$work/warned" >&2 || stop "an answer that is dropped draws no warning ($language)"
done
echo "header: the compiler warns of each answer that is dropped, in C and in C++"
