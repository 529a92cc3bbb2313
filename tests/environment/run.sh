#!/bin/sh
# Holds what include/micro_price.h and include/micro_price_env.h say of floats, state and stack against the archive.
#   run.sh [TREE]   as ../common/run.sh says
set -eu
name=environment
# shellcheck source=tests/common/run.sh
. "$(dirname "$0")/../common/run.sh"
cd "$here"

if gcc -U__x86_64__ -fsyntax-only -x c "$tree/include/micro_price_env.h" 2>"$work/said" || ! grep -q '#error' "$work/said"; then
    stop "micro_price_env.h does not refuse another machine"
fi

build fast_math fast_math.c -O2 -ffast-math
build ofast fast_math.c -Ofast
build_cpp in_cpp fast_math.c -O2 -ffast-math
for program in fast_math ofast in_cpp; do
    "$work/$program" || stop "$program: fast_math.c fails"
done
echo "environment: with -ffast-math the check and the fit differ, and inside the pair they are as proved, from C and from C++"

build rounding rounding.c -O2
"$work/rounding" || stop "rounding.c fails"
echo "environment: rounding up a fit differs, with exceptions unmasked the five functions trap; inside the pair they are as proved"

python3 instructions.py "$archive"

# All names are bound before the program starts, so that no call takes stack to bind memcpy or memset.
build stack stack.c -O2 -Wl,-z,now
"$work/stack" >"$work/measured" || stop "stack.c fails"
python3 bounds.py "$tree/include/micro_price.h" <"$work/measured"
