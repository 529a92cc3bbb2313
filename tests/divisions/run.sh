#!/bin/sh
# Holds the divisions in the code of mirroring and counting, and in the machine code that comes of it, to those that document 02, Q-4,
# leaves; and the mirrors of all states to document 01's.
#   run.sh [TREE]   as ../common/run.sh says
set -eu
name=divisions
# shellcheck source=tests/common/run.sh
. "$(dirname "$0")/../common/run.sh"
cd "$tree/tests/divisions"

python3 sources.py "$tree"
python3 instructions.py "$archive" archive.txt

build tables tables.c
shapes=$("$work/tables") || stop "tables.c fails"
echo "divisions: save, restore, the fit and the model check mirror every state for each of $shapes valid n and s"

./mirror.sh "$tree"
