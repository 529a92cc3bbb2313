#!/usr/bin/env python3
"""sources.py TREE

Holds the divisions and remainders in the code of the crates that mirror or count to those of LEFT: document 02, Q-4, leaves none
by n there. Comments, contracts and imports of definitions are no code. Prints each fault and ends with status 1 if there is one.
"""
import glob
import os
import re
import sys

# By the tick, to judge 4 and to count ticks; by the total of the sizes, for the bucket; by n in `half_spread_of`, which only the
# signal calls.
LEFT = {
    "quotes": ["% config.tick_size", "/ config.tick_size", "/ (lighter + heavier)"],
    "tally": [],
    "calibrator": [],
    "count_check": [],
    "model_check": ["/ n"],
}


def closing(text, start):
    """The place after the brace that closes the one at `start`."""
    depth = 0
    for place in range(start, len(text)):
        depth += {"{": 1, "}": -1}.get(text[place], 0)
        if depth == 0:
            return place + 1
    sys.exit(f"divisions: a brace that is not closed: {text[start:start + 60]}")


def code_of(text):
    """The text without comments, imports of definitions and contracts."""
    text = re.sub(r"//.*", "", text)
    text = re.sub(r"^ghost use .*;$", "", text, flags=re.M)
    while clause := re.search(r"^ *(?:requires|ensures)[^{\n]*(?=\{)", text, flags=re.M):
        text = text[:clause.start()] + text[closing(text, clause.end()):]
    return text


def divisions_in(code):
    """Each / and % with what it divides by: a name with its fields, or what stands in parentheses."""
    return [re.sub(r"\s+", " ", found[0]) for found in re.finditer(r"[/%]=?\s*(?:[\w.:]+|\([^()]*\)|)", code)]


def faults(tree, crate):
    found = []
    names = sorted(glob.glob(os.path.join(tree, "crates", crate, "src", "**", "*.rt"), recursive=True))
    if not names:
        yield f"no code of {crate}"
    for name in names:
        with open(name) as file:
            found += divisions_in(code_of(file.read()))
    print(f"divisions: {crate}: {', '.join(found) or 'none'}")
    for division in sorted(set(found) | set(LEFT[crate])):
        times, left = found.count(division), LEFT[crate].count(division)
        if times != left:
            yield f"the code of {crate} has {division} {times} times and not {left}"


def main():
    found = [fault for crate in LEFT for fault in faults(sys.argv[1], crate)]
    for fault in found:
        print(f"divisions: {fault}", file=sys.stderr)
    if found:
        sys.exit(1)


if __name__ == "__main__":
    main()
