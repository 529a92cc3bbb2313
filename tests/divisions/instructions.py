#!/usr/bin/env python3
"""instructions.py ARCHIVE TABLE

Holds the number of div and idiv instructions that each exported function of ARCHIVE can come to (tests/common/archive.py)
against TABLE: a line `FUNCTION NUMBER` for each function; lines that begin with # are left out. Prints each fault and ends with
status 1 if there is one.
"""
import os
import sys

sys.path.insert(0, os.path.join(os.path.dirname(os.path.abspath(__file__)), "../common"))
from archive import instructions_of, mnemonic, reached, read


def is_division(instruction):
    return mnemonic(instruction) in {size + kind for size in ("div", "idiv") for kind in ("", "b", "w", "l", "q")}


def table_in(name):
    with open(name) as file:
        return {function: int(number) for function, number in (line.split() for line in file if line[0] not in "#\n")}


def faults(members, table):
    exported = set().union(*(member.exported for member in members))
    for name in sorted(exported ^ table.keys()):
        yield f"{name} stands in one alone of the archive and the table"
    for function in sorted(exported & table.keys()):
        code = instructions_of(reached(members, function))
        divisions = [(section, text) for _, section, text in code if is_division(text)]
        print(f"divisions: {function}: {len(code)} instructions reached, {len(divisions)} of them divisions")
        if len(divisions) != table[function]:
            places = ", ".join(sorted({section for section, _ in divisions}))
            yield f"{function} reaches {len(divisions)} divisions and not {table[function]}: {places}"


def main():
    found = list(faults(read(sys.argv[1]), table_in(sys.argv[2])))
    for fault in found:
        print(f"divisions: {fault}", file=sys.stderr)
    if found:
        sys.exit(1)


if __name__ == "__main__":
    main()
