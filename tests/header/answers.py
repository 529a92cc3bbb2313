#!/usr/bin/env python3
"""answers.py HEADER PROMISES

Holds the table of answers that stands before each function in HEADER against the list in PROMISES.md, and both against runs: the
lines of refusals.c on standard input, `FUNCTION ANSWER: MEMORY..`. The runs of a function meet its answers one after another, in
the table's order; each run changes no memory but what its answer's line names, and the runs of an answer together all of it.
Prints each fault and ends with status 1 if there is one.
"""
import itertools
import re
import sys
from pathlib import Path

# No recording is known that gives 19: README.md beside this file says why. It must stand where the fit has it.
NOT_MET = {("micro_price_calibrate", 19): "micro_price_fit_counts"}


class Line:
    """An answer in a table: its number, the reason that stands beside it, and the memory that is written."""

    def __init__(self, number, reason, writes):
        self.number, self.reason, self.writes = number, reason, writes


def lines_of(comment):
    """The lines of the table in a function's comment."""
    found = []
    for line in comment.partition("answer  ")[2].splitlines()[1:]:
        parts = re.fullmatch(r" \*   (\S.*?)  +(\S.*)", line)
        if not parts:
            break
        writes = set() if parts[2] == "nothing" else set(parts[2].split(", "))
        for number, reason in re.findall(r"(\d+)(?: \((.*?)\))?(?:, |$)", parts[1]):
            found.append(Line(int(number), reason, writes))
    return found


def tables_in(header):
    """{function: lines}."""
    pattern = r"/\*((?:(?!\*/).)*)\*/\s*(?:MICRO_PRICE_MUST_USE\s*)?uint64_t (micro_price_\w+)\("
    return {name: lines_of(comment) for comment, name in re.findall(pattern, header, re.S)}


def lists_in(promises):
    """{function: numbers}."""
    rows = re.findall(r"^\| `(micro_price_\w+)` \| ([\d, ]+) \|", promises, re.M)
    return {name: [int(number) for number in numbers.split(", ")] for name, numbers in rows}


def runs_in(lines):
    """{function: [(answer, memory that was changed)]}."""
    found = {}
    for line in lines:
        name, answer, changed = re.fullmatch(r"(\w+) (\d+):(.*)\n", line).groups()
        found.setdefault(name, []).append((int(answer), set(changed.split())))
    return found


def list_faults(name, table, listed):
    numbers = [line.number for line in table]
    if numbers != listed:
        yield f"{name} answers {numbers} in the header and {listed} in PROMISES.md"
    for line in table:
        if numbers.count(line.number) > 1 and not line.reason:
            yield f"{name} has {line.number} twice in the header, once without a reason"


def run_faults(name, table, runs):
    met = [line for line in table if (name, line.number) not in NOT_MET]
    stages = [(number, list(group)) for number, group in itertools.groupby(runs, lambda run: run[0])]
    wanted, seen = [line.number for line in met], [number for number, _ in stages]
    if wanted != seen:
        yield f"{name} answers {wanted} in the header and {seen} when it is run"
        return
    for line, (number, group) in zip(met, stages):
        changed = set().union(*(memory for _, memory in group))
        if changed != line.writes:
            yield f"{name} at {number} writes {sorted(line.writes)} by the header and {sorted(changed)} when it is run"


def around(table, number):
    """The numbers before and after one in a table, and whether what is written is that of the one before; None if it is not there."""
    numbers = [line.number for line in table]
    if number not in numbers:
        return None
    before, line, after = table[numbers.index(number) - 1:numbers.index(number) + 2]
    return before.number, after.number, line.writes == before.writes


def not_met_faults(tables):
    for (name, number), other in NOT_MET.items():
        if around(tables[name], number) != around(tables[other], number):
            yield f"{name} has {number} in another place than {other}, or with other memory"


def main():
    tables = tables_in(Path(sys.argv[1]).read_text())
    lists = lists_in(Path(sys.argv[2]).read_text())
    runs = runs_in(sys.stdin)
    found = [f"{name} has no table in the header" for name in sorted((lists.keys() | runs.keys()) - tables.keys())]
    found += [f"{name} has no list in PROMISES.md" for name in sorted(tables.keys() - lists.keys())]
    found += [f"{name} is not run" for name in sorted(tables.keys() - runs.keys())]
    for name in sorted(tables.keys() & lists.keys() & runs.keys()):
        found += list_faults(name, tables[name], lists[name])
        found += run_faults(name, tables[name], runs[name])
    found += not_met_faults(tables) if not found else []
    for line in found:
        print(f"header: {line}", file=sys.stderr)
    if found or not tables:
        sys.exit(1)
    print(f"header: {sum(map(len, tables.values()))} answers of {len(tables)} functions are those of PROMISES.md and of "
          f"{sum(map(len, runs.values()))} runs, with the memory that they change")


if __name__ == "__main__":
    main()
