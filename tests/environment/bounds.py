#!/usr/bin/env python3
"""bounds.py HEADER

Holds the bytes of stack that stack.c has measured, lines `FUNCTION BYTES` on standard input, against the bounds in HEADER: lines
` *   FUNCTION   BYTES` under the line that has "Stack, in bytes". A bound must be there for each function, at least what was
measured and at most twice that. Prints each fault and ends with status 1 if there is one.
"""
import re
import sys


def bounds_in(header):
    found = {}
    for line in header.partition("Stack, in bytes")[2].splitlines()[1:]:
        bound = re.fullmatch(r" \*   (micro_price_\w+) +(\d+)", line)
        if not bound:
            break
        found[bound[1]] = int(bound[2])
    return found


def faults(measured, bounds):
    for name in sorted(bounds.keys() - measured.keys()):
        yield f"{name} has a stack bound in the header and was not measured"
    for name, used in measured.items():
        if name not in bounds:
            yield f"{name} takes {used} bytes of stack and the header has no bound for it"
        elif used > bounds[name]:
            yield f"{name} takes {used} bytes of stack, more than the header's {bounds[name]}"
        elif 2 * used < bounds[name]:
            yield f"{name} takes {used} bytes of stack, less than half of the header's {bounds[name]}"


def main():
    with open(sys.argv[1]) as file:
        bounds = bounds_in(file.read())
    measured = {name: int(used) for name, used in map(str.split, sys.stdin)}
    for name, used in measured.items():
        print(f"environment: {name}: {used} bytes of stack, in the header {bounds.get(name, 'none')}")
    found = list(faults(measured, bounds))
    for fault in found:
        print(f"environment: {fault}", file=sys.stderr)
    if found or not measured:
        sys.exit(1)


if __name__ == "__main__":
    main()
