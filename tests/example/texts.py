#!/usr/bin/env python3
"""texts.py REFUSAL_RS

Reads lines of a number and its text, as helpers.c prints them, and holds those of REFUSALS against REFUSAL_RS, which has the texts
of bindings/rust. 0, 100 and 101 must have texts of their own, and all other numbers one text that no answer has. Prints each
mismatch and ends with status 1 if there is one.
"""
import re
import sys
from pathlib import Path

REFUSALS = [*range(1, 20), 26]
OWN = [0, 100, 101]


def of_rust(source):
    """{number: text}; the text of 13 speaks of a row without its index."""
    numbers = {name: int(number) for name, number in re.findall(r"Self::(\w+)(?:\(_\))? => (\d+),", source)}
    texts = dict(re.findall(r'Self::(\w+) => "(.*?)",', source))
    row = re.search(r'Self::(ModelRow)\(row\) => return write!\(f, "row {row} (.*?) \(13\)"\)', source)
    texts[row[1]] = "a row " + row[2]
    return {numbers[name]: text for name, text in texts.items()}


def mismatches(printed, rust):
    if sorted(rust) != REFUSALS:
        yield f"bindings/rust has texts for {sorted(rust)}"
    for number, text in rust.items():
        if printed.get(number) != text:
            yield f"{number} is '{printed.get(number)}' and '{text}' in bindings/rust"
    answers = [printed[number] for number in [*rust, *OWN]]
    for number in OWN:
        if answers.count(printed[number]) != 1:
            yield f"the text of {number} is another answer's too"
    others = {text for number, text in printed.items() if number not in rust and number not in OWN}
    if len(others) != 1 or others & set(answers):
        yield f"numbers that are no answer have the texts {sorted(others)}"


def main():
    printed = {int(number): text for number, text in (line.rstrip("\n").split(" ", 1) for line in sys.stdin)}
    found = list(mismatches(printed, of_rust(Path(sys.argv[1]).read_text())))
    for line in found:
        print(f"example: message {line}", file=sys.stderr)
    sys.exit(1 if found else 0)


if __name__ == "__main__":
    main()
