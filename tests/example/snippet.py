#!/usr/bin/env python3
"""snippet.py README PROGRAM

Holds the code block after each line `<!-- from examples/c/day.c -->` of README against PROGRAM: its lines must stand there one
after another, by whatever the whole block is indented. Prints a mismatch and ends with status 1 if there is one.
"""
import sys
import textwrap
from pathlib import Path

MARK = "<!-- from examples/c/day.c -->"


def block(lines):
    """The code block that lines begin with, between fences or indented by four places."""
    lines = lines[next((place for place, line in enumerate(lines) if line), len(lines)):]
    if lines and lines[0].startswith("```"):
        return lines[1:lines.index("```", 1)] if "```" in lines[1:] else []
    inside = []
    for line in lines:
        if line and not line.startswith("    "):
            break
        inside.append(line)
    while inside and not inside[-1]:
        inside.pop()
    return inside


def dedented(lines):
    return textwrap.dedent("\n".join(lines))


def stands_in(snippet, program):
    wanted = dedented(snippet)
    return any(dedented(program[place:place + len(snippet)]) == wanted for place in range(len(program)))


def main():
    readme, program = (Path(name).read_text().splitlines() for name in sys.argv[1:3])
    snippets = [block(readme[place + 1:]) for place, line in enumerate(readme) if line == MARK]
    if not snippets or not all(snippets):
        sys.exit(f"example: {sys.argv[1]} has no code block after a line {MARK}")
    for snippet in snippets:
        if not stands_in(snippet, program):
            sys.exit(f"example: this snippet of {sys.argv[1]} does not stand in {sys.argv[2]}:\n" + "\n".join(snippet))


if __name__ == "__main__":
    main()
