#!/usr/bin/env python3
"""run.py [PROGRAM]

Runs the evening program, crates/evening_main/out/evening_main or PROGRAM, as a desk would: on standard input, through a pipe. Gives it each text of
tests/comparison/evening_cases.txt, whose form tests/comparison/README.md describes, and holds what it prints to what
crates/cases_evening/stdout has for that case. Then input that comes a byte at a time, input far longer than any text, an input without
end, and a standard input that cannot be read. Prints each mismatch and ends with status 1 if there is one.
"""
import subprocess
import sys
from pathlib import Path

ROOT = Path(__file__).resolve().parents[2]
MEANT = str.maketrans({"|": "\n", "^": "\r", "~": "\t"})
BAD = b"bad input\n"


def texts():
    """The name and the bytes of each case."""
    name, text = None, ""
    for line in (ROOT / "tests/comparison/evening_cases.txt").read_text().splitlines():
        if line.startswith("case "):
            name, text = line[5:], ""
        elif line == "end":
            yield name, text.encode()
        elif line:
            times, what = line.split(" ", 1)
            text += what.translate(MEANT) * int(times)


def expected():
    """What is to be printed for each case."""
    found, name = {}, None
    for line in (ROOT / "crates/cases_evening/stdout").read_text().splitlines(keepends=True):
        if line.startswith("case "):
            name = line[5:].rstrip("\n")
            found[name] = b""
        else:
            found[name] += line.encode()
    return found


def printed(program, text):
    ran = subprocess.run([program], input=text, capture_output=True, timeout=60)
    return ran.stdout if ran.returncode == 0 and not ran.stderr else ran.stderr


def printed_slowly(program, text):
    """The same, with a byte written at a time."""
    with subprocess.Popen([program], stdin=subprocess.PIPE, stdout=subprocess.PIPE, bufsize=0) as ran:
        for byte in text:
            ran.stdin.write(bytes([byte]))
        ran.stdin.close()
        return ran.stdout.read()


def printed_endless(program):
    """The same, of an input that does not end: the program stops reading once the text is too long."""
    with subprocess.Popen(["yes", "1 3 2 1 1000 0 10"], stdout=subprocess.PIPE) as endless:
        ran = subprocess.run([program], stdin=endless.stdout, capture_output=True, timeout=60)
        endless.stdout.close()
    return ran.stdout


def said_unread(program):
    """What it prints, what it says on standard error and how it ends, where standard input is closed."""
    ran = subprocess.run(["sh", "-c", 'exec "$0" <&-', program], capture_output=True, timeout=60)
    return ran.stdout, ran.stderr, ran.returncode


def main():
    program = sys.argv[1] if len(sys.argv) > 1 else str(ROOT / "crates/evening_main/out/evening_main")
    wanted, cases = expected(), dict(texts())
    missed = [f"{name}: no such case" for name in sorted(wanted.keys() ^ cases.keys())]
    for name, text in cases.items():
        if printed(program, text) != wanted.get(name):
            missed.append(f"{name}: prints something else")
    others = {
        "a byte at a time": (printed_slowly(program, cases["example"]), wanted["example"]),
        "ten million bytes": (printed(program, b"1 " * 5_000_000), BAD),
        "an input without end": (printed_endless(program), BAD),
        "a closed input": (said_unread(program), (b"", b"evening_main: cannot read standard input\n", 0)),
    }
    missed += [f"{what}: prints something else" for what, (got, want) in others.items() if got != want]
    for line in missed:
        print(f"evening: {line}", file=sys.stderr)
    if missed or not cases:
        sys.exit(1)
    print(f"evening: {len(cases)} texts and {len(others)} other inputs are answered as they should be")


if __name__ == "__main__":
    main()
