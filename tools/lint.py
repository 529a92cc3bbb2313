#!/usr/bin/env python3
"""lint.py [CRATE ..]: what a glance at proofs and contracts shows, listed; ends 1 where there is any (no rt). Run at the root of the repository.

- a function's proof files, proofs/F/Invariants.antt and Answers.antt, none of which opens with a comment: what the function does, and why the proof goes through;
- a line of .antt of more than 160 characters, imports and `unfolding` lines apart, and a line of .rt of more than 200, imports apart."""
import glob, os, re, sys

ONE_LINE = re.compile(r"(ghost )?use |unfolding ")
found = []
for path in sorted(glob.glob("crates/*/**/*.antt", recursive=True) + glob.glob("crates/*/src/**/*.rt", recursive=True)):
    crate, folder = path.split("/")[1], os.path.dirname(path)
    if "/out/" in path or sys.argv[1:] and crate not in sys.argv[1:]: continue
    most = 200 if path.endswith(".rt") else 160
    found += [f"{path}:{i}: {len(l)} characters" for i, l in enumerate(open(path).read().split("\n"), 1) if len(l) > most and not ONE_LINE.match(l.strip())]
    proofs = [p for p in (f"{folder}/Invariants.antt", f"{folder}/Answers.antt") if os.path.exists(p)]
    if path in proofs[:1] and "/proofs/" in folder and not any(open(p).read().startswith("-- ") for p in proofs):
        found.append(f"{folder}: no head line")
print("\n".join(found), end="\n" if found else "")
sys.exit(1 if found else 0)
