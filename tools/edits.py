#!/usr/bin/env python3
"""edits.py [CRATE ..]: whether each must-fail edit still finds the text that it replaces, exactly once; ends 1 where one does not (no rt)."""
import glob, sys

bad = 0
for edit in sorted(glob.glob("crates/*/must-fail/*.edit")):
    crate = edit.split("/")[1]
    if sys.argv[1:] and crate not in sys.argv[1:]: continue
    texts, name, old = {}, None, None
    for l in open(edit).read().split("\n"):
        if l.startswith("file: "):
            name = f"crates/{crate}/{l[6:].strip()}"
            texts.setdefault(name, open(name).read())
        elif l.startswith("old: "):
            old = l[5:]
            found = texts[name].count(old)
            if found != 1:
                print(f"{edit}: {found} times in {name}: {old}")
                bad += 1
        elif l.startswith("new: "):
            texts[name] = texts[name].replace(old, l[5:], 1)
sys.exit(1 if bad else 0)
