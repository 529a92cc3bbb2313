#!/usr/bin/env python3
"""imports.py [--dry] [FILE ..]: drops the names that a file imports and does not use, and joins imports of one module.

Run at the root of the repository; with no FILE, all of crates/. --dry prints what it would change. It reads text alone: `rt check` says
whether a name was needed after all. `rt tidy` does the same of a proved crate's .antt files, by checks; this one takes `ghost use` of .rt files too."""
import difflib, glob, re, sys

USE = re.compile(r"^((?:ghost )?use )([^\s{]+)\.\{(.*)\}(;?)$")
BEFORE, AFTER = r"(?<![^\s()\[\]{},;.«»‵!])", r"(?![^\s()\[\]{},;.«»])"

def is_used(name, body):
    """The name, or each part of an operator's name, stands in the text by itself."""
    name = name.split(" as ")[-1].strip()
    parts = [p for p in name.split("◌") if p] if "◌" in name else [name.strip("«»")]
    return any(all(re.search(BEFORE + re.escape(p) + AFTER, body) for p in ps) for ps in (parts, [name]))

def cleaned(text):
    lines = text.split("\n")
    body = "\n".join(re.sub(r"(^|\s)(--|//).*$", "", l) for l in lines if not re.match(r"(ghost )?use ", l))
    kept, out = {}, []
    for l in lines:
        m = USE.match(l)
        if not m:
            out.append(l)
            continue
        key = m.group(1), m.group(2), m.group(4)
        if key not in kept:
            kept[key] = []
            out.append(key)
        kept[key] += [n for n in map(str.strip, m.group(3).split(",")) if is_used(n, body) and n not in kept[key]]
    return "\n".join(o if isinstance(o, str) else f"{o[0]}{o[1]}.{{{', '.join(kept[o])}}}{o[2]}" for o in out if isinstance(o, str) or kept[o])

def main():
    files = [a for a in sys.argv[1:] if a != "--dry"] or sorted(f for end in ("antt", "rt") for f in glob.glob(f"crates/**/*.{end}", recursive=True) if "/out/" not in f)
    for f in files:
        old = open(f).read()
        new = cleaned(old)
        if new == old: continue
        if "--dry" in sys.argv: print("\n".join(difflib.unified_diff(old.split("\n"), new.split("\n"), f, f, n=0, lineterm="")))
        else: open(f, "w").write(new)

main()
