#!/usr/bin/env python3
"""Brings the repository's own definitions and lemmas to the spelling of today's Rattle: words in snake case, `′` as `'`.

usage: python3 tools/port_names.py [--dry]      at the top of the repository, once, after /opt/rattle/port/port.py

Types, modules, variants, constants and Rust's names keep their spelling, and so does what the library defines.
A name that would fall together with another is printed, and nothing is written.
It also writes the line `#![tactic(auto)]` into each crate's root file.
"""
import glob
import re
import sys

# Names that would fall together with a field, a word of the library or a lemma.
OTHER = {"toBits": "bits_of", "fallbackWithinMoves": "fallback_within"}
# Lemmas that have their definition's name: file, name.
LEMMAS = {
    "crates/history/proofs/Restored.antt": "same_total",
    "crates/floats/proofs/Within.antt": "add_at",
    "crates/evening_main/proofs/read_input/Proof.antt": "add_at",
    "crates/model_signals/proofs/Checked.antt": "row_fine",
    "crates/image/proofs/Round.antt": "laid_out",
    "crates/history_replay/proofs/Steps.antt": "end_step",
    "crates/history_replay/proofs/Replaying.antt": "end_step",
    "crates/count_check/proofs/Totals.antt": "within_word",
    "crates/abi_fit/proofs/FitWords.antt": "fit_words",
    "crates/abi_fit/proofs/micro_price_fit_counts/Proof.antt": "fit_words",
}

TOKEN = re.compile(r"[^\s(){}\[\];,.\"«»`|:]+")
DEFINED = re.compile(r"^ *(?:(?:abbrev|unfoldable) )?(?:pub )?([^\s(){}:]+) : ", re.M)
OUTSIDE = re.compile(r"^\s*(?:pub )?(?:ghost )?use ((?:Rattle\.std|Rattle\.core|lib|mathlib|denote|borrow|Prim|logic)[^{;]*)(?:\{([^}]*)\})?", re.M)


def snake(part):
    part = part.replace("′", "'")
    if not re.match(r"[a-z]", part) or not re.search(r"[a-z0-9][A-Z]", part):
        return part
    return re.sub(r"(?<=[a-z0-9])([A-Z])", lambda m: "_" + m.group(1).lower(), part).replace("__", "_")


def turned(token):
    if token in OTHER:
        return OTHER[token]
    return "-".join(snake(p) for p in token.split("-"))


def read(p):
    with open(p, encoding="utf-8") as f:
        return f.read()


def files(*patterns):
    found = []
    for p in patterns:
        found += [f for f in glob.glob(p, recursive=True) if "/out/" not in f and "/target/" not in f]
    return sorted(set(found))


def main():
    fix = "crates/floats/specs/Floats.antt"
    text = read(fix).replace("Ieee.toBits", "Ieee.to_bits")  # the library's
    if "--dry" not in sys.argv:
        with open(fix, "w", encoding="utf-8") as f:
            f.write(text)
    antt = files("crates/*/specs/**/*.antt", "crates/*/proofs/**/*.antt")
    rt = files("crates/*/src/**/*.rt")
    for p, name in LEMMAS.items():
        text = read(p)
        out = re.sub(r"(?<![\w.'\-])" + name + r"(?![\w'\-])", name + "_lem", text)
        if "--dry" not in sys.argv:
            with open(p, "w", encoding="utf-8") as f:
                f.write(out)
    outside = set()
    for p in antt + rt:
        for m in OUTSIDE.finditer(read(p)):
            outside |= set(TOKEN.findall(m.group(2) or ""))
    names, seen = {}, set()
    for p in antt + rt:
        text = read(p)
        seen |= {m.group(1) for m in DEFINED.finditer(text)}
        if p.endswith(".rt"):
            text = re.sub(r'"(?:[^"\\]|\\.)*"', '""', text)
        for t in TOKEN.findall(text):
            new = turned(t)
            if new != t and t not in outside:
                names[t] = new
    together = {}
    for old, new in names.items():
        together.setdefault(new, set()).add(old)
    bad = 0
    for new, olds in sorted(together.items()):
        if len(olds) > 1 or new in seen:
            bad += 1
            print("falls together:", " ".join(sorted(olds)), "->", new, "(there is one)" if new in seen else "")
    print(len(names), "names;", "kept from outside:", " ".join(sorted(t for t in outside if turned(t) != t)))
    if bad and "--dry" not in sys.argv:
        raise SystemExit("nothing more was written")
    if "--dry" in sys.argv:
        for old, new in sorted(names.items()):
            print(old, new)
        return
    own = re.compile(r"(?<![\w'′\-◌])(" + "|".join(sorted(map(re.escape, names), key=len, reverse=True)) + r")(?![\w'′◌]|-(?=[\w]))")
    others = files("crates/*/must-fail/*.edit", "docs/**/*.md", "README.md", "tests/**/*.md", "bench/**/*.md", "bindings/**/*.md", "tools/walks.json", "tests/**/*.edit", "tests/**/*.txt")
    for p in antt + rt + others:
        text = read(p)
        if p.endswith((".md", ".json", ".txt")):
            out = own.sub(lambda m: names[m.group(1)], text)
        else:
            def one(m):
                return names.get(m.group(0), m.group(0))
            if p.endswith(".rt"):
                parts = re.split(r'("(?:[^"\\]|\\.)*")', text)
                out = "".join(x if i % 2 else TOKEN.sub(one, x) for i, x in enumerate(parts))
            else:
                out = TOKEN.sub(one, text)
        if out != text:
            with open(p, "w", encoding="utf-8") as f:
                f.write(out)
    for p in files("crates/*/src/lib.rt", "crates/*/src/main.rt"):
        lines = read(p).split("\n")
        if not any(l.startswith("#![tactic(") for l in lines):
            i = 0
            while i < len(lines) and (lines[i].startswith("//") or lines[i] == ""):
                i += 1
            lines[i:i] = ["#![tactic(auto)]", ""]
            with open(p, "w", encoding="utf-8") as f:
                f.write("\n".join(lines))


main()
