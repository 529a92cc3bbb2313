#!/usr/bin/env python3
"""Turns `given`, `final`, `came`, `remains`, `site_came` and `site_remains` of contracts to today's `.now`, `.old` and `.new`.

usage: python3 tools/port_loans.py      at the top of the repository, once, after tools/port_names.py

`given x` is `x.now` of a `&` and `x.old` of a `&mut`, `final x` is `x.new`; a memory that came, or remains, is `memory` at those, a site `site`.
`leaves` takes the three tables as they are at the end.
"""
import glob
import re

LOANS = "stay moved move_half_ticks"


def clauses(text):
    """Where each clause's braces begin and end, with the parameters of its function."""
    for m in re.finditer(r"\bfn (\w+)[^(]*\(", text):
        depth, i = 1, m.end()
        while depth:
            depth += {"(": 1, ")": -1}.get(text[i], 0)
            i += 1
        params = dict(re.findall(r"(\w+): (&mut |&|)", text[m.end():i - 1]))
        if re.match(r"&self|&mut self", text[m.end():].lstrip()):
            params["self"] = "&mut " if text[m.end():].lstrip().startswith("&mut") else "&"
        if text[i:text.index("\n", i)].endswith("{"):
            continue
        end = re.compile(r"\n *\{\n").search(text, i).start()
        for c in re.finditer(r"\n\s+(?:requires|ensures)\*?(?: \w+)? \{", text[i:end + 1]):
            a = b = i + c.end()
            depth = 1
            while depth:
                depth += {"{": 1, "}": -1}.get(text[b], 0)
                b += 1
            yield a, b - 1, params


def turn(clause, params):
    def before(x):
        return x + {"&mut ": ".old", "&": ".now"}[params[x]]

    clause = re.sub(r"\((given|final) (\w+)\)", r"\1 \2", clause)
    clause = re.sub(r"\bgiven (\w+)", lambda m: before(m.group(1)), clause)
    clause = re.sub(r"\bfinal (\w+)", r"\1.new", clause)
    record = r"(\w+(?:\.\w+)*)"

    def tables(m, when):
        names = m.group(0).split()[2:]
        word = {"came": "memory", "remains": "memory", "site_came": "site", "site_remains": "site"}[m.group(1)]
        return " ".join([word, m.group(2)] + [before(x) if when == "before" else x + ".new" for x in names])

    clause = re.sub(r"\b(site_came) " + record + " " + LOANS + " room", lambda m: tables(m, "before"), clause)
    clause = re.sub(r"\b(site_remains) " + record + " " + LOANS + " room", lambda m: tables(m, "after"), clause)
    clause = re.sub(r"\b(came) " + record + " " + LOANS, lambda m: tables(m, "before"), clause)
    clause = re.sub(r"\b(remains) " + record + " " + LOANS, lambda m: tables(m, "after"), clause)
    return re.sub(r"\bleaves (\w+(?:\.\w+)*) (\w+(?:\.\w+)*) " + LOANS, lambda m: f"leaves {m.group(1)} {m.group(2)} " + " ".join(x + ".new" for x in LOANS.split()), clause)


for p in sorted(glob.glob("crates/*/src/**/*.rt", recursive=True)):
    with open(p, encoding="utf-8") as f:
        text = f.read()
    out, at = "", 0
    for a, b, params in clauses(text):
        out += text[at:a] + turn(text[a:b], params)
        at = b
    out += text[at:]
    imports = {"came": "memory", "remains": "memory", "site_came": "site", "site_remains": "site"}

    def line(m):
        names = []
        for n in m.group(2).split(", "):
            n = imports.get(n, n)
            if n not in names:
                names.append(n)
        return m.group(1) + "{" + ", ".join(names) + "}"

    out = re.sub(r"(ghost use Rattle\.(?:calibrator\.specs\.Record|history_replay\.specs\.Replay)\.)\{([^}]*)\}", line, out)
    out = re.sub(r"ghost use Rattle\.basics\.specs\.Loan\.\{[^}]*\};\n", "", out)
    if out != text:
        with open(p, "w", encoding="utf-8") as f:
            f.write(out)

SPECS = {
    "crates/basics/specs/Lib.antt": [("pub mod Loan\n", "")],
    "crates/calibrator/specs/Record.antt": [
        ("use Rattle.basics.specs.Loan.{Loan, given, final}\n", ""),
        ("""-- ---- contracts speak of lent tables by these: the memory that came, the memory that remains, and what an operation leaves

abbrev pub came : Record → Loan (List ℕ) → Loan (List ℕ) → Loan (List ℤ) → Memory Previous
came r s m t = memory r (given s) (given m) (given t)

abbrev pub remains : Record → Loan (List ℕ) → Loan (List ℕ) → Loan (List ℤ) → Memory Previous
remains r s m t = memory r (final s) (final m) (final t)

abbrev pub leaves : Check → Record → Loan (List ℕ) → Loan (List ℕ) → Loan (List ℤ) → Outcome Previous
leaves k r s m t = record { answer = k; left = remains r s m t }
""", """-- what an operation leaves: its answer, and the record and the tables as they are then
abbrev pub leaves : Check → Record → List ℕ → List ℕ → List ℤ → Outcome Previous
leaves k r s m t = record { answer = k; left = memory r s m t }
"""),
    ],
    "crates/history_replay/specs/Replay.antt": [
        ("use Rattle.basics.specs.Loan.{Loan, given, final}\n", ""),
        ("Record.{memory, came, remains}", "Record.{memory}"),
        ("""-- as `came` and `remains` of a calibrator (calibrator, specs/Record.antt)
abbrev pub site_came : Record → Loan (List ℕ) → Loan (List ℕ) → Loan (List ℤ) → Loan (List ℕ) → Site
site_came r s m t room = record { memory = came r s m t; room = given room }

abbrev pub site_remains : Record → Loan (List ℕ) → Loan (List ℕ) → Loan (List ℤ) → Loan (List ℕ) → Site
site_remains r s m t room = record { memory = remains r s m t; room = final room }

""", ""),
    ],
}
for p, changes in SPECS.items():
    with open(p, encoding="utf-8") as f:
        text = f.read()
    for old, new in changes:
        if old not in text:
            raise SystemExit(p + ": not there: " + old)
        text = text.replace(old, new)
    with open(p, "w", encoding="utf-8") as f:
        f.write(text)
