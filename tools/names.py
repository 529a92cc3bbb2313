#!/usr/bin/env python3
"""names.py: the names of definitions. Run at the root of the repository; it does not need rt. It prints, and ends 1 if it prints anything:

- a name that two files of specs/ define: a definition, a record, a data type or one of its cases; a struct or an enum of a crate's code counts too;
- a file of specs/ or the contract of a function that is not inner that takes a name from an `Inner`, so that a reader would have to believe what stands
  there, other than those of RESTS;
- a definition outside of `Inner` that nothing believed needs: no contract of a function that is not inner, no theorem named in docs/PROMISES.md."""
import glob, re, sys

# What rests on an Inner and is believed by a theorem: the reader's walk, by text-read and read-text.
RESTS = {"crates/program_text/specs/Reading.antt"}
# Functions that are not operations, and whose promises PROMISES.md has.
ALSO = {("program_report", "evening_text"), ("program_text", "read_text"), ("fit_marking", "mark_no_price_move")}
# Crates whose src/lib.rt has only inner functions.
HELPERS = re.compile(r"basics|tally|count_check|cases_.*|fit_(?!rounds).+|program_.*|image_.*|abi_encoding|floats|refusals")

DEFINITION = re.compile(r"^\s*(?:abbrev pub|unfoldable pub|pub record|pub data)\s+(\S+)")
TYPE = re.compile(r"^\s*(?:pub )?(?:struct|enum) (\w+)")
CASE = re.compile(r"^  (\S+) : ")
TOKEN = re.compile(r"(?<![^\s()\[\]{},;«»])[^\s()\[\]{},;.«»]+")
IMPORT = re.compile(r"use Rattle\.(\w+)\.specs\.(\w+)(?:\.\{([^}]*)\}| as (\w+))")
FUNCTION = re.compile(r'^( *)(?:pub )?(?:extern "C" )?fn (\w+)[^(]*\(', re.M)

def is_inner(module):
    return module.startswith("Inner")

def without_comments(text):
    return "\n".join(re.sub(r"(^|\s)(--|//).*$", "", line) for line in text.split("\n"))

def parts(text):
    """{name: its text}, of each definition; a case has its data type's name as text."""
    found, name, is_data = {}, None, False
    for line in without_comments(text).split("\n"):
        m = DEFINITION.match(line)
        if m:
            name, is_data = m[1].strip("«»"), "pub data" in line
            found[name] = ""
        elif is_data and CASE.match(line):
            found[CASE.match(line)[1]] = name
        if name and not line.startswith("use "): found[name] += line + "\n"
    return found

def sources(text):
    """({a name: where it is from}, {a module's other name: where it is})"""
    names, modules = {}, {}
    for crate, module, inside, other in IMPORT.findall(text):
        if other: modules[other] = (crate, module)
        for name in filter(None, map(str.strip, inside.split(","))):
            names[name.split(" as ")[-1].strip("«» ")] = (crate, module, name.split(" as ")[0].strip("«» "))
    return names, modules

def needs(text, names, modules, here=None):
    """The definitions that a text names."""
    out = {names[t] for t in TOKEN.findall(text) if t in names}
    if here: out |= {here + (t,) for t in TOKEN.findall(text)}
    for other, where in modules.items():
        out |= {where + (name,) for name in re.findall(rf"(?<!\w){other}\.([^\s()\[\]{{}},;]+)", text)}
    return out

def specs():
    for path in sorted(glob.glob("crates/*/specs/*.antt")):
        if not path.endswith("/Lib.antt"): yield path, (path.split("/")[1], path.split("/")[-1][:-5]), open(path).read()

def twice():
    where = {}
    for path, _, text in specs():
        for name in parts(text): where.setdefault(name, set()).add(path)
    for path in sorted(glob.glob("crates/*/src/*.rt")):
        for line in open(path):
            if TYPE.match(line): where.setdefault(TYPE.match(line)[1], set()).add(path)
    for name, paths in sorted(where.items()):
        if len(paths) > 1: yield f"{name} is defined in {', '.join(sorted(paths))}"

def resting():
    for path, (_, module), text in specs():
        if not is_inner(module) and path not in RESTS and any(is_inner(m) for _, m, _, _ in IMPORT.findall(text)):
            yield f"{path} takes a name from an Inner"
    for function, text, (names, modules) in contracts():
        for crate, module, name in sorted(needs(text, names, modules)):
            if is_inner(module): yield f"the contract of {function} takes {name} from the Inner of {crate}"

def contracts():
    """(function, its contract, the sources of its file), of each contract that a reader meets."""
    for path in sorted(glob.glob("crates/*/src/lib.rt")):
        crate, text = path.split("/")[1], open(path).read()
        for name, contract in heads(text):
            if not HELPERS.fullmatch(crate) or (crate, name) in ALSO: yield f"{crate}::{name}", contract, sources(text)
        if HELPERS.fullmatch(crate): continue
        for clause in re.findall(r"^ +ghost \w+ = \{(.*?)\};", without_comments(text), re.M | re.S): yield f"an impl of {crate}", clause, sources(text)

def heads(text):
    """(function, its signature and contract), of each function with a contract: then the brace of its body has a line of its own."""
    text = without_comments(text)
    for m in FUNCTION.finditer(text):
        end, depth = m.end(), 1
        while depth:
            depth += {"(": 1, ")": -1}.get(text[end], 0)
            end += 1
        rest = text[end:text.index("\n", end)]
        if rest.endswith(("{", "}", ";")): continue
        # A function of a trait has no body: its contract ends with a `;`.
        past = re.compile(rf"\n{m[1]}\{{\n|;\n").search(text, end)
        yield m[2], text[m.start():past.start()]

def statements():
    """The text of each theorem that docs/PROMISES.md names, with the sources of its file."""
    named = set(re.findall(r"`([\w-]+)`", open("docs/PROMISES.md").read()))
    for path in sorted(glob.glob("crates/*/proofs/*.antt")):
        text = open(path).read()
        lines = without_comments(text).split("\n")
        heads = [line for line in lines if re.match(r"\s*module _", line)]
        local = {m[1]: line for line in lines for m in [re.match(r"\s+(\w+) = ", line)] if m}
        for i, line in enumerate(lines):
            m = re.match(r"\s*(?:abbrev )?pub (\S+) :", line)
            if not m or m[1] not in named: continue
            end = next((k for k in range(i + 1, len(lines)) if not lines[k].strip() or lines[k].split()[0] == m[1]), len(lines))
            statement = "\n".join(heads + lines[i:end])
            yield "\n".join([statement] + [local[t] for t in TOKEN.findall(statement) if t in local]), sources(text)

def unneeded():
    texts, where = {}, {}
    for _, here, text in specs():
        for name, part in parts(text).items():
            texts[here + (name,)] = part
            where[here + (name,)] = sources(text)
    reached = set()
    read = [(text, where_from) for _, text, where_from in contracts()] + [*statements()]
    waiting = {d for text, (names, modules) in read for d in needs(text, names, modules)}
    while waiting:
        d = waiting.pop()
        if d in reached or d not in texts: continue
        reached.add(d)
        waiting |= needs(texts[d], *where[d], here=d[:2])
    for crate, module, name in sorted(texts):
        if not is_inner(module) and (crate, module, name) not in reached: yield f"{name} of crates/{crate}/specs/{module}.antt is needed by nothing believed"

found = [*twice(), *resting(), *unneeded()]
print("\n".join(found), end="\n" if found else "")
sys.exit(1 if found else 0)
