#!/usr/bin/env python3
"""signatures.py TREE ARCHIVE

Holds the functions that TREE/include/micro_price.h declares against the symbols that ARCHIVE exports, and their parameters
against crates/abi_*_c, which export them, and against bindings/rust/src/sys.rs, where Rust declares them. Holds the
header's numbers against the crates that have them, against the constants of sys.rs, and its defaults and limits against those
of config.rs and rounds.rs beside it. Prints each mismatch and ends with status 1 if there is one.
"""
import re
import subprocess
import sys
from pathlib import Path

# Numbers of the header that refusals.c is written with: a wrong one makes a run answer something else. They need no crate's constant.
RUN = {"CONFIG_WORDS", "RECORD_WORDS", "QUOTE_WORDS", "ROW_WORDS", "SIGNAL_WORDS", "CALL_WORDS", "CALL_QUOTE", "CALL_SAVE",
       "CALL_RESTORE", "IMAGE_STATES", "IMAGE_BUCKETS", "IMAGE_SPREAD_STATES", "IMAGE_TICK", "IMAGE_MIN_STATE_OBSERVATIONS",
       "IMAGE_MAX_QUOTE_GAP_MS"}

# Numbers of the header that bindings/rust/src/sys.rs has by the same names.
RUST = RUN | {"IMAGE_HEADER", "OTHER_CONFIGURATION"}

# The defaults of a configuration, and those and the limits of a fit's rounds: files of bindings/rust have them by the same names.
IN_FILES = {
    "bindings/rust/src/config.rs": {"MIN_STATE_OBSERVATIONS", "MAX_QUOTE_GAP_MS"},
    "bindings/rust/src/rounds.rs": {"MAX_SERIES_TERMS", "FALLBACK_HORIZON_MOVES", "SERIES_ROUNDS_LIMIT", "FALLBACK_ROUNDS_LIMIT"},
}

# Constants of crates: the header's name, the file, the constant, and how many of the header's units it counts: a form is words of 8 bytes.
CONSTANTS = [
    ("BAD_ENCODING", "crates/abi_encoding/src/lib.rt", "BAD_ENCODING", 1),
    ("OTHER_CONFIGURATION", "crates/history_replay/src/inner.rt", "OTHER_CONFIGURATION", 1),
    ("MIN_STATE_OBSERVATIONS", "crates/config/src/lib.rt", "MIN_STATE_OBSERVATIONS", 1),
    ("MAX_QUOTE_GAP_MS", "crates/config/src/lib.rt", "MAX_QUOTE_GAP_MS", 1),
    ("MAX_SERIES_TERMS", "crates/fit_rounds/src/lib.rt", "MAX_SERIES_TERMS", 1),
    ("FALLBACK_HORIZON_MOVES", "crates/fit_rounds/src/lib.rt", "FALLBACK_HORIZON_MOVES", 1),
    ("SERIES_ROUNDS_LIMIT", "crates/fit_rounds/src/lib.rt", "SERIES_ROUNDS_LIMIT", 1),
    ("FALLBACK_ROUNDS_LIMIT", "crates/fit_rounds/src/lib.rt", "FALLBACK_ROUNDS_LIMIT", 1),
    ("MAX_STATES", "crates/config/src/inner.rt", "MAX_STATES", 1),
    ("CONFIG_WORDS", "crates/config/src/inner.rt", "CONFIG_WORDS", 1),
    ("RECORD_WORDS", "crates/abi_encoding/src/lib.rt", "RECORD_WORDS", 1),
    ("SIGNAL_WORDS", "crates/abi_models/src/lib.rt", "SIGNAL_WORDS", 1),
    ("IMAGE_HEADER", "crates/image_layout/src/lib.rt", "FORM", 8),
]

C_TYPES = {"u8": "uint8_t", "u64": "uint64_t", "i64": "int64_t", "f64": "double", "usize": "size_t"}


def without_comments(text):
    return re.sub(r"/\*.*?\*/|//[^\n]*", "", text, flags=re.S)


def spaced(c_type):
    """A C type with single spaces."""
    return " ".join(c_type.replace("*", " * ").split())


def in_header(text):
    """{function: (result, [(parameter's name, type)])}, in C."""
    found = {}
    for result, name, inside in re.findall(r"(\w+)\s+(micro_price_\w+)\s*\(([^)]*)\)\s*;", without_comments(text)):
        parameters = []
        for parameter in inside.split(","):
            c_type, parameter_name = re.fullmatch(r"(.*?)(\w+)", parameter.strip(), re.S).groups()
            parameters.append((parameter_name, spaced(c_type)))
        found[name] = (result, parameters)
    return found


def c_parameters(name, rattle_type):
    """The C parameters of a Rattle parameter: a slice is a pointer and a length, a reference a pointer."""
    reference, mutable, slice_of, plain = re.fullmatch(r"(&?)(mut )?(?:\[(\w+)\]|(\w+))", rattle_type).groups()
    c_type = C_TYPES[slice_of or plain]
    if not reference:
        return [(name, c_type)]
    pointer = (name, spaced(("" if mutable else "const ") + c_type + " *"))
    return [pointer, (name + "_len", "size_t")] if slice_of else [pointer]


def declared(text, before, parameters_of):
    """The functions of a Rattle or Rust text after `before`, in C."""
    found = {}
    pattern = before + r"fn\s+(micro_price_\w+)\s*\(([^)]*)\)\s*->\s*(\w+)"
    for name, inside, result in re.findall(pattern, without_comments(text)):
        parameters = []
        for parameter in filter(None, map(str.strip, inside.split(","))):
            parameter_name, its_type = map(str.strip, parameter.split(":"))
            parameters += parameters_of(parameter_name, its_type)
        found[name] = (C_TYPES[result], parameters)
    return found


def rust_parameters(name, rust_type):
    pointer = re.fullmatch(r"\*(const|mut) (\w+)", rust_type)
    if not pointer:
        return [(name, C_TYPES[rust_type])]
    constant = "const " if pointer[1] == "const" else ""
    return [(name, spaced(constant + C_TYPES[pointer[2]] + " *"))]


def exported(archive):
    """The global symbols that an archive defines."""
    lines = subprocess.run(["nm", "--defined-only", "--extern-only", archive], check=True, capture_output=True, text=True)
    return {line.split()[2] for line in lines.stdout.splitlines() if len(line.split()) == 3}


def numbers_in(header):
    return {name: int(number) for name, number in re.findall(r"#define MICRO_PRICE_(\w+) (\d+)", header)}


def cases(source, enum):
    """{NAME_OF_A_CASE: number}, by the match that numbers an enum's cases."""
    found = re.findall(enum + r"::(\w+)(?:\(_\))? => (\d+),", source)
    return {re.sub(r"(?<!^)([A-Z])", r"_\1", name).upper(): int(number) for name, number in found}


def constants(source):
    """{name: number} of the constants that a Rattle or Rust text gives as digits, or by the name of one that stands above."""
    found = {}
    for name, value in re.findall(r"\bconst (\w+): (?:u64|usize) = (\w+);", without_comments(source)):
        if value in found:
            found[name] = found[value]
        elif value[0].isdigit():
            found[name] = int(value.replace("_", ""))
    return found


def constant(tree, file, name):
    found = constants((tree / file).read_text())
    if name not in found:
        sys.exit(f"header: {file} has no constant {name}")
    return found[name]


def numbers(tree):
    """The header's numbers as the crates have them. A fallback's source is its status."""
    found = cases((tree / "crates/refusals/src/lib.rt").read_text(), "Refusal")
    found |= {name: each * constant(tree, file, inner) for name, file, inner, each in CONSTANTS}
    statuses = cases((tree / "crates/model/src/lib.rt").read_text(), "StateStatus")
    sources = cases((tree / "crates/model_signals/src/lib.rt").read_text(), "SignalSource")
    sources |= {name: number for name, number in statuses.items() if name != "CALIBRATED"}
    found |= {"STATUS_" + name: number for name, number in statuses.items()}
    found |= {"SOURCE_" + name: number for name, number in sources.items()}
    return found


def number_differences(names, header, other, where):
    for name in sorted(names):
        if header.get(name) != other.get(name):
            yield f"MICRO_PRICE_{name} is {header.get(name)} in the header and {other.get(name)} in {where}"


def differences(header, other, where):
    for name in sorted(header.keys() - other.keys()):
        yield f"{name} is in the header and not in {where}"
    for name in sorted(other.keys() - header.keys()):
        yield f"{name} is in {where} and not in the header"
    for name in sorted(header.keys() & other.keys()):
        yield from signature_differences(name, header[name], other[name], where)


def signature_differences(name, header, other, where):
    if header[0] != other[0]:
        yield f"{name} answers {header[0]} in the header and {other[0]} by {where}"
    if len(header[1]) != len(other[1]):
        yield f"{name} has {len(header[1])} parameters in the header and {len(other[1])} by {where}"
        return
    for place, (ours, theirs) in enumerate(zip(header[1], other[1]), 1):
        if ours != theirs:
            (a, b), (c, d) = ours, theirs
            yield f"{name}, parameter {place}: {b} {a} in the header and {d} {c} by {where}"


def main():
    tree, archive = Path(sys.argv[1]), sys.argv[2]
    text = (tree / "include/micro_price.h").read_text()
    header = in_header(text)
    code = "\n".join(file.read_text() for file in sorted((tree / "crates").glob("abi_*_c/src/*.rt")))
    rust = (tree / "bindings/rust/src/sys.rs").read_text()
    found = list(differences(header, declared(code, r'pub\s+extern\s+"C"\s+', c_parameters), "crates/abi_*_c"))
    found += differences(header, declared(rust, r"pub\s+", rust_parameters), "bindings/rust/src/sys.rs")
    symbols = exported(archive)
    found += [f"{name} is declared and the archive does not export it" for name in sorted(header.keys() - symbols)]
    found += [f"the archive exports {name}, which is not declared" for name in sorted(symbols - header.keys())]
    ours, theirs, in_rust = numbers_in(text), numbers(tree), constants(rust)
    found += number_differences(ours.keys() - RUN | theirs.keys(), ours, theirs, "the crates")
    found += number_differences(RUST | in_rust.keys(), ours, in_rust, "bindings/rust/src/sys.rs")
    for file, names in IN_FILES.items():
        in_file = constants((tree / file).read_text())
        found += number_differences(names | in_file.keys(), ours, in_file, file)
    for line in found:
        print(f"header: {line}", file=sys.stderr)
    if found or not header:
        sys.exit(1)
    print(f"header: {len(header)} functions are those of crates/abi_*_c, of bindings/rust and of the archive")


if __name__ == "__main__":
    main()
