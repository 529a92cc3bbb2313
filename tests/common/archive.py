"""The machine code of an archive, as objdump shows it, and what a call of an exported function can come to in it.

The unit of the walk is a section of a member. The compiler puts each function into a section of its own, and whatever a
section calls, jumps to or takes the address of outside of itself stands in its relocations, as does each address in a table
of constants. So all is followed that any relocation of a reached section names. A jump through a register or memory cannot be
followed, but for one to an entry of such a table: tests/environment refuses any other. Each part of the archive has its own
copy of the inner functions, so a local name is looked up in its own member.
"""
import os
import re
import subprocess
import sys


class Section:
    def __init__(self, size, flags):
        self.size, self.flags = size, flags
        self.instructions, self.names = [], set()

    def is_writable(self):
        return "ALLOC" in self.flags and "READONLY" not in self.flags


class Member:
    """An object file of the archive. `defined` has the section of each symbol, `exported` the names that others see."""

    def __init__(self, name):
        self.name, self.sections, self.defined, self.exported, self.outside = name, {}, {}, set(), set()


def listings(archive, *options):
    """What objdump says of each member, in order: (name, lines)."""
    text = subprocess.run(["objdump", "--wide", *options, archive], check=True, stdout=subprocess.PIPE, text=True,
                          env={**os.environ, "LC_ALL": "C"}).stdout
    parts = re.split(r"^(\S.*):\s+file format \S+$", text, flags=re.M)[1:]
    return [(name, part.splitlines()) for name, part in zip(parts[::2], parts[1::2])]


def read_sections(member, lines):
    for line in lines:
        found = re.match(r"\s*\d+ (\S+)\s+([0-9a-f]+)\s+[0-9a-f]+\s+[0-9a-f]+\s+[0-9a-f]+\s+2\*\*\d+\s+(.*)$", line)
        if found and found[1] in member.sections:
            sys.exit(f"{member.name} has two sections named {found[1]}; the walk needs one")
        if found:
            member.sections[found[1]] = Section(int(found[2], 16), found[3])


def read_symbols(member, lines):
    for line in lines:
        found = re.match(r"[0-9a-f]+ (.{7}) (\S+)\t[0-9a-f]+\s+(?:\.(?:hidden|internal|protected) )?(\S+)$", line)
        if not found:
            continue
        kind, section, name = found.groups()
        if section == "*UND*":
            member.outside.add(name)
            continue
        member.defined[name] = section
        if kind[0] in "gu!" or kind[1] == "w":
            member.exported.add(name)


def read_relocations(member, lines):
    section = None
    for line in lines:
        heading = re.match(r"RELOCATION RECORDS FOR \[(.*)\]:$", line)
        record = re.match(r"[0-9a-f]{16} (R_\S+)\s+(\S+?)(?:[-+]0x[0-9a-f]+)?$", line)
        if heading:
            section = member.sections[heading[1]]
        elif record:
            section.names.add(record[2])


def read_instructions(member, lines):
    section = None
    for line in lines:
        heading = re.match(r"Disassembly of section (.*):$", line)
        instruction = re.match(r"\s*[0-9a-f]+:\t(.*)$", line)
        if heading:
            section = member.sections[heading[1]]
        elif instruction:
            section.instructions.append(" ".join(instruction[1].split("#")[0].split("<")[0].split()))


def read(archive):
    members = [Member(name) for name, _ in listings(archive, "--section-headers")]
    for options, reader in ((["--section-headers"], read_sections), (["--syms"], read_symbols),
                            (["--reloc"], read_relocations), (["--disassemble", "--no-show-raw-insn"], read_instructions)):
        for member, (_, lines) in zip(members, listings(archive, *options)):
            reader(member, lines)
    return members


def mnemonic(instruction):
    words = instruction.split()
    prefixes = {"lock", "rep", "repz", "repnz", "bnd", "notrack", "data16", "addr32", "cs"}
    while len(words) > 1 and (words[0] in prefixes or words[0].startswith("rex")):
        words = words[1:]
    return words[0]


def place_of(members, member, name):
    """Where a name leads that stands in a relocation of `member`: (member, section), or None for a function outside."""
    if name in member.sections:
        return member, name
    if name in member.defined:
        return member, member.defined[name]
    for other in members:
        if name in other.exported:
            return other, other.defined[name]
    return None


def reached(members, function):
    """The sections that a call of an exported function can come to."""
    found, waiting = [], [next((m, m.defined[function]) for m in members if function in m.exported)]
    while waiting:
        place = waiting.pop()
        if place is None or place in found or place[1] not in place[0].sections:
            continue
        found.append(place)
        member, section = place
        waiting += [place_of(members, member, name) for name in sorted(member.sections[section].names)]
    return found


def instructions_of(places):
    return [(member, section, text) for member, section in places for text in member.sections[section].instructions]
