#!/usr/bin/env python3
"""instructions.py ARCHIVE

Holds the machine code of ARCHIVE against what include/micro_price.h and include/micro_price_env.h say of it:
  - the functions of FLOAT reach float instructions and those of PLAIN none: whose result depends on the control word, or that
    can raise a floating-point exception;
  - no instruction in the archive is x87's or a fused multiply-add, or reads or sets a control word;
  - no data in it can be written, and it calls nothing but functions of OUTSIDE, which are the C library's and not looked at.

tests/common/archive.py says what a function reaches; a jump that cannot be followed is refused. Prints each fault and ends
with status 1 if there is one.
"""
import os
import re
import sys

sys.path.insert(0, os.path.join(os.path.dirname(os.path.abspath(__file__)), "../common"))
from archive import instructions_of, mnemonic, reached, read

FLOAT = {"micro_price_fit_counts", "micro_price_fit_counts_with", "micro_price_calibrate", "micro_price_check_model",
         "micro_price_signal"}
PLAIN = {"micro_price_validate", "micro_price_new", "micro_price_observe", "micro_price_save", "micro_price_restore",
         "micro_price_window_of", "micro_price_replay"}
OUTSIDE = {"memcpy", "memmove", "memset", "memcmp", "bcmp"}

# What the compiler makes of a match: the address of a table of constants, an entry of it, and their sum in the register {0}. Moves
# of other registers may stand before the jump. The string instructions movsb to movsq are no such moves.
BY_TABLE = r"lea 0x0\(%rip\),(%r\w+)\nmovslq \(\1,%r\w+,4\),{0}\nadd \1,{0}"
MOVE = r"mov(|[bwlq]|abs|[sz][bw][wlq]|slq)"

# Instructions on vector registers whose result is the same under every control word and that raise nothing (SSE and SSE2).
# Any other instruction on such a register counts as a float instruction.
HARMLESS = set("""
    movaps movapd movups movupd movss movsd movhps movhpd movlps movlpd movhlps movlhps movmskps movmskpd
    movd movq movdqa movdqu movq2dq movdq2q pmovmskb movntps movntpd movntdq
    shufps shufpd pshufd pshuflw pshufhw unpcklps unpcklpd unpckhps unpckhpd
    punpcklbw punpcklwd punpckldq punpcklqdq punpckhbw punpckhwd punpckhdq punpckhqdq packsswb packssdw packuswb
    andps andpd andnps andnpd orps orpd xorps xorpd pand pandn por pxor
    paddb paddw paddd paddq paddsb paddsw paddusb paddusw psubb psubw psubd psubq psubsb psubsw psubusb psubusw
    pmullw pmulhw pmulhuw pmuludq pmaddwd psadbw pavgb pavgw pmaxsw pmaxub pminsw pminub
    pcmpeqb pcmpeqw pcmpeqd pcmpgtb pcmpgtw pcmpgtd
    psllw pslld psllq pslldq psrlw psrld psrlq psrldq psraw psrad pextrw pinsrw
""".split())


def is_x87(instruction):
    return mnemonic(instruction).startswith("f")


def has_control_word(instruction):
    return re.match(r"v?(ld|st)mxcsr|xsave|xrstor", mnemonic(instruction)) is not None


def is_fused(instruction):
    return re.match(r"vfn?m(add|sub)", mnemonic(instruction)) is not None


def is_float(instruction):
    if is_x87(instruction) or has_control_word(instruction):
        return True
    return re.search(r"%([xyz]?mm|st|k)\d|%st\b", instruction) is not None and mnemonic(instruction) not in HARMLESS


def is_indirect(instruction):
    return re.match(r"l?(call|jmp)", mnemonic(instruction)) is not None and "*" in instruction


def sets(instruction, register):
    """Whether an instruction's last operand is a register or a part of it."""
    core = register[2:]
    return re.fullmatch(rf"%[re]?{core}[dwbl]?|%{core[0]}[lh]", instruction.rsplit(",", 1)[-1]) is not None


def goes_by_table(before, jump):
    """Whether a jump goes to an entry of a table of constants. The entries stand in relocations, so all are followed."""
    target = re.fullmatch(r"jmp \*(%r\w+)", jump)
    if not target:
        return False
    end = len(before)
    while end and re.fullmatch(MOVE, mnemonic(before[end - 1])) and not sets(before[end - 1], target[1]):
        end -= 1
    return re.fullmatch(BY_TABLE.format(target[1]), "\n".join(before[max(end - 3, 0):end])) is not None


def jumps_not_followed(instructions):
    for place, text in enumerate(instructions):
        if is_indirect(text) and not goes_by_table(instructions[:place], text):
            yield text


def function_faults(members, function):
    code = instructions_of(reached(members, function))
    floats = [(member, section, text) for member, section, text in code if is_float(text)]
    print(f"environment: {function}: {len(code)} instructions reached, {len(floats)} of them float instructions")
    if function in FLOAT and not floats:
        yield f"{function} reaches no float instruction"
    if function in PLAIN and floats:
        member, section, text = floats[0]
        yield f"{function} reaches a float instruction: {text} ({member.name}, {section})"
    if not code:
        yield f"{function} has no instructions"


def instruction_faults(members):
    everything = [(member, section) for member in members for section in member.sections]
    for member, name in everything:
        section = member.sections[name]
        if "CODE" in section.flags and section.size and not section.instructions:
            yield f"code that was not read: {name} of {member.name}"
        for text in jumps_not_followed(section.instructions):
            yield f"a jump or call that cannot be followed: {text} ({member.name}, {name})"
    tests = ((is_x87, "an x87 instruction"), (has_control_word, "an instruction that reads or sets a control word"),
             (is_fused, "a fused multiply-add"),
             (lambda text: "(bad)" in text, "an instruction that objdump does not know"))
    for member, section, text in instructions_of(everything):
        for test, what in tests:
            if test(text):
                yield f"{what}: {text} ({member.name}, {section})"


def state_faults(members):
    exported = set().union(*(member.exported for member in members))
    for member in members:
        for name, section in member.sections.items():
            if section.is_writable() and section.size:
                yield f"data that can be written: {section.size} bytes in {name} of {member.name}"
        for name in sorted(name for name, section in member.defined.items() if section == "*COM*"):
            yield f"data that can be written: the common symbol {name} of {member.name}"
        for name in sorted(member.outside - exported - OUTSIDE):
            yield f"a call of {name}, which is outside of the archive ({member.name})"


def main():
    members = read(sys.argv[1])
    exported = set().union(*(member.exported for member in members))
    faults = [f"the archive exports {name}, which is in no list" for name in sorted(exported - FLOAT - PLAIN)]
    faults += [f"the archive does not export {name}" for name in sorted((FLOAT | PLAIN) - exported)]
    for function in sorted((FLOAT | PLAIN) & exported):
        faults += function_faults(members, function)
    faults += instruction_faults(members)
    faults += state_faults(members)
    for fault in faults:
        print(f"environment: {fault}", file=sys.stderr)
    if faults:
        sys.exit(1)
    used = sorted(set().union(*(member.outside for member in members)) - exported)
    print(f"environment: nothing in the archive can be written, and it calls {' and '.join(used)} alone")


if __name__ == "__main__":
    main()
