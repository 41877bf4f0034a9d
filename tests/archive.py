#!/usr/bin/env python3
"""Holds libreloc.a to what include/reloc.h says of it: an x86-64 ELF archive that is code alone, without an undefined symbol, and
whose calls take at most RELOC_STACK_LIMIT bytes of stack. The stack is bounded from the object code: of each function the pushes, the
frame, the red zone and its deepest callee; a recursion, a call that cannot be followed or a frame of unknown size is a failure.

usage: tests/archive.py LIBRARY"""

import pathlib
import re
import subprocess
import sys

HEADER = pathlib.Path(__file__).resolve().parent.parent / "include" / "reloc.h"
WORD = 8


def printed(*words):
    return subprocess.run(words, check=True, capture_output=True, text=True).stdout


def fail(why):
    sys.exit(f"archive: {why}")


def sections(library):
    """Each section that is loaded and has bytes, with its flags."""
    lines = printed("objdump", "-h", "-w", library).splitlines()
    rows = (re.match(r"\s*\d+ (\S+)\s+([0-9a-f]+)\s.*\d\*\*\d+\s+(.*)$", line) for line in lines)
    return [(row[1], row[3]) for row in rows if row and int(row[2], 16) and "ALLOC" in row[3]]


def taken(line):
    """The bytes of stack that an instruction takes. A large number added is a small one subtracted, and the other way round. An address
    of the stack that is handed on, by `lea` or by `mov` from %rsp, takes none; nothing else may set %rsp."""
    if re.search(r"\bpush\w*\s", line):
        return WORD
    if found := re.search(r"\b(sub|add)\s+\$0x([0-9a-f]+),%rsp$", line):
        number = int(found[2], 16)
        number -= 1 << 64 if number >> 63 else 0
        return max(0, number if found[1] == "sub" else -number)
    if re.search(r",%[er]?sp$", line) and not re.search(r"\bcmp|\btest", line):
        fail(f"not a frame that can be bounded: {line.strip()}")
    return 0


def frame(lines):
    """The bytes that a function's own instructions take below its return address, each once, and the red zone."""
    red = max((int(below, 16) for line in lines for below in re.findall(r"-0x([0-9a-f]+)\(%rsp", line)), default=0)
    return sum(map(taken, lines)) + red


def callees(lines):
    """The functions that a function's instructions refer to; each call names one in the relocation behind it."""
    named = [re.search(r"R_X86_64_\w+\s+(?:\.text\.)?(.+?)[-+]0x", line) for line in [*lines, ""]]
    for line, behind in zip(lines, named[1:]):
        if re.search(r"\b(call|jmp)\s+\*", line) or (re.search(r"\bcall\b", line) and not behind):
            fail(f"not a call that can be followed: {line.strip()}")
    return {found[1] for found in named if found}


def functions(library):
    """Each function's own bytes of stack and its callees."""
    text = printed("objdump", "-dr", "--no-show-raw-insn", library)
    found = {}
    for part in re.split(r"^[0-9a-f]+ <(?=.*>:$)", text, flags=re.M)[1:]:
        name, _, body = part.partition(">:\n")
        lines = body.splitlines()
        found[name] = frame(lines), callees(lines)
    return found


def depth(name, found, above=()):
    """The most bytes of stack that a call of a function takes, its return address included."""
    if name in above or name not in found:
        fail(f"{name}: a recursion, or no function of the library")
    own, below = found[name]
    return WORD + own + max((depth(callee, found, (*above, name)) for callee in below), default=0)


def main():
    if len(sys.argv) != 2:
        sys.exit(__doc__)
    library = sys.argv[1]
    if "file format elf64-x86-64" not in printed("objdump", "-f", library):
        fail("not elf64-x86-64")
    if undefined := re.findall(r"\bU (\S+)", printed("nm", "-u", library)):
        fail(f"undefined symbols: {undefined}")
    if data := [name for name, flags in sections(library) if "CODE" not in flags]:
        fail(f"sections with data: {data}")
    found = functions(library)
    public = re.findall(r" T (\S+)", printed("nm", library))
    deepest = max(public, key=lambda name: depth(name, found))
    limit = int(re.search(r"RELOC_STACK_LIMIT (\d+)", HEADER.read_text())[1])
    if depth(deepest, found) > limit:
        fail(f"{deepest} takes {depth(deepest, found)} bytes of stack, above {limit}")
    print(f"archive: {len(public)} calls, code alone, no undefined symbol, at most {depth(deepest, found)} bytes of stack ({deepest})")


if __name__ == "__main__":
    main()
