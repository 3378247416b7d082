#!/usr/bin/env python3
"""frames.py ARCHIVE HEADER [NAME=COUNT]..: no call of the library can use more stack than the header says, whatever it is lent.

Reads the machine code of the archive (objdump): what each function takes of the stack, and whom it calls. The deepest
way through these is a bound, since no function calls itself, directly or through others, but for those that REPEATED
names, and none calls an address that is computed; a computed jump goes by a table into its own function. The test fails
where that is not so, or where it meets a branch or a change of the stack pointer that it does not know. NAME=COUNT adds
to REPEATED. Prints a line for each function of the header and `N passed, M failed`."""

import re
import subprocess
import sys
from pathlib import Path

sys.path.append(str(Path(__file__).resolve().parents[3] / "hosts" / "python"))

import header

START = re.compile(r"^[0-9a-f]+ <(.+)>:$")
BRANCH = re.compile(r"\t(call|j[a-z]+) +[0-9a-f]+ <([^+]+)(\+0x[0-9a-f]+)?>$")
RELOCATED = re.compile(r"\bR_X86_64_\w+\s")
TARGET = re.compile(r"R_X86_64_(?:PLT32|PC32)\s+(?:\.text\.)?(\S+)-0x4$")
TABLE = re.compile(r"^RELOCATION RECORDS FOR \[(.+)\]:$")
PLACE = re.compile(r"R_X86_64_\w+\s+\.text\.([\w:]+)")
SUB = re.compile(r"\bsub +\$0x([0-9a-f]+),%rsp$")
RED_ZONE = re.compile(r"-0x([0-9a-f]+)\(%rsp")
KNOWN = re.compile(r"\b(add|sub) +\$0x[0-9a-f]+,%rsp$|\bpop ")
# A large frame is touched page by page: %r11 is set to its lower end, and a loop takes a page until %rsp is there.
COPIED = re.compile(r"\bmov +%rsp,%r11$")
LOWER_END = re.compile(r"\bsub +\$0x([0-9a-f]+),%r11$")
LOOP_END = re.compile(r"\bcmp +%r11,%rsp$")
PAGE = 4096

WORD = 8  # a push, or a return address
LEAVES = {"memset", "memcpy", "memmove", "memcmp"}  # of the C library: the header leaves them out

# The functions that call themselves, directly or through others: how often each can be on the stack at a time, and the
# reason, as (COUNT, "REASON").
REPEATED = {
    "game::guard": (3, "with `desk` inside it; each is called with a round less, of at most 4, and none with 1 round calls on"),
}


class Code:
    """What a function takes of the stack, without those that it calls."""

    def __init__(self):
        self.frame, self.below, self.calls = WORD, 0, set()
        self.copied, self.pages = False, 0

    def instruction(self, line):
        if re.search(r"\bpush ", line):
            self.frame += WORD
        elif found := SUB.search(line):
            self.frame += int(found[1], 16)
        elif COPIED.search(line):
            self.copied = True
        elif self.copied and (found := LOWER_END.search(line)):
            self.copied, self.pages = False, int(found[1], 16)
        elif self.pages and LOOP_END.search(line):
            # The loop's own step is counted once already.
            self.frame, self.pages = self.frame + self.pages - PAGE, 0
        elif line.endswith(",%rsp") and not KNOWN.search(line) or re.search(r"\bcall +\*|\bjmp +\*\S*\(", line):
            raise SystemExit(f"not understood: {line.strip()}")
        for found in RED_ZONE.finditer(line):
            self.below = max(self.below, int(found[1], 16))


def objdump(*words):
    return subprocess.run(["objdump", *words], capture_output=True, text=True, check=True).stdout.split("\n")


def tables_stay(archive):
    """The tables of jumps name places of their own function alone."""
    section = ""
    for line in objdump("-r", archive):
        section = TABLE.match(line)[1] if TABLE.match(line) else section
        if section.startswith(".rodata.") and (found := PLACE.search(line)) and section != f".rodata.{found[1]}":
            raise SystemExit(f"a table of {section} names {found[1]}")


def target(caller, branch, relocation):
    """Whom a branch calls, nobody if it stays in its own function."""
    kind, name, place = BRANCH.search(branch).groups()
    if relocation:
        found = TARGET.search(relocation)
        name, place = (found[1], None) if found else (name, "somewhere")
    elif name == caller and kind != "call":
        return set()
    if place:
        raise SystemExit(f"not understood in {caller}: {branch.strip()} {relocation.strip()}")
    return {name}


def read(archive):
    functions, caller = {}, None
    lines = objdump("-dr", "--no-show-raw-insn", archive)
    for line, behind in zip(lines, lines[1:]):
        if found := START.match(line):
            caller = found[1]
            functions.setdefault(caller, Code())
        elif caller and "\t" in line and not RELOCATED.search(line):
            functions[caller].instruction(line)
            if BRANCH.search(line):
                relocation = behind if RELOCATED.search(behind) else ""
                functions[caller].calls |= target(caller, line, relocation)
    return functions


def reached(functions, name):
    """The functions that a function calls, directly or through others."""
    found, left = set(), [name]
    while left:
        new = functions[left.pop()].calls - LEAVES - found
        found |= new
        left += new
    return found


def depth(functions, repeated, name):
    """The stack of a call: each function of a cycle as often as it can be there, then the deepest call out of it."""
    if name in LEAVES:
        return WORD
    cycle = {other for other in reached(functions, name) if name in reached(functions, other)}
    if unknown := cycle - repeated.keys():
        raise SystemExit(f"calls itself: {', '.join(sorted(unknown))}")
    members = cycle or {name}
    own = sum(functions[member].frame * (repeated[member][0] if cycle else 1) for member in members)
    calls = set.union(*(functions[member].calls for member in members)) - members
    below = [functions[member].below for member in members]
    return own + max(below + [depth(functions, repeated, other) for other in calls])


def arguments(function):
    """The arguments beyond the sixth lie on the stack."""
    return WORD * max(0, function.prototype.count(",") + 1 - 6)


def said(parts):
    """What the header says of each function."""
    lines = (line for part in parts for line in part.constants)
    found = (re.match(r"#define (YASLAUREL_\w+)_STACK (\d+)u", line) for line in lines)
    return {match[1].lower(): int(match[2]) for match in found if match}


def main(archive, name, *further):
    tables_stay(archive)
    repeated = REPEATED | {word.partition("=")[0]: (int(word.partition("=")[2]), "asked for") for word in further}
    functions, parts = read(archive), header.read(name)
    numbers, failed = said(parts), 0
    called = [function for part in parts for function in part.functions if not function.inline]
    for function in called:
        bound = arguments(function) + depth(functions, repeated, function.name)
        number = numbers.get(function.name, 0)
        failed += bound > number
        print(f"{'ok' if bound <= number else 'FAILED'} {function.name}: at most {bound} bytes, the header says {number}")
    print(f"{len(called) - failed} passed, {failed} failed")
    return failed != 0


sys.exit(main(*sys.argv[1:]))
