#!/usr/bin/env python3
"""demo/words.py [--why] [FOLDER [FILE]]: reads a listing and prints its alerts, blocked accesses and refusals in words, containers and
sources by the names that `policy make` wrote into FOLDER (the folder of this script by default).

With --why it says why, by the policy and the trace in FOLDER, whose listing it must be. If what the program `explain` prints of them stands
behind the listing, or in FILE, each alert and blocked access has the rule that forbids it, what that lacks and how it came there:

    (watch; explain) | words.py --why .

Else what was quiet is printed too, with the mixture that let it through."""

import sys
from pathlib import Path

HERE = Path(__file__).resolve().parent
sys.path.append(str(HERE.parent / "hosts" / "python"))

from formats import NO_ATOM, NO_POSITION, OPERATION, RUNNING
from permits import EVERYTHING, Permits, sections
from reasons import Malformed, Teller, atom_name, atoms, read_reasons

VERBS = {"read": "reads", "write": "writes", "append": "appends to", "exec": "executes", "fork": "forks",
         "file": "makes the file", "volatile": "makes the volatile", "end": "ends", "delete": "deletes"}


class Containers:
    """The names of the containers by number; a number that is taken again has its next holder's."""

    def __init__(self, text):
        self.holders, self.left = {}, {}
        for line in text.splitlines():
            number, name = line.split(" ", 1)
            self.holders.setdefault(int(number), []).append(name)

    def at(self, number, step):
        """The holder's name at a step, and which of the number's holders it is."""
        place = sum(gone < step for gone in self.left.get(number, []))
        holders = self.holders.get(number, [])
        return (holders[place] if place < len(holders) else str(number)), place

    def __getitem__(self, number):
        return self.at(int(number), sys.maxsize)[0]

    def leave(self, number, step):
        self.left.setdefault(int(number), []).append(step)


def sources(names, tag):
    """The sources of a tag, in the order of their atoms; what was executed is marked."""
    return ", ".join(atom_name(names, atom) for atom in atoms(tag)) or "nothing"


def mixture_words(names, mixture):
    return "everything" if mixture == EVERYTHING else sources(names, mixture)


class Words:
    """The lines of a listing in words, with the names of a folder."""

    def __init__(self, folder, why, reasons):
        self.names = (folder / "names.txt").read_text().splitlines()
        self.containers = Containers((folder / "containers.txt").read_text())
        self.blocked, self.total, self.explained = 0, None, 0
        image = (folder / "policy.bin").read_bytes() if why else b""
        self.permits = Permits(image) if why and reasons is None else None
        # A last record that is short is refused, and has no fields.
        trace = (folder / "trace.bin").read_bytes() if why else b""
        self.records = OPERATION.iter_unpack(trace[:len(trace) // OPERATION.size * OPERATION.size])
        self.reasons = reasons
        if reasons is not None:
            users = (folder / "users.txt").read_text().splitlines()
            self.steps = {}
            self.tags = {number: 1 << atom for number, (_, atom, *_) in enumerate(sections(image)["containers"]) if atom != NO_ATOM}
            self.teller = Teller(self.names, users, self.steps, self.containers.at)

    def line(self, text):
        """What a line says, or nothing."""
        match text.split():
            case ["step", "op", *_] | ["policy", "refused", _]:
                return None
            case ["total", _, "alerts", alerts, "refused", refused]:
                self.total = f"{alerts} alerts, {refused} refused, {self.blocked} blocked"
                return None
            case [step, op, p, o, verdict, *told]:
                record = next(self.records, None)
                match verdict, told:
                    case "refused", [number]:
                        what = VERBS.get(op, op) if op == "end" and p == o else f"{VERBS.get(op, op)} {self.containers[o]}"
                        return f"refused with {number}, step {step}: {self.containers[p]} {what}"
                    case "quiet" | "alert" | "blocked", [receiver, tag, position]:
                        return self.given(step, op, p, o, verdict, receiver, int(tag, 16), int(position), record)
        sys.exit(f"not a line of a listing: {text}")

    def given(self, step, op, p, o, verdict, receiver, tag, position, record):
        """What a line says of a step that is not refused, or nothing."""
        if self.permits and verdict != "blocked":
            self.permits.accept(record)
        process, container, holder = (self.containers[number] for number in (p, o, receiver))
        self.blocked += verdict == "blocked"
        if verdict == "quiet" and op in ("end", "delete"):
            self.containers.leave(o, int(step))
        added = self.told(int(step), op, int(p), int(o), verdict, int(receiver), tag) if self.reasons is not None else None
        if verdict == "quiet" and (not self.permits or position == NO_POSITION):
            return None
        holds = "would hold" if verdict == "blocked" else "now holds"
        which = ", which" if holder == container else " and"
        why = ""
        if verdict == "quiet":
            mixture = self.permits.mixture(int(receiver), position, tag)
            why = f", let through by mixture {position}: {mixture_words(self.names, mixture)}"
        if added is not None:
            new, why = added
            if new == "nothing new" or new == "nothing but its rules":
                holds = "would still hold" if verdict == "blocked" else "still holds"
            if new:
                why = f"; this access {'would bring' if verdict == 'blocked' else 'brought'} {new}{why}"
        return f"{verdict}, step {step}: {process} {VERBS[op]} {container}{which} {holds} {sources(self.names, tag)}{why}"

    def told(self, step, op, p, o, verdict, receiver, tag):
        """Notes a step; of an alert and of what is blocked what this access brought, in words, and the lines of its reason."""
        self.steps[step] = op, p, o
        before = self.tags.get(receiver, 0)
        if verdict != "blocked":
            self.tags[receiver] = tag
        if verdict == "quiet":
            return None
        reason = self.reasons.get(step)
        if reason is None or (reason.verdict, reason.container) != (verdict, receiver):
            sys.exit(f"not an explanation of this listing: nothing of step {step}")
        self.explained += 1
        lines = "".join(f"\n  {line}" for line in self.teller.lines(reason, tag))
        return self.brought(op, before, tag), lines

    def brought(self, op, before, tag):
        """What an access brought, in words, if that is not all that is there. A write and a fork end what the receiver held, an exec what it
        held as running."""
        stood = {"read": before, "append": before, "exec": before & (1 << RUNNING) - 1}.get(op)
        new = tag & ~(stood or 0)
        if stood is None or (stood == 0 and new):
            return ""
        if op == "exec":
            return f"{sources(self.names, new)} and its rules" if new else "nothing but its rules"
        return sources(self.names, new) if new else "nothing new"


def parts(lines, file):
    """The lines of the listing, and those of its explanation; none if there is no explanation."""
    if file is not None:
        return lines, file.read_text().splitlines()
    ends = [place + 1 for place, line in enumerate(lines) if line.startswith("total ") and " alerts " in line]
    end = ends[0] if ends else len(lines)
    return lines[:end], lines[end:] or None


def main():
    arguments = [Path(argument) for argument in sys.argv[1:] if argument != "--why"]
    if len(arguments) > 2:
        sys.exit(__doc__)
    why = "--why" in sys.argv[1:]
    folder, file = (*arguments, None, None)[:2]
    listing, explanation = parts(sys.stdin.read().splitlines(), file if why else None)
    if explanation is not None and not why:
        sys.exit(f"not a line of a listing: {explanation[0]}")
    try:
        reasons = read_reasons(explanation) if explanation is not None else None
    except Malformed as line:
        sys.exit(f"not a line of an explanation, or not its end: {line}")
    words = Words(folder or HERE, why, reasons)
    for line in listing:
        said = words.line(line)
        if said is not None:
            print(said)
    if words.total is None:
        sys.exit(f"not a whole listing: {listing[-1] if listing else 'it is empty'}")
    if reasons is not None and words.explained != len(reasons):
        sys.exit(f"not an explanation of this listing: it has {len(reasons)} reasons, expected {words.explained}")
    print(words.total)


if __name__ == "__main__":
    main()
