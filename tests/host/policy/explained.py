#!/usr/bin/env python3
"""tests/host/policy/explained.py POLICY FOLDER: explanations of random traces, written a second time from the paper's words on chains and
rules, without the library. explained.py --show FOLDER prints those of one folder, whose listing is standard input.

Each folder in FOLDER has policy.bin, trace.bin and listing.txt, from which only the verdicts are taken. The lines that the program `explain`
must print of it (`lines`) go through `demo/words.py`; `policy explain` must print the same words, and the same facts as JSON. If
YASLAUREL_EXPLAIN names that program, it must print these lines. Names are given here, a number that is taken again having another one."""

import hashlib
import json
import os
import subprocess
import sys
from pathlib import Path

ROOT = Path(__file__).resolve().parents[3]
sys.path += [str(ROOT / "hosts/python"), str(ROOT / "demo")]

import words
from formats import NO_ATOM, OPERATION, RUNNING, UNRESTRICTED
from permits import EVERYTHING, sections
from reasons import read_reasons

RECORDS = 400  # each trace up to there: an explanation takes time in proportion to the records before it

READ, WRITE, APPEND, EXEC, FORK, NEW_FILE, NEW_VOLATILE, END, DELETE = range(1, 10)


class Image:
    def __init__(self, image):
        found = sections(image)
        mixtures = [mixture for (mixture,) in found["mixtures"]]
        self.rules = [(mixtures[first:first + count], owner) for first, count, owner in found["rules"]]
        self.containers = found["containers"]
        self.users = [rule for (rule,) in found["users"]]

    def mixtures(self, rule):
        return [EVERYTHING] if rule == UNRESTRICTED else self.rules[rule][0]

    def covers(self, rule, tag):
        return any(tag & ~mixture == 0 for mixture in self.mixtures(rule))

    def files(self):
        return [(number, fields) for number, fields in enumerate(self.containers) if fields[0] in (1, 4)]


def ends(code, p, o):
    """The container that a step ends something in: a write what o held, an exec what p held, an end and a delete who leaves."""
    return {WRITE: o, EXEC: p, END: p, DELETE: o}.get(code)


def carried(code, p, o):
    """Codes 1 and 4 carry from o to p, codes 2, 3 and 5 from p to o."""
    return (o, p) if code in (READ, EXEC) else (p, o) if code in (WRITE, APPEND, FORK) else None


def follow_atoms(held, step, record):
    """Chains of atoms by container and atom, each a file and its steps, after one more step. What stood there and is not ended stays, else what
    the step carries: data by every carrier, an exec turns it into its twin; twins by 2, 3 and 5. An exec does not end data."""
    code, _, p, o, _ = record
    way = carried(code, p, o)
    taken = {}
    if way:
        for atom, (file, steps) in held.get(way[0], {}).items():
            if code == EXEC and atom < RUNNING:
                taken[atom + RUNNING] = file, steps + [step]
            elif code in (WRITE, APPEND, FORK) or (code == READ and atom < RUNNING):
                taken[atom] = file, steps + [step]
    ended = ends(code, p, o)
    if ended is not None:
        kept = held.get(ended, {}) if code == EXEC else {}
        held[ended] = {atom: chain for atom, chain in kept.items() if atom < RUNNING}
    if way:
        held[way[1]] = taken | held.get(way[1], {})


def rule_chain(image, history, mixtures, file):
    """The chain of a run rule into a file: it begins in each file that has it, and travels along every carrier."""
    held = {number: (number, []) for number, fields in image.files() if image.mixtures(fields[3]) == mixtures}
    for step, (code, _, p, o, _) in history:
        way = carried(code, p, o)
        taken = held.get(way[0]) if way else None
        held.pop(ends(code, p, o), None)
        if taken and way[1] not in held:
            held[way[1]] = taken[0], taken[1] + [step]
    return held.get(file)


def origin(image, history, container):
    """Where the rules governing a container come from."""
    found = {number: ("own",) for number, _ in image.files()}
    for step, (code, _, p, o, u) in history:
        if code == EXEC:
            found[p] = "exec", step, o, u
        elif code == FORK:
            found[o] = found.get(p)
        elif code == NEW_FILE:
            found[o] = "made", step, u
        elif code in (NEW_VOLATILE, DELETE):
            found[o] = None
        elif code == END:
            found[p] = None
    return found[container]


def rule_line(image, history, container, tag):
    """The rule that forbids: its number, and the fields of its line."""
    kind, *more = origin(image, history, container)
    if kind == "own":
        rule = image.containers[container][2]
        return rule, ["own", rule, image.rules[rule][1]]
    if kind == "made":
        rule = image.users[more[1]]
        return rule, ["made", rule, image.rules[rule][1], *more]
    step, file, user = more
    rule = image.users[user]
    if not image.covers(rule, tag):
        return rule, ["user", rule, image.rules[rule][1], step, user]
    before = [(other, record) for other, record in history if other < step]
    for _, fields in image.files():
        if not image.covers(fields[3], tag):
            chain = rule_chain(image, before, image.mixtures(fields[3]), file)
            if chain:
                rule = image.containers[chain[0]][3]
                return rule, ["run", rule, image.rules[rule][1], step, chain[0], *chain[1]]
    raise AssertionError("no rule forbids")


def least(tag):
    return (tag & -tag).bit_length() - 1


def reason_lines(image, history, held, verdict, step, container, tag):
    rule, fields = rule_line(image, history, container, tag)
    lines, told = [f"{verdict} {step} {container}", " ".join(map(str, ["rule", *fields]))], set()
    for mixture in image.mixtures(rule):
        atom = least(tag & ~mixture)
        lines.append(f"lacks {mixture:016x} {atom}")
        if atom not in told:
            told.add(atom)
            file, steps = held[container][atom]
            lines.append(" ".join(map(str, ["way", atom, file, *steps])))
    return lines


def lines(folder, listing):
    """The lines of the program `explain`, from the policy, the trace and the verdicts of its listing."""
    image = Image((folder / "policy.bin").read_bytes())
    trace = (folder / "trace.bin").read_bytes()
    held = {number: {fields[1]: (number, [])} for number, fields in image.files() if fields[1] != NO_ATOM}
    history, found, count = [], [], 0
    for step, line in enumerate(listing[1:-1], 1):
        fields = line.split()
        if fields[4] == "refused":
            continue
        record = OPERATION.unpack_from(trace, OPERATION.size * (step - 1))
        after = held if fields[4] != "blocked" else {number: dict(atoms) for number, atoms in held.items()}
        follow_atoms(after, step, record)
        told = history + [(step, record)]
        assert fields[4] == "quiet" or set(after.get(int(fields[5]), {})) == set(words.atoms(int(fields[6], 16)))
        if fields[4] != "quiet":
            found += reason_lines(image, told, after, fields[4], step, int(fields[5]), int(fields[6], 16))
            count += 1
        if fields[4] != "blocked":
            history = told
    return found + [f"total {len(listing) - 2} explained {count}"]


def give_names(policy, folder, listing):
    """Names for all: the holders of a number are told apart by the step at which they came."""
    said = subprocess.run([policy, "check", folder / "policy.bin"], capture_output=True, text=True).stdout
    sources = int(said.rsplit(": ", 1)[1].split()[0])
    image = Image((folder / "policy.bin").read_bytes())
    holders = [f"{number} c{number}" for number in range(len(image.containers))]
    for step, line in enumerate(listing[1:-1], 1):
        fields = line.split()
        if fields[1] in ("fork", "file", "volatile") and fields[4] != "refused":
            holders.append(f"{fields[3]} c{fields[3]} of {step}")
    (folder / "names.txt").write_text("".join(f"s{atom}\n" for atom in range(sources)))
    (folder / "containers.txt").write_text("".join(f"{line}\n" for line in holders))
    (folder / "users.txt").write_text("".join(f"u{number}\n" for number in range(len(image.users))))
    digest = hashlib.sha256((folder / "policy.bin").read_bytes()).hexdigest()
    (folder / "policy.sha256").write_text(f"{digest}  policy.bin\n")


def cut(folder):
    """The front of a long trace, and its listing."""
    listing = (folder / "listing.txt").read_text().splitlines()
    if len(listing) <= RECORDS + 2:
        return listing
    trace = folder / "trace.bin"
    trace.write_bytes(trace.read_bytes()[:RECORDS * OPERATION.size])
    return listing[:RECORDS + 1] + [f"total {RECORDS} alerts 0 refused 0"]


def in_words(folder, listing, reasons):
    teller = words.Words(folder, True, reasons)
    told = [teller.line(line) for line in listing]
    assert teller.explained == len(reasons)
    return [line for block in told if block and not block.startswith("refused") for line in block.splitlines()]


def run(policy, folder, *options):
    return subprocess.run([policy, "explain", folder, *options], capture_output=True, text=True)


def as_json(policy, folder, reasons, texts):
    """Whether the facts as JSON are those of the lines: steps, answers, what is lacked, and the steps of chains."""
    facts = json.loads(run(policy, folder, "--json").stdout)
    assert [(fact["step"], fact["answer"]) for fact in facts] == [(reason.step, reason.verdict) for reason in reasons.values()]
    for fact, reason in zip(facts, reasons.values()):
        assert fact["origin"]["kind"] == reason.rule[0] and len(fact["mixtures"]) == len(reason.mixtures)
        assert f"  {fact['rule']}" in "\n".join(texts)
        steps = [[hop["step"] for hop in chain["steps"]] for chain in fact["chains"].values()]
        assert steps == [steps for _, steps in reason.ways.values()]
        assert set(fact["stood"]) | set(fact["brought"]) == set(fact["holds"]) and not set(fact["stood"]) & set(fact["brought"])


def show(folder, listing):
    """Prints the lines of one folder, a blank line, and the same in words, with the folder's own names."""
    found = lines(folder, listing)
    print(*found, "", *in_words(folder, listing, read_reasons(found)), sep="\n")


def main():
    if sys.argv[1] == "--show":
        return show(Path(sys.argv[2]), sys.stdin.read().splitlines())
    policy, folders = sys.argv[1], sorted(Path(sys.argv[2]).iterdir())
    passed = failed = reasons_told = 0
    kinds = {}
    for folder in folders:
        listing = cut(folder)
        if listing[0].startswith("policy refused"):
            continue
        give_names(policy, folder, listing)
        wanted_lines = lines(folder, listing)
        reasons = read_reasons(wanted_lines)
        if os.environ.get("YASLAUREL_EXPLAIN"):
            printed = subprocess.run([os.environ["YASLAUREL_EXPLAIN"]], cwd=folder, capture_output=True, text=True).stdout
            same = printed == "".join(f"{line}\n" for line in wanted_lines)
            passed, failed = passed + same, failed + (not same)
            if not same:
                print(f"FAILED {folder.name}: the lines of the program explain")
        told = in_words(folder, listing, reasons)
        done = run(policy, folder)
        wanted = told or [f"nothing to explain: none of {len(listing) - 2} record{'s' * (len(listing) != 3)} is answered by an alert or blocked"]
        good = done.returncode == 0 and not done.stderr and done.stdout.splitlines() == wanted
        if good:
            as_json(policy, folder, reasons, told)
        elif failed == 0:
            differing = [pair for pair in zip(wanted, done.stdout.splitlines()) if pair[0] != pair[1]]
            print(f"{folder.name}: status {done.returncode}, {done.stderr}", *(differing or [("", "")])[0], sep="\n")
        passed, failed, reasons_told = passed + good, failed + (not good), reasons_told + len(reasons)
        for reason in reasons.values():
            for kind in (reason.rule[0], reason.verdict, "rule's own chain" if reason.rule[0] == "run" and reason.rule[2][2:] else ""):
                kinds[kind] = kinds.get(kind, 0) + 1
    kinds.pop("", None)
    print(f"{reasons_told} explanations of random traces:", ", ".join(f"{kind} {count}" for kind, count in sorted(kinds.items())))
    print(f"{passed} passed, {failed} failed")


if __name__ == "__main__":
    main()
