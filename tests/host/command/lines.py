#!/usr/bin/env python3
"""lines.py FOLDER..: what `yaslaurel SUBCOMMAND FOLDER --json` prints, read by Python's own reader of JSON and written again as the plain lines of
docs/FORMATS.md, is what `yaslaurel SUBCOMMAND FOLDER` prints, with the same exit status; for each folder with a trace.bin (watch, explain) or a 00.bin (month). The
objects have exactly the fields of docs/COMMAND.md. The last line is `N passed, M failed`."""

import json
import subprocess
import sys
from pathlib import Path

NOBODY = 65535
COUNTS = ["accepted", "alerts", "refused", "blocked"]


def fields(thing, *names):
    """The values of an object that has these fields, in this order, and no other."""
    if list(thing) != list(names):
        raise ValueError(f"{thing} has not the fields {names}")
    return [thing[name] for name in names]


def refused(thing):
    _, number, meaning = fields(thing, "kind", "refusal", "meaning")
    if not meaning:
        raise ValueError(f"{number} has no meaning")
    return [f"policy refused {number}"]


def listing(thing):
    if thing["kind"] == "total":
        _, records, alerts, number = fields(thing, "kind", "records", "alerts", "refused")
        return [f"total {records} alerts {alerts} refused {number}"]
    head = ["kind", "step", "op", "p", "o", "verdict"]
    if thing["verdict"] == "refused":
        kind, *front, number, meaning = fields(thing, *head, "refusal", "meaning")
        front.append(number)
        if not meaning:
            raise ValueError(f"{number} has no meaning")
    else:
        kind, *front = fields(thing, *head, "at", "tag", "pos")
    if kind != "step":
        raise ValueError(kind)
    return [" ".join(map(str, front))]


def explanation(thing):
    if thing["kind"] == "total":
        _, records, explained = fields(thing, "kind", "records", "explained")
        return [f"total {records} explained {explained}"]
    kind, step, container, rule, lacks, ways = fields(thing, "kind", "step", "container", "rule", "lacks", "ways")
    more = {"own": [], "made": ["step", "user"], "user": ["step", "user"], "run": ["step", "file", "steps"]}[rule["origin"]]
    origin, number, owner, *rest = fields(rule, "origin", "number", "owner", *more)
    rest = rest[:2] + (rest[2] if len(rest) > 2 else [])
    lines = [f"{kind} {step} {container}", " ".join(map(str, ["rule", origin, number, NOBODY if owner is None else owner, *rest]))]
    ways = {way["atom"]: fields(way, "atom", "file", "steps") for way in ways}
    for mixture, atom in (fields(lack, "mixture", "atom") for lack in lacks):
        lines.append(f"lacks {mixture} {atom}")
        # A way stands behind the first mixture that lacks its atom.
        way = ways.pop(atom, None)
        if way:
            lines.append(" ".join(map(str, ["way", atom, way[1], *way[2]])))
    if ways:
        raise ValueError(f"ways of atoms that no mixture lacks: {ways}")
    return lines


def figures(thing):
    names = ["kind"] if thing["kind"] == "total" else ["kind", "name", "file"]
    name = thing.get("name", "total")
    if "refusal" in thing:
        number = fields(thing, *names, "refusal", "meaning")[-2]
        return [f"{name} {number}"]
    *_, rate, containers = fields(thing, *names, *COUNTS, "rate", "containers")
    rate = ["none"] if rate is None else fields(rate, "quotient", "remainder")
    pairs = [value for pair in containers for value in fields(pair, "container", "alerts")]
    return [" ".join(map(str, [name, *(thing[count] for count in COUNTS), *rate, *pairs]))]


WRITERS = {"watch": (listing, ["step op p o verdict at tag pos"]), "explain": (explanation, []), "month": (figures, [])}


def same(subcommand, folder):
    """Whether both forms say the same, and how many lines they have."""
    writer, heading = WRITERS[subcommand]
    plain = subprocess.run(["yaslaurel", subcommand, folder], capture_output=True, text=True)
    done = subprocess.run(["yaslaurel", subcommand, folder, "--json"], capture_output=True, text=True)
    things = [json.loads(line) for line in done.stdout.splitlines()]
    if things and things[0]["kind"] == "policy refused":
        lines = refused(*things)
    else:
        lines = heading + [line for thing in things for line in writer(thing)]
    return plain.stdout.splitlines() == lines and (plain.returncode, plain.stderr) == (done.returncode, done.stderr), len(lines)


def main():
    passed = failed = count = 0
    for folder in map(Path, sys.argv[1:]):
        for subcommand in WRITERS:
            if not (folder / ("00.bin" if subcommand == "month" else "trace.bin")).is_file() or not (folder / "policy.bin").is_file():
                continue
            try:
                good, lines = same(subcommand, folder)
            except (ValueError, KeyError, TypeError) as error:
                good, lines = False, 0
                print(error)
            if not good:
                print(f"FAILED {subcommand} {folder}: JSON and plain lines differ")
            passed, failed, count = passed + good, failed + (not good), count + lines
    print(f"{count} lines by JSON are those without, field by field")
    print(f"{passed} passed, {failed} failed")
    return failed > 0 or passed == 0


if __name__ == "__main__":
    sys.exit(main())
