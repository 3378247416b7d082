#!/usr/bin/env python3
"""demo/month/bars.py < LINES: draws the alerts of a month, by day and by container, as bars of text. LINES are what the month program
prints. Fails if they are not whole: the last line of a month is that of the total."""

import sys

WIDTH = 40  # of the longest bar
TOO_LONG = ["19"]  # what stands behind the name of a trace of over 1,000,000 records


class Line:
    """A line of figures, field by field."""

    def __init__(self, fields):
        self.accepted, self.alerts, self.refused, self.blocked = map(int, fields[:4])
        rest = fields[5:] if fields[4] == "none" else fields[6:]
        self.containers = dict(zip(rest[::2], map(int, rest[1::2]), strict=True))


def bars(heading, counts):
    """A bar for each count, beside its name; the longest is WIDTH wide, or as wide as its count if that is less."""
    print(heading)
    most = max(counts.values(), default=0)
    for name, count in counts.items():
        length = count if most <= WIDTH else -(-count * WIDTH // most)
        print(f"  {name:<8}{count:>10} {'#' * length}".rstrip())


def main():
    lines = {name: fields for name, *fields in map(str.split, sys.stdin)}
    if list(lines)[-1:] != ["total"]:
        sys.exit("bars.py: the figures do not end with the total")
    shown = {name: Line(fields) for name, fields in lines.items() if fields != TOO_LONG}
    total = shown.pop("total")
    bars("alerts by day", {name: line.alerts for name, line in shown.items()})
    print()
    bars("alerts by container", total.containers)
    for name in lines.keys() - shown.keys() - {"total"}:
        print(f"\n{name} is left out: it has over 1,000,000 records")


if __name__ == "__main__":
    main()
