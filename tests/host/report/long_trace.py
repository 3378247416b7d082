#!/usr/bin/env python3
"""long_trace.py FOLDER RECORDS: a policy and a trace of so many records, with names. Jobs come and go: each is forked, reads some of 24 sources,
writes an output that may hold three of them, and ends. Every 250th job reads a source too many, so its output alerts."""

import sys
from pathlib import Path

sys.path.append(str(Path(__file__).resolve().parents[3] / "hosts" / "python"))

from formats import CODES, KINDS, Policy, mixture, operation

SOURCES = OUTPUTS = 24
LEAK = 250


def make_policy():
    """The sources as files 0 and up, the outputs behind them, then the process that forks the jobs."""
    policy = Policy()
    for atom in range(SOURCES):
        policy.container(KINDS["file"], atom)
    for number in range(OUTPUTS):
        policy.container(KINDS["file"], permit=number)
        policy.rule([mixture((number + more) % SOURCES for more in range(3))])
    policy.container(KINDS["process"])
    return policy


def job(turn):
    """The records of one job."""
    clerk = SOURCES + OUTPUTS
    process, number = clerk + 1 + turn % 100, turn % OUTPUTS
    reads = [number, (number + 1) % SOURCES, (number + 2) % SOURCES]
    if turn % LEAK == LEAK - 1:
        reads.append((number + 7) % SOURCES)
    yield operation(CODES["fork"], clerk, process)
    for source in reads:
        yield operation(CODES["read"], process, source)
    yield operation(CODES["write"], process, SOURCES + number)
    yield operation(CODES["end"], process, process)


def main():
    folder, count = Path(sys.argv[1]), int(sys.argv[2])
    records, names, turn = [], [], 0
    while len(records) < count:
        names.append(f"{SOURCES + OUTPUTS + 1 + turn % 100} job {turn}")
        records += job(turn)
        turn += 1
    (folder / "policy.bin").write_bytes(make_policy().image())
    (folder / "trace.bin").write_bytes(b"".join(records[:count]))
    (folder / "names.txt").write_text("".join(f"member {atom}\n" for atom in range(SOURCES)))
    (folder / "users.txt").write_text("")
    first = [f"{atom} positions {atom}" for atom in range(SOURCES)] + [f"{SOURCES + number} statement {number}" for number in range(OUTPUTS)]
    (folder / "containers.txt").write_text("\n".join([*first, f"{SOURCES + OUTPUTS} clerk", *names]) + "\n")


if __name__ == "__main__":
    main()
