#!/usr/bin/env python3
"""long.py FOLDER FORKS: a policy and a trace in the folder whose one alert has a chain of FORKS + 2 steps, and on standard output what the
program `explain` says of it, by the paper's words: a process reads a source, and so often forks and ends, its child taking its place; the
last one writes into a file that may hold nothing."""
import pathlib
import sys

sys.path.insert(0, str(pathlib.Path(__file__).resolve().parents[3] / "hosts" / "python"))
from formats import CODES, KINDS, Policy, operation  # noqa: E402

SOURCE, RECEIVER, FIRST, SECOND = range(4)


def main():
    folder, forks = pathlib.Path(sys.argv[1]), int(sys.argv[2])
    policy = Policy()
    policy.rule([0])
    policy.container(KINDS["file"], atom=0)
    policy.container(KINDS["file"], permit=0)
    policy.container(KINDS["process"])
    records, steps = [operation(CODES["read"], FIRST, SOURCE)], [1]
    process, child = FIRST, SECOND
    for _ in range(forks):
        records.append(operation(CODES["fork"], process, child))
        steps.append(len(records))
        records.append(operation(CODES["end"], process, process))
        process, child = child, process
    records.append(operation(CODES["write"], process, RECEIVER))
    steps.append(len(records))
    (folder / "policy.bin").write_bytes(policy.image())
    (folder / "trace.bin").write_bytes(b"".join(records))
    print(f"alert {len(records)} {RECEIVER}\nrule own 0 65535\nlacks {0:016x} 0")
    print("way 0", SOURCE, *steps)
    print(f"total {len(records)} explained 1")


main()
