#!/usr/bin/env python3
"""fleet.py POLICY TRACE..: judges the traces of many hosts, each in a session of its own, two at a time in threads, and prints the figures of each and of all."""

import mmap
import sys
from concurrent.futures import ThreadPoolExecutor
from pathlib import Path

from yaslaurel import Figures, Policy


def judged(policy: Policy, trace: Path) -> Figures:
    """The figures of a trace, which is not read but mapped: the library judges the records where they lie."""
    with trace.open("rb") as file:
        if trace.stat().st_size == 0:
            return Figures()
        with mmap.mmap(file.fileno(), 0, access=mmap.ACCESS_READ) as records:
            return Figures.of(policy, records)


def main(policy: Policy, traces: list[Path]) -> None:
    with ThreadPoolExecutor(2) as threads:
        figures = list(threads.map(lambda trace: judged(policy, trace), traces))
    for trace, one in zip(traces, figures):
        print(one.line(trace.name))
    print(sum(figures, Figures()).line("total"))


if __name__ == "__main__":
    main(Policy.from_file(sys.argv[1]), [Path(name) for name in sys.argv[2:]])
