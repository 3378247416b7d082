#!/usr/bin/env python3
"""tests/host/month/months.py SEED FROM TO: makes a month in a folder of TO for each folder of FROM, which has a policy.bin and a
trace.bin: that policy, and as traces pieces of that trace and of others, cut anywhere."""

import random
import sys
from pathlib import Path


def pieces(trace, rng):
    """The trace in up to nine pieces, most of them cut between records."""
    cuts = [rng.randrange(len(trace) + 1) // 8 * 8 + (rng.randrange(8) if rng.random() < 0.2 else 0) for _ in range(rng.randrange(9))]
    places = sorted(min(cut, len(trace)) for cut in [0, *cuts, len(trace)])
    return [trace[start:end] for start, end in zip(places, places[1:])]


def main():
    seed, source, target = sys.argv[1], Path(sys.argv[2]), Path(sys.argv[3])
    folders = sorted(folder for folder in source.iterdir() if folder.is_dir())
    for folder in folders:
        rng = random.Random(f"{seed} {folder.name}")
        month = target / folder.name
        month.mkdir(parents=True)
        (month / "policy.bin").write_bytes((folder / "policy.bin").read_bytes())
        traces = pieces((folder / "trace.bin").read_bytes(), rng)
        traces += [(other / "trace.bin").read_bytes() for other in rng.sample(folders, rng.randrange(4))]
        rng.shuffle(traces)
        for number, trace in enumerate(traces):
            (month / f"{number:02}.bin").write_bytes(trace)


if __name__ == "__main__":
    main()
