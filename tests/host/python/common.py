"""Shared by the tests of the Python package: counts, stored and random policies with traces, and the programs to compare with."""

import os
import random
import subprocess
import sys
from pathlib import Path

ROOT = Path(__file__).resolve().parents[3]
RECORD = 8
WORDS = {1: "read", 2: "write", 3: "append", 4: "exec", 5: "fork", 6: "file", 7: "volatile", 8: "end", 9: "delete"}
counts = {True: 0, False: 0}


def note(good, text):
    """Counts one check."""
    print(("ok " if good else "FAILED ") + text)
    counts[bool(good)] += 1


def raised(kind, call, *arguments):
    """The error of this kind that a call raises; None if it raises none, or another."""
    try:
        call(*arguments)
    except kind as error:
        return error
    except Exception as error:
        print(f"another error: {error!r}")
    return None


def finish():
    """The last line, and the exit status."""
    print(f"{counts[True]} passed, {counts[False]} failed")
    sys.exit(1 if counts[False] else 0)


def listed(folder):
    """The folders in a folder, by name, that have a policy."""
    return sorted(path for path in Path(folder).iterdir() if (path / "policy.bin").exists())


def records(trace):
    """The records of a trace, the last of which may be short."""
    return [trace[at:at + RECORD] for at in range(0, len(trace), RECORD)]


def whole(trace):
    """A trace without a short last record."""
    return trace[:len(trace) // RECORD * RECORD]


def cut(trace, rng, most=9):
    """A trace in pieces of whole records, as (number of the first record, bytes)."""
    places = sorted({0, len(trace), *(rng.randrange(len(trace) // RECORD + 1) * RECORD for _ in range(rng.randrange(most)))})
    return [(start // RECORD, trace[start:end]) for start, end in zip(places, places[1:])]


def printed(program, folder):
    """What a program prints in a folder."""
    name = os.environ.get(f"YASLAUREL_{program.upper()}") or ROOT / "target/bin" / program
    return subprocess.run([name], cwd=folder, stdout=subprocess.PIPE, check=True).stdout.decode()


def chosen(seed, *names):
    """A source of random numbers for a part of a test."""
    return random.Random(" ".join(map(str, (seed, *names))))
