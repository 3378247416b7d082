"""inputs.py FOLDER HOSTS RECORDS SEED: traces of a fleet under the demo's policy, HOST.bin for each host, with many alerts, blocked and refused records.

Operations are drawn at random over the containers that the demo's policy has, and some that are made on the way."""

import random
import sys
from pathlib import Path

ROOT = Path(__file__).resolve().parents[3]
sys.path.append(str(ROOT / "hosts" / "python"))

from formats import CODES, NO_USER, operation

FILES, PROGRAMS, QUEUE, PROCESSES, FREE, USERS = range(9), (3, 4, 5), 9, (10, 11, 12), range(13, 256), 2
WORDS = ("read", "write", "append", "exec", "fork", "new-file", "new-volatile", "end", "delete")
WEIGHTS = (36, 20, 14, 7, 8, 3, 4, 8, 6)
STRAY, MOST = 0.06, 60


class Host:
    """What there is at a host, so that most of its records are accepted."""

    def __init__(self, rng):
        self.rng, self.processes, self.held = rng, set(PROCESSES), {*FILES, QUEUE}

    def record(self):
        """One record; now and then one that names anything."""
        rng, word = self.rng, self.rng.choices(WORDS, WEIGHTS)[0]
        p, o = rng.choice(sorted(self.processes)), rng.choice(sorted(self.held))
        if rng.random() < STRAY:
            p, o = rng.randrange(70), rng.randrange(70)
        elif word == "exec":
            o = rng.choice(PROGRAMS)
        elif word in ("fork", "new-file", "new-volatile") and len(self.processes | self.held) < MOST:
            o = rng.choice([number for number in FREE if number not in self.processes | self.held])
            (self.processes if word == "fork" else self.held).add(o)
        elif word == "end" and self.processes > set(PROCESSES):
            p = rng.choice(sorted(self.processes - set(PROCESSES)))
            self.processes.remove(p)
        elif word == "delete" and self.held > {*FILES, QUEUE}:
            o = rng.choice(sorted(self.held - {*FILES, QUEUE}))
            self.held.remove(o)
        elif word not in ("read", "write", "append"):
            word = "read"
        user = rng.randrange(USERS) if word in ("exec", "new-file") else NO_USER
        return operation(CODES[word], p, p if word == "end" else o, user)


def records(rng, count):
    host = Host(rng)
    return b"".join(host.record() for _ in range(count))


def traces(seed, hosts, count):
    """The traces by host."""
    return {f"host-{number:03}": records(random.Random(f"{seed} {number}"), count) for number in range(hosts)}


if __name__ == "__main__":
    folder, hosts, count, seed = Path(sys.argv[1]), *map(int, sys.argv[2:4]), sys.argv[4]
    folder.mkdir(parents=True, exist_ok=True)
    for host, trace in traces(seed, hosts, count).items():
        (folder / f"{host}.bin").write_bytes(trace)
