#!/usr/bin/env python3
"""faults.py SEED RANDOM SCRATCH: plants faults in copies of the installed package, one at a time; the part of the test that is named must fail for each, and pass without
one. A fault is a text of a module that stands there once, and what takes its place."""

import os
import shutil
import subprocess
import sys
from concurrent.futures import ThreadPoolExecutor
from pathlib import Path

import yaslaurel
from common import finish, note

HERE = Path(__file__).resolve().parent
FAULTS = [
    ("session.py", "judged", "written[0], numbers[SESSION_LENGTH])", "written[0], numbers[SESSION_LENGTH] + 1)", "places are one too high"),
    ("session.py", "judged", "while at < len(lent):", "if at < len(lent):", "a batch ends with its first room of events"),
    ("session.py", "judged", "first + taken[0] - 1", "first + taken[0]", "a run's event has the place behind it"),
    ("session.py", "judged", "numbers[SESSION_LENGTH] += len(lent) // RECORD_LENGTH", "pass", "figures do not count the records"),
    ("session.py", "judged", "RECORD_LENGTH * (due - first)", "0", "what was fed before is judged again"),
    ("session.py", "sessions", "if first > due:", "if False:", "a gap is passed over"),
    ("session.py", "sessions", "numbers = self._copied()\n            result", "numbers = self._numbers\n            result", "a batch that fails has changed the session"),
    ("session.py", "sessions", "made._take_up(self._policy, self._copied())", "made._take_up(self._policy, self._numbers)", "a copy shares the session's numbers"),
    ("session.py", "sessions", "if hashlib.sha256(body).digest() != data[-DIGEST_LENGTH:]:", "if False:", "a snapshot's digest is not asked for"),
    ("session.py", "sessions", "hashlib.sha256(body).digest()\n", "hashlib.sha256(body[HEAD.size:]).digest()\n", "a snapshot's digest leaves out its head"),
    ("session.py", "sessions", "if digest != policy.digest:", "if False:", "a snapshot of another policy is restored"),
    ("session.py", "sessions", "if (major, minor) != EDITION:", "if major != EDITION[0]:", "a snapshot of another minor version is restored"),
    ("session.py", "sessions", "self._policy.digest, self.taken)", "self._policy.digest, 0)", "a snapshot has no count"),
    ("session.py", "sessions", "if not self._lock.acquire(False):\n            raise Busy()", "self._lock.acquire(False)", "two calls on one session at a time"),
    ("session.py", "sessions", "        with self._turn:\n            head", "        if True:\n            head", "a snapshot is taken during another call"),
    ("buffers.py", "lent", 'ffi.from_buffer("uint8_t[]", data)', 'ffi.from_buffer("uint8_t[]", bytes(data))', "what is lent is copied"),
    ("buffers.py", "lent", "if len(lent) % RECORD_LENGTH:", "if False:", "a piece of a record is taken as one"),
    ("session.py", "lent", "with self._turn, lend_records(records) as lent:", "with self._turn:\n            lent = lend_records(records)", "memory is held behind a call that fails"),
    ("answers.py", "refused", "raise UnknownAnswer(answer)", "return answer, None, 0, None", "an unknown answer passes for a refusal"),
    ("answers.py", "sessions", "position if position != NO_POSITION else None", "position", "no position is told as 255"),
    ("figures.py", "judged", "divmod(1000 * self.alerts, self.accepted)", "divmod(1000 * self.alerts, self.records)", "the rate is of all records"),
    ("figures.py", "judged", "words[CONTAINERS_AT + number] = count", "pass", "a sum loses the containers of its first part"),
    ("policy.py", "refused", "self._image = self.normal(image)", "self._image = bytes(image)", "policies differ by how they are spelled"),
    # What stands in freed memory is not to be foretold, so here it is zeros before it is freed.
    ("policy.py", "asked", "lib.yaslaurel_matrix_policy(rows(reads),", "lib.yaslaurel_matrix_policy((lambda lent: (ffi.cast('uint32_t *', lent), ffi.memmove(lent, bytes(4 * len(lent)), 4 * len(lent)))[0])(rows(reads)),", "rows are lent that are freed already"),
    ("policy.py", "asked", "consent[atom] = 1", "pass", "nobody consents"),
    ("policy.py", "refused", 'raise ForeignNames(f"the names in {folder} are not of {image}")', "pass", "names of another policy are taken"),
    ("explanations.py", "judged", "tuple(steps[first[0] : len(steps)])", "tuple(steps[first[0] + 1 : len(steps)])", "a chain lacks its first record"),
]
COUNT = 27


def arguments(part, seed, random, scratch):
    return {"judged": [seed, random, scratch], "sessions": [seed, random], "asked": [seed, random], "lent": [], "refused": []}[part]


def passes(part, folder, seed, random, scratch):
    """Whether a part of the test passes with the package in a folder."""
    command = [sys.executable, HERE / f"{part}.py", *arguments(part, seed, random, scratch)]
    environment = dict(os.environ, PYTHONPATH=str(folder), PYTHONDONTWRITEBYTECODE="1", PYTHONMALLOC="debug")
    ended = subprocess.run(command, env=environment, stdout=subprocess.PIPE, stderr=subprocess.STDOUT, check=False)
    if b"No module named" in ended.stdout:
        raise RuntimeError(ended.stdout.decode())
    return ended.returncode == 0


def planted(number, seed, random, scratch):
    """A copy of the package with a fault, None for none."""
    folder = Path(scratch, f"fault-{number}")
    shutil.copytree(Path(yaslaurel.__file__).parent, folder / "yaslaurel", ignore=shutil.ignore_patterns("__pycache__"))
    if number is not None:
        name, _, old, new, _ = FAULTS[number]
        path = folder / "yaslaurel" / name
        text = path.read_text()
        if text.count(old) != 1:
            raise ValueError(f"{name}: {old!r} stands there {text.count(old)} times")
        path.write_text(text.replace(old, new))
    return folder


def main(seed, random, scratch):
    sound = planted(None, seed, random, scratch)
    folders = [planted(number, seed, random, scratch) for number in range(len(FAULTS))]
    note(len(FAULTS) == COUNT, f"{COUNT} faults are planted")
    with ThreadPoolExecutor(2) as threads:
        parts = sorted({part for _, part, *_ in FAULTS})
        wanted = threads.map(lambda part: passes(part, sound, seed, random, Path(scratch, f"sound-{part}")), parts)
        found = threads.map(lambda number: not passes(FAULTS[number][1], folders[number], seed, random, Path(scratch, f"scratch-{number}")), range(len(FAULTS)))
        for part, good in zip(parts, wanted):
            note(good, f"{part} passes without a fault")
        for (*_, text), good in zip(FAULTS, found):
            note(good, f"planted fault found: {text}")
    finish()


main(*sys.argv[1:])
