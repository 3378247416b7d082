#!/usr/bin/env python3
"""asked.py SEED RANDOM: matrices, policies composed and traces trimmed: the examples of docs/FORMATS.md, and at random what the words there ask for, worked out
here by hand."""

import sys

from common import ROOT, chosen, finish, listed, note, raised, records, whole
from yaslaurel import Policy, Refused, Session, matrix, trim
from yaslaurel.matrix import Judgement, Matrix, Outcome, Verdict

sys.path.insert(0, str(ROOT / "hosts/python"))
import formats  # noqa: E402

# Document 004's table, and what it proposes, as docs/FORMATS.md has them.
TABLE = Matrix([3, 3, 28, 28, 32], [28, 28, 96, 96, 0], 7)
NOTHING = Matrix([0] * 5, [0] * 5, 7)
PROPOSALS = [
    (NOTHING, TABLE, 3),
    (NOTHING, Matrix([3, 3, 0, 0, 32], TABLE.writes, 7), 0),
    (NOTHING, Matrix([0, 0, 28, 28, 0], TABLE.writes, 7), 4),
    (NOTHING, Matrix(TABLE.reads, [28, 28, 0, 0, 0], 7), 0),
    (NOTHING, Matrix([0, 0, 28, 28, 0], [28, 28, 0, 0, 0], 7), 4),
    (Matrix([0, 0, 4, 0, 0], [0] * 5, 7), Matrix([3, 3, 0, 0, 32], TABLE.writes, 7), 2),
]
EVERYTHING = 2**64 - 1
RUNNING_1 = 1 << 33
# Two rules, who consents, and the rule composed: the table of docs/FORMATS.md.
COMPOSED = [
    ([3], [7], [], [3]),
    ([1, 2], [2, 4], [], [2]),
    ([1], [2], [0], [1]),
    ([1 | RUNNING_1], [EVERYTHING], [], [1 | RUNNING_1]),
    ([1 | RUNNING_1], [], [0, 1], [1 | RUNNING_1]),
    ([3], [6], [], []),
    ([3], [6], [1], []),
]


def closed(reads, writes, objects):
    """The composed flows that are not granted, smallest source first, then smallest target."""
    granted = {(a, a) for a in range(objects)}
    granted |= {(a, b) for r, w in zip(reads, writes) for a in range(objects) if r >> a & 1 for b in range(objects) if w >> b & 1}
    flows = set(granted)
    for middle in range(objects):
        flows |= {(a, b) for a in range(objects) if (a, middle) in flows for b in range(objects) if (middle, b) in flows}
    return sorted(flows - granted)


def derived(reads, writes, objects):
    """The derived policy: an object may hold, for each subject that writes it, itself and what that subject reads; without writers itself."""
    made = formats.Policy()
    for number in range(objects):
        made.container(1, atom=number, permit=number)
        writers = [r | 1 << number for r, w in zip(reads, writes) if w >> number & 1]
        made.rule(writers or [1 << number])
    for _ in reads:
        made.container(3)
    made.user()
    return Policy(made.image())


def matrices(rng):
    note(matrix.verdict(*TABLE) == Verdict(False, 4, 0, 5), "document 004's table: four flows are not granted, the first from 0 to 5")
    note([matrix.judge(TABLE, required, proposed) for required, proposed, _ in PROPOSALS] == [answer for _, _, answer in PROPOSALS], "its proposals")
    note(matrix.judge(TABLE, NOTHING, Matrix([3, 3, 28, 28, 33], TABLE.writes, 7)) is Judgement.RIGHT_ADDED, "a right that was added")
    note(matrix.verdict([1, 4], [2, 2], 3).consistent and not matrix.silent([1, 4], [2, 2], 3) and matrix.silent([1], [2], 3), "a matrix that is consistent and not silent, and a silent one")
    small = Matrix([2, 2], [1, 1], 2)
    note(matrix.game(small, 1, 0, 2, 1) == Outcome(False, 0, 0, 0) and matrix.game(small, 1, 0, 3, 1) == Outcome(True, 1, 0, 1), "the game of two and of three rounds")
    note(not matrix.game(small, 1, 0, 4, 2).desk and matrix.game(Matrix([2] * 3, [1] * 3, 2), 1, 0, 4, 2).desk, "two withdrawals hold two subjects, and not three")
    good = 0
    for _ in range(300):
        subjects, objects = rng.randrange(1, 9), rng.randrange(1, 9)
        reads, writes = ([rng.getrandbits(objects) & rng.getrandbits(objects) for _ in range(subjects)] for _ in range(2))
        left = closed(reads, writes, objects)
        good += matrix.verdict(reads, writes, objects) == Verdict(not left, len(left), *(left[0] if left else (0, 0)))
    note(good == 300, "the verdicts of 300 random matrices")
    note(raised(ValueError, matrix.verdict, [1 << 32], [1], 32) and raised(ValueError, matrix.verdict, [-1], [1], 32), "a row of over 32 bits is refused")
    note(matrix.policy(*TABLE) == Policy.from_matrix(*TABLE) == derived(*TABLE), "the policy of a matrix")


def composed():
    def policy(mixtures):
        made = formats.Policy()
        made.container(1, permit=0)
        made.rule(mixtures)
        return Policy(made.image())

    for first, second, consent, wanted in COMPOSED:
        both = [policy(first).compose(policy(second), consent), policy(second).compose(policy(first), consent)]
        spelled = policy(first).compose(policy(second), bytes(atom in consent for atom in range(32)))
        note(both == [policy(wanted)] * 2 and spelled == policy(wanted), f"{first} and {second} with the consent of {consent}")
    demo = Policy.from_file(ROOT / "demo/policy.bin")
    note(demo.compose(demo) == demo and demo.compose(demo).names == demo.names and demo.compose(demo, ["north", 1]) == demo, "a policy with itself, sources by name")
    note(raised(ValueError, demo.compose, demo, [32]) is not None and raised(LookupError, demo.compose, demo, ["nobody"]) is not None, "a source that is none is told")


def ends_in_alert(policy, kept):
    answers = [Session(policy)]
    told = [answers[0].step(record) for record in kept]
    return bool(told) and all(answer.quiet or answer.alert for answer in told) and told[-1].alert


def trimmed(folder):
    tried = 0
    good = True
    for case in listed(folder):
        try:
            policy = Policy.from_file(case / "policy.bin")
        except Refused:
            continue
        session, accepted = Session(policy), []
        for record in records(whole((case / "trace.bin").read_bytes()))[:256]:
            answer = session.step(record)
            accepted += [record] if answer.quiet or answer.alert else []
            if answer.alert:
                break
        else:
            continue
        kept = trim(policy, b"".join(accepted))
        left = [accepted[place] for place in kept]
        good &= list(kept) == sorted(set(kept)) and kept[-1] == len(accepted) - 1 and ends_in_alert(policy, left)
        good &= not any(ends_in_alert(policy, left[:place] + left[place + 1:]) for place in range(len(left) - 1))
        tried += 1
    note(good and tried > 3, f"{tried} random traces are trimmed to their alert, and no further record can go")


rng = chosen(sys.argv[1], "asked")
matrices(rng)
composed()
trimmed(sys.argv[2])
finish()
