#!/usr/bin/env python3
"""sessions.py SEED RANDOM: feeds and their gaps, snapshots, copies, calls that fail, and threads, on the random cases in the folder RANDOM."""

import copy
import hashlib
import pickle
import struct
import sys
import threading
import zlib

from common import ROOT, chosen, cut, finish, listed, note, raised, whole
from yaslaurel import Busy, Code, Figures, Gap, Policy, Refused, Session, SnapshotMismatch, record
from yaslaurel import session as sessions

# What a snapshot has, by its description: mark, format, major, minor, digest of the policy, count.
HEAD = struct.Struct("<7sBHH32sQ")


def cases(folder, count=20):
    """Policies with traces that have some events."""
    found = []
    for case in listed(folder):
        try:
            policy, trace = Policy.from_file(case / "policy.bin"), whole((case / "trace.bin").read_bytes())
        except Refused:
            continue
        if len(Session(policy).events(trace)) > 1:
            found.append((policy, trace))
    return found[:count]


def told(session):
    """All that a session is."""
    return session.taken, session.state()


def feeds(rng, policy, trace):
    """Whether messages that come twice, late or overlapping, give each event once."""
    wanted, session, found = Session(policy).events(trace), Session(policy), []
    for first, piece in cut(trace, rng):
        back = rng.randrange(first + 1)
        messages = [(first, piece), (first, piece), (back, trace[8 * back:8 * first] + piece), (back, trace[8 * back:8 * first]), (first, b"")]
        for number, message in messages[:1] + rng.sample(messages, 4):
            found += session.feed(number, message)
    return found == wanted and session.taken == len(trace) // 8


def gaps(rng, policy, trace):
    """Whether records that are missing are told, and change nothing."""
    session = Session(policy)
    start = rng.randrange(len(trace) // 8)
    session.feed(0, trace[:8 * start])
    before = told(session)
    missing = start + 1 + rng.randrange(5)
    error = raised(Gap, session.feed, missing, trace[:80])
    good = error is not None and (error.first, error.due) == (missing, start) and told(session) == before
    good &= raised(Gap, session.feed, start + 1, b"") is not None and raised(ValueError, session.feed, -1, b"") is not None and told(session) == before
    return good and session.feed(start, trace[8 * start:]) == [event for event in Session(policy).events(trace) if event.place >= start]


def goes_on(rng, policy, trace):
    """Whether a restored session and a copy go on as the first one would have, and are apart from it."""
    middle = 8 * rng.randrange(len(trace) // 8)
    session = Session(policy)
    session.events(trace[:middle])
    others = [Session.restore(policy, session.snapshot()), session.copy(), copy.copy(session), pickle.loads(pickle.dumps(session))]
    before, wanted = told(session), [event for event in Session(policy).events(trace) if event.place >= middle // 8]
    good = all(told(other) == before and other.policy == policy for other in others)
    # A single step is made in the session's own numbers.
    spare = [Session.restore(policy, session.snapshot()), session.copy(), copy.copy(session)]
    good &= all(one.step(record).answer == session.copy().step(record).answer for one in spare for record in [trace[middle:middle + 8]]) and told(session) == before
    good &= all(other.events(trace[middle:]) == wanted for other in others)
    return good and told(session) == before and session.events(trace[middle:]) == wanted


def remade(snapshot, **fields):
    """A snapshot with other fields in its head, or another body, under a digest that is right."""
    names = ("mark", "format", "major", "minor", "digest", "count")
    head = dict(zip(names, HEAD.unpack_from(snapshot)), **{name: value for name, value in fields.items() if name != "body"})
    body = HEAD.pack(*(head[name] for name in names)) + fields.get("body", snapshot[HEAD.size:-32])
    return body + hashlib.sha256(body).digest()


def refused(policy, snapshot):
    """For which reason a snapshot is not restored, None if it is."""
    error = raised(SnapshotMismatch, Session.restore, policy, snapshot)
    return error and error.which


def snapshots(rng, policy, trace):
    session = Session(policy)
    session.events(trace)
    snapshot = session.snapshot()
    note(Session.restore(policy, remade(snapshot)).state() == session.state(), "a snapshot that is put together again is restored")
    kept = 0
    for place in range(len(snapshot)):
        damaged = bytearray(snapshot)
        damaged[place] ^= 1 << rng.randrange(8)
        kept += refused(policy, damaged) not in ("damaged", "format")
    note(kept == 0, f"a snapshot that is damaged at any of its {len(snapshot)} bytes is refused")
    for _ in range(1000):
        damaged = bytearray(snapshot)
        for _ in range(rng.randrange(1, 9)):
            damaged[rng.randrange(len(damaged))] = rng.randrange(256)
        kept += bytes(damaged) != snapshot and refused(policy, damaged) not in ("damaged", "format")
    note(kept == 0, "and 1000 that are damaged at several")
    note(all(refused(policy, snapshot[:length]) == "damaged" for length in range(len(snapshot))), "one that is cut short at any length is refused")
    note(refused(policy, snapshot + b"\0") == refused(policy, b"\0" + snapshot) == "damaged", "and one that is too long")
    other = Policy.from_matrix([1], [1], 1)
    note(other != policy and refused(other, snapshot) == "policy", "one of another policy is refused")
    versions = [{"major": HEAD.unpack_from(snapshot)[2] + 1}, {"minor": HEAD.unpack_from(snapshot)[3] + 1}]
    note([refused(policy, remade(snapshot, **version)) for version in versions] == ["version"] * 2, "one of another version of the library is refused")
    note(refused(policy, remade(snapshot, format=2)) == "format", "one of another format is refused")
    bodies = [b"", b"nothing that zlib packs", zlib.compress(session.state()[:-1]), zlib.compress(session.state() + b"\0"), zlib.compress(session.state()) + b"\0"]
    note([refused(policy, remade(snapshot, body=body)) for body in bodies] == ["damaged"] * 5, "one whose numbers are too few, too many or none is refused")
    error = raised(SnapshotMismatch, Session.restore, policy, b"")
    note(str(error) and pickle.loads(pickle.dumps(error)).which == "damaged", "the refusal has words, and can be sent elsewhere")


def all_or_nothing(policy, trace):
    """Whether a batch whose result cannot be made has changed nothing."""
    session = Session(policy)
    session.events(trace[:8])
    before, kept = told(session), sessions._events

    def fails(raw):
        raise MemoryError

    sessions._events = fails
    try:
        good = raised(MemoryError, session.events, trace) is not None and raised(MemoryError, session.feed, 0, trace) is not None
    finally:
        sessions._events = kept
    good &= raised(ValueError, session.events, trace + b"\0") is not None and raised(ValueError, session.feed, 0, trace[:-1]) is not None
    good &= raised(ValueError, session.figures, b"\0") is not None and raised(ValueError, session.run, b"\0" * 9) is not None
    return good and told(session) == before


CALLS = ["step", "run", "events", "raw_events", "event_array", "figures"]


def calls(session, trace):
    """Every call on a session, by name."""
    named = [(name, lambda name=name: getattr(session, name)(trace[:8])) for name in CALLS]
    named += [(name, getattr(session, name)) for name in ("copy", "snapshot", "state", "__reduce__")]
    return [*named, ("feed", lambda: session.feed(0, trace))]


def busy(policy, trace):
    """Whether every call is refused while another is made, and none is stuck or changes anything."""
    session = Session(policy)
    session.events(trace[:8])
    before, answers = told(session), {}

    def within(numbers, lent):
        """In the place of a judgement: all other calls, from another thread."""
        def ask():
            for name, call in calls(session, trace):
                answers[name] = raised(Busy, call) is not None

        thread = threading.Thread(target=ask)
        thread.start()
        thread.join()
        raise KeyboardInterrupt

    try:
        session._kept(trace, within)
    except KeyboardInterrupt:
        pass
    note(len(answers) == 11 and all(answers.values()), f"a call is refused while another is made: {', '.join(name for name, good in answers.items() if not good) or 'all'}")
    note(told(session) == before and session.feed(0, trace) == Session(policy).feed(0, trace)[len(Session(policy).events(trace[:8])):], "and the session goes on afterwards")


def threads():
    """Two threads on one session, and two threads on two: the interpreter hands over in calls of the library alone."""
    policy = Policy.from_matrix([1], [1], 1)
    long = record(Code.READ, 1, 0) * 1_000_000
    one, other, seen, stop = Session(policy), Session(policy), [], threading.Event()
    interval = sys.getswitchinterval()
    inside = threading.Event()

    def judge():
        while not stop.is_set():
            inside.set()
            one.figures(long)
            inside.clear()

    sys.setswitchinterval(1000)
    thread = threading.Thread(target=judge)
    try:
        thread.start()
        # This thread comes to run only where the other one is in a call of the library, which lets it.
        inside.wait()
        seen.append(other.step(long[:8]).quiet and inside.is_set())
        seen.append(raised(Busy, one.step, long[:8]) is not None)
        seen.append(inside.is_set())
    finally:
        stop.set()
        thread.join()
        sys.setswitchinterval(interval)
    note(seen[0] and seen[2], "a session is judged while another thread is in a long call on its own")
    note(seen[1], "and the other thread's session is busy then")
    note(one.taken % 1_000_000 == 0 and one.taken > 0, "which has counted whole batches alone")


def main(seed, folder):
    rng, found = chosen(seed, "sessions"), cases(folder)
    note(len(found) > 5, f"{len(found)} random cases have events")
    note(all(feeds(rng, *case) for case in found), "records that come twice, late or overlapping count once")
    note(all(gaps(rng, *case) for case in found), "records that are missing are told, and nothing changes")
    note(all(goes_on(rng, *case) for case in found), "snapshots and copies go on as the session would have")
    note(all(all_or_nothing(*case) for case in found), "a batch that fails has changed nothing, and one that is no whole records is refused")
    demo = Policy.from_file(ROOT / "demo/policy.bin")
    trace = (ROOT / "demo/trace.bin").read_bytes()
    snapshots(rng, demo, trace)
    busy(demo, trace)
    threads()
    many = Session(demo)
    refusals = many.events(bytes(8) * 200_000)
    note([event.place for event in refusals] == list(range(200_000)) and {event.answer for event in refusals} == {7}, "200,000 events of one batch")
    note(Figures.of(demo, bytes(8) * 200_000) == Session(demo).figures(bytes(8) * 200_000) == Figures(200_000, refused=200_000), "and their figures")
    note(Figures.of(demo, bytes(9)) == Figures(2, refused=2), "a short last record of a whole trace is refused, and counts")
    ran = Session(demo).run(trace)
    note(ran.taken == 12 and ran.event and ran.event.alert and ran.event.position is None, "a run stops at the demo's first alert, which no mixture lets through")
    finish()


main(*sys.argv[1:])
