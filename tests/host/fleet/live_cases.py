"""live_cases.py SEED [CASE]: workers in this process on the log and the store that the variables name, ended at every point of a commit, started twice, fed twice;
and what a worker must refuse. What is in the store is compared with an undisturbed run of the package, and with the watch program by `run`.
live_cases.py publish FOLDER, live_cases.py compare FOLDER: the same for workers that are processes: FOLDER has a trace for each host.
"""

import contextlib
import io
import os
import random
import subprocess
import sys
import tempfile
import threading
from pathlib import Path

import psycopg2
import redis
import yaslaurel
from checks import finish, note, refused, tried
from inputs import ROOT, traces
from psycopg2.extensions import connection, cursor
from yaslaurel_fleet import store as stores
from yaslaurel_fleet.command import main
from yaslaurel_fleet.errors import FleetError, NotFollowed, OtherPolicy, Replaced
from yaslaurel_fleet.live import Worker
from yaslaurel_fleet.log import Log, Message, partition, stream
from yaslaurel_fleet.store import Store, found_of
from yaslaurel_fleet.words import line

POLICY = yaslaurel.Policy.from_file(ROOT / "demo" / "policy.bin")
OTHER = yaslaurel.Policy.from_file(ROOT / "crates" / "month" / "data" / "policy.bin")
LOG, STORE = os.environ["YASLAUREL_FLEET_LOG"], os.environ["YASLAUREL_FLEET_STORE"]
WATCH = os.environ.get("YASLAUREL_WATCH") or ROOT / "target" / "bin" / "watch"


class Killed(Exception):
    """In the place of a kill: the connection ends, and with it what was not committed."""


class Fuse:
    """Burns at some statement or commit, before or behind it; never if `left` is None."""

    left = None

    @classmethod
    def burn(cls):
        if cls.left is not None:
            cls.left -= 1
            if cls.left < 0:
                cls.left = None
                raise Killed


class Fused(connection):
    def commit(self):
        Fuse.burn()
        super().commit()
        Fuse.burn()

    def cursor(self, *given, **named):
        return super().cursor(*given, cursor_factory=FusedCursor, **named)


class FusedCursor(cursor):
    def execute(self, query, values=None):
        Fuse.burn()
        super().execute(query, values)
        Fuse.burn()


connect = psycopg2.connect
stores.psycopg2.connect = lambda dsn: connect(dsn, connection_factory=Fused)


class Fleet:
    """A new fleet in an empty log and an empty store."""

    def __init__(self, partitions=2, policy=POLICY):
        redis.Redis.from_url(LOG).flushdb()
        with connect(STORE) as db, db.cursor() as c:
            c.execute("drop table if exists alert, state, place, fleet")
        db.close()
        self.log, self.store = Log(LOG), Store(STORE)
        made = self.store.create(policy, partitions)
        self.log.create(made.fleet, partitions)
        self.partitions = partitions

    def close(self):
        self.store.close()

    def worker(self, part, policy=POLICY, **named):
        return Worker(Log(LOG), Store(STORE), policy, part, **named)

    def work(self, count=7):
        """Undisturbed workers, one behind the other, to the end of the log."""
        for part in range(self.partitions):
            worker = self.worker(part)
            while worker.turn(count, 0):
                pass
            worker.store.close()

    def held(self):
        """All that the store has of hosts: counts, snapshots and events."""
        hosts = [host for host, _, _ in self.store.hosts()]
        states = sorted((state.host, state.taken, state.snapshot) for state in self.store.states(hosts))
        return states, self.store.alerts()


def messages(rng, sent, most, first=0):
    """The traces in messages of up to so many records, the hosts' messages mixed, each host's in order."""
    at = {host: first for host in sent}
    while at:
        host = rng.choice(sorted(at))
        count = rng.randint(1, most)
        piece = sent[host][8 * at[host]:8 * (at[host] + count)]
        if piece:
            yield Message(host, at[host], piece)
        at[host] += count
        if 8 * at[host] >= len(sent[host]):
            del at[host]


def undisturbed(sent, policy=POLICY):
    """What the store must have: each trace in one session, judged once."""
    states, events = [], []
    for host, trace in sorted(sent.items()):
        session = yaslaurel.Session(policy)
        events += [found_of(host, event) for event in session.events(trace)]
        states.append((host, session.taken, session.snapshot()))
    return states, events


def listed(sent):
    """The lines of the watch program that are not quiet, without operation, process and object, behind the host's name."""
    lines = []
    with tempfile.TemporaryDirectory() as folder:
        (Path(folder) / "policy.bin").write_bytes(POLICY.image)
        for host, trace in sorted(sent.items()):
            (Path(folder) / "trace.bin").write_bytes(trace)
            text = subprocess.run([WATCH], cwd=folder, stdout=subprocess.PIPE, check=True).stdout.decode().splitlines()
            assert text[-1].startswith("total ")
            for words in (one.split(" ") for one in text[1:-1]):
                if words[4] != "quiet":
                    lines.append(" ".join([host, words[0], *words[4:]]))
    return lines


def same(fleet, sent):
    states, events = fleet.held()
    expected = undisturbed(sent)
    assert len(events) == len(set(events)), "an event stands twice"
    assert [state[:2] for state in states] == [state[:2] for state in expected[0]], "counts of records"
    assert states == expected[0], "states"
    assert events == expected[1], f"{len(events)} events, {len(expected[1])} in an undisturbed run"


def plain(seed, sent):
    fleet = Fleet()
    fleet.log.publish(messages(random.Random(seed), sent, 9))
    fleet.work()
    same(fleet, sent)
    assert [line(found) for found in fleet.store.alerts()] == listed(sent), "the lines of the watch program"
    fleet.close()


def killed_everywhere(seed, sent):
    """Every message twice, in other pieces; a worker that is ended after each number of statements and commits, from none on, until all is done."""
    fleet, rng = Fleet(), random.Random(seed)
    fleet.log.publish(messages(rng, sent, 9))
    fleet.log.publish(messages(rng, sent, 20))
    kills = 0
    for part in range(fleet.partitions):
        lasts, done = 0, False
        while not done:
            store = Store(STORE)
            worker = Worker(Log(LOG), store, POLICY, part)
            Fuse.left = lasts
            lasts = (lasts + 1) % 13
            try:
                while worker.turn(5, 0):
                    pass
                done = True
            except Killed:
                kills += 1
            Fuse.left = None
            store.db.close()
    assert kills > 12, f"{kills} kills"
    same(fleet, sent)
    fleet.close()


def two_at_once(seed, sent):
    """Two workers on one partition: both judge the same messages, one commits, and the other must find that it was replaced."""
    fleet = Fleet(partitions=1)
    fleet.log.publish(messages(random.Random(seed), sent, 9))
    first, second = fleet.worker(0), fleet.worker(0)
    kept = first.store.commit

    def late(*given):
        second.turn(5, 0)
        kept(*given)

    first.store.commit = late
    refused(Replaced, "nothing of this turn", lambda: first.turn(8, 0))
    fleet.work()
    same(fleet, sent)
    fleet.close()


def forgotten_sessions(seed, sent):
    """A worker that keeps a single session in memory has the others from the store."""
    fleet = Fleet(partitions=1)
    fleet.log.publish(messages(random.Random(seed), sent, 9))
    worker = fleet.worker(0, sessions=1)
    while worker.turn(3, 0):
        assert len(worker.sessions) <= 1
    same(fleet, sent)
    fleet.close()


def unchanged(fleet, action):
    before = fleet.held(), [fleet.store.place(part) for part in range(fleet.partitions)]
    action()
    assert before == (fleet.held(), [fleet.store.place(part) for part in range(fleet.partitions)]), "the store has changed"


def gaps(seed, sent):
    """A message that is missing: what comes before is committed, nothing behind; the same again, until the message is skipped and all is sent again."""
    fleet = Fleet(partitions=1)
    all_of = list(messages(random.Random(seed), sent, 9))
    lost = next(k for k, message in enumerate(all_of) if k > 20)
    host = all_of[lost].host
    fleet.log.publish(all_of[:lost] + all_of[lost + 1:])
    last = next(k for k, message in enumerate(all_of) if k > lost and message.host == host)

    def turns():
        worker = fleet.worker(0)
        while worker.turn(1000, 0):
            pass

    refused(NotFollowed, f"host {host}", turns)
    counts = {name: sum(len(message.records) // 8 for message in all_of[:last] if message is not all_of[lost] and message.host == name) for name in sent}
    assert {name: taken for name, _, taken in fleet.store.hosts()} == {name: count for name, count in counts.items() if count}
    unchanged(fleet, lambda: refused(NotFollowed, f"number {all_of[last].first} on", turns))
    fleet.log.publish(all_of[lost:])
    at = fleet.log.after(0, fleet.store.place(0), 1, 0)[0][0]
    unchanged(fleet, lambda: note(main(["skip", "0", "0-1"]) == 5, "another message than the next is not skipped"))
    assert main(["skip", "0", at]) == 0
    while True:
        # messages of this host behind the gap that were sent before it came again cannot be followed either
        try:
            turns()
            break
        except NotFollowed as fault:
            assert main(["skip", "0", str(fault).split("message ")[1].split(",")[0]]) == 0
    same(fleet, sent)
    fleet.close()


def malformed(seed, sent):
    host = next(name for name in sorted(sent) if partition(name, 2) == 0)
    stranger = next(name for name in sorted(sent) if partition(name, 2) == 1)
    record = sent[host][:8]
    wrong = {
        "no host": {"n": 0, "r": record}, "a field more": {"h": host, "n": 0, "r": record, "x": 1}, "an empty name": {"h": "", "n": 0, "r": record},
        "a name of two words": {"h": "a b", "n": 0, "r": record}, "a name that is no text": {"h": b"\xff\xfe", "n": 0, "r": record},
        "a name that is too long": {"h": 300 * "x", "n": 0, "r": record}, "a number below 0": {"h": host, "n": -1, "r": record},
        "a number that is none": {"h": host, "n": "1e3", "r": record}, "a number with a space": {"h": host, "n": " 0", "r": record},
        "a number that is too large": {"h": host, "n": 1 << 62, "r": record}, "no records": {"h": host, "n": 0, "r": b""},
        "half a record": {"h": host, "n": 0, "r": record[:7]}, "a host of another partition": {"h": stranger, "n": 0, "r": record},
    }
    for text, fields in wrong.items():
        fleet = Fleet()
        fleet.log.publish([Message(host, 0, record)])
        fleet.log.redis.xadd(stream(0), fields)
        fleet.log.publish([Message(host, 1, record)])
        refused(NotFollowed, "partition 0, message ", lambda: fleet.worker(0).turn(10, 0))
        assert [taken for _, _, taken in fleet.store.hosts()] == [1], text
        unchanged(fleet, lambda: refused(NotFollowed, "partition 0, message ", lambda: fleet.worker(0).turn(10, 0)))
        fleet.close()


def snapshots(seed, sent):
    """Snapshots that do not restore: nothing is committed, and the host is told."""
    fleet, host = Fleet(partitions=1), min(sent)
    half = len(sent[host]) // 16
    fleet.log.publish([Message(host, 0, sent[host][:8 * half])])
    fleet.work()
    good = fleet.store.states([host])[0]
    other = yaslaurel.Session(OTHER)
    other.events(half * yaslaurel.record(yaslaurel.Code.READ, 5, 0))
    ahead = yaslaurel.Session.restore(POLICY, good.snapshot)
    ahead.events(sent[host][8 * half:8 * half + 8])
    from hashlib import sha256
    version = bytearray(good.snapshot[:-32])
    version[8] ^= 1
    wrong = {
        "is damaged": good.snapshot[:200] + bytes([good.snapshot[200] ^ 1]) + good.snapshot[201:], "is damaged or cut": good.snapshot[:-40], "or it is none": b"",
        "another policy": other.snapshot(), "another version": bytes(version) + sha256(version).digest(), f"has taken {half + 1} records": ahead.snapshot(),
    }
    fleet.log.publish([Message(host, half, sent[host][8 * half:])])
    for text, snapshot in wrong.items():
        with fleet.store.db, fleet.store.db.cursor() as c:
            c.execute("update state set snapshot = %s", (snapshot,))
        unchanged(fleet, lambda: refused(FleetError, text, lambda: fleet.worker(0).turn(10, 0)))
    with fleet.store.db, fleet.store.db.cursor() as c:
        c.execute("update state set snapshot = %s", (good.snapshot,))
    fleet.work()
    same(fleet, {host: sent[host]})
    fleet.close()


def policies(seed, sent):
    """A worker of another policy, also where the store's policy changes under a worker; a log of another fleet; partitions that are not there."""
    fleet = Fleet()
    fleet.log.publish(messages(random.Random(seed), sent, 9))
    unchanged(fleet, lambda: refused(OtherPolicy, "another policy", lambda: fleet.worker(0, policy=OTHER)))
    unchanged(fleet, lambda: refused(OtherPolicy, "another policy", lambda: fleet.store.create(OTHER, 2)))
    unchanged(fleet, lambda: refused(FleetError, "2 partitions", lambda: fleet.store.create(POLICY, 3)))
    unchanged(fleet, lambda: refused(FleetError, "no partition 2", lambda: fleet.worker(2)))
    worker = fleet.worker(0)
    with fleet.store.db, fleet.store.db.cursor() as c:
        c.execute("update fleet set digest = %s", (OTHER.digest,))
    unchanged(fleet, lambda: refused(Replaced, "another policy", lambda: worker.turn(10, 0)))
    with fleet.store.db, fleet.store.db.cursor() as c:
        c.execute("update fleet set digest = %s", (POLICY.digest,))
    fleet.log.redis.hset("yaslaurel:fleet", "fleet", "another")
    refused(FleetError, "another fleet", lambda: fleet.worker(0))
    refused(FleetError, "another fleet", lambda: fleet.log.create(fleet.store.fleet().fleet, 2))
    fleet.log.redis.delete("yaslaurel:fleet")
    refused(FleetError, "no fleet", lambda: fleet.worker(0))
    refused(FleetError, "no fleet", lambda: fleet.log.publish(messages(random.Random(seed), sent, 9)))
    fleet.close()


def lost_log(seed, sent):
    """The log is lost whole, while the store stands behind times to come, as after a clock that was set back: hosts send again, and nothing is passed over."""
    fleet = Fleet()
    part_of = {host: trace[:400] for host, trace in sent.items()}
    fleet.log.publish(messages(random.Random(seed), part_of, 9))
    fleet.work()
    with fleet.store.db, fleet.store.db.cursor() as c:
        c.execute("update place set at = '99999999999999-7'")
    fleet.log.redis.flushdb()
    refused(FleetError, "no fleet", lambda: fleet.worker(0))
    assert main(["init", "--policy", str(ROOT / "demo" / "policy.bin"), "--partitions", "2"]) == 0
    fleet.log.publish(messages(random.Random(seed + 1), sent, 9))
    fleet.work()
    same(fleet, sent)
    fleet.close()


def standing_by(seed, sent):
    """A worker that stands by waits until the connection of the other has ended."""
    fleet, first, second = Fleet(partitions=1), Store(STORE), Store(STORE)
    first.stand_by(0)
    waiting = threading.Thread(target=second.stand_by, args=(0,))
    waiting.start()
    waiting.join(0.3)
    assert waiting.is_alive(), "both have the partition"
    first.close()
    waiting.join(20)
    assert not waiting.is_alive(), "the other still waits"
    second.close()
    fleet.close()


def trimmed(seed, sent):
    """A log of which only what is committed is dropped."""
    fleet, rng = Fleet(partitions=1), random.Random(seed)
    count = fleet.log.publish(messages(rng, sent, 5)) + fleet.log.publish(messages(rng, sent, 5))
    done = False
    while not done:
        worker = fleet.worker(0)
        done = worker.turn(40, 0) is None
        worker.log.trim(0, worker.place)
        worker.store.close()
    assert fleet.log.redis.xlen(stream(0)) < count - 100, "nothing was dropped"
    same(fleet, sent)
    fleet.close()


def statuses(seed, sent):
    """Arguments, servers and files that are wrong are failures, and told apart from alerts and refusals."""
    fleet, policy, trace = Fleet(partitions=1), str(ROOT / "demo" / "policy.bin"), ROOT / "demo" / "trace.bin"
    fleet.log.publish([Message(min(sent), 0, sent[min(sent)])])
    work = ["work", "0", "--policy", policy, "--until-idle", "0.1"]
    wrong = [[], ["nothing"], ["work"], ["publish", "host"], ["publish", "a b=-"], ["publish", "host=missing.bin"], [*work, "--store", "postgresql://nobody@127.0.0.1:1/none"],
             [*work, "--log", "redis://127.0.0.1:1/0", "--tries", "1"], ["work", "7", "--policy", policy], ["work", "0", "--policy", "missing.bin"], ["init", "--policy", policy, "--partitions", "3"],
             ["init", "--policy", policy, "--partitions", "0"], ["publish", "--records", "0", f"host={trace}"], ["publish", "--first", "-1", f"host={trace}"],
             ["publish", "--first", "1000", f"host={trace}"], [*work, "--messages", "0"]]
    for words in wrong:
        unchanged(fleet, lambda: note(main(words) == 5, f"status 5: {' '.join(words)[:60]}"))
    unchanged(fleet, lambda: note(main(["work", "0", "--policy", str(trace)]) == 4, "status 4: a policy that is refused"))
    with contextlib.redirect_stdout(io.StringIO()):
        found = [main(words) for words in (["alerts"], ["status"], work, ["status"], ["alerts", "--lines"])]
    assert found == [0, 2, 0, 0, 3], found
    fleet.close()


CASES = [statuses, standing_by, trimmed, plain, killed_everywhere, two_at_once, gaps, snapshots, policies, malformed, lost_log, forgotten_sessions]


def cases(seed, some):
    sent = traces(seed, 7, 90)
    for case in CASES:
        if some and case.__name__ not in some:
            continue
        Fuse.left = None
        tried(case.__name__.replace("_", " "), lambda: case(seed, sent))


def stored(folder):
    return {path.stem: path.read_bytes() for path in sorted(Path(folder).glob("*.bin"))}


def published(folder):
    """All messages, and all once more, in small pieces."""
    sent, rng, log = stored(folder), random.Random(folder), Log(LOG, 40)
    print(log.publish(messages(rng, sent, 6)) + log.publish(messages(rng, sent, 12)), "messages")


def compared(folder):
    store, sent = Store(STORE), stored(folder)
    held = sorted((state.host, state.taken, state.snapshot) for state in store.states(sent)), store.alerts()
    expected = undisturbed(sent)
    note(held[0] == expected[0], f"the states of {len(sent)} hosts are those of an undisturbed run")
    note(held[1] == expected[1], f"{len(expected[1])} events, each once, are those of an undisturbed run")
    note([line(found) for found in held[1]] == listed(sent), "the events are those of the watch program")


if __name__ == "__main__":
    if sys.argv[1] == "publish":
        published(sys.argv[2])
    elif sys.argv[1] == "compare":
        compared(sys.argv[2])
        finish()
    else:
        cases(int(sys.argv[1]), sys.argv[2:])
        finish()
