"""The store of a fleet: PostgreSQL. It has each host's session, what was not quiet, and for each partition the place in the log up to which
both stand. These three change in one transaction, and only if the place is still the one that the worker began with: whatever happens to a
worker, it leaves a store that some place of the log gives.
"""

from __future__ import annotations

import dataclasses
import json
import uuid
from dataclasses import dataclass
from importlib.resources import read_text
from typing import Any, Iterable, List, Optional, Sequence, Tuple

import psycopg2
from psycopg2 import errors
from psycopg2.extras import execute_values

import yaslaurel

from .errors import FleetError, OtherPolicy, Replaced
from .log import START

FORMAT = 1
NO_RECEIVER = 0
NO_POSITION = 255
LOCKS = 0x7961736C
"""The first number of the advisory locks: a partition's is the second."""


@dataclass(frozen=True)
class Fleet:
    """What a store is of."""

    fleet: str
    partitions: int
    digest: bytes
    image: bytes
    names: yaslaurel.Names


@dataclass(frozen=True)
class Found:
    """An event of a host, as the store keeps it."""

    host: str
    place: int
    answer: int
    receiver: int
    tag: int
    position: int


@dataclass(frozen=True)
class State:
    """A host's session, and how many of its records it has taken."""

    host: str
    taken: int
    snapshot: bytes


def found_of(host: str, event: yaslaurel.Event) -> Found:
    """An event as the store keeps it: its numbers are those of the library, 0 and 0 in a refusal."""
    receiver = NO_RECEIVER if event.receiver is None else event.receiver
    position = NO_POSITION if event.position is None and not event.refused else event.position or 0
    return Found(host, event.place, event.answer, receiver, event.tag, position)


def names_text(names: yaslaurel.Names) -> str:
    """Names as the store keeps them."""
    return json.dumps(dataclasses.asdict(names))


def names_read(text: str) -> yaslaurel.Names:
    """The names that the store keeps."""
    found = json.loads(text)
    return yaslaurel.Names(tuple(found["sources"]), tuple((number, name) for number, name in found["containers"]), tuple(found["users"]))


class Store:
    """A connection to the store."""

    def __init__(self, dsn: str) -> None:
        self.db: Any = psycopg2.connect(dsn)

    def close(self) -> None:
        self.db.close()

    def rows(self, query: str, values: Sequence[Any] = ()) -> List[Tuple[Any, ...]]:
        """The rows that a query gives, in a transaction of its own."""
        with self.db, self.db.cursor() as cursor:
            cursor.execute(query, values)
            return list(cursor.fetchall())

    def create(self, policy: yaslaurel.Policy, partitions: int) -> Fleet:
        """The tables of a new fleet; those of a fleet with this policy and as many partitions stay as they are."""
        with self.db, self.db.cursor() as cursor:
            cursor.execute("select to_regclass('fleet') is not null")
            if not cursor.fetchone()[0]:
                cursor.execute(read_text("yaslaurel_fleet", "schema.sql"))
                cursor.execute("insert into fleet (fleet, format, partitions, digest, image, names) values (%s, %s, %s, %s, %s, %s)",
                               (str(uuid.uuid4()), FORMAT, partitions, policy.digest, policy.image, names_text(policy.names)))
                execute_values(cursor, "insert into place values %s", [(part, START) for part in range(partitions)])
        fleet = self.fleet()
        if fleet.digest != policy.digest:
            raise OtherPolicy("the store is of another policy")
        if fleet.partitions != partitions:
            raise FleetError(f"the store has {fleet.partitions} partitions")
        return fleet

    def fleet(self) -> Fleet:
        """What the store is of."""
        try:
            found = self.rows("select fleet, format, partitions, digest, image, names from fleet")
        except errors.UndefinedTable:
            raise FleetError("the store is of no fleet (yaslaurel-fleet init)") from None
        identity, form, partitions, digest, image, names = found[0]
        if form != FORMAT:
            raise FleetError(f"the store has format {form}, and not {FORMAT}")
        return Fleet(identity, partitions, bytes(digest), bytes(image), names_read(names))

    def stand_by(self, part: int) -> None:
        """Waits until no other worker that stands by has the partition, and keeps it as long as this connection lasts."""
        self.rows("select pg_advisory_lock(%s, %s)", (LOCKS, part))

    def place(self, part: int) -> str:
        """The last message of the partition whose records are in the states."""
        found = self.rows("select at from place where part = %s", (part,))
        if not found:
            raise FleetError(f"the store has no partition {part}")
        return str(found[0][0])

    def states(self, hosts: Iterable[str]) -> List[State]:
        """The sessions of those hosts that have one."""
        found = self.rows("select host, taken, snapshot from state where host = any(%s)", (list(hosts),))
        return [State(host, taken, bytes(snapshot)) for host, taken, snapshot in found]

    def commit(self, part: int, digest: bytes, before: str, after: str, states: Sequence[State], alerts: Sequence[Found]) -> None:
        """One transaction: the place, the states that changed and what was not quiet, if the place is still `before` and the policy that of the store."""
        with self.db, self.db.cursor() as cursor:
            cursor.execute("update place set at = %s where part = %s and at = %s and (select digest from fleet) = %s", (after, part, before, digest))
            if cursor.rowcount != 1:
                raise Replaced(f"another worker has gone on with partition {part}, or the store is of another policy now: nothing of this turn is committed")
            if states:
                execute_values(cursor, "insert into state (host, part, taken, snapshot) values %s on conflict (host) do update set taken = excluded.taken, "
                               "snapshot = excluded.snapshot", [(state.host, part, state.taken, state.snapshot) for state in states])
            if alerts:
                execute_values(cursor, "insert into alert (host, place, answer, receiver, tag, position) values %s",
                               [(found.host, found.place, found.answer, found.receiver, found.tag, found.position) for found in alerts])

    def skip(self, part: int, before: str, after: str) -> None:
        """Moves the place over a message that no worker can follow, if it is still `before`."""
        with self.db, self.db.cursor() as cursor:
            cursor.execute("update place set at = %s where part = %s and at = %s", (after, part, before))
            if cursor.rowcount != 1:
                raise Replaced(f"a worker has gone on with partition {part}")

    def alerts(self, host: Optional[str] = None) -> List[Found]:
        """All that was not quiet, by host and place."""
        found = self.rows("select host, place, answer, receiver, tag, position from alert where %s is null or host = %s order by host, place", (host, host))
        return [Found(name, place, answer, receiver, int(tag), position) for name, place, answer, receiver, tag, position in found]

    def hosts(self) -> List[Tuple[str, int, int]]:
        """Each host with its partition and how many of its records are in its session."""
        return [(host, part, taken) for host, part, taken in self.rows("select host, part, taken from state order by host")]
