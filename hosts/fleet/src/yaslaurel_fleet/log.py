"""The log of a fleet: Redis Streams, one stream for each partition of the hosts.

A message has a host's name, the number of the first of its records, counted from 0 over all that the host has ever sent, and records. A
message may come twice, by a publisher or by the client library, which sends again when a connection breaks: the monitor passes over
what it has seen. What no connection brings back within the tries of the client library is told by its exception.
"""

from __future__ import annotations

import zlib
from dataclasses import dataclass
from itertools import islice
from typing import Any, Dict, Iterable, List, Sequence, Tuple

import redis
from redis.backoff import ExponentialBackoff
from redis.retry import Retry

from .errors import FleetError, NotFollowed

RECORD_BYTES = 8
START = "0-0"
FLEET = "yaslaurel:fleet"
"""The key that says whose log it is: the fleet's identity and the number of its partitions."""
HOST_LIMIT = 255
COUNT_LIMIT = 1 << 62
BATCH = 500
"""Messages that a publisher sends before it waits for the log's word."""


@dataclass(frozen=True)
class Message:
    """Records of a host, of which the first is the host's number `first`."""

    host: str
    first: int
    records: bytes


def well_named(host: str) -> bool:
    """A host's name is one printable word of at most 255 bytes."""
    return 0 < len(host.encode()) <= HOST_LIMIT and host.isprintable() and not any(c.isspace() for c in host)


def partition(host: str, partitions: int) -> int:
    """The partition of a host: the same for every publisher and worker of the fleet."""
    return zlib.crc32(host.encode()) % partitions


def stream(part: int) -> str:
    """The key of a partition's stream."""
    return f"yaslaurel:records:{{{part}}}"


def order(place: str) -> Tuple[int, int]:
    """The identity of a message as numbers, which rise in a stream."""
    high, low = place.split("-")
    return int(high), int(low)


def fields(message: Message) -> Dict[Any, Any]:
    """A message as the log has it."""
    return {"h": message.host, "n": message.first, "r": message.records}


def read_message(found: Dict[bytes, bytes], part: int, partitions: int) -> Message:
    """A message of a partition's stream, or NotFollowed with what is wrong with it."""
    if set(found) != {b"h", b"n", b"r"}:
        raise NotFollowed(f"its fields are {sorted(found)} and not h, n and r")
    try:
        host, first = found[b"h"].decode(), int(found[b"n"].decode("ascii"))
    except ValueError:
        raise NotFollowed(f"its host or number is none: {found[b'h'][:64]!r}, {found[b'n'][:64]!r}") from None
    if not well_named(host) or not found[b"n"].isdigit() or first >= COUNT_LIMIT:
        raise NotFollowed(f"its host or number is none: {found[b'h'][:64]!r}, {found[b'n'][:64]!r}")
    if partition(host, partitions) != part:
        raise NotFollowed(f"{host} is of partition {partition(host, partitions)} and not {part}")
    if not found[b"r"] or len(found[b"r"]) % RECORD_BYTES:
        raise NotFollowed(f"{len(found[b'r'])} bytes of {host} are no whole number of records, or none")
    return Message(host, first, found[b"r"])


class Log:
    """A connection to the log. `tries` is how often the client library connects and sends again, ever later, up to half a second."""

    def __init__(self, url: str, tries: int = 12) -> None:
        retry = Retry(ExponentialBackoff(cap=0.5, base=0.01), tries)
        again = [redis.ConnectionError, redis.TimeoutError, OSError]
        self.redis: Any = redis.Redis(connection_pool=redis.ConnectionPool.from_url(url, socket_timeout=30, retry=retry, retry_on_error=again))

    def create(self, fleet: str, partitions: int) -> None:
        """Says whose log it is; a log of another fleet is refused."""
        found = self.redis.hgetall(FLEET)
        if found and (found[b"fleet"].decode(), int(found[b"partitions"])) != (fleet, partitions):
            raise FleetError("the log is of another fleet")
        self.redis.hset(FLEET, mapping={"fleet": fleet, "partitions": partitions})

    def whose(self) -> Tuple[str, int]:
        """The fleet's identity and the number of its partitions."""
        found = self.redis.hgetall(FLEET)
        if not found:
            raise FleetError("the log is of no fleet (yaslaurel-fleet init)")
        return found[b"fleet"].decode(), int(found[b"partitions"])

    def publish(self, messages: Iterable[Message], batch: int = BATCH) -> int:
        """Sends messages, each to the stream of its host's partition, in order, so many at once; gives how many the log has taken."""
        _, partitions = self.whose()
        sent, rest = 0, iter(messages)
        while some := list(islice(rest, batch)):
            sent += self._send(some, partitions)
        return sent

    def _send(self, batch: Sequence[Message], partitions: int) -> int:
        pipeline = self.redis.pipeline(transaction=False)
        for message in batch:
            pipeline.xadd(stream(partition(message.host, partitions)), fields(message))
        return len(pipeline.execute())

    def after(self, part: int, place: str, count: int, wait: float) -> List[Tuple[str, Dict[bytes, bytes]]]:
        """Messages behind a place, at most so many; none if none came in so many seconds, 0 for those that are there."""
        found = self.redis.xread({stream(part): place}, count=count, block=int(1000 * wait) or None)
        return [(place.decode(), fields) for place, fields in found[0][1]] if found else []

    def last(self, part: int) -> str:
        """The identity that the log gave last, whether or not its message is still there."""
        try:
            return str(self.redis.xinfo_stream(stream(part))["last-generated-id"].decode())
        except redis.ResponseError as error:
            if "no such key" not in str(error):
                raise
            return START

    def reach(self, part: int, place: str) -> bool:
        """Has the log go on behind a place that it has lost; says whether it had. Identities that it gives from now on are behind it."""
        if order(self.last(part)) >= order(place):
            return False
        self.redis.xadd(stream(part), {"lost": place}, id=place)
        return True

    def trim(self, part: int, place: str) -> None:
        """Drops messages before a place, about."""
        self.redis.xtrim(stream(part), minid=place, approximate=True)
