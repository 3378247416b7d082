"""Sessions: the monitor's state for one host, and how many records it has taken."""

from __future__ import annotations

import hashlib
import struct
import threading
import zlib
from typing import TYPE_CHECKING, Any, Callable, TypeVar

from ._native import ffi, lib
from .answers import Answer, Event, Ran, told
from .buffers import RECORD_LENGTH, Buffer, address, allocate, lend, lend_records
from .errors import Busy, Gap, SnapshotMismatch, accepted, refusal
from .figures import LENGTH, Figures
from .policy import Policy

if TYPE_CHECKING:
    import numpy

Result = TypeVar("Result")

SESSION_LENGTH: int = lib.YASLAUREL_SESSION_LENGTH
STATE_BYTES = 8 * SESSION_LENGTH
COUNTED_BYTES = STATE_BYTES + 8
EVENT_LENGTH: int = lib.YASLAUREL_EVENT_LENGTH
EVENT = struct.Struct(f"<{EVENT_LENGTH}Q")
# Events that the first call of a batch has room for; each further one has twice as much, up to the last number.
FIRST_ROOM = 64
LAST_ROOM = 65536

# A snapshot: what it is and in which format, the library's version (major and minor), the policy's digest, the count, the numbers packed by
# zlib; then the digest of all these bytes.
MARK = b"yaslses"
FORMAT = 1
HEAD = struct.Struct("<7sBHH32sQ")
EDITION = (int(lib.YASLAUREL_VERSION_MAJOR), int(lib.YASLAUREL_VERSION_MINOR))
DIGEST_LENGTH = 32


def started(policy: Policy) -> Any:
    """The numbers of a new session, and behind them the count."""
    numbers = ffi.new("uint64_t[]", SESSION_LENGTH + 1)
    accepted(lib.yaslaurel_session_start(policy.image, len(policy.image), numbers, SESSION_LENGTH))
    return numbers


class Turn:
    """Held by the one call that a session has at a time; another does not wait for it."""

    __slots__ = ("_lock",)

    def __init__(self) -> None:
        self._lock = threading.Lock()

    def __enter__(self) -> None:
        if not self._lock.acquire(False):
            raise Busy()

    def __exit__(self, *_: object) -> None:
        self._lock.release()


class Session:
    """A session of a policy.

    Records may be any object with memory in one piece: bytes, bytearray, memoryview, mmap, an array of numpy. They are judged where they lie,
    and nobody may write them meanwhile. A session has one call at a time: another thread's raises `Busy`. Sessions of different threads run at
    the same time. A batch that raises has changed nothing; only KeyboardInterrupt may come just behind the change, and `taken` tells.

    >>> from yaslaurel import Code, Policy, record
    >>> session = Session(Policy.from_matrix(reads=[1, 2], writes=[2, 4], objects=3))
    >>> session.step(record(Code.READ, 3, 0))
    Answer(answer=0, receiver=3, tag=1, position=0)
    >>> session.events(record(Code.APPEND, 3, 1) + record(Code.READ, 4, 1) + record(Code.APPEND, 4, 2))
    [Event(place=3, answer=256, receiver=2, tag=7, position=None)]
    >>> session.taken
    4
    """

    __slots__ = ("_policy", "_numbers", "_answered", "_turn", "__weakref__")

    def __init__(self, policy: Policy) -> None:
        self._take_up(policy, started(policy))

    def _take_up(self, policy: Policy, numbers: Any) -> None:
        self._policy = policy
        self._numbers = numbers
        self._answered = ffi.new("uint64_t[3]")
        self._turn = Turn()

    @property
    def policy(self) -> Policy:
        """The policy that the session was started with."""
        return self._policy

    @property
    def taken(self) -> int:
        """How many records the session has taken, those that were refused among them."""
        return int(self._numbers[SESSION_LENGTH])

    def step(self, record: Buffer) -> Answer:
        """Judges one record. One that is not 8 bytes is refused with 7."""
        with self._turn:
            lent = record if isinstance(record, bytes) else lend(record)
            answered = self._answered
            answer = lib.counted_step(self._numbers, lent, len(lent), answered)
            return Answer(*told(answer, answered[0], answered[1], answered[2]))

    def run(self, records: Buffer) -> Ran:
        """Judges records up to and with the first that is not quiet, or to the end."""
        taken, cells, position = ffi.new("size_t *"), ffi.new("uint64_t[2]"), ffi.new("uint32_t *")

        def judged(numbers: Any, lent: Any) -> Ran:
            first = numbers[SESSION_LENGTH]
            answer = lib.yaslaurel_run(numbers, SESSION_LENGTH, address(lent), len(lent), taken, cells, cells + 1, position)
            if answer == lib.YASLAUREL_REFUSED_LENT_LENGTH:
                raise refusal(answer)
            numbers[SESSION_LENGTH] += taken[0]
            event = Event(first + taken[0] - 1, *told(answer, cells[0], cells[1], position[0])) if answer != lib.YASLAUREL_QUIET else None
            return Ran(taken[0], event)

        return self._kept(records, judged)

    def events(self, records: Buffer) -> list[Event]:
        """Judges records to the end, and gives those that were not quiet."""
        return self._kept(records, lambda numbers, lent: _events(_judged(numbers, lent, 0)))

    def raw_events(self, records: Buffer) -> memoryview:
        """As `events`, without an object for each: five numbers of 64 bits for each event, place, answer, receiver, tag and position, as the
        library has them (0 for the last three of a refusal, position 255 for none)."""
        return self._kept(records, lambda numbers, lent: memoryview(_judged(numbers, lent, 0)).cast("Q"))

    def event_array(self, records: Buffer) -> numpy.ndarray[Any, numpy.dtype[numpy.uint64]]:
        """As `raw_events`, as an array of numpy with a row for each event and five columns."""
        import numpy

        return numpy.frombuffer(self.raw_events(records), dtype=numpy.uint64).reshape(-1, EVENT_LENGTH)

    def figures(self, records: Buffer) -> Figures:
        """Judges records to the end, and gives their figures."""

        def judged(numbers: Any, lent: Any) -> Figures:
            figures = Figures.filled(lambda words: int(lib.yaslaurel_figures(numbers, SESSION_LENGTH, address(lent), len(lent), words, LENGTH)))
            numbers[SESSION_LENGTH] += len(lent) // RECORD_LENGTH
            return figures

        return self._kept(records, judged)

    def feed(self, first: int, records: Buffer) -> list[Event]:
        """Judges records of which the first is the host's number `first`, counted from 0. What was taken before is passed over, so a message may
        come twice; records that are missing in front raise `Gap`."""
        if first < 0:
            raise ValueError(f"a record has no number {first}")

        def judged(numbers: Any, lent: Any) -> list[Event]:
            due = numbers[SESSION_LENGTH]
            if first > due:
                raise Gap(first, due)
            return _events(_judged(numbers, lent, RECORD_LENGTH * (due - first)))

        return self._kept(records, judged)

    def copy(self) -> Session:
        """Another session in the same state, with the same count."""
        made = Session.__new__(Session)
        with self._turn:
            made._take_up(self._policy, self._copied())
        return made

    def state(self) -> bytes:
        """The session's numbers, as the library has them."""
        with self._turn:
            return bytes(ffi.buffer(self._numbers, STATE_BYTES))

    def snapshot(self) -> bytes:
        """The session as bytes, for `restore`. The digest in it shows damage; it is no signature."""
        with self._turn:
            head = HEAD.pack(MARK, FORMAT, *EDITION, self._policy.digest, self.taken)
            body = head + zlib.compress(ffi.buffer(self._numbers, STATE_BYTES), 1)
        return body + hashlib.sha256(body).digest()

    @classmethod
    def restore(cls, policy: Policy, snapshot: Buffer) -> Session:
        """The session of a snapshot. Raises `SnapshotMismatch` if it is damaged, or of another format, version of the library or policy."""
        with lend(snapshot) as lent:
            data = bytes(ffi.buffer(lent))
        if not data.startswith(MARK) or len(data) < HEAD.size + DIGEST_LENGTH:
            raise SnapshotMismatch("damaged")
        _, form, major, minor, digest, taken = HEAD.unpack_from(data)
        if form != FORMAT:
            raise SnapshotMismatch("format")
        body = data[:-DIGEST_LENGTH]
        if hashlib.sha256(body).digest() != data[-DIGEST_LENGTH:]:
            raise SnapshotMismatch("damaged")
        if (major, minor) != EDITION:
            raise SnapshotMismatch("version")
        if digest != policy.digest:
            raise SnapshotMismatch("policy")
        made = cls.__new__(cls)
        made._take_up(policy, _unpacked(body[HEAD.size:], taken))
        return made

    def __reduce__(self) -> tuple[Any, ...]:
        return Session.restore, (self._policy, self.snapshot())

    def _copied(self) -> Any:
        numbers = allocate("uint64_t[]", SESSION_LENGTH + 1)
        ffi.memmove(numbers, self._numbers, COUNTED_BYTES)
        return numbers

    def _kept(self, records: Buffer, judge: Callable[[Any, Any], Result]) -> Result:
        """What a batch gives that is judged on a copy of the numbers, which then takes their place: all of it is done or nothing."""
        with self._turn, lend_records(records) as lent:
            numbers = self._copied()
            result = judge(numbers, lent)
            self._numbers = numbers
            return result


def _judged(numbers: Any, lent: Any, at: int) -> bytes:
    """The events of the lent records from byte `at` on, with their places among all that were taken."""
    taken, written, parts, room = ffi.new("size_t *"), ffi.new("size_t *"), [], FIRST_ROOM
    while at < len(lent):
        events = allocate("uint64_t[]", EVENT_LENGTH * room)
        accepted(lib.yaslaurel_events(numbers, SESSION_LENGTH, lent + at, len(lent) - at, events, EVENT_LENGTH * room, taken, written))
        lib.move_places(events, written[0], numbers[SESSION_LENGTH])
        numbers[SESSION_LENGTH] += taken[0]
        at += RECORD_LENGTH * taken[0]
        parts.append(bytes(ffi.buffer(events, EVENT.size * written[0])))
        room = min(2 * room, LAST_ROOM)
    return b"".join(parts)


def _events(raw: bytes) -> list[Event]:
    return [Event(place, *told(answer, receiver, tag, position)) for place, answer, receiver, tag, position in EVENT.iter_unpack(raw)]


def _unpacked(packed: bytes, taken: int) -> Any:
    """The numbers and the count of a snapshot."""
    unpacker = zlib.decompressobj()
    try:
        state = unpacker.decompress(packed, STATE_BYTES + 1)
    except zlib.error:
        raise SnapshotMismatch("damaged") from None
    if len(state) != STATE_BYTES or not unpacker.eof or unpacker.unused_data:
        raise SnapshotMismatch("damaged")
    numbers = allocate("uint64_t[]", SESSION_LENGTH + 1)
    ffi.memmove(numbers, state, STATE_BYTES)
    numbers[SESSION_LENGTH] = taken
    return numbers
