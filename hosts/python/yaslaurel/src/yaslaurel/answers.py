"""Operation records, and what a session answers."""

from __future__ import annotations

from dataclasses import dataclass
from enum import IntEnum
from ._native import ffi, lib
from .errors import REFUSALS, Refused, UnknownAnswer

QUIET: int = lib.YASLAUREL_QUIET
ALERT: int = lib.YASLAUREL_ALERT
BLOCKED: int = lib.YASLAUREL_BLOCKED
NO_USER: int = lib.YASLAUREL_NO_USER
NO_POSITION: int = lib.YASLAUREL_NO_POSITION


class Code(IntEnum):
    """What process p does to object o."""

    READ = lib.YASLAUREL_READ
    WRITE = lib.YASLAUREL_WRITE
    APPEND = lib.YASLAUREL_APPEND
    EXEC = lib.YASLAUREL_EXEC
    FORK = lib.YASLAUREL_FORK
    NEW_FILE = lib.YASLAUREL_NEW_FILE
    NEW_VOLATILE = lib.YASLAUREL_NEW_VOLATILE
    END = lib.YASLAUREL_END
    DELETE = lib.YASLAUREL_DELETE


def record(code: int, p: int, o: int, u: int = NO_USER) -> bytes:
    """An operation record: process `p` does `code` to object `o`, for user `u` where the code asks for one. A number that does not fit its field
    makes a record that is refused with 7.

    >>> record(Code.READ, 4, 2).hex()
    '010004000200ffff'
    """
    out = ffi.new("uint8_t[]", lib.YASLAUREL_RECORD_LENGTH)
    lib.yaslaurel_record(code, p, o, u, out)
    return bytes(ffi.buffer(out))


class _Judged:
    """What answers and events have in common: words for their number."""

    answer: int

    @property
    def quiet(self) -> bool:
        return self.answer == QUIET

    @property
    def alert(self) -> bool:
        return self.answer == ALERT

    @property
    def blocked(self) -> bool:
        return self.answer == BLOCKED

    @property
    def refused(self) -> bool:
        return self.answer not in (QUIET, ALERT, BLOCKED)

    @property
    def refusal(self) -> Refused | None:
        """The refusal with its meaning and remedy, if it is one."""
        return Refused(self.answer) if self.refused else None

    @property
    def verdict(self) -> str:
        """The listing's word: quiet, alert, blocked or refused."""
        return {QUIET: "quiet", ALERT: "alert", BLOCKED: "blocked"}.get(self.answer, "refused")


@dataclass(frozen=True)
class Answer(_Judged):
    """What a record was answered: 0 quiet, 256 alert, 257 blocked, else the number of a refusal. Of a refusal `receiver` is None and `tag` 0;
    `position` is None where no mixture of the receiver's permit rule holds the tag."""

    answer: int
    receiver: int | None
    tag: int
    position: int | None


@dataclass(frozen=True)
class Event(_Judged):
    """A record that was not quiet, as an `Answer` has it. `place` is its number among all records that the session has taken, from 0."""

    place: int
    answer: int
    receiver: int | None
    tag: int
    position: int | None


@dataclass(frozen=True)
class Ran:
    """Records up to the first that is not quiet: how many were judged, and that one, None if all were quiet."""

    taken: int
    event: Event | None


def told(answer: int, receiver: int, tag: int, position: int) -> tuple[int, int | None, int, int | None]:
    """The fields of an answer from the numbers of the library."""
    if answer in REFUSALS:
        return answer, None, 0, None
    if answer not in (QUIET, ALERT, BLOCKED):
        raise UnknownAnswer(answer)
    return answer, receiver, tag, position if position != NO_POSITION else None
