"""The figures of records, as the month program counts them."""

from __future__ import annotations

from dataclasses import dataclass, field
from types import MappingProxyType
from typing import TYPE_CHECKING, Any, Callable, Mapping

from ._native import ffi, lib
from .buffers import Buffer, address, lend
from .errors import accepted

if TYPE_CHECKING:
    from .policy import Policy

LENGTH: int = lib.YASLAUREL_FIGURES_LENGTH
CONTAINERS_AT: int = lib.YASLAUREL_FIGURES_CONTAINERS_AT
CONTAINERS: int = lib.YASLAUREL_CONTAINERS
LIMIT = 2**64


@dataclass(frozen=True)
class Figures:
    """How many records there are, how many were accepted (alerts among them), alerted, refused and blocked, and the alerts of each container
    number that has some. Figures add up: those of a fleet are the sum of those of its hosts, in any order.

    >>> one = Figures(records=3, accepted=2, alerts=1, refused=1, by_container={4: 1})
    >>> sum([one, one]) == Figures(6, 4, 2, 2, 0, {4: 2})
    True
    >>> one.line("00.bin")
    '00.bin 2 1 1 0 500 0 4 1'
    """

    records: int = 0
    accepted: int = 0
    alerts: int = 0
    refused: int = 0
    blocked: int = 0
    by_container: Mapping[int, int] = field(default_factory=dict)

    def __post_init__(self) -> None:
        counts = {number: self.by_container[number] for number in sorted(self.by_container) if self.by_container[number]}
        object.__setattr__(self, "by_container", MappingProxyType(counts))
        numbers = (self.records, self.accepted, self.alerts, self.refused, self.blocked, *counts.values())
        if not all(0 <= number < LIMIT for number in numbers) or not all(0 <= number < CONTAINERS for number in counts):
            raise ValueError("figures are counts of 64 bits, of containers 0 to 255")
        if self.accepted + self.refused + self.blocked != self.records or sum(counts.values()) != self.alerts or self.alerts > self.accepted:
            raise ValueError("these are no figures: accepted, refused and blocked are all records, and the containers' alerts are all alerts")

    @classmethod
    def of(cls, policy: Policy, trace: Buffer) -> Figures:
        """The figures of a whole trace in a new session, as the month program has them: a last record that is short counts as refused."""
        from .session import started

        numbers = started(policy)
        with lend(trace) as lent:
            return cls.filled(lambda words: int(lib.yaslaurel_figures(numbers, lib.YASLAUREL_SESSION_LENGTH, address(lent), len(lent), words, LENGTH)))

    @classmethod
    def filled(cls, fill: Callable[[Any], int], words: Any = None) -> Figures:
        """The figures that a call of the library leaves in its numbers."""
        words = words if words is not None else ffi.new("uint64_t[]", LENGTH)
        accepted(fill(words))
        numbers = ffi.unpack(words, LENGTH)
        records, accepted_ones, alerts, refused, blocked = numbers[:CONTAINERS_AT]
        return cls(records, accepted_ones, alerts, refused, blocked, {number: count for number, count in enumerate(numbers[CONTAINERS_AT:]) if count})

    def _words(self) -> Any:
        """The figures as the library's numbers."""
        words = ffi.new("uint64_t[]", [self.records, self.accepted, self.alerts, self.refused, self.blocked] + CONTAINERS * [0])
        for number, count in self.by_container.items():
            words[CONTAINERS_AT + number] = count
        return words

    def __add__(self, other: object) -> Figures:
        if not isinstance(other, Figures):
            return NotImplemented
        added = other._words()
        if self.records + other.records >= LIMIT:
            raise OverflowError("a sum of records of 2 to the 64 or more")
        return self.filled(lambda total: int(lib.yaslaurel_figures_add(total, LENGTH, added, LENGTH)), self._words())

    def __radd__(self, other: object) -> Figures:
        """For `sum`, which begins with 0."""
        if other != 0:
            return NotImplemented
        return self

    def __hash__(self) -> int:
        return hash((self.records, self.accepted, self.alerts, self.refused, self.blocked, tuple(self.by_container.items())))

    def __reduce__(self) -> tuple[Any, ...]:
        return Figures, (self.records, self.accepted, self.alerts, self.refused, self.blocked, dict(self.by_container))

    def line(self, name: str) -> str:
        """The line of the month program for a trace of this name, without its end."""
        rate = divmod(1000 * self.alerts, self.accepted) if self.accepted else ("none",)
        pairs = [number for pair in self.by_container.items() for number in pair]
        return " ".join(map(str, (name, self.accepted, self.alerts, self.refused, self.blocked, *rate, *pairs)))
