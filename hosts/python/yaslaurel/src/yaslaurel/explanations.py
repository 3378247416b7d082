"""Alerts explained: how an atom came into a container, which rule forbids what it holds, and the records that matter."""

from __future__ import annotations

from dataclasses import dataclass
from enum import IntEnum
from typing import Any

from ._native import ffi, lib
from .buffers import Buffer, address, lend
from .errors import accepted
from .policy import Policy

WHY_LENGTH: int = lib.YASLAUREL_WHY_LENGTH


class Origin(IntEnum):
    """Where a rule comes from."""

    OWN = lib.YASLAUREL_ORIGIN_OWN
    MADE = lib.YASLAUREL_ORIGIN_MADE
    USER = lib.YASLAUREL_ORIGIN_USER
    RUN = lib.YASLAUREL_ORIGIN_RUN


@dataclass(frozen=True)
class Chain:
    """How an atom came into a container: the file where it begins, and the places of the records that carried it, from 0 in the trace."""

    file: int
    records: tuple[int, ...]


@dataclass(frozen=True)
class Reason:
    """Why the last record of a trace is answered alert or blocked: the rule that forbids what the receiver holds, or would hold.

    `record` is the place of the new file's record (`Origin.MADE`) or of the exec (`USER`, `RUN`), None for `OWN`. `origin_number` is the container
    (`OWN`), the user (`MADE`, `USER`) or the file where the run rule's chain begins (`RUN`). `rule` and `owner` are the rule's number in the
    policy's normal image and who has set it, None for nobody. `lacked` has for each mixture of the rule the least atom of the tag that it lacks."""

    receiver: int
    tag: int
    origin: Origin
    record: int | None
    origin_number: int
    rule: int
    owner: int | None
    lacked: tuple[int, ...]
    chain: tuple[int, ...]


def trim(policy: Policy, trace: Buffer) -> tuple[int, ...]:
    """The places of the few records of a trace that lead to the alert at its end. Up to 256 records, all accepted; else `Refused` with 22."""
    image, positions, kept = policy.image, ffi.new("uint8_t[]", lib.YASLAUREL_TRIM_LIMIT), ffi.new("size_t *")
    with lend(trace) as lent:
        accepted(lib.yaslaurel_trace_trim(image, len(image), address(lent), len(lent), positions, len(positions), kept))
    return tuple(ffi.buffer(positions, kept[0])[:])


def explain(policy: Policy, trace: Buffer, container: int, atom: int) -> Chain | None:
    """How an atom came into a container by the end of a trace: the first chain, None if the container does not hold the atom."""
    image, file, first = policy.image, ffi.new("uint64_t *"), ffi.new("uint64_t *")
    with lend(trace) as lent:
        links, steps = _room(len(lent))
        accepted(lib.yaslaurel_explain(image, len(image), address(lent), len(lent), container, atom, links, len(links), steps, len(steps), file, first))
    return None if file[0] == lib.YASLAUREL_NO_CHAIN else Chain(file[0], tuple(steps[first[0] : len(steps)]))


def why(policy: Policy, trace: Buffer) -> Reason:
    """Why the last record of a trace is answered alert or blocked; `Refused` with 25 if it is neither."""
    image, numbers = policy.image, ffi.new("uint64_t[]", WHY_LENGTH)
    with lend(trace) as lent:
        links, steps = _room(len(lent))
        accepted(lib.yaslaurel_why(image, len(image), address(lent), len(lent), links, len(links), steps, len(steps), numbers, WHY_LENGTH))
    origin, owner = Origin(numbers[lib.YASLAUREL_WHY_ORIGIN_AT]), numbers[lib.YASLAUREL_WHY_OWNER_AT]
    lacked = lib.YASLAUREL_WHY_LACKED_AT
    return Reason(
        receiver=numbers[lib.YASLAUREL_WHY_RECEIVER_AT],
        tag=numbers[lib.YASLAUREL_WHY_TAG_AT],
        origin=origin,
        record=None if origin == Origin.OWN else numbers[lib.YASLAUREL_WHY_RECORD_AT],
        origin_number=numbers[lib.YASLAUREL_WHY_FROM_AT],
        rule=numbers[lib.YASLAUREL_WHY_RULE_AT],
        owner=None if owner == lib.YASLAUREL_NO_OWNER else owner,
        lacked=tuple(numbers[lacked : lacked + numbers[lib.YASLAUREL_WHY_MIXTURES_AT]]),
        chain=tuple(steps[numbers[lib.YASLAUREL_WHY_FIRST_AT] : len(steps)]),
    )


def _room(length: int) -> tuple[Any, Any]:
    """Links and steps for a trace of so many bytes."""
    records = lib.YASLAUREL_TRACE_RECORDS(length)
    return ffi.new("uint64_t[]", lib.YASLAUREL_LINKS_LENGTH(records)), ffi.new("uint64_t[]", records)
