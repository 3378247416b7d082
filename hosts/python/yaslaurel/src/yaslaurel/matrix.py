"""Questions to access matrices. Rows have bit k for object k; there is one of `reads` and one of `writes` for each subject."""

from __future__ import annotations

from dataclasses import dataclass
from enum import IntEnum
from typing import Any, NamedTuple, Sequence

from ._native import ffi, lib
from .errors import refusal
from .policy import Policy, rows


class Matrix(NamedTuple):
    """An access matrix: rows of reads and of writes, and how many objects there are."""

    reads: Sequence[int]
    writes: Sequence[int]
    objects: int


@dataclass(frozen=True)
class Verdict:
    """Whether each composed flow is granted; if not, how many are not, and the first of them from `source` to `target`."""

    consistent: bool
    count: int
    source: int
    target: int


@dataclass(frozen=True)
class Outcome:
    """Who can force a game: where the desk can, its first winning move, 1 for a read, by `subject` on `object`; else zeros."""

    desk: bool
    move: int
    subject: int
    object: int


class Judgement(IntEnum):
    """A proposal accepted, or the first condition that fails."""

    ACCEPTED = lib.YASLAUREL_ACCEPTED
    RIGHT_ADDED = lib.YASLAUREL_RIGHT_ADDED
    RIGHT_LOST = lib.YASLAUREL_RIGHT_LOST
    NOT_CONSISTENT = lib.YASLAUREL_PROPOSAL_NOT_CONSISTENT
    NOT_MINIMAL = lib.YASLAUREL_NOT_MINIMAL


def verdict(reads: Sequence[int], writes: Sequence[int], objects: int) -> Verdict:
    """Whether a matrix is consistent.

    >>> verdict([1, 2], [2, 4], 3)
    Verdict(consistent=False, count=1, source=0, target=2)
    """
    cells = ffi.new("uint32_t[3]")
    answer = lib.yaslaurel_matrix_verdict(*_lent(Matrix(reads, writes, objects)), cells, cells + 1, cells + 2)
    if answer not in (lib.YASLAUREL_CONSISTENT, lib.YASLAUREL_NOT_CONSISTENT):
        raise refusal(answer)
    return Verdict(answer == lib.YASLAUREL_CONSISTENT, *cells)


def silent(reads: Sequence[int], writes: Sequence[int], objects: int) -> bool:
    """Whether no session of accesses that the matrix allows raises an alert."""
    answer = lib.yaslaurel_matrix_silent(*_lent(Matrix(reads, writes, objects)))
    if answer not in (lib.YASLAUREL_SILENT, lib.YASLAUREL_NOT_SILENT):
        raise refusal(answer)
    return bool(answer == lib.YASLAUREL_SILENT)


def game(matrix: Matrix, source: int, target: int, rounds: int, withdrawals: int) -> Outcome:
    """Whether a desk can bring the information of `source` into `target` although a guard withdraws rights.

    >>> game(Matrix([2, 2], [1, 1], 2), source=1, target=0, rounds=3, withdrawals=1)
    Outcome(desk=True, move=1, subject=0, object=1)
    """
    cells = ffi.new("uint32_t[3]")
    answer = lib.yaslaurel_matrix_game(*_lent(matrix), source, target, rounds, withdrawals, cells, cells + 1, cells + 2)
    if answer not in (lib.YASLAUREL_DESK, lib.YASLAUREL_GUARD):
        raise refusal(answer)
    return Outcome(answer == lib.YASLAUREL_DESK, *cells)


def judge(old: Matrix, required: Matrix, proposed: Matrix) -> Judgement:
    """Judges a proposal to withdraw rights: the old matrix, the rights that must stay, and the proposed matrix.

    >>> judge(Matrix([3, 5], [7, 7], 3), Matrix([0, 0], [0, 0], 3), Matrix([3, 5], [7, 4], 3))
    <Judgement.ACCEPTED: 0>
    """
    answer = lib.yaslaurel_matrix_judge(*_lent(old), *_lent(required), *_lent(proposed))
    if answer not in tuple(Judgement):
        raise refusal(answer)
    return Judgement(answer)


def policy(reads: Sequence[int], writes: Sequence[int], objects: int) -> Policy:
    """The policy that a matrix stands for, as `Policy.from_matrix`."""
    return Policy.from_matrix(reads, writes, objects)


def _lent(matrix: Matrix) -> tuple[Any, ...]:
    """A matrix as a call takes it."""
    return rows(matrix.reads), len(matrix.reads), rows(matrix.writes), len(matrix.writes), matrix.objects
