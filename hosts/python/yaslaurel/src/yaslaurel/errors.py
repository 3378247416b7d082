"""What the package raises."""

from __future__ import annotations

from ._native import ffi, lib


# The numbers of refusals that the header names.
REFUSALS = frozenset(int(getattr(lib, name)) for name in dir(lib) if name.startswith("YASLAUREL_REFUSED_"))


def meaning(refusal: int) -> str:
    """The header's words for a refusal."""
    return str(ffi.string(lib.yaslaurel_meaning(refusal)).decode())


def remedy(refusal: int) -> str:
    """What to do about a refusal: the text of FORMATS.md, empty for a number that is none."""
    return str(ffi.string(lib.refusal_remedy(refusal)).decode())


class YaslaurelError(Exception):
    """What all errors of this package are."""


class Refused(YaslaurelError, ValueError):
    """The library refused: `number` is the first condition that fails, `meaning` says which, `remedy` what to do about it.

    >>> from yaslaurel import Policy
    >>> Policy(b"not a policy")
    Traceback (most recent call last):
    ...
    yaslaurel.errors.Refused: refused with 1: the image is too short or too long
    """

    def __init__(self, number: int) -> None:
        super().__init__(number)
        self.number = number
        self.meaning = meaning(number)
        self.remedy = remedy(number)

    def __str__(self) -> str:
        return f"refused with {self.number}: {self.meaning}"


class UnknownAnswer(YaslaurelError, RuntimeError):
    """The library has answered a number that its header does not list."""

    def __init__(self, number: int) -> None:
        super().__init__(number)
        self.number = number

    def __str__(self) -> str:
        return f"unknown answer {self.number}"


def refusal(number: int) -> Refused | UnknownAnswer:
    """The error for an answer that should be a refusal."""
    return Refused(number) if number in REFUSALS else UnknownAnswer(number)


def accepted(answer: int) -> None:
    """Raises what a call answered, unless it is 0."""
    if answer != lib.YASLAUREL_ACCEPTED:
        raise refusal(answer)


class Gap(YaslaurelError, ValueError):
    """Records are missing before those that were fed: they begin with number `first`, and number `due` was due. Nothing has changed."""

    def __init__(self, first: int, due: int) -> None:
        super().__init__(first, due)
        self.first = first
        self.due = due

    def __str__(self) -> str:
        return f"records from number {self.first} on, where number {self.due} was due: {self.first - self.due} are missing"


class Busy(YaslaurelError, RuntimeError):
    """Another call on the same session has not ended: a session has one call at a time. Nothing has changed."""

    def __str__(self) -> str:
        return "another call on this session has not ended"


class SnapshotMismatch(YaslaurelError, ValueError):
    """A snapshot that cannot be restored here. `which` is `damaged`, `format`, `version` or `policy`."""

    WORDS = {
        "damaged": "the snapshot is damaged or cut short, or it is none",
        "format": "the snapshot has another format than this package writes",
        "version": "the snapshot was taken with another version of the library",
        "policy": "the snapshot is of a session of another policy",
    }

    def __init__(self, which: str) -> None:
        super().__init__(which)
        self.which = which

    def __str__(self) -> str:
        return self.WORDS[self.which]


class UnknownName(YaslaurelError, LookupError):
    """No container, user or source of the policy has this name, or its names are not known."""


class ForeignNames(YaslaurelError, ValueError):
    """The names of a folder are of another policy."""


class ProgramFailed(YaslaurelError, RuntimeError):
    """The program `policy` is missing, or has ended otherwise than by 0. `status` is its exit status (4 refused, 5 a failure), None if it did not
    run; `said` is what it wrote to standard error."""

    def __init__(self, program: str, status: int | None, said: str) -> None:
        super().__init__(program, status, said)
        self.program = program
        self.status = status
        self.said = said

    def __str__(self) -> str:
        ended = "did not run" if self.status is None else f"ended with status {self.status}"
        return f"{self.program} {ended}: {self.said.strip()}"
