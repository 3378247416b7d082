"""Yaslaurel: a proved information-flow monitor.

A policy says which mixtures of sources each container may hold. A host reports each operation as a record, and a session answers quiet, alert,
blocked or refused. The library behind is proved, and linked into this package; the package itself is not proved.

>>> policy = Policy.from_matrix(reads=[1, 2], writes=[2, 4], objects=3)
>>> session = Session(policy)
>>> for step in [(Code.READ, 3, 0), (Code.APPEND, 3, 1), (Code.READ, 4, 1), (Code.APPEND, 4, 2)]:
...     answer = session.step(record(*step))
>>> answer.verdict, answer.receiver, atoms(answer.tag)
('alert', 2, [0, 1, 2])
"""

from __future__ import annotations

from . import matrix
from ._native import lib as _lib
from .answers import ALERT, BLOCKED, NO_USER, QUIET, Answer, Code, Event, Ran, record
from .buffers import RECORD_LENGTH, Buffer
from .errors import Busy, ForeignNames, Gap, ProgramFailed, Refused, SnapshotMismatch, UnknownAnswer, UnknownName, YaslaurelError
from .explanations import Chain, Origin, Reason, explain, trim, why
from .figures import Figures
from .names import Names, atoms
from .policy import Policy
from .session import Session


def library_version() -> str:
    """The version of the library that is linked in."""
    number = _lib.yaslaurel_version()
    return f"{number >> 16}.{number >> 8 & 255}.{number & 255}"


__version__ = f"{_lib.YASLAUREL_VERSION_MAJOR}.{_lib.YASLAUREL_VERSION_MINOR}.{_lib.YASLAUREL_VERSION_PATCH}"

if library_version() != __version__:
    raise ImportError(f"the library is of version {library_version()}, and its header of {__version__}")

__all__ = [
    "ALERT", "BLOCKED", "NO_USER", "QUIET", "RECORD_LENGTH", "Answer", "Buffer", "Busy", "Chain", "Code", "Event", "Figures", "ForeignNames", "Gap",
    "Names", "Origin", "Policy", "ProgramFailed", "Ran", "Reason", "Refused", "Session", "SnapshotMismatch", "UnknownAnswer", "UnknownName", "YaslaurelError",
    "__version__", "atoms", "explain", "library_version", "matrix", "record", "trim", "why",
]
