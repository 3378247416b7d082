"""What ends a command, with the exit status that it gives (docs/FLEET.md)."""

from __future__ import annotations


class FleetError(Exception):
    """A failure: an input, a server or a worker. What was printed or committed before stands; nothing of what failed does."""

    status = 5


class NotFollowed(FleetError):
    """A partition's log has a message that the monitor cannot follow: a gap, or one that is malformed."""

    status = 2


class OtherPolicy(FleetError):
    """The policy is refused, or another one than that of the store."""

    status = 4


class Replaced(FleetError):
    """Another worker has gone on with the partition."""

    status = 6
