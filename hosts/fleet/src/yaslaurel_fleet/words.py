"""What was not quiet, as lines of numbers and in words."""

from __future__ import annotations

from typing import Iterable

import yaslaurel

from .store import Found

def verdict(found: Found) -> str:
    """The listing's word."""
    return {yaslaurel.ALERT: "alert", yaslaurel.BLOCKED: "blocked"}.get(found.answer, "refused")


def line(found: Found) -> str:
    """The host, then step and verdict with its fields as the watch program lists them."""
    head = f"{found.host} {found.place + 1} {verdict(found)}"
    if verdict(found) == "refused":
        return f"{head} {found.answer}"
    return f"{head} {found.receiver} {found.tag:016x} {found.position}"


def sentence(found: Found, names: yaslaurel.Names) -> str:
    """What an operator reads."""
    where = f"{found.host}, step {found.place + 1}"
    if verdict(found) == "refused":
        return f"refused with {found.answer}, {where}: {yaslaurel.Refused(found.answer).meaning}"
    holds = "now holds" if verdict(found) == "alert" else "would hold"
    return f"{verdict(found)}, {where}: {names.container_name(found.receiver)} {holds} {', '.join(names.sources_in(found.tag)) or 'nothing'}"


def status(found: Iterable[Found]) -> int:
    """The exit status of the one command: 1 alerts or blocked, 2 refused, 3 both."""
    kinds = {2 if verdict(one) == "refused" else 1 for one in found}
    return sum(kinds)
