#!/usr/bin/env python3
"""watch.py FOLDER: watches the trace of a folder that `policy make` or `record --out` has written, and says what is not quiet. The exit status is 1 for alerts
and blocked accesses, 2 for refused records, 3 for both."""

import sys
from pathlib import Path

from yaslaurel import Event, Policy, Session


def words(policy: Policy, event: Event) -> str:
    """An event by names; steps are counted from 1."""
    refusal = event.refusal
    if refusal is not None:
        return f"step {event.place + 1}: {refusal}. {refusal.remedy}"
    assert event.receiver is not None
    holds = "now holds" if event.alert else "would hold"
    return f"step {event.place + 1}: {event.verdict}: {policy.names.container_name(event.receiver)} {holds} {', '.join(policy.names.sources_in(event.tag))}"


def main(folder: Path) -> int:
    policy = Policy.from_file(folder / "policy.bin")
    events = Session(policy).events((folder / "trace.bin").read_bytes())
    for event in events:
        print(words(policy, event))
    return any(event.alert or event.blocked for event in events) + 2 * any(event.refused for event in events)


if __name__ == "__main__":
    sys.exit(main(Path(sys.argv[1])))
