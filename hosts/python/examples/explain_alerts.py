#!/usr/bin/env python3
"""explain_alerts.py FOLDER: says of each alert and blocked access in a folder's trace which sources no rule permits there, and by which steps they came."""

import sys
from pathlib import Path

from yaslaurel import Policy, Session, explain, why


def main(folder: Path) -> None:
    policy = Policy.from_file(folder / "policy.bin")
    names, trace = policy.names, (folder / "trace.bin").read_bytes()
    for event in Session(policy).events(trace):
        if event.refused:
            continue
        until = trace[: 8 * (event.place + 1)]
        reason = why(policy, until)
        print(f"step {event.place + 1}: {event.verdict} at {names.container_name(reason.receiver)}, by rule {reason.rule} ({reason.origin.name.lower()})")
        for atom in sorted(set(reason.lacked)):
            chain = explain(policy, until, reason.receiver, atom)
            if chain is not None:
                steps = ", ".join(str(record + 1) for record in chain.records)
                print(f"  {names.atom_name(atom)} came from {names.container_name(chain.file)} by the steps {steps}")


if __name__ == "__main__":
    main(Path(sys.argv[1]))
