"""traces.py FOLDER: writes the trace of each host of hosts.txt to FOLDER, HOST.bin, by the names of the demo's policy."""

import sys
from pathlib import Path

from yaslaurel import Code, Policy, record

HERE = Path(__file__).resolve().parent

policy = Policy.from_file(HERE.parent / "policy.bin")
traces: dict[str, bytes] = {}
for line in (HERE / "hosts.txt").read_text().splitlines():
    if not line.startswith("#"):
        host, operation, process, thing, *user = line.split(" ")
        made = record(Code[operation.upper()], policy.container(process), policy.container(thing), *map(policy.user, user))
        traces[host] = traces.get(host, b"") + made
for host, trace in traces.items():
    Path(sys.argv[1], f"{host}.bin").write_bytes(trace)
