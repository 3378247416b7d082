"""month.py SCHEDULER-FILE WORKERS POLICY FOLDER LOOP PER-TASK: records a second of a fleet's month on Dask, with so many hosts a task, and of the C loop, in turns within one run."""

import json
import resource
import subprocess
import sys
import time
from pathlib import Path

import distributed
import yaslaurel
from yaslaurel_fleet.month import TRACE_COST, fleet_month, traces_in

ROUNDS = 5

file, workers, image, folder, loop, per_task = sys.argv[1:]
PER_TASK = int(per_task)
client = distributed.Client(json.loads(Path(file).read_text())["address"])
client.wait_for_workers(int(workers), timeout=60)
policy, traces = yaslaurel.Policy.from_file(image), traces_in(Path(folder))
task_bytes = (PER_TASK - 1) * (traces[0].length + TRACE_COST) + 1
fleet_month(client, policy, traces[:4 * PER_TASK], task_bytes=task_bytes)
rates = {"C": [], "fleet": []}
spent = {"C": 0.0, "fleet": 0.0}


def of_children():
    used = resource.getrusage(resource.RUSAGE_CHILDREN)
    return used.ru_utime + used.ru_stime


def of_workers():
    return sum(client.run(time.process_time).values())


for _ in range(ROUNDS):
    before = of_children()
    ran = subprocess.run([loop, image, *(trace.path for trace in traces)], stdout=subprocess.PIPE, stderr=subprocess.PIPE, text=True, check=True)
    spent["C"] += of_children() - before
    records, seconds = ran.stderr.split()
    rates["C"].append(int(records) / float(seconds))
    used, before = of_workers(), time.perf_counter()
    total = fleet_month(client, policy, traces, task_bytes=task_bytes).total
    rates["fleet"].append(total.records / (time.perf_counter() - before))
    spent["fleet"] += of_workers() - used
    if ran.stdout.split() != [str(count) for count in (total.accepted, total.alerts, total.refused, total.blocked)]:
        sys.exit("the C loop and the fleet differ")
best = {name: max(found) / 1e6 for name, found in rates.items()}
ratios = sorted(fleet / c for fleet, c in zip(rates["fleet"], rates["C"]))
print(f"month, {workers} workers, {len(traces)} hosts, {total.records} records, {PER_TASK} hosts a task: C loop {best['C']:.1f} million records a second, fleet {best['fleet']:.1f}; "
      f"ratio {ratios[0]:.2f} to {ratios[-1]:.2f}, median {ratios[len(ratios) // 2]:.2f}; records for a second of a processor in workers, beside the C loop: {spent['C'] / spent['fleet']:.2f}")
