"""live.py COMMAND POLICY FOLDER HOSTS: records a second of a live worker for commits of 200 and of 2,000 messages, and how long a worker that takes the place of a killed one
needs until its first commit. The log and the store are those that the variables name."""

import os
import signal
import subprocess
import sys
import time
from itertools import islice
from pathlib import Path

import psycopg2
import redis
import yaslaurel
from yaslaurel_fleet.log import Log, Message
from yaslaurel_fleet.store import Store

RECORDS, TURNS = 20, 5
command, image, folder, hosts = sys.argv[1], sys.argv[2], Path(sys.argv[3]), int(sys.argv[4])
LOG, STORE = os.environ["YASLAUREL_FLEET_LOG"], os.environ["YASLAUREL_FLEET_STORE"]


def place():
    return Store(STORE).place(0)


def moved(before):
    """Waits until the place has moved."""
    while place() == before:
        time.sleep(0.005)


def started(messages):
    return subprocess.Popen([command, "work", "0", "--policy", image, "--messages", str(messages), "--until-idle", "1"], stderr=subprocess.PIPE, text=True)


for messages in (200, 2000):
    redis.Redis.from_url(LOG).flushdb()
    with psycopg2.connect(STORE) as db, db.cursor() as c:
        c.execute("drop table if exists alert, state, place, fleet")
    db.close()
    subprocess.run([command, "init", "--policy", image], check=True, stdout=subprocess.DEVNULL)
    traces = {path.stem: path.read_bytes() for path in islice(sorted(folder.glob("*.bin")), hosts)}
    most = max(map(len, traces.values())) // 8
    before = time.perf_counter()
    sent = Log(LOG).publish(Message(host, at, trace[8 * at:8 * (at + RECORDS)]) for at in range(0, most, RECORDS) for host, trace in traces.items())
    publishing = time.perf_counter() - before
    recovery = []
    for _ in range(TURNS):
        at, worker = place(), started(messages)
        moved(at)
        worker.send_signal(signal.SIGKILL)
        worker.wait()
        at, before = place(), time.perf_counter()
        worker = started(messages)
        moved(at)
        recovery.append(time.perf_counter() - before)
        worker.send_signal(signal.SIGKILL)
        worker.wait()
    done = sum(taken for _, _, taken in Store(STORE).hosts())
    before, worker = time.perf_counter(), started(messages)
    last = 0
    while last != most * len(traces):
        last = sum(taken for _, _, taken in Store(STORE).hosts())
        time.sleep(0.02)
    seconds = time.perf_counter() - before
    worker.wait()
    events = [(host, event.place) for host, trace in sorted(traces.items()) for event in yaslaurel.Session(yaslaurel.Policy.from_file(image)).events(trace)]
    if [(found.host, found.place) for found in Store(STORE).alerts()] != events:
        sys.exit("the events differ from those of an undisturbed run")
    recovery.sort()
    print(f"live, one worker, {hosts} hosts, {sent} messages of {RECORDS} records, commits of {messages} messages: {(last - done) / seconds / 1e6:.2f} million records a second "
          f"({(last - done) / RECORDS / seconds:.0f} messages), published at {sent / publishing:.0f} messages a second; from the start of a worker in the place of a killed one to its first "
          f"commit {recovery[0]:.2f} to {recovery[-1]:.2f} s, median {recovery[len(recovery) // 2]:.2f}")
