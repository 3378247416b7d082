"""month_cases.py local SEED [MONTHS | CASE]: months of fleets on a cluster within this process, against the month program: stored months, those in the folder MONTHS, more hosts than
it takes; and what must end a run.
month_cases.py cluster SCHEDULER-FILE SEED: the same fleet on a scheduler and workers that are processes, which are killed in the middle.
"""

import contextlib
import json
import logging
import os
import random
import resource
import signal
import subprocess
import sys
import tempfile
import threading
import time
from pathlib import Path

import distributed
import yaslaurel
from checks import finish, note, refused, tried
from inputs import ROOT, traces
from yaslaurel_fleet import month
from yaslaurel_fleet.command import main
from yaslaurel_fleet.errors import FleetError
from yaslaurel_fleet.month import Trace, fleet_month, traces_in, traces_listed, written

MONTH = os.environ.get("YASLAUREL_MONTH") or ROOT / "target" / "bin" / "month"
WATCH = os.environ.get("YASLAUREL_WATCH") or ROOT / "target" / "bin" / "watch"
DEMO = ROOT / "demo" / "policy.bin"
MOST = 64
HOSTS = 800


def printed(folder):
    """What the month program prints in a folder."""
    return subprocess.run([MONTH], cwd=folder, stdout=subprocess.PIPE, check=True).stdout.decode()


def names(folder):
    """The names that the month program reads: up to the first that is missing."""
    found = []
    while len(found) < MOST and (folder / f"{len(found):02}.bin").exists():
        found.append(f"{len(found):02}.bin")
    return found


def stored_months(client, folders):
    """Each month whose policy is accepted."""
    compared = 0
    for folder in folders:
        expected = printed(folder)
        if expected.startswith("policy refused"):
            refused(yaslaurel.Refused, "refused with", lambda: yaslaurel.Policy((folder / "policy.bin").read_bytes() if (folder / "policy.bin").exists() else b""))
            continue
        policy = yaslaurel.Policy((folder / "policy.bin").read_bytes())
        found = fleet_month(client, policy, traces_listed(names(folder), folder, as_month=True), as_month=True, task_bytes=1 << 16)
        assert found.text() == expected, f"{folder.name}:\n{found.text()}where the month program has\n{expected}"
        compared += 1
    assert compared, "no month"


def fleet(folder, seed, hosts, records):
    """A fleet's folder, its traces of different lengths; gives what the month program prints of it, 64 hosts at a time, and the total."""
    policy = yaslaurel.Policy(DEMO.read_bytes())
    rng, lines, total = random.Random(seed), [], yaslaurel.Figures()
    sent = {name: trace[:8 * rng.randint(0, records)] for name, trace in traces(seed, hosts, records).items()}
    for name, trace in sent.items():
        (folder / f"{name}.bin").write_bytes(trace)
        total += yaslaurel.Figures.of(policy, trace)
    everyone = sorted(sent)
    for first in range(0, hosts, MOST):
        some = everyone[first:first + MOST]
        with tempfile.TemporaryDirectory() as part:
            (Path(part) / "policy.bin").write_bytes(DEMO.read_bytes())
            for number, name in enumerate(some):
                (Path(part) / f"{number:02}.bin").write_bytes(sent[name])
            lines += [f"{name}.bin {line.split(' ', 1)[1]}" for name, line in zip(some, printed(part).splitlines()[:-1])]
    return "".join(f"{line}\n" for line in [*lines, total.line("total")])


def many_hosts(client, folder, seed):
    expected = fleet(folder, seed, 150, 300)
    policy = yaslaurel.Policy(DEMO.read_bytes())
    for task_bytes in (1, 1 << 17, 1 << 30):
        assert fleet_month(client, policy, traces_in(folder), task_bytes=task_bytes).text() == expected, f"{task_bytes} bytes a task"
    # the total is that of the lines, and the sum by the proved function
    found = fleet_month(client, policy, traces_in(folder))
    assert sum(figures for _, figures in found.figures) == found.total
    sums = [sum(int(line.split(" ")[k]) for line in expected.splitlines()[:-1]) for k in (1, 2, 3, 4)]
    assert [int(word) for word in expected.splitlines()[-1].split(" ")[1:5]] == sums


def groups(client, folder, seed):
    """By bytes, all traces once, and the heaviest first."""
    rng = random.Random(seed)
    some = [Trace(str(k), str(k), 8 * rng.randint(0, 100_000)) for k in range(500)]
    made = month.grouped(some, 1 << 20)
    assert sorted(trace.name for group in made for trace in group) == sorted(trace.name for trace in some)
    weights = [sum(trace.length for trace in group) for group in made]
    assert weights == sorted(weights, reverse=True)
    assert all(sum(trace.length + month.TRACE_COST for trace in group[:-1]) < 1 << 20 for group in made), "a group goes on when it is full"


def long_trace(client, folder, seed):
    """More records than the month program takes: counted whole, as the watch program lists them; left out with 19 as the month program does."""
    (folder / "long.bin").write_bytes(201 * traces(seed, 1, 5000)["host-000"][:8 * 4980])
    (folder / "short.bin").write_bytes(traces(seed, 1, 50)["host-000"])
    policy = yaslaurel.Policy(DEMO.read_bytes())
    found = fleet_month(client, policy, traces_in(folder))
    (folder / "watched").mkdir()
    (folder / "watched" / "policy.bin").write_bytes(DEMO.read_bytes())
    (folder / "watched" / "trace.bin").symlink_to(folder / "long.bin")
    listing = subprocess.run([WATCH], cwd=folder / "watched", stdout=subprocess.PIPE, check=True).stdout.decode()
    words = listing.splitlines()[-1].split(" ")
    figures = dict(found.figures)["long.bin"]
    assert [figures.records, figures.alerts, figures.refused, figures.blocked] == [201 * 4980, int(words[3]), int(words[5]), listing.count(" blocked ")]
    as_month = fleet_month(client, policy, traces_in(folder, as_month=True), as_month=True)
    lines = as_month.text().splitlines()
    assert lines[0] == "long.bin 19" and lines[2] == lines[1].replace("short.bin", "total"), lines


def wrong_inputs(client, folder, seed):
    policy = yaslaurel.Policy(DEMO.read_bytes())
    refused(FleetError, "there is no trace in it", lambda: traces_in(folder))
    refused(FleetError, "the list has no trace", lambda: traces_listed(["", "\n"], folder))
    fleet(folder, seed, 4, 50)
    (folder / "list").write_text("host-000.bin\nhost-777.bin\n")
    refused(FleetError, "host-777.bin: there is no such trace", lambda: traces_listed(["host-000.bin", "host-777.bin"], folder))
    refused(FleetError, "stands in the list twice", lambda: traces_listed(["host-000.bin", "host-001.bin", "host-000.bin"], folder))
    refused(FleetError, "one printable word", lambda: traces_listed(["total"], folder))
    refused(FleetError, "one printable word", lambda: traces_listed(["a b.bin"], folder))
    (folder / "cut.bin").write_bytes(bytes(19))
    refused(FleetError, "19 bytes are no whole number of records", lambda: traces_in(folder))
    (folder / "cut.bin").unlink()
    (folder / "folder.bin").mkdir()
    refused(FleetError, "no regular file", lambda: traces_in(folder))
    (folder / "folder.bin").rmdir()
    # what is there when the run begins, and not when it is read
    for text, change in {"8 bytes when the run began, more": lambda path: path.write_bytes(bytes(16)), "8 bytes when the run began, 0 when": lambda path: path.write_bytes(b""),
                         "No such file": lambda path: path.unlink()}.items():
        (folder / "changing.bin").write_bytes(bytes(8))
        found = traces_in(folder)
        change(folder / "changing.bin")
        refused(FleetError, text, lambda: fleet_month(client, policy, found))
        (folder / "changing.bin").unlink(missing_ok=True)
    found, kept = traces_in(folder), yaslaurel.library_version
    task = month.Task(policy.image, "9.9.9", False, tuple(found))
    refused(FleetError, "version", lambda: month.task_figures(task))


def outputs(client, folder, seed):
    """A file that cannot be written whole leaves the old one, and nothing beside it."""
    out = folder / "out"
    written("old\n", out)
    assert out.read_text() == "old\n"
    signal.signal(signal.SIGXFSZ, signal.SIG_IGN)
    limits = resource.getrlimit(resource.RLIMIT_FSIZE)
    resource.setrlimit(resource.RLIMIT_FSIZE, (1000, limits[1]))
    try:
        refused(OSError, "large", lambda: written(5000 * "x", out))
    finally:
        resource.setrlimit(resource.RLIMIT_FSIZE, limits)
    assert out.read_text() == "old\n" and [path.name for path in folder.iterdir()] == ["out"]


def stored(client, folder, seed):
    stored_months(client, [ROOT / "crates" / "month" / "data", *sorted(path.parent for path in (ROOT / "tests/host/month").glob("*/expected"))])


def local(seed, asked):
    client = distributed.Client(processes=False, n_workers=2, threads_per_worker=1, dashboard_address=None, silence_logs=50)
    if "/" in asked:
        tried("random months", lambda: stored_months(client, sorted(Path(asked).iterdir())))
    for case in (stored, many_hosts, groups, wrong_inputs, outputs, long_trace):
        month.PART_BYTES = 1 << 23 if case is stored else 1 << 10
        with tempfile.TemporaryDirectory() as folder:
            if "/" in asked or asked in ("", case.__name__):
                tried(case.__name__.replace("_", " "), lambda: case(client, Path(folder), seed))
    client.close()


class Poison(distributed.WorkerPlugin):
    """A trace that ends each worker which reads it."""

    name = "poison"

    def setup(self, worker):
        from yaslaurel_fleet import month

        kept = month.trace_figures

        def poisoned(policy, trace, room):
            if trace.name == "poison.bin":
                import os
                os.kill(os.getpid(), 9)
            return kept(policy, trace, room)

        month.trace_figures = poisoned


def in_the_middle(run, action):
    """Does something while a run goes on; gives what the run gave or raised."""
    found = []

    def caught():
        try:
            found.append(run())
        except Exception as error:
            found.append(error)

    thread = threading.Thread(target=caught)
    thread.start()
    time.sleep(0.4)
    assert thread.is_alive(), "the run was over before anything was done to it"
    action()
    thread.join(40)
    assert not thread.is_alive(), "the run does not end"
    return found[0]


def ended(run, text, action):
    found = in_the_middle(run, action)
    assert isinstance(found, FleetError) and text in str(found), f"told {repr(found)[:300]}"


def cluster(file, seed):
    address, scheduler = json.loads(Path(file).read_text())["address"], int(os.environ["SCHEDULER_PID"])
    logging.getLogger("distributed.client").setLevel(logging.CRITICAL)
    client = distributed.Client(address)
    client.wait_for_workers(2, timeout=30)
    everyone = list(client.run(os.getppid).values())
    policy = yaslaurel.Policy(DEMO.read_bytes())
    with tempfile.TemporaryDirectory() as name:
        folder, real = Path(name) / "traces", Path(name) / "real"
        folder.mkdir(), real.mkdir()
        sent = {host: 50 * trace for host, trace in traces(seed, 4, 2000).items()}
        for host, trace in sent.items():
            (real / host).write_bytes(trace)
        for k in range(HOSTS):
            (folder / f"{k:04}.bin").symlink_to(real / f"host-00{k % 4}")
        found = traces_in(folder)
        four = [yaslaurel.Figures.of(policy, sent[f"host-00{k}"]) for k in range(4)]
        figures = [four[k % 4] for k in range(HOSTS)]
        expected = "".join(f"{one.line(trace.name)}\n" for trace, one in zip(found, figures)) + sum(figures).line("total") + "\n"

        def run(**named):
            return fleet_month(client, policy, found, task_bytes=1 << 22, **named)

        def kill(nannies):
            pid, nanny = next(iter(client.run(lambda: (os.getpid(), os.getppid())).values()))
            os.kill(nanny, signal.SIGKILL) if nannies else None
            os.kill(pid, signal.SIGKILL)

        def kill_all():
            """All nannies, with which their workers end."""
            for nanny in everyone:
                with contextlib.suppress(ProcessLookupError):
                    os.kill(nanny, signal.SIGKILL)

        def same(found):
            assert isinstance(found, month.Month), repr(found)[:300]
            assert found.text() == expected, "other lines"

        tried("a worker killed in the middle", lambda: same(in_the_middle(run, lambda: kill(False))))
        tried("a worker and its nanny killed in the middle", lambda: same(in_the_middle(run, lambda: kill(True))))
        out, few = Path(name) / "out", Path(name) / "few"
        command = ["month", address, str(folder), "--policy", str(DEMO), "--out", str(out)]
        note(main(command) == 3 and out.read_text() == expected, "the command writes the same, and its status tells alerts and refusals")
        out.write_text("old\n")
        few.mkdir()
        for number in range(6):
            (few / ("poison.bin" if number == 3 else f"{number}.bin")).symlink_to(real / "host-000")
        client.register_worker_plugin(Poison())
        found_few = traces_in(few)
        tried("a worker killed again and again ends the run", lambda: refused(FleetError, "died each time", lambda: fleet_month(client, policy, found_few, task_bytes=1)))
        client.unregister_worker_plugin("poison")
        tried("without a worker the run ends", lambda: ended(lambda: run(patience=1), "no worker for 1 seconds", kill_all))
        worker = subprocess.Popen([sys.executable, "-m", "distributed.cli.dask_worker", address, "--host", "127.0.0.1", "--nthreads", "1", "--no-nanny", "--no-dashboard",
                                   "--local-directory", str(Path(name) / "worker")], stderr=subprocess.DEVNULL)
        client.wait_for_workers(1, timeout=30)

        def lose():
            """Kills the scheduler once it has tasks of another client than this one."""
            own = client.id
            while not client.run_on_scheduler(lambda dask_scheduler: sum(len(other.wants_what) for key, other in dask_scheduler.clients.items() if key.startswith("Client") and key != own)):
                time.sleep(0.02)
            os.kill(scheduler, signal.SIGKILL)

        lost = in_the_middle(lambda: subprocess.run([sys.executable, "-m", "yaslaurel_fleet.command", *command], stderr=subprocess.PIPE, check=False), lose)
        note(lost.returncode == 5 and b"yaslaurel-fleet: the scheduler was lost" in lost.stderr and out.read_text() == "old\n", "a scheduler that is lost ends the run, and nothing is written")
        note(main([*command, "--patience", "1"]) == 5 and out.read_text() == "old\n", "without a scheduler there is no run")
        worker.kill()
        worker.wait()


if __name__ == "__main__":
    if sys.argv[1] == "local":
        local(int(sys.argv[2]), sys.argv[3] if len(sys.argv) > 3 else "")
    else:
        cluster(sys.argv[2], int(sys.argv[3]))
    finish()
