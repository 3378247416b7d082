"""The month of a fleet: the figures of each host's trace, and their total, on Dask distributed.

A task is a pure function of a policy and some traces, so the engine may run it again, on another worker and as often as it has to: the
figures are the same. The total is the sum over all hosts, each exactly once, and there is none if a single trace is without figures.
What judges and counts is the proved library; this module, the engine and the files' copies are not proved.
"""

from __future__ import annotations

import os
import sys
import tempfile
import time
from collections import Counter
from dataclasses import dataclass
from io import FileIO
from pathlib import Path
from typing import Any, Dict, Iterable, List, Optional, Sequence, TextIO, Tuple

import distributed
import yaslaurel
from tqdm import tqdm

from .errors import FleetError

RECORD_BYTES = 8
PART_BYTES = 1 << 23
"""How much of a trace is read at once; a trace of any length takes no more memory. The month program's limit fits in one part."""
TRACE_COST = 1 << 15
"""What opening a trace and starting its session cost, in bytes that could be judged in that time."""
TASK_BYTES = 1 << 23
"""Judged in some tens of milliseconds, beside which the engine's share of a millisecond for a task is little."""
MONTH_LIMIT = 1_000_000
MONTH_REFUSAL = 19
"""What the month program prints in the place of the figures of a trace with more records than its limit."""
POLL_SECONDS = 0.005
ALIVE_SECONDS = 0.5
"""How often it is asked whether there is a worker at all."""

as_completed: Any = distributed.as_completed
"""The engine's functions have no types, so what it gives is Any until it is named here."""


Counts = Tuple[int, int, int, int, int, Dict[int, int]]
"""The fields of figures."""


@dataclass(frozen=True)
class Trace:
    """A host's trace: the name of its line, where it is, and its length in bytes when the run began."""

    name: str
    path: str
    length: int


@dataclass(frozen=True)
class Task:
    """What a worker is sent: all that the figures follow from."""

    image: bytes
    version: str
    as_month: bool
    traces: Tuple[Trace, ...]


@dataclass(frozen=True)
class Month:
    """The figures of each trace in the order of the traces, None for one that is left out, and their total."""

    figures: Tuple[Tuple[str, Optional[yaslaurel.Figures]], ...]
    total: yaslaurel.Figures

    def text(self) -> str:
        """The month program's lines."""
        lines = [f"{name} {MONTH_REFUSAL}" if one is None else one.line(name) for name, one in self.figures]
        return "".join(f"{line}\n" for line in [*lines, self.total.line("total")])


def trace_of(name: str, path: Path, as_month: bool = False) -> Trace:
    """The trace of a file that is there, under a name that can stand in a line."""
    if name == "total" or not name or not name.isprintable() or any(c.isspace() for c in name):
        raise FleetError(f"{name!r}: a host's name in the lines of a month is one printable word, and not `total`")
    try:
        if not path.is_file():
            raise FleetError(f"{path}: {'no regular file' if path.exists() else 'there is no such trace'}")
        length = path.stat().st_size
    except OSError as error:
        raise FleetError(f"{path}: {error.strerror}") from None
    if length % RECORD_BYTES and not as_month:
        raise FleetError(f"{path}: {length} bytes are no whole number of records, so it was cut or damaged (--as-month counts the last as refused)")
    return Trace(name, str(path.resolve()), length)


def traces_in(folder: Path, as_month: bool = False) -> List[Trace]:
    """All traces of a folder: its files `*.bin` but for `policy.bin`, in the order of their names."""
    try:
        names = sorted(entry.name for entry in os.scandir(folder) if entry.name.endswith(".bin") and entry.name != "policy.bin")
    except OSError as error:
        raise FleetError(f"{folder}: {error.strerror}") from None
    if not names and not as_month:
        raise FleetError(f"{folder}: there is no trace in it")
    return [trace_of(name, folder / name, as_month) for name in names]


def traces_listed(lines: Iterable[str], folder: Path, as_month: bool = False) -> List[Trace]:
    """The traces of a list, a path in each line, seen from the folder; the path as it is written is the host's name."""
    traces = [trace_of(line, folder / line, as_month) for line in (text.rstrip("\n") for text in lines) if line]
    names = {trace.name for trace in traces}
    if not names and not as_month:
        raise FleetError("the list has no trace")
    if len(names) < len(traces):
        twice = next(trace.name for k, trace in enumerate(traces) if trace.name in {other.name for other in traces[:k]})
        raise FleetError(f"{twice}: stands in the list twice")
    return traces


def grouped(traces: Sequence[Trace], task_bytes: int = TASK_BYTES) -> List[Tuple[Trace, ...]]:
    """Traces in groups for tasks, by their bytes, the heaviest group first so that no long one is begun last."""
    groups: List[List[Trace]] = []
    filled = task_bytes
    for trace in traces:
        if filled >= task_bytes:
            groups.append([])
            filled = 0
        groups[-1].append(trace)
        filled += trace.length + TRACE_COST
    return sorted((tuple(group) for group in groups), key=lambda group: sum(trace.length for trace in group), reverse=True)


def trace_figures(policy: yaslaurel.Policy, trace: Trace, room: memoryview) -> yaslaurel.Figures:
    """The figures of one trace in a session of its own. One that does not fit into the room is read in parts, whose figures add up."""
    with open(trace.path, "rb", buffering=0) as file:
        taken = filled(file, room)
        if taken < len(room):
            figures = yaslaurel.Figures.of(policy, room[:taken])
        else:
            session = yaslaurel.Session(policy)
            figures = session.figures(room)
            while taken <= trace.length and (length := filled(file, room)):
                figures += session.figures(room[:length - length % RECORD_BYTES])
                taken += length
    if taken != trace.length:
        raise FleetError(f"{trace.path}: {trace.length} bytes when the run began, {'more' if taken > trace.length else taken} when it was read")
    return figures


def filled(file: FileIO, room: memoryview) -> int:
    """Reads a file until the room is full or the file ends; gives how many bytes there are."""
    length = 0
    while length < len(room) and (some := file.readinto(room[length:])):
        length += some
    return length


def room_for(traces: Sequence[Trace]) -> memoryview:
    """Memory for the longest of some traces and a record more, or for a part of it, used again for each."""
    longest = max((trace.length for trace in traces), default=0)
    return memoryview(bytearray(min(PART_BYTES, longest - longest % RECORD_BYTES + 2 * RECORD_BYTES)))


def counts_of(figures: yaslaurel.Figures) -> Counts:
    """Figures as plain numbers, which are quickly sent."""
    return figures.records, figures.accepted, figures.alerts, figures.refused, figures.blocked, dict(figures.by_container)


def total_of(counts: Iterable[Counts]) -> yaslaurel.Figures:
    """The sum, by Python's own numbers: `+` of the package, by the proved function, takes ten times as long for many hosts."""
    records = accepted = alerts = refused = blocked = 0
    places = Counter[int]()
    for one in counts:
        records, accepted, alerts, refused, blocked = records + one[0], accepted + one[1], alerts + one[2], refused + one[3], blocked + one[4]
        places.update(one[5])
    return yaslaurel.Figures(records, accepted, alerts, refused, blocked, places)


def task_figures(task: Task) -> List[Tuple[str, Optional[Counts]]]:
    """What a worker does: the figures of each trace of a task, by the library of the version that the run began with."""
    if yaslaurel.library_version() != task.version:
        raise FleetError(f"a worker has the library in version {yaslaurel.library_version()}, the run {task.version}")
    policy, room, found = yaslaurel.Policy(task.image), room_for(task.traces), []
    for trace in task.traces:
        left_out = task.as_month and trace.length > MONTH_LIMIT * RECORD_BYTES
        try:
            found.append((trace.name, None if left_out else counts_of(trace_figures(policy, trace, room))))
        except OSError as error:
            raise FleetError(f"{trace.path}: {error.strerror}") from None
    return found


def whole(result: Any) -> List[Tuple[str, Optional[Counts]]]:
    """What a task gave. The engine hands over what a task raised as a result too, and that it was cancelled."""
    if isinstance(result, list):
        return result
    raise result[1] if isinstance(result, tuple) else FleetError(f"the scheduler was lost, and a task with it: {result}")


def gathered(client: Any, tasks: Sequence[Task], patience: float, bar: bool) -> Dict[str, Optional[Counts]]:
    """The figures by host. A result is released as soon as it is here, so that a worker's death does not have it worked out again."""
    found: Dict[str, Optional[Counts]] = {}
    results = as_completed(client.map(task_figures, tasks, pure=False, retries=0), with_results=True)
    alive = asked = time.monotonic()
    with tqdm(total=sum(len(task.traces) for task in tasks), unit=" hosts", disable=not (bar and sys.stderr.isatty())) as progress:
        while not results.is_empty():
            for future, result in results.next_batch(block=False):
                future.release()
                for name, figures in whole(result):
                    if name in found:
                        raise FleetError(f"{name}: figures came twice")
                    found[name] = figures
                    progress.update()
            time.sleep(POLL_SECONDS)
            if client.status != "running":
                raise FleetError("the scheduler was lost")
            now = time.monotonic()
            if now - asked > ALIVE_SECONDS:
                asked = now
                alive = now if client.scheduler_info()["workers"] else alive
                if now - alive > patience:
                    raise FleetError(f"no worker for {patience:g} seconds")
    return found


def fleet_month(client: Any, policy: yaslaurel.Policy, traces: Sequence[Trace], *, as_month: bool = False, task_bytes: int = TASK_BYTES,
                patience: float = 30.0, bar: bool = False) -> Month:
    """The month of a fleet, whole, whatever the workers went through; else FleetError."""
    version = yaslaurel.library_version()
    tasks = [Task(policy.image, version, as_month, group) for group in grouped(traces, task_bytes)]
    try:
        found = gathered(client, tasks, patience, bar)
    except distributed.KilledWorker as error:
        raise FleetError(f"a task's worker died each time that it was tried: {error}") from None
    except OSError as error:
        raise FleetError(f"the scheduler was lost: {error}") from None
    missing = [trace.name for trace in traces if trace.name not in found]
    if missing or len(found) != len(traces):
        raise FleetError(f"{len(missing)} traces are without figures, {', '.join(missing[:5])} among them")
    counts = [(trace.name, found[trace.name]) for trace in traces]
    figures = tuple((name, None if one is None else yaslaurel.Figures(*one)) for name, one in counts)
    return Month(figures, total_of(one for _, one in counts if one is not None))


def written(text: str, out: Optional[Path], shown: TextIO = sys.stdout) -> None:
    """Prints a text, or writes it to a file that is there only when it is whole: under another name first, then renamed."""
    if out is None:
        shown.write(text)
        shown.flush()
        return
    with tempfile.NamedTemporaryFile("w", dir=out.parent, prefix=f".{out.name}.", delete=False) as file:
        try:
            file.write(text)
            file.flush()
            os.fsync(file.fileno())
            os.replace(file.name, out)
        except BaseException:
            os.unlink(file.name)
            raise
