"""The command `yaslaurel-fleet` (docs/FLEET.md)."""

from __future__ import annotations

import argparse
import logging
import os
import signal
import sys
from pathlib import Path
from typing import IO, Any, Callable, Iterator, Optional, Sequence, Tuple

import psycopg2
import redis
import yaslaurel

from . import words
from .errors import FleetError, OtherPolicy
from .log import BATCH, RECORD_BYTES, Log, Message, order, well_named
from .store import Store

LOG = "YASLAUREL_FLEET_LOG"
STORE = "YASLAUREL_FLEET_STORE"


def told(text: str) -> None:
    print(f"yaslaurel-fleet: {text}", file=sys.stderr, flush=True)


def read_policy(path: Path) -> yaslaurel.Policy:
    try:
        return yaslaurel.Policy.from_file(path)
    except yaslaurel.Refused as error:
        raise OtherPolicy(f"{path}: {error}; {error.remedy}") from None


def month(given: argparse.Namespace) -> int:
    """The month of a fleet; the engine is imported here alone, so that live workers start without it."""
    import distributed

    from .month import fleet_month, traces_in, traces_listed, written

    policy = read_policy(given.policy)
    if given.list is None:
        traces = traces_in(given.folder, given.as_month)
    else:
        lines = sys.stdin if given.list == "-" else open(given.list)
        with lines:
            traces = traces_listed(lines, given.folder, given.as_month)
    # What its client would say at length of a lost scheduler or worker is told below, or made good.
    logging.getLogger("distributed.client").setLevel(logging.CRITICAL)
    connect: Any = distributed.Client
    try:
        client = connect(given.scheduler, timeout=given.patience)
    except OSError as error:
        raise FleetError(f"{given.scheduler}: no scheduler: {error}") from None
    with client:
        found = fleet_month(client, policy, traces, as_month=given.as_month, task_bytes=given.task_bytes, patience=given.patience, bar=True)
    written(found.text(), given.out)
    total = found.total
    left_out = any(figures is None for _, figures in found.figures)
    return (1 if total.alerts or total.blocked else 0) + (2 if total.refused or left_out else 0)


def init(given: argparse.Namespace) -> int:
    policy, log, store = read_policy(given.policy), Log(given.log), Store(given.store)
    fleet = store.create(policy, given.partitions)
    log.create(fleet.fleet, fleet.partitions)
    for part in range(fleet.partitions):
        if log.reach(part, store.place(part)):
            told(f"partition {part}: the log has lost messages up to {store.place(part)}, which are in the store; new ones go behind it")
    print(f"a fleet of {fleet.partitions} partitions, policy {policy.digest.hex()}")
    return 0


def pieces(file: IO[bytes], host: str, first: int, records: int, left: bytearray) -> Iterator[Message]:
    """Messages of at most so many records, as the records come; `left` has what is not a whole record at the end."""
    while found := os.read(file.fileno(), RECORD_BYTES * records - len(left)):
        left += found
        whole = len(left) - len(left) % RECORD_BYTES
        if whole:
            yield Message(host, first, bytes(left[:whole]))
            first += whole // RECORD_BYTES
            del left[:whole]


def host_and_trace(text: str) -> Tuple[str, str]:
    host, found, path = text.partition("=")
    if not found or not well_named(host):
        raise argparse.ArgumentTypeError(f"{text!r} is not HOST=TRACE")
    return host, path


def at_least(least: int) -> Callable[[str], int]:
    """An argument that is a whole number, this one at least."""

    def read(text: str) -> int:
        if int(text) < least:
            raise argparse.ArgumentTypeError(f"{text} is less than {least}")
        return int(text)

    return read


def publish(given: argparse.Namespace) -> int:
    """Sends the whole records of each trace; those of standard input as they come."""
    log = Log(given.log)
    for host, path in given.traces:
        left = bytearray()
        with sys.stdin.buffer if path == "-" else open(path, "rb") as file:
            if given.first and path != "-":
                if file.seek(0, os.SEEK_END) < RECORD_BYTES * given.first:
                    raise FleetError(f"{path}: it has fewer than {given.first} records")
                file.seek(RECORD_BYTES * given.first)
            sent = log.publish(pieces(file, host, given.first, given.records, left), batch=1 if path == "-" else BATCH)
        print(f"{host}: {sent} messages", flush=True)
        if left:
            raise FleetError(f"{host}: {len(left)} bytes behind the last whole record are not sent")
    return 0


class Ended(BaseException):
    """A signal asks for the end."""


def end(number: int, frame: object) -> None:
    raise Ended


def work(given: argparse.Namespace) -> int:
    """Turns until a signal comes, or nothing has come for so long. A signal in the middle of a turn leaves nothing of it."""
    from .live import Worker

    for number in (signal.SIGINT, signal.SIGTERM):
        signal.signal(number, end)
    messages = records = events = commits = 0
    worker: Optional[Worker] = None
    try:
        store = Store(given.store)
        if given.stand_by:
            store.stand_by(given.part)
        worker = Worker(Log(given.log, given.tries), store, read_policy(given.policy), given.part, given.sessions)
        while True:
            if worker.log.reach(given.part, worker.place):
                told(f"partition {given.part}: the log has lost messages up to {worker.place}, which are in the store; hosts send again what came behind")
            turn = worker.turn(given.messages, given.until_idle or 5)
            if turn:
                messages, records, events, commits = messages + turn.messages, records + turn.records, events + len(turn.events), commits + 1
                if given.trim:
                    worker.log.trim(given.part, worker.place)
            elif given.until_idle:
                break
    except Ended:
        pass
    finally:
        if worker:
            told(f"partition {given.part}: {messages} messages, {records} records, {events} not quiet, {commits} commits")
    return 0


def alerts(given: argparse.Namespace) -> int:
    store = Store(given.store)
    names, found = store.fleet().names, store.alerts(given.host)
    for one in found:
        print(words.line(one) if given.lines else words.sentence(one, names))
    return words.status(found)


def status(given: argparse.Namespace) -> int:
    """Where each partition stands, and how many records of each host are in its session. 2 where the log goes further than the store."""
    store, log, behind = Store(given.store), Log(given.log), False
    fleet = store.fleet()
    if log.whose() != (fleet.fleet, fleet.partitions):
        raise FleetError("the log is of another fleet than the store")
    print(f"policy {fleet.digest.hex()}")
    for part in range(fleet.partitions):
        place, last = store.place(part), log.last(part)
        waiting = order(last) > order(place)
        behind = behind or waiting
        print(f"partition {part} at {place} of {last}{', messages wait' if waiting else ''}")
    for host, part, taken in store.hosts():
        print(f"host {host} partition {part} records {taken}")
    return 2 if behind else 0


def skip(given: argparse.Namespace) -> int:
    store, log = Store(given.store), Log(given.log)
    place = store.place(given.part)
    found = log.after(given.part, place, 1, 0)
    if not found or found[0][0] != given.message:
        raise FleetError(f"the message behind {place} in partition {given.part} is {found[0][0] if found else 'none'}, and not {given.message}")
    store.skip(given.part, place, given.message)
    told(f"partition {given.part}: message {given.message} is skipped, its records are in no session")
    return 0


Commands = Any
"""The subcommands of a parser, for which argparse has no public type."""


def month_arguments(commands: Commands, policy: argparse.ArgumentParser) -> None:
    one = commands.add_parser("month", parents=[policy], help="figures of each host's trace and their total, on Dask distributed")
    one.add_argument("scheduler", help="address of the scheduler, as tcp://HOST:8786")
    one.add_argument("folder", type=Path, help="where the traces are, under the same path at each worker: all *.bin but policy.bin")
    one.add_argument("--list", help="a file, or -, with a trace in each line; else all of the folder")
    one.add_argument("--out", type=Path, help="written when whole; else standard output")
    one.add_argument("--as-month", action="store_true", help="as the month program: a short last record counts as refused, over 1,000,000 records are left out with 19")
    one.add_argument("--task-bytes", type=at_least(1), default=1 << 23, help="bytes of traces in a task, about")
    one.add_argument("--patience", type=float, default=30, help="seconds without a scheduler or a worker")
    one.set_defaults(run=month)

def live_arguments(commands: Commands, policy: argparse.ArgumentParser, servers: argparse.ArgumentParser) -> None:
    one = commands.add_parser("init", parents=[policy, servers], help="makes the tables of a new fleet, and says in the log whose it is")
    one.add_argument("--partitions", type=at_least(1), default=1)
    one.set_defaults(run=init)

    one = commands.add_parser("publish", parents=[servers], help="sends traces, or records as they come on standard input")
    one.add_argument("traces", nargs="+", type=host_and_trace, metavar="HOST=TRACE")
    one.add_argument("--first", type=at_least(0), default=0, help="number of the first record to send, from 0; standard input begins with it")
    one.add_argument("--records", type=at_least(1), default=500, help="records of a message at most")
    one.set_defaults(run=publish)

    one = commands.add_parser("work", parents=[policy, servers], help="judges the records of a partition, and commits")
    one.add_argument("part", type=int)
    one.add_argument("--messages", type=at_least(1), default=200, help="messages of a commit at most")
    one.add_argument("--until-idle", type=float, help="ends when nothing has come for so many seconds")
    one.add_argument("--stand-by", action="store_true", help="waits until no other worker that was started so has the partition")
    one.add_argument("--sessions", type=at_least(1), default=4096, help="sessions kept in memory")
    one.add_argument("--trim", action="store_true", help="drops messages from the log once they are committed")
    one.add_argument("--tries", type=at_least(0), default=12, help="how often the log is tried again when its connection breaks")
    one.set_defaults(run=work)

    one = commands.add_parser("alerts", parents=[servers], help="what was not quiet, in words")
    one.add_argument("--host")
    one.add_argument("--lines", action="store_true", help="numbers, as the watch program lists them")
    one.set_defaults(run=alerts)

    commands.add_parser("status", parents=[servers], help="where partitions and hosts stand").set_defaults(run=status)

    one = commands.add_parser("skip", parents=[servers], help="moves a partition over the message that it cannot follow")
    one.add_argument("part", type=int)
    one.add_argument("message", help="its identity, as the worker has told it")
    one.set_defaults(run=skip)

def arguments() -> argparse.ArgumentParser:
    parser = argparse.ArgumentParser("yaslaurel-fleet", description="Yaslaurel for many hosts. Exit status: 0 quiet, 1 alerts or blocked, 2 not followed or refused, "
                                     "3 both, 4 the policy is refused or another, 5 a failure, 6 replaced by another worker.")
    parser.add_argument("--version", action="version", version=yaslaurel.__version__)
    commands = parser.add_subparsers(dest="command", required=True, metavar="COMMAND")
    servers = argparse.ArgumentParser(add_help=False)
    servers.add_argument("--log", default=os.environ.get(LOG), help=f"URL of the Redis server, else {LOG}")
    servers.add_argument("--store", default=os.environ.get(STORE), help=f"URL of the PostgreSQL database, else {STORE}")
    policy = argparse.ArgumentParser(add_help=False)
    policy.add_argument("--policy", type=Path, required=True, help="the policy image; names are those of its folder")

    month_arguments(commands, policy)
    live_arguments(commands, policy, servers)
    return parser


def main(words: Optional[Sequence[str]] = None) -> int:
    """Runs a command, and gives its exit status: whatever was not foreseen is a failure too, and told."""
    try:
        given = arguments().parse_args(words)
    except SystemExit as ended:
        return FleetError.status if ended.code else 0
    for name, variable in (("log", LOG), ("store", STORE)):
        if name in given and getattr(given, name) is None and not (given.command == "publish" and name == "store"):
            told(f"--{name} or {variable} says where it is")
            return FleetError.status
    try:
        return int(given.run(given))
    except FleetError as error:
        told(str(error))
        return error.status
    except OSError as error:
        told(f"{error.filename}: {error.strerror}" if error.filename else str(error))
    except psycopg2.Error as error:
        told(f"the store: {str(error).strip()}")
    except redis.RedisError as error:
        told(f"the log: {error}")
    except (Exception, KeyboardInterrupt) as error:
        told(f"{type(error).__name__}: {error}")
    return FleetError.status


if __name__ == "__main__":
    sys.exit(main())
