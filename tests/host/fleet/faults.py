"""faults.py WORK [NUMBER ..]: plants faults in copies of the package hosts/fleet, each of which the cases must find: a line `ok` for each that they do.

A fault is a case that must find it, a text that stands exactly once in a file, and what takes its place. The cases run in a process of their own, two at a time, each with a database of its own."""

import os
import subprocess
import sys
from concurrent.futures import ThreadPoolExecutor
from pathlib import Path
from shutil import copytree
from urllib.parse import urlsplit

import psycopg2
from checks import finish, note

HERE = Path(__file__).resolve().parent
PACKAGE = HERE.parents[2] / "hosts" / "fleet" / "src" / "yaslaurel_fleet"
LIVE, MONTH = "live_cases.py", "month_cases.py"

FAULTS = [
    ("the offset is not compared", LIVE, "two_at_once", "store.py", " and at = %s and (select digest", " and %s is not null and (select digest"),
    ("the offset is committed in a transaction of its own, before the states", LIVE, "killed_everywhere", "store.py",
     "            if states:\n", "            self.db.commit()\n            if states:\n"),
    ("the states are committed before the alerts", LIVE, "killed_everywhere", "store.py", "            if alerts:\n", "            self.db.commit()\n            if alerts:\n"),
    ("the alerts are committed before the states", LIVE, "killed_everywhere", "live.py", "        self.store.commit(self.part, self.policy.digest, self.place, turn.after, states, turn.events)",
     "        self.store.commit(self.part, self.policy.digest, self.place, self.place, [], turn.events)\n"
     "        self.store.commit(self.part, self.policy.digest, self.place, turn.after, states, [])"),
    ("the states are committed before the offset", LIVE, "killed_everywhere", "live.py", "        self.store.commit(self.part, self.policy.digest, self.place, turn.after, states, turn.events)",
     "        self.store.commit(self.part, self.policy.digest, self.place, self.place, states, [])\n"
     "        self.store.commit(self.part, self.policy.digest, self.place, turn.after, [], turn.events)"),
    ("a message that comes twice is judged twice", LIVE, "killed_everywhere", "live.py", "session.feed(message.first, message.records)", "session.events(message.records)"),
    ("the first state that changed is not kept", LIVE, "plain", "live.py", "in sorted(turn.hosts)]", "in sorted(turn.hosts)[1:]]"),
    ("a state that is there already is not replaced", LIVE, "plain", "store.py",
     "do update set taken = excluded.taken, \"\n                               \"snapshot = excluded.snapshot\"", "do nothing\""),
    ("a gap is passed over", LIVE, "gaps", "live.py", "                return turn\n            turn.after", "                continue\n            turn.after"),
    ("a malformed message is passed over", LIVE, "malformed", "live.py",
     "                return messages, NotFollowed(f\"partition {self.part}, message {place}: {fault}\")", "                continue"),
    ("a gap is committed with its turn", LIVE, "gaps", "live.py", "            except yaslaurel.Gap as gap:\n", "            except yaslaurel.Gap as gap:\n                turn.after = place\n"),
    ("a session whose snapshot does not restore begins anew", LIVE, "snapshots", "live.py", "                raise FleetError(f\"host {state.host}: {error}\") from None",
     "                session = yaslaurel.Session(self.policy)"),
    ("the states of the store are not taken up", LIVE, "killed_everywhere", "live.py", "self.store.states(missing) if missing else []", "[]"),
    ("the count in the store is not compared with the snapshot's", LIVE, "snapshots", "live.py", "if session.taken != state.taken:", "if False:"),
    ("a worker of another policy begins", LIVE, "policies", "live.py", "if fleet.digest != policy.digest:", "if False:"),
    ("a worker commits under another policy", LIVE, "policies", "store.py", " and (select digest from fleet) = %s", " and %s is not null"),
    ("a log of another fleet is taken", LIVE, "policies", "live.py", "if log.whose() != (fleet.fleet, fleet.partitions):", "if False:"),
    ("a host of another partition is taken", LIVE, "malformed", "log.py", "    if partition(host, partitions) != part:", "    if False:"),
    ("a number that is none is taken", LIVE, "malformed", "log.py", "not found[b\"n\"].isdigit() or ", ""),
    ("refused records are no events", LIVE, "plain", "live.py",
     "for event in session.feed(message.first, message.records)]", "for event in session.feed(message.first, message.records) if not event.refused]"),
    ("the place of an event is one further", LIVE, "plain", "store.py", "Found(host, event.place,", "Found(host, event.place + 1,"),
    ("a log that has lost its end goes on before the store's place", LIVE, "lost_log", "log.py", "if order(self.last(part)) >= order(place):", "if True:"),
    ("traces of a task share a session", MONTH, "many_hosts", "month.py", "            session = yaslaurel.Session(policy)\n",
     "            session = trace_figures.__dict__.setdefault(policy.image, yaslaurel.Session(policy))\n"),
    ("each part of a trace has a session of its own", MONTH, "many_hosts", "month.py", "figures += session.figures(", "figures += yaslaurel.Session(policy).figures("),
    ("the last group of traces is lost", MONTH, "many_hosts", "month.py",
     "sum(trace.length for trace in group), reverse=True)", "sum(trace.length for trace in group), reverse=True)[:-1]"),
    ("the total has the first trace twice", MONTH, "stored", "month.py", "for _, one in counts if one is not None)", "for _, one in counts + counts[:1] if one is not None)"),
    ("a trace that has grown or shrunk is counted", MONTH, "wrong_inputs", "month.py", "    if taken != trace.length:", "    if False:"),
    ("a trace that is gone counts as empty", MONTH, "wrong_inputs", "month.py",
     "            raise FleetError(f\"{trace.path}: {error.strerror}\") from None\n    return found", "            found.append((trace.name, counts_of(yaslaurel.Figures())))\n    return found"),
    ("a cut trace is taken", MONTH, "wrong_inputs", "month.py", "    if length % RECORD_BYTES and not as_month:", "    if False:"),
    ("a short last record is left out", MONTH, "stored", "month.py", "yaslaurel.Figures.of(policy, room[:taken])", "yaslaurel.Figures.of(policy, room[:taken // 8 * 8])"),
    ("over 1,000,000 records are counted as the month program does not", MONTH, "long_trace", "month.py", "trace.length > MONTH_LIMIT * RECORD_BYTES", "trace.length > 2 * MONTH_LIMIT * RECORD_BYTES"),
    ("another version of the library at a worker", MONTH, "wrong_inputs", "month.py", "    if yaslaurel.library_version() != task.version:", "    if False:"),
    ("the output is written in its place at once", MONTH, "outputs", "month.py", "    with tempfile.NamedTemporaryFile(\"w\", dir=out.parent, prefix=f\".{out.name}.\", delete=False) as file:",
     "    with open(out, \"w\") as file:"),
]


def planted(number, work):
    """A copy of the package with a fault."""
    text, _, _, name, old, new = FAULTS[number]
    folder = work / f"fault-{number}"
    copytree(PACKAGE, folder / "yaslaurel_fleet")
    source = (folder / "yaslaurel_fleet" / name).read_text()
    if source.count(old) != 1:
        raise SystemExit(f"fault {number}, {text}: its text stands {source.count(old)} times in {name}")
    (folder / "yaslaurel_fleet" / name).write_text(source.replace(old, new))
    return folder


def database(number):
    """The variables of a log and a store of its own."""
    log, store = os.environ["YASLAUREL_FLEET_LOG"], os.environ["YASLAUREL_FLEET_STORE"]
    db = psycopg2.connect(store)
    db.autocommit = True
    with db.cursor() as c:
        c.execute(f"create database fault_{number}")
    db.close()
    return {"YASLAUREL_FLEET_LOG": log.rsplit("/", 1)[0] + f"/{1 + number % 15}", "YASLAUREL_FLEET_STORE": urlsplit(store)._replace(path=f"/fault_{number}").geturl()}


def found(number, work):
    """Whether the cases find a fault: they end with a failure, and a line that says which."""
    (_, script, case, *_), folder = FAULTS[number], planted(number, work)
    words = [str(number), case] if script == LIVE else ["local", str(number), case]
    servers = database(number) if script == LIVE else {}
    variables = {**os.environ, **servers, "PYTHONPATH": str(folder)}
    ran = subprocess.run([sys.executable, HERE / script, *words], env=variables, stdout=subprocess.PIPE, stderr=subprocess.PIPE, text=True, check=False)
    lines = [line for line in ran.stdout.splitlines() if line.startswith("FAILED ")]
    broken = [line for line in lines if "NameError" in line or "SyntaxError" in line or "ImportError" in line]
    counted = any(line.endswith(" failed") and " passed, " in line for line in ran.stdout.splitlines()[-1:])
    return ran.returncode == 1 and bool(lines) and not broken and counted, lines[:1] or (ran.stdout + ran.stderr).splitlines()[-3:]


if __name__ == "__main__":
    work = Path(sys.argv[1])
    some = range(len(FAULTS)) if len(sys.argv) == 2 else [int(number) for number in sys.argv[2:]]
    with ThreadPoolExecutor(2) as pool:
        for number, (good, said) in zip(some, pool.map(lambda number: found(number, work), some)):
            note(good, f"planted fault found: {FAULTS[number][0]}")
            if not good or os.environ.get("SHOW"):
                print("   ", *said, sep="\n    ")
    finish()
