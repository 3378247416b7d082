"""A worker: judges the records of a partition's hosts as they come, and commits.

The proved library judges; that each host's records come to it once and in order is the work of `Session.feed` and of the store's
transaction, which are not proved. A worker may be killed at any moment, started twice or be replaced: the store is then that of an
undisturbed run up to some place of the log.
"""

from __future__ import annotations

from collections import OrderedDict
from dataclasses import dataclass, field
from typing import Dict, List, Optional, Sequence, Set, Tuple

import yaslaurel

from .errors import FleetError, NotFollowed, OtherPolicy
from .log import Log, Message, read_message
from .store import Found, State, Store, found_of

SESSIONS = 4096
"""Sessions that a worker keeps in memory, of 44 KiB each; the others are in the store alone."""


@dataclass
class Turn:
    """What a turn has judged: up to which message, how many, how many records that were not seen before, the hosts that took some, and what was
    not quiet; and why it went no further, if the log has a message that cannot be followed."""

    after: str
    messages: int = 0
    records: int = 0
    hosts: Set[str] = field(default_factory=set)
    events: List[Found] = field(default_factory=list)
    fault: Optional[NotFollowed] = None


class Worker:
    """A worker of a partition, to be dropped after an exception: nothing of the message at fault, or behind it, is in the store."""

    def __init__(self, log: Log, store: Store, policy: yaslaurel.Policy, part: int, sessions: int = SESSIONS) -> None:
        fleet = store.fleet()
        if fleet.digest != policy.digest:
            raise OtherPolicy("the store is of another policy")
        if log.whose() != (fleet.fleet, fleet.partitions):
            raise FleetError("the log is of another fleet than the store")
        self.log, self.store, self.policy, self.part = log, store, policy, part
        self.partitions, self.most = fleet.partitions, sessions
        self.sessions: OrderedDict[str, yaslaurel.Session] = OrderedDict()
        self.place = store.place(part)

    def turn(self, count: int, wait: float) -> Optional[Turn]:
        """Judges messages that have come, at most so many, and commits; None if none came in so many seconds. A gap or a malformed message raises
        NotFollowed once what stands before it is committed: the place stays in front of it."""
        found = self.log.after(self.part, self.place, count, wait)
        if not found:
            return None
        turn = self.judge(*self.readable(found))
        if turn.messages:
            self.commit(turn)
        if turn.fault:
            raise turn.fault
        return turn

    def readable(self, found: Sequence[Tuple[str, Dict[bytes, bytes]]]) -> Tuple[List[Tuple[str, Message]], Optional[NotFollowed]]:
        """The messages up to the first that is malformed, and what is wrong with that one."""
        messages: List[Tuple[str, Message]] = []
        for place, fields in found:
            try:
                messages.append((place, read_message(fields, self.part, self.partitions)))
            except NotFollowed as fault:
                return messages, NotFollowed(f"partition {self.part}, message {place}: {fault}")
        return messages, None

    def judge(self, messages: Sequence[Tuple[str, Message]], fault: Optional[NotFollowed]) -> Turn:
        """Feeds each host's session with its records, up to the first gap."""
        self.load({message.host for _, message in messages})
        turn = Turn(self.place, fault=fault)
        for place, message in messages:
            session = self.sessions[message.host]
            before = session.taken
            try:
                turn.events += [found_of(message.host, event) for event in session.feed(message.first, message.records)]
            except yaslaurel.Gap as gap:
                turn.fault = NotFollowed(f"partition {self.part}, message {place}, host {message.host}: {gap}")
                return turn
            turn.after, turn.messages, turn.records = place, turn.messages + 1, turn.records + session.taken - before
            if session.taken > before:
                turn.hosts.add(message.host)
        return turn

    def load(self, hosts: Set[str]) -> None:
        """Has the sessions of hosts in memory: from the store, or new ones."""
        missing = hosts - self.sessions.keys()
        for state in self.store.states(missing) if missing else []:
            try:
                session = yaslaurel.Session.restore(self.policy, state.snapshot)
            except yaslaurel.SnapshotMismatch as error:
                raise FleetError(f"host {state.host}: {error}") from None
            if session.taken != state.taken:
                raise FleetError(f"host {state.host}: the snapshot has taken {session.taken} records, and the store says {state.taken}")
            self.sessions[state.host] = session
        for host in hosts:
            if host not in self.sessions:
                self.sessions[host] = yaslaurel.Session(self.policy)
            self.sessions.move_to_end(host)

    def commit(self, turn: Turn) -> None:
        """Brings the store to the place of a turn, and forgets sessions that are too many."""
        states = [State(host, self.sessions[host].taken, self.sessions[host].snapshot()) for host in sorted(turn.hosts)]
        self.store.commit(self.part, self.policy.digest, self.place, turn.after, states, turn.events)
        self.place = turn.after
        while len(self.sessions) > self.most:
            self.sessions.popitem(last=False)
