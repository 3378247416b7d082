"""What a page must say, from other sources than the page's maker: the listing, the stored explanations, and the names of a folder."""

import re
import sys
from pathlib import Path

ROOT = Path(__file__).resolve().parents[3]
sys.path += [str(ROOT / "hosts" / "python"), str(ROOT / "demo")]

from formats import NO_ATOM
from permits import sections
from words import VERBS, Containers, sources

KINDS = {1: "file", 2: "volatile", 3: "process", 4: "guarded file"}
MADE = {"fork": "process", "file": "file", "volatile": "volatile"}


class Facts:
    """A folder with names, and its listing."""

    def __init__(self, folder, listing, explained):
        self.names = (folder / "names.txt").read_text().splitlines()
        self.containers = Containers((folder / "containers.txt").read_text())
        self.lines = [line for line in listing.splitlines() if line[0].isdigit()]
        self.total = re.fullmatch(r"total (\d+) alerts (\d+) refused (\d+)", listing.splitlines()[-1]).groups()
        self.explained = explained
        rows = enumerate(sections((folder / "policy.bin").read_bytes())["containers"])
        # Each container that has been there: number, place among the number's holders, kind, spans of steps with their tags, last step.
        self.lanes = {(number, 0): [KINDS[kind], [(0, 0 if atom == NO_ATOM else 1 << atom)], None] for number, (kind, atom, *_) in rows}
        self.rows = [self.row(line.split()) for line in self.lines]

    def row(self, fields):
        """The cells of a line in words: step, answer, access, receiver, what the receiver holds."""
        step, op, p, o, answer, *told = fields
        step, at = int(step), lambda number: self.containers.at(int(number), int(step))[0]
        access = f"{at(p)} {VERBS[op]}" + ("" if op == "end" else f" {at(o)}")
        if answer == "refused":
            return step, answer, access, "", f"refused {told[0]}"
        receiver, tag = at(told[0]), int(told[1], 16)
        self.follow(step, op, answer, int(told[0]), tag)
        return step, answer, access, receiver, ("would hold " if answer == "blocked" else "") + sources(self.names, tag)

    def follow(self, step, op, answer, number, tag):
        """What an access does to the lanes."""
        if answer == "blocked":
            return
        lane = (number, self.containers.at(number, step)[1])
        if op in MADE:
            self.lanes[lane] = [MADE[op], [(step, tag)], None]
        elif op in ("end", "delete"):
            self.lanes[lane][2] = step
            self.containers.leave(number, step)
        elif self.lanes[lane][1][-1][1] != tag:
            self.lanes[lane][1].append((step, tag))

    def lane_name(self, lane):
        """What the container of a lane is called."""
        return self.containers.holders[lane[0]][lane[1]]

    def state(self, step):
        """Who is there behind a step, with kind, what it holds, and since when."""
        for lane, (kind, spans, last) in self.lanes.items():
            if spans[0][0] <= step and (last is None or step < last):
                since, tag = [span for span in spans if span[0] <= step][-1]
                yield self.lane_name(lane), kind, sources(self.names, tag), str(since)

    def spans(self):
        """What each lane holds from which step to which."""
        for lane, (_, spans, last) in self.lanes.items():
            ends = [step for step, _ in spans[1:]] + [last or len(self.lines) + 1]
            for (step, tag), end in zip(spans, ends):
                yield f"{self.lane_name(lane)}, steps {step} to {end - 1}: {sources(self.names, tag)}"

    def chains(self):
        """By step, the boxes and the arrows of each chain that the explanations tell."""
        found, step = {}, None
        for line in self.explained.splitlines():
            head = re.match(r"(?:alert|blocked), step (\d+): ", line)
            step = int(head[1]) if head else step
            if not head and " came by " in line:
                first, *hops = line.split(" came by ")[1].split(" -> ")
                hops = [re.fullmatch(r"(.*) \(step (\d+), (.*)\)", hop).groups() for hop in hops]
                found.setdefault(step, []).append(([first] + [name for name, *_ in hops], [f"{number} {verb}" for _, number, verb in hops]))
        return found
