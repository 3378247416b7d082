#!/usr/bin/env python3
"""stored.py POLICY FOLDER LISTING [explanations]: runs the program `policy` on the stored cases of stories.txt, profiles.txt and
explanations.txt, in FOLDER, and prints a line for each; the last line is `N passed, M failed`. LISTING is a program that prints listings. With
`explanations` only those are run, up to the first that fails. If YASLAUREL_EXPLAIN names the program `explain`, that must print the stored lines."""

import json
import os
import subprocess
import sys
from pathlib import Path

HERE = Path(__file__).resolve().parent
sys.path.append(str(HERE.parents[2] / "hosts" / "python"))

from formats import CODES, NO_USER, OPERATION

WORDS_OF = HERE.parents[2] / "demo/words.py"
WORDS = {code: word for word, code in CODES.items()}


def cases(path):
    """Name, text and parts of each case of a file."""
    found = []
    for line in path.read_text().splitlines(keepends=True):
        if line.startswith("=== "):
            found.append((line[4:-1], {"text": ""}))
            part = "text"
        elif line.startswith("--- ") and found:
            part = line[4:-1]
            found[-1][1][part] = ""
        elif found:
            found[-1][1][part] += line
    return found


def split(lines):
    """Lines with those behind them that are set in."""
    found = []
    for line in lines:
        if line.startswith("  "):
            found[-1].append(line)
        else:
            found.append([line])
    return found


def trace_words(data):
    """The records of a trace, one in a line."""
    lines = []
    for place in range(0, len(data), OPERATION.size):
        code, second, process, container, user = OPERATION.unpack(data[place:place + OPERATION.size])
        if second != 0:
            raise ValueError("the second byte of a record is not 0")
        lines.append(f"{WORDS[code]} {process} {container}" + (f" as {user}" if user != NO_USER else "") + "\n")
    return "".join(lines)


class Runner:
    def __init__(self, policy, folder, listing):
        self.policy, self.folder, self.listing = policy, Path(folder), listing
        self.passed = self.failed = 0

    def run(self, *arguments):
        """Status, standard output and standard error."""
        done = subprocess.run([self.policy, *arguments], cwd=self.folder, capture_output=True, text=True)
        return done.returncode, done.stdout, done.stderr

    def note(self, name, expected, got):
        if expected == got:
            print(f"ok {name}")
            self.passed += 1
        else:
            print(f"FAILED {name}\nexpected: {expected}\ngot: {got}")
            self.failed += 1

    def made(self, part):
        """What a part of a story's case is compared with."""
        if part == "show":
            status, out, err = self.run("show", "out/policy.bin", "-n", "out")
            return out if (status, err) == (0, "") else (status, out, err)
        if part == "trace":
            return trace_words((self.folder / "out/trace.bin").read_bytes())
        return (self.folder / f"out/{part}.txt").read_text()

    def story(self, name, parts):
        (self.folder / "story").write_text(parts.pop("text"))
        (self.folder / "out").mkdir(exist_ok=True)
        for old in (self.folder / "out").iterdir():
            old.unlink()
        result = self.run("make", "story", "-o", "out")
        if "error" in parts:
            wrote = list((self.folder / "out").iterdir())
            self.note(name, ((4, "", parts["error"]), []), (result, wrote))
            return
        self.note(name, (0, "", ""), result)
        for part, expected in parts.items():
            self.note(f"{name}: {part}", expected, self.made(part))

    def explained(self, name, parts):
        """A story that is explained: in words, in JSON, step by step, and by the lines of the program `explain`."""
        said, lines, every = parts.pop("explain"), parts.pop("lines", None), parts.pop("all", None)
        self.story(name, parts)
        self.note(f"{name}: explained", (0, said, ""), self.run("explain", "out"))
        if every is not None:
            self.note(f"{name}: all chains", (0, every, ""), self.run("explain", "out", "--all"))
        blocks = ["".join(lines) for lines in split(said.splitlines(keepends=True)) if ", step " in lines[0]]
        steps = [block.split(", step ")[1].split(":")[0] for block in blocks]
        alone = [self.run("explain", "out", "--step", step) for step in steps]
        self.note(f"{name}: each step alone", [(0, block, "") for block in blocks], alone)
        status, out, err = self.run("explain", "--json", "out")
        facts = [(fact["answer"], str(fact["step"])) for fact in json.loads(out)]
        wanted = [(block.split(",")[0], step) for block, step in zip(blocks, steps)]
        self.note(f"{name}: as JSON", (0, wanted, ""), (status, facts, err))
        if lines is not None:
            numbers = [line.split()[2] for line in lines.splitlines() if line.startswith("rule ")]
            self.note(f"{name}: numbers of rules", numbers, [str(fact["origin"]["number"]) for fact in json.loads(out)])
        program = os.environ.get("YASLAUREL_EXPLAIN")
        if lines is not None and program:
            done = subprocess.run([program], cwd=self.folder / "out", capture_output=True, text=True)
            self.note(f"{name}: the program's lines", (lines, ""), (done.stdout, done.stderr))
        if lines is not None:
            listing = subprocess.run([self.listing], cwd=self.folder / "out", capture_output=True, text=True).stdout
            done = subprocess.run([WORDS_OF, "--why", "out"], cwd=self.folder, input=listing + lines, capture_output=True, text=True)
            told = [line for line in done.stdout.splitlines(keepends=True) if not line.startswith("refused ")]
            self.note(f"{name}: the program's lines in words", ("".join(blocks), ""), ("".join(told[:-1]), done.stderr))

    def fails(self, name, parts):
        """Whether a story is not explained as it must be."""
        try:
            self.explained(name, parts)
        except (ValueError, KeyError):
            self.note(f"{name}: no JSON", "", "found")
        return self.failed > 0

    def profiles(self, name, parts):
        folder = HERE.parent / "profiles" / name
        text = (folder / "profiles.txt").read_bytes() if folder.is_dir() else parts["text"].encode()
        (self.folder / "profiles.txt").write_bytes(text)
        result = self.run("profiles", "profiles.txt", "-o", "image")
        self.note(f"profiles, {name}", ((4, "", parts["error"]), False), (result, (self.folder / "image").exists()))

    def limits(self):
        """One more than there may be: the error has the line of the first too many."""
        def lines(form, count):
            return "".join(form.format(number) for number in range(count))

        for name, text, error in [
            ("33 sources", lines("source s{}\n", 33), "33: too many: a policy has at most 32 sources"),
            ("257 containers", lines("process p{}\n", 257), "257: too many: a policy has at most 256 containers"),
            ("257 containers, 32 of them sources", lines("source s{}\n", 32) + lines("volatile v{}\n", 225),
             "257: too many: a policy has at most 256 containers"),
            ("17 users", lines("user u{}\n", 17), "17: too many: a policy has at most 16 users"),
            ("257 different rules", different_rules(257), f"{9 + 257 + 129}: too many: a policy has at most 256 different rules"),
            ("257 containers by steps", lines("process p{}\n", 256) + "step fork p0 q\n",
             "257: no number is free for `q`, expected at most 256 containers at a time"),
            ("a control character", "source a\nsource b\x1b\n", "2: found the control character 0x1b, expected text"),
        ]:
            self.story(name, {"text": text, "error": f"story:{error}\n"})
        self.story("256 different rules", {"text": different_rules(256)})
        (self.folder / "story").write_bytes(b"source a\n\nsource \xff\n")
        error = "story:3: found bytes that are no UTF-8, expected text\n"
        self.note("no UTF-8", (4, "", error), self.run("make", "story", "-o", "out"))


def different_rules(count):
    """A story with so many different rules, two for each file: the set bits of the rule's number are its mixture."""
    sources = "".join(f"source s{bit}\n" for bit in range(9))
    mixtures = (", ".join(f"s{bit}" for bit in range(9) if number >> bit & 1) for number in range(count))
    rules = "".join(f"rule r{number} = {{{mixture}}}\n" for number, mixture in enumerate(mixtures))
    files = "".join(f"file f{number} permit r{number}" + (f" run r{number + 1}" if number + 1 < count else "") + "\n"
                    for number in range(0, count, 2))
    return sources + rules + files


def main():
    runner = Runner(*sys.argv[1:4])
    if sys.argv[4:] == ["explanations"]:
        return any(runner.fails(name, parts) for name, parts in cases(HERE / "explanations.txt"))
    for name, parts in cases(HERE / "stories.txt"):
        runner.story(name, parts)
    for name, parts in cases(HERE / "profiles.txt"):
        runner.profiles(name, parts)
    for name, parts in cases(HERE / "explanations.txt"):
        runner.explained(name, parts)
    runner.limits()
    print(f"{runner.passed} passed, {runner.failed} failed")
    return runner.failed > 0


if __name__ == "__main__":
    sys.exit(main())
