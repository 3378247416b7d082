#!/usr/bin/env python3
"""random_runs.py POLICY JUDGE SEED FOLDER: random stories, of which `policy` must make what formats.py makes; damaged stories,
images and texts of profiles, which must be refused as the judge refuses them, with a line where there is one, and never end
the program otherwise. In FOLDER; prints a line for each kind; the last line is `N passed, M failed`."""

import random
import re
import subprocess
import sys
from pathlib import Path

HERE = Path(__file__).resolve().parent
ROOT = HERE.parents[2]
sys.path.append(str(ROOT / "hosts" / "python"))

from formats import CODES, KINDS, NO_ATOM, NO_USER, RECORDS, RUNNING, UNRESTRICTED, Policy, mixture, operation

STORIES, DAMAGED = 120, 400
MAKES, LEAVES, TAKES_USER = {"fork", "new-file", "new-volatile"}, {"end", "delete"}, {"exec", "new-file"}


FILES = ["file", "guarded"]


class RandomStory:
    """A story in text, and beside it the policy and the trace that it stands for."""

    def __init__(self, r):
        self.r, self.lines, self.policy, self.trace = r, [], Policy(), b""
        self.holders, self.containers = [], []
        self.sources = [self.name("s", k) for k in range(r.randrange(1, 33))]
        own_files = [r.random() < 0.3 for _ in self.sources]
        for source, name in enumerate(self.sources):
            self.lines.append(f"source {self.spelled(name)}")
            if own_files[source]:
                self.add(name, "file", source, UNRESTRICTED, UNRESTRICTED)
        self.rules = [self.rule(k) for k in range(r.randrange(6))]
        for source in range(len(self.sources)):
            if not own_files[source]:
                self.container("file", source)
        for _ in range(r.randrange(10)):
            self.container(r.choice(list(KINDS)), None)
        for _ in range(r.randrange(4)):
            self.permit()
        self.users = [self.user(k) for k in range(r.randrange(5))]
        for number in range(len(self.rules) if self.users else 0):
            self.owner(number)
        for _ in range(r.randrange(30)):
            self.step()

    def name(self, letter, number):
        return letter + str(number) + self.r.choice(["", "", "/x.y", " z", "=,", "#"])

    def spelled(self, name):
        return f'"{name}"' if re.search("[ =,]", name) or self.r.random() < 0.1 else name

    def mixture(self, least):
        atoms = [atom for atom in range(2 * RUNNING) if atom % RUNNING < len(self.sources)]
        return self.r.sample(atoms, self.r.randrange(least, min(5, len(atoms))))

    def rule(self, number):
        mixtures = [self.mixture(0) for _ in range(self.r.randrange(9))]
        self.policy.rule([mixture(atoms) for atoms in mixtures])
        text = " ".join("{" + ", ".join(map(self.atom, atoms)) + "}" for atoms in mixtures)
        self.lines.append(f"rule r{number} = {text}")
        return f"r{number}"

    def atom(self, number):
        return ("run " if number >= RUNNING else "") + self.spelled(self.sources[number % RUNNING])

    def option(self, word):
        """The text of a rule behind a word, or none, and the rule's number."""
        if not self.rules or self.r.random() < 0.5:
            return "", UNRESTRICTED
        number = self.r.randrange(len(self.rules))
        return f" {word} {self.rules[number]}", number

    def container(self, kind, source):
        name = self.name("c", len(self.holders))
        text, permit, run = "", UNRESTRICTED, UNRESTRICTED
        if kind in FILES:
            (permit_text, permit), (run_text, run) = self.option("permit"), self.option("run")
            source_text = "" if source is None else f" source {self.spelled(self.sources[source])}"
            guarded_text = " guarded" if kind == "guarded" else ""
            text = "".join(self.r.sample([permit_text, run_text, source_text, guarded_text], 4))
        self.lines.append(f"{'file' if kind in FILES else kind} {self.spelled(name)}{text}")
        self.add(name, kind, source, permit, run)

    def add(self, name, kind, source, permit, run):
        self.containers.append([KINDS[kind], NO_ATOM if source is None else source, permit, run])
        self.holders.append(name)

    def permit(self):
        """A permit line, of a file that has no permit rule or of a new one."""
        free = [number for number, (kind, _, permit, _) in enumerate(self.containers)
                if kind in map(KINDS.get, FILES) and permit == UNRESTRICTED]
        if not free or self.r.random() < 0.5:
            free = [len(self.containers)]
            self.add(self.name("c", len(self.holders)), "file", None, UNRESTRICTED, UNRESTRICTED)
        number, mixtures = self.r.choice(free), [self.mixture(1) for _ in range(self.r.randrange(1, 9))]
        self.containers[number][2] = self.policy.count("rules")
        self.policy.rule([mixture(atoms) for atoms in mixtures])
        text = " | ".join(" ".join(map(self.atom, atoms)) for atoms in mixtures)
        self.lines.append(f"permit {self.spelled(self.holders[number])}: {text}")

    def image(self):
        for record in self.containers:
            self.policy.container(*record)
        return self.policy.image()

    def user(self, number):
        text, rule = self.option("rule")
        self.lines.append(f"user u{number}{text}" + (f" uid {number}" if self.r.random() < 0.3 else ""))
        self.policy.user(rule)
        return f"u{number}"

    def owner(self, number):
        """An owner line of a rule, now and then: the owner is the last field of the rule's record."""
        if self.r.random() < 0.5:
            user = self.r.randrange(len(self.users))
            self.lines.append(f"owner {self.rules[number]} {self.users[user]}")
            record, rules = RECORDS["rules"], bytearray(self.policy.sections["rules"])
            first, count, _ = record.unpack_from(rules, number * record.size)
            record.pack_into(rules, number * record.size, first, count, user)
            self.policy.sections["rules"] = bytes(rules)

    def step(self):
        there = [number for number, name in enumerate(self.holders) if name is not None]
        word = self.r.choice(list(CODES))
        if not there or (word in TAKES_USER and not self.users):
            return
        process = container = self.r.choice(there)
        process_name = self.holders[process]
        if word in MAKES:
            free = [number for number, name in enumerate(self.holders) if name is None]
            container = free[0] if free else len(self.holders)
            self.holders[container:container + 1] = [self.name("n", len(self.lines))]
        elif word != "end":
            container = self.r.choice(there)
        user = self.r.randrange(len(self.users)) if word in TAKES_USER else None
        objects = "" if word == "end" else " " + self.spelled(self.holders[container])
        self.lines.append(f"step {word} {self.spelled(process_name)}{objects}" + (f" as u{user}" if user is not None else ""))
        self.trace += operation(CODES[word], process, container, NO_USER if user is None else user)
        if word in LEAVES:
            self.holders[container] = None

    def text(self):
        """With blank lines and comments between."""
        between = ["", "\n", "# source none\n", "  \t\n"]
        return "".join(self.r.choice(between) + line + self.r.choice(["", " # x", "\t"]) + "\n" for line in self.lines)


class Runs:
    def __init__(self, policy, judge, seed, folder):
        self.policy, self.judge, self.folder, self.r = policy, judge, Path(folder), random.Random(seed)
        self.passed = self.failed = 0
        for name in ("made", "again"):
            (self.folder / name).mkdir(exist_ok=True)

    def run(self, program, *arguments):
        """Status, standard output as bytes, and standard error."""
        done = subprocess.run([program, *arguments], cwd=self.folder, capture_output=True)
        return done.returncode, done.stdout, done.stderr.decode()

    def each(self, what, count, wrong):
        """Runs a check so many times; it gives what is wrong, or nothing."""
        for number in range(count):
            found = wrong()
            if found:
                print(f"FAILED {what}, case {number}: {found}")
                self.failed += 1
                return
        print(f"ok {what}, {count} cases")
        self.passed += 1

    def story(self):
        story = RandomStory(self.r)
        (self.folder / "story").write_text(story.text())
        (self.folder / "image").write_bytes(story.image())
        if self.run(self.policy, "make", "story", "-o", "made") != (0, b"", ""):
            return self.run(self.policy, "make", "story", "-o", "made")
        if (self.folder / "made/trace.bin").read_bytes() != story.trace:
            return "another trace"
        if self.run(self.judge, "normal", "image", "wanted")[0] != 0:
            return "the judge refuses the policy"
        wanted = self.folder.joinpath("wanted").read_bytes()
        if self.run(self.policy, "normal", "made/policy.bin") != (0, wanted, ""):
            return "another policy"
        if self.run(self.policy, "normal", "wanted") != (0, wanted, ""):
            return "the normal image of a normal image is another"
        status, text, _ = self.run(self.policy, "show", "made/policy.bin", "-n", "made")
        (self.folder / "shown").write_bytes(text)
        if status != 0 or self.run(self.policy, "make", "shown", "-o", "again")[0] != 0:
            return "what is shown is no story"
        if self.run(self.policy, "normal", "again/policy.bin") != (0, wanted, ""):
            return "what is shown is another policy"
        return None

    def damage(self, data):
        """Some bytes changed, dropped, doubled, or cut off; also bytes of the data itself."""
        data = bytearray(data)
        for _ in range(self.r.randrange(1, 4)):
            place = self.r.randrange(len(data) + 1)
            piece = self.r.randbytes(1) if self.r.random() < 0.3 else bytes(self.r.choices(data or b"x", k=1))
            length = self.r.randrange(3)
            data[place:place + length] = self.r.choice([b"", piece, piece * 2, data[place:place + 40]])
            if self.r.random() < 0.05:
                del data[place:]
        return bytes(data)

    def damaged_story(self):
        (self.folder / "story").write_bytes(self.damage((ROOT / "demo/story.txt").read_bytes()))
        status, out, err = self.run(self.policy, "make", "story", "-o", "made")
        told = (status, out, err) == (0, b"", "") or (status == 4 and re.fullmatch(r"(story:\d+: .+\n){1,20}(story: \d+ more lines are at fault\n)?", err))
        return None if told else (status, out, err)

    def damaged_image(self):
        stored = self.r.choice(sorted(ROOT.glob("tests/host/*/*/policy.bin")))
        (self.folder / "image").write_bytes(self.damage(stored.read_bytes()))
        number = int(self.run(self.judge, "check", "image")[1])
        for word in ("check", "normal", "show"):
            status, out, err = self.run(self.policy, word, "image")
            refused = status == 4 and out == b"" and err.startswith(f"image: refused {number}: ")
            accepted = (status, err) == (0, "") and (out or word == "show")
            if not (refused if number else accepted):
                return word, number, status, out, err
        return None

    def damaged_profiles(self):
        stored = self.r.choice(sorted(ROOT.glob("tests/host/profiles/*/profiles.txt")))
        (self.folder / "text").write_bytes(self.damage(stored.read_bytes()))
        judged, _, said = self.run(self.judge, "profiles", "text", "wanted")
        status, out, err = self.run(self.policy, "profiles", "text")
        if judged == 0:
            same = (status, out, err) == (0, self.folder.joinpath("wanted").read_bytes(), "")
        else:
            number = said.split()[1]
            same = status == 4 and out == b"" and re.fullmatch(rf"text:\d+: .+ \(refused {number}\)\n", err)
        return None if same else (said, status, out, err)


def main():
    policy, judge, seed, folder = sys.argv[1:]
    runs = Runs(policy, judge, int(seed), folder)
    runs.each("random stories, as formats.py has them; what is shown is the same story", STORIES, runs.story)
    runs.each("damaged stories", DAMAGED, runs.damaged_story)
    runs.each("damaged images, as the judge has them", DAMAGED, runs.damaged_image)
    runs.each("damaged texts of profiles, as the judge has them", DAMAGED, runs.damaged_profiles)
    print(f"{runs.passed} passed, {runs.failed} failed")
    return runs.failed > 0


if __name__ == "__main__":
    sys.exit(main())
