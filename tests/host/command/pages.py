#!/usr/bin/env python3
"""pages.py MANUAL: the manual pages name exactly the options and words that `--help` names: yaslaurel.1 the subcommands and options of the command, and the page of
each program the options of its help; each page has the exit statuses that the help has, and groff, if it is there, renders it without a warning. The last line is
`N passed, M failed`."""

import re
import shutil
import subprocess
import sys
from pathlib import Path

OPTION = re.compile(r"(?<![\w-])--?[a-zA-Z][a-z-]*")


def plain(page):
    """The text of a page without its marks."""
    text = re.sub(r"\\f[BIRP]", "", page.read_text()).replace("\\-", "-")
    return re.sub(r'^\.[A-Z]+ |[",]', "", text, flags=re.M)


def options(text):
    """The options that a text names, but for those of other programs, which stand in backquotes or behind `policy make and`."""
    return set(OPTION.findall(re.sub(r"`[^`]*`|policy make and\s+record --out", "", text)))


def statuses(text):
    return set(re.findall(r"(?:^|; |: )([0-5])(?= |$)", text.partition("EXIT STATUS")[2] or text.partition("Exit status")[2], re.M))


def main():
    manual = Path(sys.argv[1])
    passed = failed = 0

    def note(good, text):
        nonlocal passed, failed
        print("ok" if good else "FAILED", text)
        passed, failed = passed + good, failed + (not good)

    def told(*words):
        return subprocess.run(["yaslaurel", *words], capture_output=True, text=True, check=True).stdout

    pages = {"yaslaurel": told("--help")}
    commands = re.findall(r"^  ([a-z]+) {2,}", pages["yaslaurel"].partition("Commands:")[2].partition("Options:")[0], re.M)
    programs = [name for name in commands if name not in ("completions", "help")]
    pages |= {f"yaslaurel-{name}": told(name, "--help") for name in programs}
    note(sorted(pages) == sorted(page.stem for page in manual.glob("*.1")), "a page for the command and for each program, and no other")
    for name, text in pages.items():
        page = manual / f"{name}.1"
        wanted, found = options(text), options(plain(page).partition("\nOPTIONS\n")[2])
        # The page of the command has the subcommands' own options in its synopsis alone.
        note(wanted == found and len(wanted) > 1, f"{name}.1 has the options of --help: {' '.join(sorted(wanted ^ found))}")
        note(statuses(text) == statuses(plain(page)) != set(), f"{name}.1 has the exit statuses of --help")
        if shutil.which("groff"):
            run = subprocess.run(["groff", "-ww", "-man", "-Tascii", page], capture_output=True, text=True)
            note(run.returncode == 0 and not run.stderr and len(run.stdout) > 500, f"groff renders {name}.1 {run.stderr}")
    words = re.findall(r"^\.B ([a-z]+)$", (manual / "yaslaurel.1").read_text().partition(".SH DESCRIPTION")[2].partition(".SH OPTIONS")[0], re.M)
    note(set(words) >= set(commands), "yaslaurel.1 names each subcommand")
    words = re.findall(r"^\\fB([a-z]+)\\fR|^\.B ([a-z]+)$", (manual / "yaslaurel-policy.1").read_text().partition(".SH OPTIONS")[0], re.M)
    named = set(re.findall(r"^policy ([a-z]+)", pages["yaslaurel-policy"], re.M))
    note(named <= {one or other for one, other in words}, "yaslaurel-policy.1 names each word")
    print(f"{passed} passed, {failed} failed")
    return failed > 0


if __name__ == "__main__":
    sys.exit(main())
