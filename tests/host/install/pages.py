#!/usr/bin/env python3
"""pages.py HEADER MANUAL: each function of the header has a page of its own in the folder MANUAL, groff renders it without
a warning, and NAME, SYNOPSIS, DESCRIPTION and RETURN VALUE have what the header says. Prints a line for each page and
`N passed, M failed`."""

import re
import subprocess
import sys
from pathlib import Path

sys.path.append(str(Path(__file__).resolve().parents[3] / "hosts" / "python"))

import header

OVERVIEW_HEADINGS = ("NAME", "SYNOPSIS", "DESCRIPTION", "ANSWERS", "REFUSALS", "FUNCTIONS", "CONSTANTS")


def rendered(manual, name):
    """The sections of a page, their white space as single spaces, and what groff had to say."""
    page = Path(manual) / "man3" / f"{name}.3"
    if not page.exists():
        return {}, "no page"
    words = ["groff", "-s", "-ww", "-man", "-Tascii", "-P-c", f"man3/{name}.3"]
    run = subprocess.run(words, cwd=manual, capture_output=True, text=True, check=False)
    text = re.sub(r".\x08", "", run.stdout)
    parts = re.split(r"^([A-Z][A-Z ]+)\n", text, flags=re.M)
    return dict(zip(parts[1::2], (" ".join(part.split()) for part in parts[2::2]))), run.stderr


def plain(paragraphs):
    return " ".join(" ".join(" ".join(lines) for lines in paragraphs).replace("`", "").split())


def missing(sections, part, function):
    """What a function's page lacks."""
    returns = [lines for lines in part.paragraphs if lines[0].startswith("Returns ")]
    others = [lines for lines in part.paragraphs if lines not in returns]
    wanted = {
        "NAME": function.name,
        "SYNOPSIS": function.prototype.removeprefix("YASLAUREL_INLINE ") + ";",
        "DESCRIPTION": plain(others),
        "RETURN VALUE": plain(returns),
    }
    return [heading for heading, text in wanted.items() if not text or text not in sections.get(heading, "")]


def main(name, manual):
    parts, findings = header.read(name), {}
    sections, said = rendered(manual, "yaslaurel")
    findings["yaslaurel"] = [heading for heading in OVERVIEW_HEADINGS if not sections.get(heading)] + said.split("\n")
    for number in [*range(1, 19), *range(20, 26)]:
        if not re.search(rf"(^| ){number} [a-z]", sections.get("REFUSALS", "")):
            findings["yaslaurel"].append(f"refusal {number}")
    for part in parts:
        for function in part.functions:
            sections, said = rendered(manual, function.name)
            findings[function.name] = missing(sections, part, function) + said.split("\n")
    failed = 0
    for page, found in findings.items():
        found = [line for line in found if line]
        failed += bool(found)
        print(f"{'FAILED' if found else 'ok'} the page of {page}" + "".join(f"; {line}" for line in found))
    print(f"{len(findings) - failed} passed, {failed} failed")
    return failed != 0


sys.exit(main(*sys.argv[1:]))
