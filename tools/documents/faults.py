"""The table of planted faults, tests/host/FAULTS.md, from the lists in tests/host/standin/src."""
import re

LISTS = [
    ("The stand-in of the library", "tests/host/standin/src/faults.rs"),
    ("The stand-in of the month program", "tests/host/standin/src/bin/month.rs"),
]
FAULT = re.compile(r'^    (\w+), (\w+), ([\w ]+), "(.*)";$', re.M)
HEAD = """# Planted faults

Each is a mistake that a reviewer would try, inside the judge where it stands in for the library (`tests/host/standin`); the tests that are named must see it. `YASLAUREL_FAULT=N`
plants the one of that number. This page is made from the lists in the sources by `make generated`; `tests/layout` compares.
"""


def page():
    out = [HEAD]
    for title, name in LISTS:
        with open(name, encoding="utf-8") as file:
            text = file.read()
        out.append(f"## {title}\n\n`{name}`\n\n| number | name | what is wrong | of | seen by |\n|---|---|---|---|---|")
        faults = FAULT.findall(text[text.rindex("faults! {") :])
        for number, (fault, part, tests, words) in enumerate(faults, 1):
            out.append(f"| {number} | `{fault}` | {words} | {part} | {', '.join(tests.split())} |")
        out.append("")
    return "\n".join(out)
