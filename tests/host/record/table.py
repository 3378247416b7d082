#!/usr/bin/env python3
"""table.py SOURCE DOCUMENT: the calls of the table in the source (CALLS, then NO_DATA) are those in the document's tables, in the
same order; prints each call that is not."""

import re
import sys

source, document = (open(name, encoding="utf-8").read() for name in sys.argv[1:])


def block(name):
    return re.search(rf"pub const {name}: .*?= &\[\n(.*?)^\];", source, re.S | re.M).group(1)


def section(title):
    return re.search(rf"^## {title}\n(.*?)(?=^## |\Z)", document, re.S | re.M).group(1)


def names(text):
    return re.findall(r'"([a-z0-9_]+)"', re.sub(r"//.*", "", text))


def first_cells(text):
    rows = [line.split("|")[1] for line in text.splitlines() if line.startswith("|")][2:]
    return [name for row in rows for name in re.findall(r"`([a-z0-9_]+)`", row)]


wrong = False
for constant, title in (("CALLS", "What each call means"), ("NO_DATA", "Calls that move no data")):
    wanted, found = names(block(constant)), first_cells(section(title))
    for name in sorted(set(wanted) ^ set(found)):
        print(f"{name}: only in {'the source' if name in wanted else 'the document'}")
        wrong = True
    if not wrong and wanted != found:
        print(f"{title}: another order than in the source")
        wrong = True
sys.exit(wrong)
