#!/usr/bin/env python3
"""block.py FILE HEADING LIMIT: prints the first fenced block under a heading of a page; fails if it is over LIMIT lines."""

import re
import sys

name, heading, limit = sys.argv[1:]
with open(name, encoding="utf-8") as file:
    section = re.search(rf"^## {re.escape(heading)}\n(.*?)(?=^## |\Z)", file.read(), re.M | re.S)
block = section and re.search(r"^```\w+\n(.*?)^```$", section[1], re.M | re.S)
if not block:
    sys.exit(f"{name} has no block under {heading}")
print(block[1], end="")
if block[1].count("\n") > int(limit):
    sys.exit(f"the block under {heading} has {block[1].count(chr(10))} lines")
