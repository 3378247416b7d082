#!/usr/bin/env python3
"""endless.py LOG: what docs/RECORD.md says is told of the processes without an end in a log of strace, derived from the log alone: a number
at the head of a line is a task; a child of a clone with CLONE_THREAD is a task of the same process; a process has ended when each
of its tasks has a line `+++ .. +++`, and a program start ends the other tasks of its process. Prints the line that must be told behind the last line, or nothing."""

import re
import sys

process, ended, cloning = {}, set(), {}
lines = open(sys.argv[1], encoding="utf-8", errors="replace").read().splitlines()
for line in lines:
    found = re.match(r"(\d+) +(.*)", line)
    if not found:
        continue
    task, text = int(found[1]), found[2]
    process.setdefault(task, task)
    if text.startswith("+++ "):
        ended.add(task)
    if re.match(r"execve(at)?\(|<\.\.\. execve(at)? resumed>", text) and text.endswith(" = 0"):
        ended.discard(task)
        ended |= {other for other in process if other != task and process[other] == process[task]}
    if re.match(r"(clone3?|v?fork)\(", text):
        cloning[task] = text
    result = re.search(r"= (\d+)$", text)
    if task in cloning and result and re.match(r"(clone3?|v?fork)\(|<\.\.\. (clone3?|v?fork) resumed>", text):
        thread = "CLONE_THREAD" in cloning.pop(task) + text
        process[int(result[1])] = process[task] if thread else int(result[1])
left = sorted({of for task, of in process.items() if task not in ended})
if left:
    print(f"not followed, line {len(lines)}: {len(left)} processes without an end in the log, the first of them {left[0]}")
