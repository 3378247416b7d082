#!/usr/bin/env python3
"""terminal.py RECORD STORY: runs a command that does not end by itself on a terminal, and interrupts it from there once the line
of progress has come. The summary must still come; the exit status is 0 if both have."""

import os
import pty
import re
import sys

COMMAND = "while true; do cat prices > /dev/null; done"

pid, terminal = pty.fork()
if pid == 0:
    os.execv(sys.argv[1], [sys.argv[1], "--story", sys.argv[2], "--", "sh", "-c", COMMAND])
shown = b""
interrupted = False
while True:
    try:
        part = os.read(terminal, 4096)
    except OSError:  # the other side is closed
        break
    shown += part
    if not part:
        break
    if not interrupted and re.search(rb"\r\x1b\[K\d+ records, \d+ processes, 0 alerts", shown):
        os.write(terminal, b"\x03")
        interrupted = True
_, status = os.waitpid(pid, 0)
summary = re.search(rb"the command ended with signal: 2.*\n.*\d+ records, \d+ containers: 0 alerts", shown)
sys.exit(not (interrupted and summary and os.waitstatus_to_exitcode(status) in (0, 2)))
