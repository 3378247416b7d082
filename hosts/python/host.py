#!/usr/bin/env python3
"""host.py LIBRARY: a host in Python, by ctypes and the shared library: the matrix of the README's host in C, with the alert's sources by
name."""

import sys
from ctypes import CDLL, POINTER, byref, c_char_p, c_size_t, c_uint8, c_uint32, c_uint64

NAMES = ["north.positions", "totals", "south.report", "netting", "desk"]
READ, APPEND, NO_USER, QUIET, ALERT = 1, 3, 65535, 0, 256
STEPS = [(READ, 3, 0), (APPEND, 3, 1), (READ, 4, 1), (APPEND, 4, 2)]

library = CDLL(sys.argv[1])
library.yaslaurel_meaning.restype = c_char_p
library.yaslaurel_matrix_policy.argtypes = [POINTER(c_uint32), c_size_t] * 2 + [c_uint32, POINTER(c_uint8), c_size_t]
library.yaslaurel_session_start.argtypes = [POINTER(c_uint8), c_size_t, POINTER(c_uint64), c_size_t]
library.yaslaurel_step.argtypes = [POINTER(c_uint64), c_size_t, POINTER(c_uint8), c_size_t, *[POINTER(c_uint64)] * 2, POINTER(c_uint32)]

reads, writes = (c_uint32 * 2)(1, 2), (c_uint32 * 2)(2, 4)  # bits of objects 0 to 2, for netting and for the desk
image, session, record = (c_uint8 * 19506)(), (c_uint64 * 5536)(), (c_uint8 * 8)()
receiver, tag, position = c_uint64(), c_uint64(), c_uint32()
length = library.yaslaurel_matrix_policy(reads, 2, writes, 2, 3, image, len(image))
answer = library.yaslaurel_session_start(image, length, session, len(session))
for code, process, container in STEPS:
    if answer in (QUIET, ALERT):
        library.yaslaurel_record(code, process, container, NO_USER, record)
        answer = library.yaslaurel_step(session, len(session), record, 8, byref(receiver), byref(tag), byref(position))
    if answer == ALERT:
        held = [NAMES[atom] for atom in range(3) if tag.value >> atom & 1]
        print(f"alert: {NAMES[receiver.value]} now holds {' '.join(held)}")
if answer not in (QUIET, ALERT):
    sys.exit(f"answer {answer}: {library.yaslaurel_meaning(answer).decode()}")
