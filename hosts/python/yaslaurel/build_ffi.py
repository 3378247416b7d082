"""The extension `yaslaurel._native`: the proved archive, linked in, under the declarations of its header. Every call lets other threads of
Python run meanwhile.

The archive, the header and FORMATS.md stand in the folder that YASLAUREL_LIB names, else in `native`, as in the source distribution."""

from __future__ import annotations

import os
import sys
from pathlib import Path

from cffi import FFI

HERE = Path(__file__).resolve().parent
sys.path.insert(0, str(HERE))
from declarations import ARCHIVE, FORMATS, HEADER, declarations, remedy_function  # noqa: E402

NATIVE = Path(os.environ.get("YASLAUREL_LIB") or HERE / "native").resolve()
for name in (ARCHIVE, HEADER, FORMATS):
    if not (NATIVE / name).is_file():
        sys.exit(f"{NATIVE / name} is missing: YASLAUREL_LIB names the folder that `make lib` fills")

# What the package adds in C. A session's numbers have one more behind them here, how many records it has taken: a step moves both on in one
# call, which nothing of Python interrupts.
OWN_DECLARATIONS = """
const char *refusal_remedy(uint32_t refusal);
uint32_t counted_step(uint64_t *counted, const uint8_t *record, size_t record_len, uint64_t *answered);
void move_places(uint64_t *events, size_t count, uint64_t by);
"""
OWN = r"""
/* Judges a record as yaslaurel_step does, and counts it. `answered` has room for receiver, tag and position. */
static uint32_t counted_step(uint64_t *counted, const uint8_t *record, size_t record_len, uint64_t *answered)
{
    uint32_t position = YASLAUREL_NO_POSITION;
    const uint32_t answer = yaslaurel_step(counted, YASLAUREL_SESSION_LENGTH, yaslaurel_bytes(record), record_len, &answered[0], &answered[1], &position);
    answered[2] = position;
    if (answer != YASLAUREL_REFUSED_LENT_LENGTH)
        counted[YASLAUREL_SESSION_LENGTH] += 1;
    return answer;
}

/* Adds a number to the places of some events. */
static void move_places(uint64_t *events, size_t count, uint64_t by)
{
    for (size_t i = 0; i < count; i++)
        events[YASLAUREL_EVENT_LENGTH * i + YASLAUREL_EVENT_PLACE_AT] += by;
}
"""

ffi = FFI()
ffi.cdef(declarations(NATIVE / HEADER) + OWN_DECLARATIONS)
ffi.set_source(
    "yaslaurel._native",
    f"#include <{HEADER}>\n{remedy_function(NATIVE / FORMATS)}{OWN}",
    include_dirs=[str(NATIVE)],
    extra_objects=[str(NATIVE / ARCHIVE)],
    extra_compile_args=["-O2"],
    extra_link_args=["-Wl,-z,relro,-z,now", "-Wl,--exclude-libs,ALL"],
    py_limited_api=True,
)
