#!/usr/bin/env python3
"""headers.py SYS NUMBERS: compares the numbers and layouts that sys.rs defines itself, and all numbers of calls in numbers.rs, with the
system's headers, by a C program that does not compile if one differs. What these headers do not have yet is counted."""

import re
import subprocess
import sys

system, numbers = (open(name, encoding="utf-8").read() for name in sys.argv[1:])

HEADERS = ["stddef.h", "stdint.h", "fcntl.h", "sys/syscall.h", "linux/audit.h", "linux/kcmp.h", "linux/netlink.h", "linux/ptrace.h",
           "linux/sock_diag.h", "linux/unix_diag.h"]
# Constants that are enumerated in the headers, so that the preprocessor does not know them.
ENUMERATED = ["KCMP_VM", "KCMP_FILES", "UNIX_DIAG_PEER"]

lines = [f"#include <{header}>" for header in HEADERS]
missing = []


def same(name, value, known=False):
    test = f'_Static_assert({name} == {value}, "{name}");'
    lines.append(test if known else f"#ifdef {name}\n{test}\n#else\n#warning missing {name}\n#endif")


constants = re.findall(r"^pub const ([A-Z0-9_]+): [^=]*= (0x[0-9a-f_]+|\d+);", system, re.M)
for name, value in constants:
    same(name, value.replace("_", ""), name in ENUMERATED)
for name, value in re.findall(r'\("([a-z0-9_]+)", (?:libc::SYS_[a-z0-9_]+|(\d+))\)', numbers):
    if value:
        same(f"__NR_{name}", value)
# CallInfo is struct ptrace_syscall_info.
for field, offset in (("arch", 4), ("entry.nr", 24), ("entry.args", 32), ("seccomp.ret_data", 80)):
    same(f"offsetof(struct ptrace_syscall_info, {field})", offset, True)
same("sizeof(struct ptrace_syscall_info)", 88, True)
done = subprocess.run(["gcc", "-x", "c", "-fsyntax-only", "-"], input="\n".join(lines), capture_output=True, text=True, check=False)
if done.returncode != 0 or len(constants) < 8:
    print(done.stderr)
    sys.exit(1)
missing = re.findall(r"#warning missing (\S+)", done.stderr)
print(f"{len(constants)} constants compared; these headers do not have {', '.join(dict.fromkeys(missing)) or 'none of them not'}")
