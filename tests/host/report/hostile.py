#!/usr/bin/env python3
"""hostile.py FOLDER EXPECTED: gives the demo's files in FOLDER names that try to be markup, script or something else than they are. EXPECTED gets these
names as the page must show them, as a list in JSON."""

import json
import sys
from pathlib import Path

SOURCES = ["</script><script>window.taken = 1</script>", "<img src=x onerror=window.taken=1>", "it's & <b>bold</b> &lt;", "__proto__", "@DATA@ @SCRIPT@", "${taken}"]
CONTAINERS = ["<!-- </title></style>", "x" * 1000, "\u202etxt.exe \u2066isolated\u2069", "javascript:window.taken=1", "]]> --> */ //", "constructor", "\u200fright to left \u05d0\u05d1",
              "\ufeffzero\u200bwidth", "'; window.taken = 1; '", "\\u003cscript\\u003e", "<svg/onload=window.taken=1>", "a\u2028b", "toString"]
USERS = ["<iframe src=//example.invalid>", "{{taken}}"]
SPELLED = {"\u202etxt.exe \u2066isolated\u2069": "\\u{202e}txt.exe \\u{2066}isolated\\u{2069}", "\u200fright to left \u05d0\u05d1": "\\u{200f}right to left \u05d0\u05d1",
           "\ufeffzero\u200bwidth": "\\u{feff}zero\\u{200b}width", "a\u2028b": "a\\u{2028}b"}


def main():
    folder, expected = Path(sys.argv[1]), Path(sys.argv[2])
    made = [line.split(" ", 1) for line in (folder / "containers.txt").read_text().splitlines()[len(CONTAINERS):]]
    lines = [f"{number} {name}" for number, name in enumerate(CONTAINERS)] + [f"{number} <b>{name}</b>" for number, name in made]
    (folder / "names.txt").write_text("\n".join(SOURCES) + "\n", encoding="utf-8")
    (folder / "containers.txt").write_text("\n".join(lines) + "\n", encoding="utf-8")
    (folder / "users.txt").write_text("\n".join(USERS) + "\n", encoding="utf-8")
    names = SOURCES + CONTAINERS + USERS + [f"<b>{name}</b>" for _, name in made]
    expected.write_text(json.dumps([SPELLED.get(name, name) for name in names]))


if __name__ == "__main__":
    main()
