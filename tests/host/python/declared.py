#!/usr/bin/env python3
"""declared.py LIBRARY: what the package declares against the header, as hosts/python/header.py reads it; a header with more in it; the version; the grammar of Python 3.9."""

import ast
import importlib.metadata
import re
import subprocess
import sys
import tempfile
from pathlib import Path

import yaslaurel
from common import ROOT, finish, note, raised
from yaslaurel._native import lib

sys.path[:0] = [str(ROOT / "hosts/python"), str(ROOT / "hosts/python/yaslaurel")]
import declarations  # noqa: E402
import header  # noqa: E402

HEADER = ROOT / "include/yaslaurel.h"
MORE = """
/* More. */
#define YASLAUREL_MORE (3u * YASLAUREL_ATOMS)
#define YASLAUREL_MORE_AT(place) (7u * (place))
YASLAUREL_MUST_USE
uint32_t yaslaurel_more(const uint8_t *more, size_t more_len);
YASLAUREL_INLINE uint32_t yaslaurel_defined(void) { return YASLAUREL_MORE; }
"""
# Asks a built extension for what was added to its header.
ASK = "from yaslaurel._native import lib; print(lib.YASLAUREL_MORE, lib.YASLAUREL_MORE_AT(6), lib.yaslaurel_defined(), lib.yaslaurel_more(b'abc', 3))"


def declared():
    parts = header.read(HEADER)
    functions = [function.name for part in parts for function in part.functions]
    defined = [line.split()[1] for part in parts for line in part.constants]
    numbers = [name for name in defined if "(" not in name and name not in declarations.MARKS]
    taking = [name.split("(")[0] for name in defined if "(" in name]
    note(len(functions) > 25 and all(hasattr(lib, name) for name in functions), f"all {len(functions)} functions of the header are there")
    note(len(numbers) > 140 and all(isinstance(getattr(lib, name, None), int) for name in numbers), f"all {len(numbers)} constants are there")
    note(len(taking) == 4 and all(callable(getattr(lib, name, None)) for name in taking), f"all {len(taking)} macros that take a number are there")
    plain = {name: int(value) for name, value in re.findall(r"^#define (YASLAUREL_\w+) (\d+)u?(?: .*)?$", HEADER.read_text(), re.M)}
    note(len(plain) > 100 and all(getattr(lib, name) == value for name, value in plain.items()), f"the values of {len(plain)} constants are those that stand there")
    note((lib.YASLAUREL_LINKS_LENGTH(10), lib.YASLAUREL_TRACE_RECORDS(9), lib.YASLAUREL_OFFSET_AT(2)) == (278, 2, 10), "the macros' values")


def with_more(library):
    """A package with a header that has more in it, built where it stands."""
    with tempfile.TemporaryDirectory() as work:
        folder = Path(work, "lib")
        folder.mkdir()
        text = HEADER.read_text()
        (folder / "yaslaurel.h").write_text(text[:text.rindex("#endif")] + MORE + "\n#endif\n")
        lines = declarations.declarations(folder / "yaslaurel.h").splitlines()
        before = declarations.declarations(HEADER).splitlines()
        added = {"uint32_t yaslaurel_more(const uint8_t *more, size_t more_len);", "uint32_t yaslaurel_defined(void);", "#define YASLAUREL_MORE ...", "size_t YASLAUREL_MORE_AT(size_t);"}
        note(set(lines) - set(before) == added and set(before) < set(lines), "what is added to the header is declared, and nothing else changes")
        Path(work, "more.c").write_text('#include "lib/yaslaurel.h"\nuint32_t yaslaurel_more(const uint8_t *more, size_t more_len) { return more[more_len - 1]; }\n')
        commands = [
            ["gcc", "-c", "-fPIC", "more.c"], ["cp", f"{library}/libyaslaurel.a", f"{library}/FORMATS.md", "lib"], ["ar", "rs", "lib/libyaslaurel.a", "more.o"],
            ["cp", "-r", ROOT / "hosts/python/yaslaurel", "package"],
        ]
        for command in commands:
            subprocess.run(command, cwd=work, check=True, stderr=subprocess.DEVNULL)
        build = [sys.executable, "-c", f"import os; os.environ['YASLAUREL_LIB'] = '{folder}'; from build_ffi import ffi; ffi.compile(tmpdir='src')"]
        subprocess.run(build, cwd=Path(work, "package"), check=True, stdout=subprocess.DEVNULL)
        asked = subprocess.run([sys.executable, "-c", ASK], cwd=Path(work, "package/src"), stdout=subprocess.PIPE, check=True)
        note(asked.stdout.split() == [b"96", b"42", b"96", b"99"], "and the extension has it")
        (folder / "yaslaurel.h").write_text(HEADER.read_text().replace("#define YASLAUREL_ATOMS 32u", '#define YASLAUREL_TEXT "x"\n#define YASLAUREL_ATOMS 32u'))
        error = raised(ValueError, declarations.declarations, folder / "yaslaurel.h")
        note(error and "YASLAUREL_TEXT" in str(error), "a macro that is no number is told")
        (folder / "yaslaurel.h").write_text(HEADER.read_text().replace("#define YASLAUREL_VERSION_PATCH", "#define YASLAUREL_VERSION_PATCH 7u //"))
        subprocess.run(build, cwd=Path(work, "package"), check=True, stdout=subprocess.DEVNULL)
        asked = subprocess.run([sys.executable, "-c", "import yaslaurel"], cwd=Path(work, "package/src"), stderr=subprocess.PIPE, check=False)
        note(asked.returncode == 1 and b"ImportError: the library is of version" in asked.stderr, "a library of another version than its header is not imported")


def version():
    numbers = re.findall(r"^#define YASLAUREL_VERSION_(?:MAJOR|MINOR|PATCH) (\d+)u$", HEADER.read_text(), re.M)
    note(yaslaurel.__version__ == yaslaurel.library_version() == importlib.metadata.version("yaslaurel") == ".".join(numbers), "one version: of header, library and distribution")


def grammar():
    sources = [*ROOT.glob("hosts/python/yaslaurel/**/*.py"), *ROOT.glob("hosts/python/examples/*.py")]
    for source in sources:
        ast.parse(source.read_text(), feature_version=(3, 9))
    modules = [Path(yaslaurel.__file__).parent / source.name for source in ROOT.glob("hosts/python/yaslaurel/src/yaslaurel/*.py")]
    note(len(sources) > 12, f"{len(sources)} sources are of the grammar of Python 3.9")
    note(all(module.exists() for module in modules) and (Path(yaslaurel.__file__).parent / "py.typed").exists(), "every module is installed, and py.typed")


declared()
with_more(sys.argv[1])
version()
grammar()
finish()
