"""declarations.py FOLDER: what the extension declares, read from the yaslaurel.h and the FORMATS.md of a folder. Printed: the declarations.

The compiler's preprocessor reads the header, and pycparser, which cffi stands on, its C; nothing of it is listed by hand. A macro that is
neither a number nor one of the three that the header uses for itself is an error, so that nothing is left out unseen."""

from __future__ import annotations

import re
import subprocess
import sys
import tempfile
from pathlib import Path

from pycparser import c_ast, c_generator, c_parser

HEADER = "yaslaurel.h"
ARCHIVE = "libyaslaurel.a"
FORMATS = "FORMATS.md"
# Macros of the header that stand for no number: its guard, and how functions are marked.
MARKS = {"YASLAUREL_H", "YASLAUREL_MUST_USE", "YASLAUREL_INLINE"}
# Types of the C library's headers, which are left out of what pycparser reads. It has to know that they are types, and cffi knows which.
TYPES = ("size_t", "uint8_t", "uint32_t", "uint64_t")
INCLUDED = ("stddef.h", "stdint.h")
NUMBER = re.compile(r"[-+*()0-9uU\s]+")
MACRO = re.compile(r"^#define (YASLAUREL_\w+)(\(\w+\))?", re.M)
REMEDY = re.compile(r"^\| (\d+) \| .* \| (.*) \|$", re.M)


def preprocessed(header: Path, *options: str, behind: str = "") -> str:
    """The header, with a text behind it, through the preprocessor; the C library's headers are empty ones."""
    with tempfile.TemporaryDirectory() as empty:
        for name in INCLUDED:
            Path(empty, name).touch()
        command = ["gcc", "-E", "-P", "-nostdinc", "-isystem", empty, *options, "-x", "c", "-"]
        text = header.read_text(encoding="ascii") + behind
        return subprocess.run(command, input=text, stdout=subprocess.PIPE, encoding="ascii", check=True).stdout


def macros(header: Path) -> tuple[list[str], list[str]]:
    """The header's constants, and its macros that take a number."""
    found = dict(MACRO.findall(preprocessed(header, "-dM")))
    plain = [name for name, parameter in found.items() if not parameter and name not in MARKS]
    expanded = preprocessed(header, behind="".join(f"\n@ {name} @ {name.lower()}" for name in plain))
    values = [line[1:].split("@") for line in expanded.split("\n") if line.startswith("@")]
    wrong = [name.strip().upper() for value, name in values if not NUMBER.fullmatch(value)]
    if wrong or len(values) != len(plain):
        raise ValueError(f"{header}: macros that are no numbers: {' '.join(wrong) or plain}")
    return sorted(plain), sorted(name for name, parameter in found.items() if parameter)


def functions(header: Path) -> list[str]:
    """The header's functions, those that it defines itself among them, as declarations."""
    types = "".join(f"typedef int {name};" for name in TYPES)
    text = preprocessed(header, "-D__attribute__(marks)=")
    tree, generator, declared = c_parser.CParser().parse(types + text), c_generator.CGenerator(), []
    for node in tree.ext[len(TYPES):]:
        declaration = node.decl if isinstance(node, c_ast.FuncDef) else node
        declaration.storage = declaration.funcspec = []
        declared.append(generator.visit(declaration) + ";")
    return declared


def declarations(header: Path) -> str:
    """What cffi is to know of the header: every function, every constant, and the macros that take a number, as functions of it."""
    plain, taking = macros(header)
    lines = functions(header) + [f"size_t {name}(size_t);" for name in taking] + [f"#define {name} ..." for name in plain]
    return "\n".join(lines) + "\n"


def version(header: Path) -> str:
    """The version of a header, as text."""
    fields = [re.search(rf"^#define YASLAUREL_VERSION_{name} (\d+)u$", header.read_text(encoding="ascii"), re.M) for name in ("MAJOR", "MINOR", "PATCH")]
    if None in fields:
        raise ValueError(f"{header}: no version")
    return ".".join(field[1] for field in fields if field)


def remedies(formats: Path) -> dict[int, str]:
    """The remedy of each refusal, from the table of the document."""
    _, _, table = formats.read_text(encoding="utf-8").partition("\n## Refusals\n")
    found = {int(number): remedy for number, remedy in REMEDY.findall(table)}
    if not found:
        raise ValueError(f"{formats}: no table of refusals")
    return found


def remedy_function(formats: Path) -> str:
    """A function in C that gives the remedy of a refusal, an empty text for a number that is none."""
    quoted = {number: re.sub(r'(["\\])', r"\\\1", text) for number, text in remedies(formats).items()}
    cases = "".join(f'    case {number}: return "{text}";\n' for number, text in sorted(quoted.items()))
    return f'static const char *refusal_remedy(uint32_t refusal)\n{{\n    switch (refusal) {{\n{cases}    default: return "";\n    }}\n}}\n'


if __name__ == "__main__":
    print(declarations(Path(sys.argv[1], HEADER)), end="")
