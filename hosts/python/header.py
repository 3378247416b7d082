#!/usr/bin/env python3
"""header.py HEADER [--inline]: the names of the functions that the static library behind a C header has, one on a line; with
--inline those too that the header defines itself, as the shared library has them.

Reads what include/yaslaurel.h consists of. A function stands right behind its comment, or behind another function of
the same comment; the paragraphs of a comment are parted by empty lines, and the one that begins with `Returns` says
what the function returns."""

import re
import sys
from dataclasses import dataclass

COMMENT = re.compile(r"/\*(.*?)\*/\n", re.S)
FUNCTION = re.compile(
    r"^(?P<before>(?:YASLAUREL_MUST_USE\n)?)(?P<text>(?P<inline>YASLAUREL_INLINE )?\w[\w ]*\*?(?P<name>yaslaurel_\w+)\([^;{]*\))"
    r"\s*[;{]",
    re.M,
)
CONSTANT = re.compile(r"^#define (YASLAUREL_\w+)(?:\(\w+\))? ((?:.*\\\n)*.*)$", re.M)


@dataclass
class Function:
    name: str
    prototype: str  # in one line
    inline: bool
    must_use: bool


@dataclass
class Part:
    """A comment, and what stands between it and the next one that begins a line."""

    paragraphs: list
    functions: list
    constants: list  # of lines


def paragraphs(comment):
    """The paragraphs of a comment, each a list of lines without the comment's border."""
    lines = [re.sub(r"^ \* ?", "", line).rstrip() for line in comment.strip("\n").split("\n")]
    return [part.split("\n") for part in re.split(r"\n\n+", "\n".join(lines).strip()) if part]


def functions(text):
    for found in FUNCTION.finditer(text):
        prototype = " ".join(found["text"].split())
        yield Function(found["name"], prototype, bool(found["inline"]), bool(found["before"]))


def constants(text):
    """The lines of the constants in a piece of the header."""
    return [found[0] for found in CONSTANT.finditer(text)]


def parts(text):
    """The parts of a header, from its first comment on."""
    opening = [found for found in COMMENT.finditer(text) if found.start() == 0 or text[found.start() - 1] == "\n"]
    ends = [found.start() for found in opening[1:]] + [len(text)]
    for found, end in zip(opening, ends):
        between = text[found.end():end]
        yield Part(paragraphs(found[1]), list(functions(between)), constants(between))


def read(name):
    with open(name, encoding="ascii") as file:
        return list(parts(file.read()))


if __name__ == "__main__":
    with_inline = sys.argv[2:] == ["--inline"]
    for part in read(sys.argv[1]):
        for function in part.functions:
            if with_inline or not function.inline:
                print(function.name)
