#!/usr/bin/env python3
"""names.py FOLDER: what the documents in a folder name that is not there. Prints a line for each finding.

A document is a file .md. It may name a file in a link, from its own folder, or between backquotes: a path of which some file or folder in FOLDER is
the end, or a name with the ending of a source or a document that some file has. A path from the root, such as /dev/null, is the system's, and `make NAME` is a
command of the repository, which a release has not."""

import fnmatch
import os
import re
import sys

LINK = re.compile(r"\[[^\]\n]*\]\(([^)\s]+)\)")
QUOTED = re.compile(r"`([^`\n]+)`")
PATH = re.compile(r"[\w.*+-]+(?:/[\w.*+-]+)*/?")
ENDINGS = (".md", ".py", ".rs", ".rt", ".antt", ".h", ".c", ".cpp", ".sh", ".so", ".a", ".pc", ".toml")
COMMAND = re.compile(r"make [a-z][\w-]*")


def paths(folder):
    """Every file and folder beneath a folder, from it."""
    for here, folders, files in os.walk(folder):
        for name in folders + files:
            yield os.path.relpath(os.path.join(here, name), folder)


def there(name, known):
    """Whether a name, in which * stands for any text, is the end of a known path."""
    name = name.rstrip("/")
    return any(fnmatch.fnmatchcase("/" + path, "*/" + name) for path in known)


def named(text):
    """The paths that a text names between backquotes: the words of each quotation that look like one. A folder with a slash at its end stands alone: `source
    north/` is a line of a story."""
    for quoted in QUOTED.findall(text):
        for word in quoted.split():
            if PATH.fullmatch(word) and (word == quoted or not word.endswith("/")) and ("/" in word or word.endswith(ENDINGS)):
                yield quoted, word


def findings(folder, document, known):
    with open(os.path.join(folder, document), encoding="utf-8") as file:
        text = file.read()
    for target in LINK.findall(text):
        file = target.split("#")[0]
        if "://" not in target and file and not os.path.exists(os.path.join(folder, os.path.dirname(document), file)):
            yield f"{document}: the link {target}"
    for quoted, word in named(text):
        if not there(word, known):
            yield f"{document}: `{quoted}`: {word}"
    for quoted in QUOTED.findall(text):
        if COMMAND.fullmatch(quoted):
            yield f"{document}: `{quoted}`"


def main(folder):
    known = sorted(paths(folder))
    documents = [path for path in known if path.endswith(".md")]
    for document in documents:
        for finding in findings(folder, document, known):
            print(finding)
    if not documents:
        print("there is no document")


if __name__ == "__main__":
    main(sys.argv[1])
