#!/usr/bin/env python3
"""pages.py HEADER FOLDER: manual pages of section 3, made from the comments of a C header.

Writes FOLDER/NAME.3 for each function, and yaslaurel.3 from the header's first comment and its constants. Functions that
share a comment share a page: it has the name of the first, and the others point to it."""

import re
import sys
from pathlib import Path

import header

OVERVIEW = "yaslaurel"
HEADING = re.compile(r"[A-Z][A-Z ]+")
ITEM = re.compile(r"  (\S.*?)  +(\S.*)")
FUNCTION_NAME = re.compile(r"\byaslaurel_\w+")
PARAMETER = re.compile(r"(\w+)((?:\[\w+\])?)$")
CONSTANT = re.compile(r"#define (\w+(?:\(\w+\))?) +(.*?)(?: */\* *(.*?) *\*/)?")


def escaped(text):
    """Text as groff takes it; what stands between backquotes is in italics."""
    text = text.replace("\\", "\\e").replace("-", "\\-").replace("'", "\\(aq")
    text = re.sub(r"`([^`]*)`", r"\\fI\1\\fP", text)
    return "\\&" + text if text.startswith(".") else text


def items(lines):
    """A list: each item has a word or two in front, two or more spaces before its text."""
    made = []
    for line in lines:
        if found := ITEM.fullmatch(line):
            made += [".TP", "\\(bu" if found[1] == "-" else escaped(found[1]), escaped(found[2])]
        else:
            made.append(escaped(line.strip()))
    return made


def paragraph(lines):
    """A heading, an example, a list or plain text, by how its lines begin."""
    if len(lines) == 1 and HEADING.fullmatch(lines[0]):
        return [f'.SH "{lines[0]}"']
    if lines[0].startswith("    "):
        return [".PP", ".in +4n", ".EX", *(escaped(line[4:]) for line in lines), ".EE", ".in"]
    if lines[0].startswith("  "):
        return items(lines)
    return [".PP", *map(escaped, lines)]


def head(name, names, summary, version):
    return [
        f'.TH {name.upper()} 3 "" "Yaslaurel {version}" "Yaslaurel"',
        ".nr HY 0",
        ".nh",
        ".SH NAME",
        f"{', '.join(names)} \\- {escaped(summary)}",
        ".SH SYNOPSIS",
        ".B #include <yaslaurel.h>",
    ]


def summary(part):
    """The first sentence of a comment, as the line under NAME has it."""
    sentence = re.split(r"\.(?: |$)", " ".join(part.paragraphs[0]))[0]
    return sentence[0].lower() + sentence[1:]


def prototype(function):
    """A prototype whose lines break between parameters alone: names in italics, the rest in bold."""
    front, _, rest = function.prototype.removeprefix("YASLAUREL_INLINE ").partition("(")
    parameters = [PARAMETER.sub(r"\\fI\1\\fB\2", text) if text != "void" else text for text in rest[:-1].split(", ")]
    text = f"{front}({', '.join(parameter.replace(' ', chr(0)) for parameter in parameters)});"
    return [".PP", ".in +4n", ".ti -4n", f"\\fB{text.replace(chr(0), chr(92) + ' ')}\\fP", ".in"]


def constants(parts):
    """Name, value and comment of each constant of some parts."""
    for part in parts:
        for text in part.constants:
            yield CONSTANT.fullmatch(re.sub(r"\s*\\\n\s*", " ", text)).groups()


def version(parts):
    values = {name: value for name, value, _ in constants(parts)}
    return ".".join(values[f"YASLAUREL_VERSION_{field}"].rstrip("u") for field in ("MAJOR", "MINOR", "PATCH"))


def stack(parts, function):
    wanted = f"{function.name.upper()}_STACK"
    return [f"At most {value.rstrip('u')} bytes ({wanted})." for name, value, _ in constants(parts) if name == wanted]


def see_also(names):
    return [".SH SEE ALSO"] + [f".BR {name} (3)" + ("," if name != names[-1] else "") for name in names]


def function_page(parts, part):
    names = [function.name for function in part.functions]
    returns = [lines for lines in part.paragraphs if lines[0].startswith("Returns ")]
    named = set(FUNCTION_NAME.findall(str(part.paragraphs))) - set(names)
    lines = head(names[0], names, summary(part), version(parts)) + [".PP", ".ad l"]
    lines += [line for function in part.functions for line in prototype(function)]
    lines += [".ad b", ".SH DESCRIPTION"]
    lines += [line for text in part.paragraphs if text not in returns for line in paragraph(text)]
    lines += [".SH RETURN VALUE", *(line for text in returns for line in map(escaped, text))]
    needed = [line for function in part.functions for line in stack(parts, function)]
    lines += [".SH STACK", *needed] if needed else []
    return lines + see_also([OVERVIEW, *sorted(named)])


def constant_section(part):
    lines = [line for text in part.paragraphs for line in paragraph(text)]
    for name, value, comment in constants([part]):
        lines += [".TP", f"\\fB{name}\\fP {escaped(value)}", escaped(comment) if comment else "\\&"]
    return lines


def overview_page(parts):
    first, functions = parts[0], [part for part in parts if part.functions]
    title = first.paragraphs[0][0].partition(": ")[2].rstrip(".")
    lines = head(OVERVIEW, [OVERVIEW], title, version(parts)) + [".SH DESCRIPTION"]
    lines += [line for text in first.paragraphs[1:] for line in paragraph(text)] + [".SH FUNCTIONS"]
    for part in functions:
        names = ", ".join(f"\\fB{function.name}\\fP(3)" for function in part.functions)
        lines += [".TP", names, escaped(summary(part))]
    lines.append(".SH CONSTANTS")
    lines += [line for part in parts[1:] if not part.functions for line in constant_section(part)]
    return lines + see_also([function.name for part in functions for function in part.functions])


def write(folder, name, lines):
    (folder / f"{name}.3").write_text("\n".join(lines) + "\n", encoding="ascii")


def main(name, folder):
    parts, folder = header.read(name), Path(folder)
    folder.mkdir(parents=True, exist_ok=True)
    write(folder, OVERVIEW, overview_page(parts))
    for part in parts:
        for function in part.functions:
            first = part.functions[0]
            alias = [f".so man3/{first.name}.3"]
            write(folder, function.name, function_page(parts, part) if function is first else alias)


main(*sys.argv[1:])
