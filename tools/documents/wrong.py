"""The table of wrong programs in docs/ARCHITECTURE.md, from the first lines of crates/*/must-fail/*.edit. What an edit changes is the function, the enum or
the definition around its text; an edit whose first line begins with names of functions stands under these."""
import glob
import re

FUNCTION = re.compile(r'^ *(?:pub )?(?:extern "C" )?fn (\w+)', re.M)
CONSTANT = re.compile(r"^ *(?:pub )?const (\w+)", re.M)
ENUM = re.compile(r"^ *(?:pub )?enum (\w+)", re.M)
# The head of a definition: a signature, a clause, or a declared type with its constructors below it.
DEFINITION = re.compile(r"^(?:(?:abbrev|unfoldable|pub|data|record) )*(?!mutual\b|module\b|use\b)([^\W\d][^\s(){}:]*)", re.M)
# The same inside a block of definitions that call each other, or that share a parameter.
INSIDE = re.compile(r"^ +(?:(?:abbrev|unfoldable|pub) )*([^\W\d][^\s(){}:]*) :", re.M)


def text_of(name):
    with open(name, encoding="utf-8") as file:
        return file.read()


def crates():
    return [line.split(":")[0].split()[0] for line in text_of("crates.txt").split("\n") if line and not line.startswith("#")]


def around(text, at, patterns):
    """The last name that a pattern finds up to the place."""
    found = [(match.start(), match.group(1)) for pattern in patterns for match in pattern.finditer(text) if match.start() <= at]
    return max(found)[1] if found else ""


class Edit:
    def __init__(self, name):
        self.crate = name.split("/")[1]
        self.name = name.split("/")[-1].removesuffix(".edit")
        text = text_of(name)
        self.words = text.split("\n")[0].removeprefix("# ")
        self.file = re.search(r"^file: (.*)$", text, re.M).group(1)
        source = text_of(f"crates/{self.crate}/{self.file}")
        self.at = source.index(re.search(r"^old: (.*)$", text, re.M).group(1))
        self.definition = self.file.startswith("specs/")
        # Past the indent: a line of a body is of the function above it.
        self.of = around(source, self.at, (DEFINITION, INSIDE) if self.definition else (FUNCTION, CONSTANT, ENUM))
        head = re.match(r"([a-z]\w*(?:, [a-z]\w*)*): (.*)", self.words)
        if head and not self.definition and set(head.group(1).split(", ")) <= set(FUNCTION.findall(source)):
            self.of, self.words = head.groups()
        if self.definition:
            self.words = re.sub(r"^the definition of [^:]*: ", "", self.words)

    def place(self):
        if self.definition:
            return f"definition `{self.file.removeprefix('specs/').removesuffix('.antt')}.{self.of}`"
        return ", ".join(f"`{name}`" for name in self.of.split(", "))


def table():
    rows = ["| crate | of | wrong programs |", "|---|---|---|"]
    for crate in crates():
        edits = [Edit(name) for name in sorted(glob.glob(f"crates/{crate}/must-fail/*.edit"))]
        places = {}
        for edit in sorted(edits, key=lambda edit: (edit.definition, edit.file, edit.at, edit.name)):
            places.setdefault(edit.place(), []).append(f"{edit.words} (`{edit.name}`)")
        rows += [f"| `{crate}` | {place} | {'; '.join(found)} |" for place, found in places.items()]
    return "\n".join(rows) + "\n"
