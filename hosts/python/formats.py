"""Policy images and operation records as bytes, as docs/FORMATS.md has them, for scripts that make some.

Nothing here is judged: an image or a record that will be refused can be spelled too."""

import struct

LEADING = 5  # the number that an image begins with

# The header of an image: the leading number, then offset and length of each section. Stored numbers are little-endian.
HEADER = struct.Struct("<9H")

# One record of each section, in the order of the sections.
RECORDS = {
    "containers": struct.Struct("<BBHH"),  # kind, atom, permit rule, run rule
    "users": struct.Struct("<H"),  # rule
    "rules": struct.Struct("<HHH"),  # first mixture, count, owner
    "mixtures": struct.Struct("<Q"),
}

# An operation record: code, a zero, process, object, user.
OPERATION = struct.Struct("<BBHHH")

KINDS = {"file": 1, "volatile": 2, "process": 3, "guarded": 4}
CODES = {"read": 1, "write": 2, "append": 3, "exec": 4, "fork": 5, "new-file": 6, "new-volatile": 7, "end": 8, "delete": 9}

RUNNING = 32  # how far the running atom of a data atom is behind it
NO_ATOM = 255
UNRESTRICTED = 65535
NO_USER = 65535
NO_OWNER = 65535
NO_POSITION = 255  # of an answer: no mixture holds the tag


class Policy:
    """A policy's sections, record by record."""

    def __init__(self):
        self.sections = {name: b"" for name in RECORDS}

    def add(self, section, *fields):
        self.sections[section] += RECORDS[section].pack(*fields)

    def count(self, section):
        return len(self.sections[section]) // RECORDS[section].size

    def container(self, kind, atom=NO_ATOM, permit=UNRESTRICTED, run=UNRESTRICTED):
        self.add("containers", kind, atom, permit, run)

    def user(self, rule=UNRESTRICTED):
        self.add("users", rule)

    def rule(self, mixtures, owner=NO_OWNER):
        """A rule whose mixtures stand behind those of the rule before it."""
        self.add("rules", self.count("mixtures"), len(mixtures), owner)
        for mixture in mixtures:
            self.add("mixtures", mixture)

    def image(self):
        """The image, its sections without gaps."""
        pairs, offset = [], HEADER.size
        for section in self.sections.values():
            pairs += offset, len(section)
            offset += len(section)
        return HEADER.pack(LEADING, *pairs) + b"".join(self.sections.values())


def mixture(atoms):
    """A set of atoms as a number."""
    return sum(1 << atom for atom in set(atoms))


def operation(code, process, container, user=NO_USER, second=0):
    """An operation record."""
    return OPERATION.pack(code, second, process, container, user)
