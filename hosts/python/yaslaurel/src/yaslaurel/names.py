"""The names that a policy's folder has for its numbers."""

from __future__ import annotations

from dataclasses import dataclass
from pathlib import Path
from typing import Sequence

from ._native import lib
from .errors import UnknownName

RUNNING: int = lib.YASLAUREL_RUNNING
DIGESTS = "policy.sha256"


def atoms(tag: int) -> list[int]:
    """The atoms of a tag or a mixture, rising.

    >>> atoms(0x100000005)
    [0, 2, 32]
    """
    return [atom for atom in range(2 * RUNNING) if tag >> atom & 1]


def lines(path: Path) -> list[str]:
    """The lines of a file that ends each with byte 10."""
    text = path.read_bytes().decode()
    return text.removesuffix("\n").split("\n") if text else []


@dataclass(frozen=True)
class Names:
    """The sources and users in the order of their numbers, and number and name of each container in the order in which they come: where a
    trace has made containers, a number that was taken again has several names."""

    sources: tuple[str, ...]
    containers: tuple[tuple[int, str], ...]
    users: tuple[str, ...]

    @classmethod
    def read(cls, folder: Path) -> Names:
        """The names in `names.txt`, `containers.txt` and `users.txt` of a folder, as `policy make` writes them."""
        holders = []
        for line in lines(folder / "containers.txt"):
            number, space, name = line.partition(" ")
            if not space or not number.isdecimal() or int(number) >= lib.YASLAUREL_CONTAINERS:
                raise ValueError(f"{folder / 'containers.txt'}: expected a number from 0 to 255, a space and a name, found {line!r}")
            holders.append((int(number), name))
        return cls(tuple(lines(folder / "names.txt")), tuple(holders), tuple(lines(folder / "users.txt")))

    def container(self, name: str) -> int:
        """The number of a container: of several with one name, that of the first."""
        for number, known in self.containers:
            if known == name:
                return number
        raise UnknownName(f"no container is called {name!r}")

    def user(self, name: str) -> int:
        """The number of a user."""
        return _place(self.users, name, "user")

    def source(self, name: str) -> int:
        """The data atom of a source."""
        return _place(self.sources, name, "source")

    def container_name(self, number: int) -> str:
        """What a container is called: all names of a number that several have held, and the number itself without any."""
        return " or ".join(name for known, name in self.containers if known == number) or str(number)

    def sources_in(self, tag: int) -> list[str]:
        """The sources of a tag, with `(running)` behind those that run."""
        return [self.atom_name(atom) for atom in atoms(tag)]

    def atom_name(self, atom: int) -> str:
        """The source of an atom, as `sources_in` has it."""
        data = atom % RUNNING
        name = self.sources[data] if data < len(self.sources) else str(data)
        return name + (" (running)" if atom >= RUNNING else "")


NO_NAMES = Names((), (), ())


def _place(names: Sequence[str], name: str, kind: str) -> int:
    if name not in names:
        raise UnknownName(f"no {kind} is called {name!r}")
    return names.index(name)
