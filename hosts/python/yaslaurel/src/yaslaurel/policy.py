"""Policies: accepted images, kept as their normal images."""

from __future__ import annotations

import hashlib
import os
import shutil
import subprocess
import tempfile
import warnings
from pathlib import Path
from typing import Any, Iterable, Sequence, Union

from ._native import ffi, lib
from .buffers import Buffer, address, lend
from .errors import ForeignNames, ProgramFailed, accepted, refusal
from .names import DIGESTS, NO_NAMES, Names, lines

OUTPUT_LENGTH: int = lib.YASLAUREL_OUTPUT_LENGTH
ATOMS: int = lib.YASLAUREL_ATOMS
ROW_LIMIT = 2**32


def written(length: int, out: Any) -> bytes:
    """The image that a call has written, by the length that it returned; a smaller number is its refusal."""
    if length < lib.YASLAUREL_HEADER_LENGTH:
        raise refusal(length)
    return bytes(ffi.buffer(out, length))


def rows(numbers: Sequence[int]) -> Any:
    """The rows of a matrix as the library's numbers; also of none, what is lent is not null."""
    if not all(0 <= number < ROW_LIMIT for number in numbers):
        raise ValueError("the row of a matrix is a number of 32 bits")
    return ffi.new("uint32_t[]", list(numbers))


class Policy:
    """A policy. Two are equal if their normal images are: they then start equal sessions, and have the same owner at every use of a rule.

    >>> policy = Policy.from_matrix(reads=[1, 2], writes=[2, 4], objects=3)
    >>> policy == Policy(policy.image)
    True
    """

    __slots__ = ("_image", "_digest", "_names")

    def __init__(self, image: Buffer, names: Names | None = None) -> None:
        self._image = self.normal(image)
        self._digest = hashlib.sha256(self._image).digest()
        self._names = names

    @property
    def image(self) -> bytes:
        """The normal image."""
        return self._image

    @property
    def digest(self) -> bytes:
        """The SHA-256 of the normal image."""
        return self._digest

    @property
    def names(self) -> Names:
        """The names of sources, containers and users; none are known where none were given."""
        return self._names or NO_NAMES

    @staticmethod
    def check(image: Buffer) -> None:
        """Raises `Refused` if an image is not accepted."""
        with lend(image) as lent:
            accepted(lib.yaslaurel_image_check(address(lent), len(lent)))

    @staticmethod
    def normal(image: Buffer) -> bytes:
        """The normal image of an image."""
        out = ffi.new("uint8_t[]", OUTPUT_LENGTH)
        with lend(image) as lent:
            return written(lib.yaslaurel_image_normalise(address(lent), len(lent), out, OUTPUT_LENGTH), out)

    @classmethod
    def from_profiles(cls, text: str | bytes) -> Policy:
        """The policy that a text of profiles stands for, its paths as names of sources and files.

        >>> policy = Policy.from_profiles("profile /bin/job {\\n/var/in r,\\n/var/out w,\\n}\\n")
        >>> policy.container("/var/out")
        2
        """
        encoded = text.encode() if isinstance(text, str) else text
        out = ffi.new("uint8_t[]", OUTPUT_LENGTH)
        image = written(lib.yaslaurel_profiles_policy(encoded, len(encoded), out, OUTPUT_LENGTH), out)
        words = (line.split(" ") for line in encoded.decode("ascii").splitlines() if line != "}")
        paths = tuple(dict.fromkeys(word[1] if word[0] == "profile" else word[0] for word in words))
        return cls(image, Names(paths, tuple(enumerate(paths)), ()))

    @classmethod
    def from_matrix(cls, reads: Sequence[int], writes: Sequence[int], objects: int) -> Policy:
        """The policy that an access matrix stands for: objects as files 0 and up, then subjects as processes, and one user."""
        out = ffi.new("uint8_t[]", OUTPUT_LENGTH)
        return cls(written(lib.yaslaurel_matrix_policy(rows(reads), len(reads), rows(writes), len(writes), objects, out, OUTPUT_LENGTH), out))

    @classmethod
    def from_story(cls, story: Union[str, os.PathLike[str]], program: Union[str, os.PathLike[str], None] = None) -> Policy:
        """The policy of a story, with its names, by the program `policy make`. A `str` is the text of the story itself, a path its file. The
        program is the one that is named, else `policy` on the path, else `yaslaurel policy`. Its steps are left out. Raises `ProgramFailed`."""
        name, text = ("-", story) if isinstance(story, str) else (os.fspath(story), "")
        with tempfile.TemporaryDirectory() as folder:
            command = _policy_program(program)
            _run([*command, "make", name, "-o", folder], text)
            made = Path(folder, "policy.bin")
            if not made.exists():
                raise ProgramFailed(command[0], 0, "it has made no policy")
            return cls.from_file(made, folder)

    @classmethod
    def from_file(cls, image: Union[str, os.PathLike[str]], names: Union[str, os.PathLike[str], None] = None) -> Policy:
        """The policy in a file. Its names are those of the folder `names`, else those beside the image if they are of it. `policy.sha256` of
        a folder says which images its names are of: names of another image raise `ForeignNames`, and a folder without it gives a warning."""
        with open(image, "rb") as file:
            data = file.read(lib.YASLAUREL_IMAGE_LIMIT + 1)
        folder = Path(image).parent if names is None else Path(names)
        if not (folder / DIGESTS).exists():
            if names is None:
                return cls(data)
            warnings.warn(f"{folder} does not say of which policy its names are", stacklevel=2)
        elif hashlib.sha256(data).hexdigest() not in [line.split(" ")[0].lower() for line in lines(folder / DIGESTS)]:
            if names is None:
                return cls(data)
            raise ForeignNames(f"the names in {folder} are not of {image}")
        return cls(data, Names.read(folder))

    def compose(self, other: Policy, consent: Union[bytes, Iterable[Union[int, str]]] = ()) -> Policy:
        """What both policies permit together, with this one's names. `consent` has the sources whose owners consent, by number or name, or is
        the library's 32 bytes of 0 and 1."""
        given = consent if isinstance(consent, bytes) else self._consent(consent)
        one, two = self.image, other.image
        out, length = ffi.new("uint8_t[]", OUTPUT_LENGTH), ffi.new("size_t *")
        accepted(lib.yaslaurel_image_compose(one, len(one), two, len(two), given, len(given), out, OUTPUT_LENGTH, length))
        return Policy(written(length[0], out), self._names)

    def _consent(self, sources: Iterable[Union[int, str]]) -> bytes:
        consent = bytearray(ATOMS)
        for source in sources:
            atom = self.source(source) if isinstance(source, str) else source
            if not 0 <= atom < ATOMS:
                raise ValueError(f"there is no source {atom}")
            consent[atom] = 1
        return bytes(consent)

    def container(self, name: str) -> int:
        """The number of the container of this name."""
        return self.names.container(name)

    def user(self, name: str) -> int:
        """The number of the user of this name."""
        return self.names.user(name)

    def source(self, name: str) -> int:
        """The data atom of the source of this name."""
        return self.names.source(name)

    def __eq__(self, other: object) -> bool:
        if not isinstance(other, Policy):
            return NotImplemented
        return self.image == other.image

    def __hash__(self) -> int:
        return hash(self.image)

    def __reduce__(self) -> tuple[Any, ...]:
        return Policy, (self.image, self._names)

    def __repr__(self) -> str:
        return f"<Policy {self.digest.hex()[:12]}>"


def _policy_program(program: Union[str, os.PathLike[str], None]) -> list[str]:
    """The command of the program `policy`."""
    if program is not None:
        return [os.fspath(program)]
    if shutil.which("policy"):
        return ["policy"]
    if shutil.which("yaslaurel"):
        return ["yaslaurel", "policy"]
    raise ProgramFailed("policy", None, "neither `policy` nor `yaslaurel` is on the path")


def _run(command: Sequence[str], text: str) -> None:
    """Runs a program on a text; raises with its status and what it said unless it ends with 0. What it says beside is a warning."""
    try:
        ended = subprocess.run(command, input=text.encode(), stdout=subprocess.DEVNULL, stderr=subprocess.PIPE, check=False)
    except OSError as error:
        raise ProgramFailed(command[0], None, str(error)) from error
    said = ended.stderr.decode(errors="replace")
    if ended.returncode != 0:
        raise ProgramFailed(" ".join(command[:2]), ended.returncode, said)
    if said.strip():
        warnings.warn(said.strip(), stacklevel=3)
