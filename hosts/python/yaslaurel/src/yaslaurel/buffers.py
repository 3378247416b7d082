"""What is lent to the library: memory of any object with a buffer, without a copy."""

from __future__ import annotations

import array
import mmap
from typing import TYPE_CHECKING, Any, Union

from ._native import ffi, lib

if TYPE_CHECKING:
    from typing import Protocol

    class HasArray(Protocol):
        """An array of numpy, or another that shows its memory as numpy's do."""

        @property
        def __array_interface__(self) -> dict[str, Any]: ...

    Buffer = Union[bytes, bytearray, memoryview, mmap.mmap, "array.array[Any]", HasArray]
else:
    Buffer = Union[bytes, bytearray, memoryview, mmap.mmap, array.array]

RECORD_LENGTH: int = lib.YASLAUREL_RECORD_LENGTH
# Memory that is not filled with zeros first.
allocate = ffi.new_allocator(should_clear_after_alloc=False)


def lend(data: Buffer) -> Any:
    """The bytes of an object as an array of C, whatever its items are; `len` of it is their number. The object is held as long as the array is."""
    try:
        return ffi.from_buffer("uint8_t[]", data)
    except (BufferError, ValueError) as error:
        raise ValueError(f"what is lent must lie in one piece, and this object does not: {error}") from None


def lend_records(data: Buffer) -> Any:
    """As `lend`, for whole records alone."""
    lent = lend(data)
    if len(lent) % RECORD_LENGTH:
        raise ValueError(f"{len(lent)} bytes are no whole records of {RECORD_LENGTH}")
    return lent


def address(lent: Any) -> Any:
    """Where lent bytes begin, never null."""
    return lib.yaslaurel_bytes(lent)
