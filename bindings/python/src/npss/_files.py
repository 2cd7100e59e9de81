"""The bytes of the files that make a version."""

import os
from typing import Union

File = Union[str, "os.PathLike[str]", bytes, bytearray, memoryview]

# A file may have so many bytes.
LIMIT = 16_777_216


def contents(file: File) -> bytes:
    """The bytes of a file: those of a path, or bytes themselves. Of a larger file one byte more than the limit."""
    if isinstance(file, (str, os.PathLike)):
        with open(file, "rb") as stream:
            return stream.read(LIMIT + 1)
    try:
        return memoryview(file).tobytes()
    except TypeError:
        hint = ": hand over its name, or what it reads" if hasattr(file, "read") else ""
        raise TypeError(f"a path or bytes are wanted, not {type(file)!r}{hint}") from None
