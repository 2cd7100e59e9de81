"""What npss raises."""

import os
from typing import Optional, Union

__all__ = ["BadEntry", "BadTables", "Full", "KeyDiffers", "Malformed", "NoFolding", "NotUtf8", "OlderTables", "OtherForm", "Refused",
           "TooLong", "Unassigned"]


class Refused(ValueError):
    """A text has no key, or a node does not take what it was given. What was asked is as it was before."""


class Unassigned(Refused):
    """A text has a code point that the version does not assign, so it has no key.

    code:   the first such code point, a number
    place:  where it stands, in bytes of UTF-8, from 0
    index:  where it stands, in characters of the str, from 0; None where the text came in pieces
    number: of Tables.keys, which of the texts it is, from 0; else None
    """

    number: Optional[int] = None

    def __init__(self, code: int, place: int, index: Optional[int]):
        super().__init__(code, place, index)
        self.code = code
        self.place = place
        self.index = index

    def __str__(self) -> str:
        which = "" if self.number is None else f"text {self.number}: "
        return f"{which}unassigned {self.code:04X} at byte {self.place}"


class NoFolding(Refused):
    """The tables were opened without CaseFolding.txt, so nothing is known of case."""

    def __str__(self) -> str:
        return "the tables were opened without CaseFolding.txt"


class TooLong(Refused):
    """A string has more than 65,536 bytes of UTF-8."""

    def __str__(self) -> str:
        return "the string has more than 65,536 bytes"


class NotUtf8(Refused):
    """A string that came as bytes is not UTF-8.

    place: how many bytes its longest front has that is
    """

    def __init__(self, place: int):
        super().__init__(place)
        self.place = place

    def __str__(self) -> str:
        return f"the string is not UTF-8 at byte {self.place}"


class Full(Refused):
    """A node keeps as many strings as its room."""

    def __str__(self) -> str:
        return "the node has no room for one more string"


class Malformed(Refused):
    """Bytes are no message, or no image.

    place: the byte, from 0, of the first field that isn't whole or isn't allowed, or the first byte left over
    """

    def __init__(self, place: int):
        super().__init__(place)
        self.place = place

    def __str__(self) -> str:
        return f"malformed at byte {self.place}"


class OtherForm(Refused):
    """A message or an image is of another form than the node."""

    def __str__(self) -> str:
        return "it is of another form than the node"


class KeyDiffers(Refused):
    """The key that came with a string is not the string's key."""

    def __str__(self) -> str:
        return "the key is not that of the string"


class OlderTables(Refused):
    """An image was saved under a later version than that of the tables.

    needs: how many code points that version assigns
    has:   how many the tables assign
    """

    def __init__(self, needs: int, has: int):
        super().__init__(needs, has)
        self.needs = needs
        self.has = has

    def __str__(self) -> str:
        return f"the image needs tables of {self.needs} code points, these have {self.has}"


class BadEntry(Refused):
    """An entry of an image is refused.

    index: the entry's number, from 0
    cause: why, as another Refused
    """

    def __init__(self, index: int, cause: Refused):
        super().__init__(index, cause)
        self.index = index
        self.cause = cause

    def __str__(self) -> str:
        return f"entry {self.index} of the image: {self.cause}"


class BadTables(ValueError):
    """The files make no version.

    file: 'data', 'exclusions', 'tables' or 'folding': which file is faulty, or what the first two make together
    line: the line of the file, from 1; None of tables, of a file that is too large, and where the lines of the folding
          file are good and it doesn't go with the others
    name: the name of the fault, as docs/FORMATS.md has it
    code: the code point of a fault of tables, and of a folding file that doesn't go with the others; else None
    path: how the file was named, where Tables.open was given its name; else None
    """

    path: Optional[Union[str, "os.PathLike[str]"]] = None

    def __init__(self, file: str, line: Optional[int], name: str, code: Optional[int] = None):
        super().__init__(file, line, name, code)
        self.file = file
        self.line = line
        self.name = name
        self.code = code

    def __str__(self) -> str:
        line = "" if self.line is None else f"line {self.line}: "
        code = "" if self.code is None else f" {self.code:04X}"
        path = "" if self.path is None else f", in {os.fspath(self.path)!r}"
        # The lines of CompositionExclusions.txt have one field; behind its head of comments they are no compressed file.
        swapped = "; data and exclusions may be swapped" if (self.file, self.name) == ("data", "FieldCount") and self.line != 1 else ""
        return f"{self.file}: {line}{self.name}{code}{path}{swapped}"


# Users see the package alone.
for _one in (BadEntry, BadTables, Full, KeyDiffers, Malformed, NoFolding, NotUtf8, OlderTables, OtherForm, Refused, TooLong, Unassigned):
    _one.__module__ = "npss"
