"""What npss answers beside texts."""

import typing
from typing import Literal, Optional, Union

__all__ = ["Break", "Entry", "Form", "Property"]

Form = Union[Literal["nfc"], Literal["nfd"], Literal["nfkc"], Literal["nfkd"],
             Literal["NFC"], Literal["NFD"], Literal["NFKC"], Literal["NFKD"]]


class Break(typing.NamedTuple):
    """What a newer version breaks of an older one, at a code point."""

    kind: Literal["Lost", "ClassChanged", "MappingChanged", "NowExcluded", "NowIncluded", "NewComposite", "FoldingChanged"]
    code: int


class Entry(typing.NamedTuple):
    """A string that a node keeps, as it was given, beside its key."""

    string: str
    key: str


class Property(typing.NamedTuple):
    """What a version says of a code point."""

    assigned: bool
    combining_class: int
    mapping: Optional[Literal["canonical", "compatibility"]]
    excluded: bool
