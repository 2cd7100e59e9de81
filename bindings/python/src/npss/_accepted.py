"""What a node answers to a string that it doesn't refuse."""

import enum

__all__ = ["Accepted"]


class Accepted(enum.Enum):
    """Whether a string is new to a node."""

    KEPT = "kept"
    """The string was new, and is kept now."""
    KNOWN = "known"
    """The string was kept already. Nothing changed."""
