"""Unicode text under the tables of a version that you choose: keys, normal forms, equivalence.

    >>> from npss import Tables
    >>> tables = Tables.open("UnicodeData.txt", "CompositionExclusions.txt")
    >>> tables.key("Jo\\u0308rg")
    'J\\xf6rg'

A key is a stabilized string (UAX #15, section 12): the normal form of a text, all of whose code points
the version assigns. It stays the same under each later version that extends this one. The work is done by a
proved library; this module, which hands the texts over, is tested.

With CaseFolding.txt beside the two, texts that differ by case have one key, which is as stable.

    >>> tables = Tables.open("UnicodeData.txt", "CompositionExclusions.txt", "CaseFolding.txt")
    >>> tables.key("ZO\u00cb", "nfkc", caseless=True)
    'zo\xeb'
    >>> tables.caseless_match("STRASSE", "stra\u00dfe")
    True

A Node keeps strings beside their keys, tells them to other nodes by messages, and survives upgrades and restarts.

    >>> from npss import Accepted, Node
    >>> home, away = Node(tables), Node(tables)
    >>> if home.accept("Zo\u00eb") is Accepted.KEPT:
    ...     away.take(home.message("Zo\u00eb"))
    <Accepted.KEPT: 'kept'>

Tables.stream makes the form of a text that comes in pieces. Tables.property, decomposition and composite tell what a
version says of code points, for those who have to explain a key.

One Tables serves all threads. Long texts are worked on without the interpreter's lock. What is refused is told by an
exception under Refused, and changes nothing.
"""

from npss._accepted import Accepted
from npss._errors import (BadEntry, BadTables, Full, KeyDiffers, Malformed, NoFolding, NotUtf8, OlderTables, OtherForm,
                          Refused, TooLong, Unassigned)
from npss._npss import Node, Stream, Tables
from npss._values import Break, Entry, Form, Property

__all__ = ["Accepted", "BadEntry", "BadTables", "Break", "Entry", "Form", "Full", "KeyDiffers", "Malformed", "NoFolding", "Node", "NotUtf8",
           "OlderTables", "OtherForm", "Property", "Refused", "Stream", "Tables", "TooLong", "Unassigned"]
__version__ = "0.2.0"
