from npss._accepted import Accepted as Accepted
from npss._errors import BadEntry as BadEntry
from npss._errors import BadTables as BadTables
from npss._errors import Full as Full
from npss._errors import KeyDiffers as KeyDiffers
from npss._errors import Malformed as Malformed
from npss._errors import NoFolding as NoFolding
from npss._errors import NotUtf8 as NotUtf8
from npss._errors import OlderTables as OlderTables
from npss._errors import OtherForm as OtherForm
from npss._errors import Refused as Refused
from npss._errors import TooLong as TooLong
from npss._errors import Unassigned as Unassigned
from npss._npss import Node as Node
from npss._npss import Stream as Stream
from npss._npss import Tables as Tables
from npss._values import Break as Break
from npss._values import Entry as Entry
from npss._values import Form as Form
from npss._values import Property as Property

__all__ = ["Accepted", "BadEntry", "BadTables", "Break", "Entry", "Form", "Full", "KeyDiffers", "Malformed", "NoFolding", "Node", "NotUtf8",
           "OlderTables", "OtherForm", "Property", "Refused", "Stream", "Tables", "TooLong", "Unassigned"]
__version__: str
