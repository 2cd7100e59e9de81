"""What a server tells whoever runs it: a line for each event on its error output, with its level, which a journal keeps."""

import logging
import os
import sys

# Levels as systemd reads them at the front of a line.
_LEVELS = {logging.DEBUG: 7, logging.INFO: 6, logging.WARNING: 4, logging.ERROR: 3, logging.CRITICAL: 2}
MOST_LINE = 1_000


class _OneLine(logging.Formatter):
    """A line, whatever stands in the message; what Python knows of an exception is its last line alone."""

    def __init__(self, to_journal: bool):
        super().__init__()
        self._to_journal = to_journal

    def format(self, record: logging.LogRecord) -> str:
        text = record.getMessage()
        if record.exc_info and record.exc_info[1] is not None:
            text += f": {type(record.exc_info[1]).__name__}: {record.exc_info[1]}"
        line = "".join(one if one.isprintable() else repr(one)[1:-1] for one in text[:MOST_LINE])
        if self._to_journal:
            return f"<{_LEVELS.get(record.levelno, 5)}>{line}"
        return f"npss-registry: {'' if record.levelno == logging.INFO else record.levelname.lower() + ': '}{line}"


def goes_to_journal() -> bool:
    """Whether systemd's journal reads the error output, which it says by the device and the inode of its own end."""
    try:
        end = os.fstat(2)
    except OSError:
        return False
    return os.environ.get("JOURNAL_STREAM") == f"{end.st_dev}:{end.st_ino}"


def failed(why: str) -> str:
    """The line of what kept the command from going on."""
    return f"<{_LEVELS[logging.ERROR]}>{why}" if goes_to_journal() else f"npss-registry: {why}"


def begin() -> None:
    """Sends all that is logged to the error output; what the server's parts below tell of each client is left out."""
    handler = logging.StreamHandler(sys.stderr)
    handler.setFormatter(_OneLine(goes_to_journal()))
    logging.basicConfig(level=logging.WARNING, handlers=[handler], force=True)
    logging.getLogger("npss_registry").setLevel(logging.INFO)
    logging.getLogger("uvicorn").setLevel(logging.CRITICAL)
    logging.raiseExceptions = False
