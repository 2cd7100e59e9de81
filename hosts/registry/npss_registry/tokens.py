"""The tokens that come with requests, as a file has them."""

import hmac
import os
import select
from collections.abc import Sequence
from dataclasses import dataclass
from typing import Optional

from npss_registry.errors import CannotServe

LEAST, MOST_FILE = 16, 65_536
# A pipe is waited for so many seconds.
PATIENCE = 5.0
READ_ONLY = "read-only"


@dataclass(frozen=True)
class Token:
    """A token, the name by which it is counted, and whether it may claim and forget."""

    name: str
    secret: str
    changes: bool


def tokens_in(path: str) -> list[Token]:
    """The tokens of a file, a line each: `TOKEN` or `NAME TOKEN`, perhaps with `read-only` behind it.

    Empty lines and lines that begin with # are passed over. Raises CannotServe of a file that isn't such a one.
    """
    tokens = []
    for number, line in enumerate(_text_of(path).splitlines(), 1):
        words = line.split()
        if words and not words[0].startswith("#"):
            tokens.append(_token(f"{path}: line {number}", number, words))
    if not tokens:
        raise CannotServe(f"{path}: there is no token in it")
    for values, of in ((token.name for token in tokens), "name"), ((token.secret for token in tokens), "token"):
        if len(set(values)) < len(tokens):
            raise CannotServe(f"{path}: two of its lines have the same {of}")
    return tokens


def _text_of(path: str) -> str:
    try:
        file = os.open(path, os.O_RDONLY | os.O_NONBLOCK | os.O_CLOEXEC)
        try:
            return _read(path, file).decode("utf-8-sig")
        finally:
            os.close(file)
    except OSError as error:
        raise CannotServe(f"{path}: {error.strerror}") from error
    except UnicodeDecodeError as error:
        raise CannotServe(f"{path}: it is not UTF-8") from error


def _read(path: str, file: int) -> bytes:
    """The bytes of a file, which may be a pipe that nobody writes into."""
    content = b""
    while len(content) <= MOST_FILE:
        if not select.select([file], [], [], PATIENCE)[0]:
            raise CannotServe(f"{path}: nothing came from it within {PATIENCE:g} s")
        piece = os.read(file, MOST_FILE)
        if not piece:
            return content
        content += piece
    raise CannotServe(f"{path}: a file of tokens has at most {MOST_FILE} bytes")


def _token(place: str, number: int, words: list[str]) -> Token:
    changes = words[-1] != READ_ONLY
    parts = words if changes else words[:-1]
    if not 1 <= len(parts) <= 2:
        raise CannotServe(f"{place}: wanted is TOKEN, NAME TOKEN or NAME TOKEN {READ_ONLY}")
    secret = parts[-1]
    if len(secret) < LEAST or not secret.isascii() or not secret.isprintable():
        raise CannotServe(f"{place}: a token has {LEAST} or more letters, digits and signs of ASCII")
    return Token(parts[0] if len(parts) == 2 else f"line-{number}", secret, changes)


def matching(tokens: Sequence[Token], header: str) -> Optional[Token]:
    """The token that a header `Authorization` tells; each is compared, so that the time tells nothing of them."""
    scheme, _, given = header.partition(" ")
    found = None
    for token in tokens:
        if hmac.compare_digest(given.strip().encode(), token.secret.encode()):
            found = token
    return found if scheme.lower() == "bearer" else None
