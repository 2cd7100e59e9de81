"""The bodies of requests: how large and how slow they may be, and what stands in them."""

import asyncio
import json
from http import HTTPStatus
from typing import Any, Optional
from urllib.parse import parse_qs

from starlette.requests import Request

# Of who shows no token. A name has 65,536 bytes at most, of which JSON may spell each character in 6.
MOST_BODY, MOST_BODY_WITH_TOKEN = 65_536, 524_288
# A body comes whole within so many seconds.
SECONDS = 10.0
MOST_OWNER = 1_000
MOST_FIELDS = 16


class Fault(Exception):
    """A request that isn't answered: its status, a sentence, and headers beside them."""

    def __init__(self, status: int, why: str, headers: Optional[dict[str, str]] = None):
        super().__init__(why)
        self.status = status
        self.headers = headers or {}

    @property
    def phrase(self) -> str:
        return HTTPStatus(self.status).phrase


async def body_of(request: Request, most: int) -> bytes:
    """The body of a request. Fault 413 of one with more bytes, 408 of one that comes too slowly."""
    length = request.headers.get("content-length", "")
    if length.isdecimal() and int(length) > most:
        raise _too_large(most)
    try:
        async with asyncio.timeout(SECONDS):
            return await _read(request, most)
    except TimeoutError as error:
        raise Fault(408, f"the body didn't come within {SECONDS:g} s", {"Connection": "close"}) from error


async def _read(request: Request, most: int) -> bytes:
    body = bytearray()
    async for piece in request.stream():
        body += piece
        if len(body) > most:
            raise _too_large(most)
    return bytes(body)


def _too_large(most: int) -> Fault:
    more = f"; with a token it may have {MOST_BODY_WITH_TOKEN}" if most < MOST_BODY_WITH_TOKEN else ""
    return Fault(413, f"a body has at most {most} bytes{more}")


async def object_of(request: Request, most: int) -> dict[str, Any]:
    """The JSON object of a request. Fault 400 of what is none."""
    body = await body_of(request, most)
    try:
        fields = json.loads(body)
    except RecursionError as error:
        raise Fault(400, "the body's JSON is nested too deep") from error
    except ValueError as error:
        raise Fault(400, f"the body is no JSON: {error}") from error
    if not isinstance(fields, dict):
        raise Fault(400, "the body is no JSON object")
    return fields


def text_of(fields: dict[str, Any], name: str) -> str:
    """A text that has to be there."""
    found = fields.get(name)
    if not isinstance(found, str):
        raise Fault(400, f"the body wants a text {name!r}")
    return _whole(found, name)


def _whole(text: str, name: str) -> str:
    try:
        text.encode()
    except UnicodeEncodeError as error:
        raise Fault(422, f"{name!r} has a lone surrogate at character {error.start}") from error
    return text


def owner_of(fields: dict[str, Any]) -> str:
    """The owner of a claim or a forget."""
    owner = text_of(fields, "owner")
    if not 0 < len(owner.encode()) <= MOST_OWNER:
        raise Fault(422, f"an owner has 1 to {MOST_OWNER} bytes")
    return owner


async def fields_of(request: Request, *names: str) -> list[str]:
    """The fields of a form that a page sent."""
    body = await body_of(request, MOST_BODY)
    try:
        fields = parse_qs(body.decode(), keep_blank_values=True, errors="strict", max_num_fields=MOST_FIELDS)
    except UnicodeDecodeError as error:
        raise Fault(400, "the form is not UTF-8") from error
    except ValueError as error:
        raise Fault(400, f"the form is none: {error}") from error
    return [fields.get(name, [""])[0] for name in names]
