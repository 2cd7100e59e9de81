"""A registry as JSON over HTTP, with the names in the bodies, and as pages for people."""

import asyncio
from collections.abc import Callable
from concurrent.futures import Future
from contextlib import AbstractAsyncContextManager
from http import HTTPStatus
from typing import Any, Optional

from npss import Refused, Unassigned
from starlette.applications import Starlette
from starlette.exceptions import HTTPException
from starlette.requests import ClientDisconnect, Request
from starlette.responses import HTMLResponse, JSONResponse, Response
from starlette.routing import Route

from npss_registry import pages
from npss_registry.bodies import MOST_BODY, MOST_BODY_WITH_TOKEN, Fault, fields_of, object_of, owner_of, text_of
from npss_registry.errors import LogReadOnly, NotTried, RegistryError
from npss_registry.explaining import Names, Verdict, compared
from npss_registry.metrics import Metrics
from npss_registry.overview import Overlook, ShardState
from npss_registry.reader import Reader
from npss_registry.shards import Outcome
from npss_registry.store import Registration
from npss_registry.tokens import Token, matching
from npss_registry.worker import Worker

# What changes names.
CHANGES = ("/claim", "/forget")
# So many pages `why` are made at once.
EXPLAINING = 2
_STATUSES = {"registered": 200, "taken": 409, "full": 507, "forgotten": 200, "not registered": 404}


def _fields_of(found: Registration) -> dict[str, Any]:
    fields = {"name": found.string, "owner": found.owner, "place": found.place, "key": found.key, "parked": found.parked}
    return fields if found.caseless is None else {**fields, "caseless": found.caseless}


def _answered(outcome: Outcome) -> JSONResponse:
    fields = {"outcome": outcome.what, "holder": _fields_of(outcome.holder) if outcome.holder else None}
    return JSONResponse(fields, 201 if outcome.new else _STATUSES[outcome.what])


class Service:
    """The routes over one worker and one reader."""

    def __init__(self, worker: Worker, reader: Reader, overlook: Overlook, metrics: Metrics):
        self._worker, self._reader, self._overlook, self._metrics = worker, reader, overlook, metrics
        self.tokens: Optional[list[Token]] = None
        # Whether also who only reads shows a token.
        self.private = False
        self._names: Optional[Names] = None
        self._explaining = asyncio.Semaphore(EXPLAINING)

    # ---- who asks

    def _token_of(self, request: Request) -> Optional[Token]:
        return matching(self.tokens or [], request.headers.get("authorization", ""))

    def _check_reads(self, request: Request) -> int:
        """Who may read; how large the body may be."""
        token = self._token_of(request)
        if self.private and token is None:
            raise _no_token()
        return MOST_BODY if token is None else MOST_BODY_WITH_TOKEN

    def _check_changes(self, request: Request) -> Token:
        """Who may change names, before the body is read."""
        if self.tokens is None:
            raise Fault(403, "this server takes no changes; start it with --token-file")
        token = self._token_of(request)
        if token is None:
            raise _no_token()
        if not token.changes:
            raise Fault(403, "this token reads alone")
        return token

    # ---- JSON

    async def claim(self, request: Request) -> Response:
        token = self._check_changes(request)
        fields = await object_of(request, MOST_BODY_WITH_TOKEN)
        return await self._changed("claim", token, self._worker.claim(text_of(fields, "name"), owner_of(fields)))

    async def forget(self, request: Request) -> Response:
        token = self._check_changes(request)
        fields = await object_of(request, MOST_BODY_WITH_TOKEN)
        name, owner = text_of(fields, "name"), owner_of(fields) if "owner" in fields else None
        return await self._changed("forget", token, self._worker.work(lambda registry: registry.forget(name, owner)))

    async def _changed(self, request: str, token: Token, asked: "Future[Outcome]") -> Response:
        outcome = await asyncio.wrap_future(asked)
        self._metrics.outcome(request, outcome.what, token.name)
        return _answered(outcome)

    async def find(self, request: Request) -> Response:
        fields = await object_of(request, self._check_reads(request))
        found = self._reader.find(text_of(fields, "name"))
        return JSONResponse([_fields_of(one) for one in found], 200 if found else 404)

    async def same(self, request: Request) -> Response:
        fields = await object_of(request, self._check_reads(request))
        same = self._reader.same(text_of(fields, "left"), text_of(fields, "right"))
        return JSONResponse({"same": same}, 404 if same is None else 200)

    async def status(self, request: Request) -> Response:
        self._check_reads(request)
        overview = self._overlook.overview()
        names: dict[int, list[str]] = {}
        for shard, name in overview.parked:
            names.setdefault(shard, []).append(name)
        return JSONResponse({"node": overview.node, "assigned": overview.assigned, "form": overview.form, "caseless": overview.caseless,
                             "room": overview.room, "most_bytes": overview.most_bytes, "versions": overview.versions,
                             "claims": overview.claims, "log": {"away": overview.log_away, "age": overview.age},
                             "store": {"away": overview.store_away},
                             "shards": [_state(one, names.get(one.shard, [])) for one in overview.shards]})

    async def health(self, request: Request) -> Response:
        """Whether names can be looked up, which the status says, and whether they can be claimed."""
        self._reader.find("")
        overview = self._overlook.overview()
        stopped = self._worker.failure is not None
        return JSONResponse({"finds": not stopped, "claims": overview.claims, "log": "reached" if overview.log_away is None else "away",
                             "store": "written" if overview.store_away is None else "away"}, 503 if stopped else 200)

    async def metrics(self, request: Request) -> Response:
        self._check_reads(request)
        return Response(self._metrics.text(), media_type="text/plain; version=0.0.4; charset=utf-8")

    # ---- pages for people

    async def home(self, request: Request) -> Response:
        self._check_reads(request)
        return HTMLResponse(pages.home(self._overlook.overview()))

    async def search(self, request: Request) -> Response:
        self._check_reads(request)
        name = (await fields_of(request, "name"))[0]
        try:
            return HTMLResponse(pages.search(name, self._reader.find(name)))
        except Refused as error:
            return HTMLResponse(pages.search(name, [], str(error)))

    async def why(self, request: Request) -> Response:
        self._check_reads(request)
        left, right = await fields_of(request, "left", "right")
        async with self._explaining:
            return HTMLResponse(await asyncio.to_thread(self._page_why, left, right))

    def _page_why(self, left: str, right: str) -> str:
        return pages.why(self._reader.setup, self._compared(left, right))

    def _compared(self, left: str, right: str) -> Verdict:
        if self._names is None:
            self._names = Names(self._reader.newest)
        return compared(self._reader.tables, self._names, self._reader.setup, left, right)

    # ---- what isn't answered

    async def failed(self, request: Request, error: Exception) -> Response:
        """What became of a request that isn't answered."""
        if isinstance(error, ClientDisconnect):
            raise error
        fields: dict[str, Any] = {"error": type(error).__name__, "why": str(error)}
        status, headers = 503, {}
        if isinstance(error, Refused):
            status = 422
            if isinstance(error, Unassigned):
                fields.update(code=f"{error.code:04X}", place=error.place, index=error.index)
        elif isinstance(error, Fault):
            status, headers, fields["error"] = error.status, error.headers, error.phrase
        elif isinstance(error, HTTPException):
            status, headers = error.status_code, dict(error.headers or {})
            fields = {"error": HTTPStatus(status).phrase, "why": f"{request.method} {request.url.path} isn't one of this server's requests"}
        elif isinstance(error, (NotTried, LogReadOnly)):
            fields["why"] += "; nothing was written, ask again later"
        elif isinstance(error, RegistryError):
            fields["why"] += "; the outcome is unknown, ask again" if request.url.path in CHANGES else ""
        else:
            status, fields = 500, {"error": "Internal Server Error", "why": "the server has a fault, which it tells who runs it"}
        self._metrics.refused(fields["error"])
        return JSONResponse(fields, status, headers)


def _no_token() -> Fault:
    return Fault(401, "the token is wrong or missing: Authorization: Bearer TOKEN", {"WWW-Authenticate": "Bearer"})


def _state(one: ShardState, names: list[str]) -> dict[str, Any]:
    return {"shard": one.shard, "place": one.place, "last": one.last, "behind": one.behind, "registered": one.registered,
            "parked": one.parked, "names": names}


def application(service: Service, lifespan: Callable[[Starlette], AbstractAsyncContextManager[None]]) -> Starlette:
    """The application of a service."""
    routes = [Route("/claim", service.claim, methods=["POST"]), Route("/forget", service.forget, methods=["POST"]),
              Route("/find", service.find, methods=["POST"]), Route("/same", service.same, methods=["POST"]),
              Route("/status", service.status, methods=["GET"]), Route("/health", service.health, methods=["GET"]),
              Route("/metrics", service.metrics, methods=["GET"]), Route("/", service.home, methods=["GET"]),
              Route("/search", service.search, methods=["POST"]), Route("/why", service.why, methods=["POST"])]
    faults: dict[Any, Any] = {kind: service.failed for kind in (Refused, Fault, HTTPException, RegistryError, Exception)}
    return Starlette(routes=routes, exception_handlers=faults, lifespan=lifespan)


PATHS = ("/", "/claim", "/forget", "/find", "/same", "/status", "/health", "/metrics", "/search", "/why")
