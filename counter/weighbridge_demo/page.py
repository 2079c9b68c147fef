"""The page of the played bridge, on a port of its own: what drives on is chosen there, and the day's vehicles are listed."""

import json
from collections.abc import Awaitable, Callable
from pathlib import Path

from aiohttp import web

from weighbridge_counter.answers import NO_CACHE, as_json, as_text

from .bridge import Bridge, shown_visit
from .cell import INTERVAL, MAX

LONGEST_BODY = 200  # bytes
HOSTS = ("127.0.0.1", "localhost")
Handler = Callable[[web.Request], Awaitable[web.StreamResponse]]


class DemoPage:
    def __init__(
        self, bridge: Bridge, clock: Callable[[], float], clerks_page: str, folder: Path
    ) -> None:
        """`clock` gives the moment of the bridge in seconds, `clerks_page` is the address of the clerk's page, `folder` has the page's files."""
        self.bridge, self.clock, self.clerks_page, self.folder = bridge, clock, clerks_page, folder
        self.lines: Callable[[], dict[str, int]] = lambda: {}

    def application(self) -> web.Application:
        @web.middleware
        async def guard(request: web.Request, handler: Handler) -> web.StreamResponse:
            return await self.guarded(request, handler)

        application = web.Application(middlewares=[guard], client_max_size=LONGEST_BODY)
        application.add_routes(
            [
                web.get("/", self.page),
                web.get(r"/web/{name:[a-z]+\.(?:js|css|svg)}", self.page_file),
                web.get("/day", self.day),
                web.get("/state", self.state),
                web.post("/load", self.push),
                web.post("/on", self.drive_on),
                web.post("/off", self.drive_off),
                web.post("/play", self.play),
                web.post("/stop", self.stop),
            ]
        )
        return application

    async def guarded(self, request: web.Request, handler: Handler) -> web.StreamResponse:
        """Refuse what a page of another site asks, and a name that was bent to this address."""
        host, origin = request.headers.get("Host", ""), request.headers.get("Origin")
        if host.rpartition(":")[0] not in HOSTS and host not in HOSTS:
            return as_text(b"demo other_host\n", 421)
        is_own = (
            request.method == "GET" and request.path == "/"
        )  # a link of another page may lead here
        site = request.headers.get("Sec-Fetch-Site", "none")
        if (site not in ("none", "same-origin") and not is_own) or (
            origin is not None and origin.partition("://")[2] != host
        ):
            return as_text(b"demo other_site\n", 403)
        try:
            return await handler(request)
        except web.HTTPException as fault:
            return as_text(f"demo {fault.status}\n".encode(), fault.status)

    async def page(self, request: web.Request) -> web.StreamResponse:
        return web.FileResponse(self.folder / "index.html", headers=NO_CACHE)

    async def page_file(self, request: web.Request) -> web.StreamResponse:
        path = self.folder / request.match_info["name"]
        if not path.is_file():
            raise web.HTTPNotFound
        return web.FileResponse(path, headers=NO_CACHE)

    async def day(self, request: web.Request) -> web.StreamResponse:
        return as_json(
            {
                "visits": [shown_visit(it) for it in self.bridge.visits],
                "clerks_page": self.clerks_page,
                "interval": INTERVAL,
                "max": MAX,
            }
        )

    def shown(self, status: int = 200) -> web.Response:
        return as_json({**self.bridge.shown(self.clock()), **self.lines()}, status)

    async def state(self, request: web.Request) -> web.StreamResponse:
        return self.shown()

    async def push(self, request: web.Request) -> web.StreamResponse:
        try:
            kg = json.loads(await request.read())["kg"]
        except (ValueError, KeyError, TypeError, RecursionError):
            kg = None
        if not isinstance(kg, int) or isinstance(kg, bool) or not 0 <= kg <= MAX:
            return as_json({"why": f'send {{"kg": a whole number of 0 to {MAX}}}'}, 422)
        self.bridge.push(self.clock(), kg)
        return self.shown()

    async def drive_on(self, request: web.Request) -> web.StreamResponse:
        return self.shown(200 if self.bridge.drive_on(self.clock()) else 409)

    async def drive_off(self, request: web.Request) -> web.StreamResponse:
        return self.shown(200 if self.bridge.drive_off(self.clock()) else 409)

    async def play(self, request: web.Request) -> web.StreamResponse:
        self.bridge.play(self.clock())
        return self.shown()

    async def stop(self, request: web.Request) -> web.StreamResponse:
        self.bridge.stop()
        return self.shown()
