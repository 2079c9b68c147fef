"""The routes: those of the office, which pass, and the counter's own. `counter/openapi.json` describes all of them."""

import asyncio
import functools
import json
import socket
import sys
import urllib.parse
from collections.abc import Awaitable, Callable, Mapping
from dataclasses import dataclass
from pathlib import Path
from typing import Any, TypeVar

from aiohttp import web
from aiohttp.http import StreamWriter
from aiohttp.http_exceptions import HttpProcessingError

from weighbridge_paper.export import NoExport, has_key
from weighbridge_paper.text import NoText, read_text
from weighbridge_paper.words import FREE_LINES

from .acts import NO_ANSWER, Told, not_sent, own
from .answers import NO_STORE, PLAIN, as_json, as_text, asks_for_json, file_of, refused
from .bodies import FIELDS, MALFORMED, BadBody, form_of
from .counter import Counter
from .fetching import Fetching
from .files import NoFile
from .health import health_of
from .metrics import TEXT_FORM, metrics_of
from .office import Answer, NoAnswer
from .pages import Page, frame_of
from .refusals import Refusal, catalogue, refusal_in
from .shown import NotUnderstood, indication_shown, text_shown
from .tares import BadTare
from .terminal import NotSent, Unanswered
from .today import table_of, whole_day_of

LONGEST_BODY = 2048  # bytes; the office takes 1,024
SMALL_BUFFER = 16384  # bytes in the system on the way to a page
LOOK_AT_SLOW_PAGE_EVERY = 0.05  # seconds
READS_NOTHING = 5.0  # seconds without reading, after which a page is disconnected, and begins again
MOST_ASKING = 4  # of the office's places
UNDER_WAY_FOR = 30.0  # seconds: longer than the office is waited for
SAFE = ("GET", "HEAD")  # methods that change nothing
NOT_SENT = {"X-Counter": "not_sent"}
NOT_SAID: dict[str, object] = {"said": None}
REPEATED: Mapping[bool | None, Mapping[str, str]] = {
    True: {"Idempotency-Replayed": "true"},
    False: {"Idempotency-Replayed": "false"},
    None: {},
}
FAULTS = {404: "no_route", 405: "wrong_method", 413: "too_large"}
T = TypeVar("T")
Handler = Callable[[web.Request], Awaitable[web.StreamResponse]]


def fault(request: web.Request, status: int, refusal: Refusal, **fields: str) -> web.StreamResponse:
    """Return a fault of a request."""
    body = f"fault {status} {refusal.name}\n".encode()
    return refused(request, status, refusal, body, **fields)


def not_known(request: web.Request, status: int, refusal: Refusal) -> web.StreamResponse:
    """Return that nobody knows if an entry has a key, with the reason if the client asks for JSON."""
    response = as_json(
        {"found": None, **(refusal.shown() if asks_for_json(request) else {})}, status
    )
    response.headers.update(refusal.fields())
    return response


def not_done(
    request: web.Request, status: int, what: Mapping[str, object], refusal: Refusal
) -> web.StreamResponse:
    """Return why a wish isn't carried out. If the client asks for JSON, the answer has the names of a refusal too."""
    response = as_json({**what, **(refusal.shown() if asks_for_json(request) else {})}, status)
    response.headers.update(refusal.fields())
    return response


def no_file(request: web.Request) -> web.StreamResponse:
    return not_done(request, 503, {"why": "no_file"}, Refusal("no_file"))


@dataclass(frozen=True)
class Found:
    """The text of an entry, with where it is from, or why there is none."""

    status: int
    text: str | None = None
    source: str = ""
    why: str = ""
    refusal: Refusal | None = None

    def shown(self) -> dict[str, str]:
        return {"why": self.why} if self.text is None else {"text": self.text, "from": self.source}

    def answered(self, request: web.Request) -> web.StreamResponse:
        """Return why there is no text."""
        refusal = self.refusal or Refusal("no_answer")
        return not_done(request, self.status, self.shown(), refusal)


DAMAGED = Found(409, why="refused 17 damaged", refusal=Refusal("damaged", 17))


def allowed(it: web.HTTPException) -> dict[str, str]:
    """Return the field that names the methods of a route, which RFC 9110 wants with 405."""
    return {"Allow": it.headers["Allow"]} if "Allow" in it.headers else {}


class Routes:
    def __init__(self, counter: Counter, folder: Path) -> None:
        self.counter, self.folder = counter, folder
        catalogue()  # so that a counter without its file doesn't start
        self.hosts = {"127.0.0.1", "localhost", counter.setup.listen[0], *counter.setup.hosts}
        self.asking, self.thinking = asyncio.Semaphore(MOST_ASKING), asyncio.Lock()

    def application(self) -> web.Application:
        @web.middleware
        async def guard(request: web.Request, handler: Handler) -> web.StreamResponse:
            return await self.guarded(request, handler)

        application = web.Application(middlewares=[guard], client_max_size=LONGEST_BODY)
        own = r"{number:[1-9]\d{0,9}}"
        application.add_routes(
            [
                web.get("/", self.page),
                web.get(r"/web/{name:[a-z]+\.(?:js|css|svg)|lang/[a-z]{2}\.json}", self.page_file),
                web.get("/openapi.json", self.openapi),
                web.get("/events", self.events),
                web.get("/time", self.time),
                web.post("/weighings", self.weigh),
                web.post("/voids", self.weigh),
                web.post("/zero", self.zero),
                web.post("/tare/clear", self.clear_tare),
                web.get("/indication", self.hand_on),
                web.get("/tickets/{number}", self.hand_on),
                web.get("/entries/" + own, self.entry),
                web.put(r"/entries/{number:[1-9]\d{0,9}}/given", self.give),
                web.get("/papers", self.papers),
                web.post(r"/papers/{number:[1-9]\d{0,9}}", self.print_paper),
                web.post(r"/papers/{number:[1-9]\d{0,9}}/browser", self.paper_for_browser),
                web.post(r"/jobs/{job:[1-9]\d{0,9}}/again", self.print_again),
                web.delete(r"/jobs/{job:[1-9]\d{0,9}}", self.drop_job),
                web.get("/printable", self.printable),
                web.get("/search", self.search),
                web.get("/today", self.today),
                web.get("/today.csv", self.today_as_table),
                web.get("/keys/{key:[A-Za-z0-9-]{1,32}}", self.key),
                web.get("/plates/{plate:[A-Z0-9-]{1,12}}", self.plate),
                web.put("/tares/{plate}", self.keep_tare),
                web.delete("/tares/{plate}", self.drop_tare),
                web.post("/lists/refresh", self.refresh),
                web.post("/lists/seen", self.seen),
                web.get("/health", self.health),
                web.get("/metrics", self.metrics),
                *Fetching(self.counter, self.in_turn).routes(),
            ]
        )
        return application

    # ---- who may ask

    async def guarded(self, request: web.Request, handler: Handler) -> web.StreamResponse:
        """Refuses what a page of another site asks, a name that was bent to this address, and what may be old."""
        host = request.headers.get("Host", "")
        origin = request.headers.get("Origin")
        if host.rpartition(":")[0] not in self.hosts and host not in self.hosts:
            return self.told(request, own(421, "other_host"))
        site = request.headers.get("Sec-Fetch-Site", "none")
        if (site not in ("none", "same-origin") and not self.is_link_of_demo(request)) or (
            origin is not None and origin.partition("://")[2] != host
        ):
            return self.told(request, own(403, "other_site"))
        if request.method not in SAFE and self.counter.terminal.is_in_doubt():
            return self.told(request, not_sent(503, "late"))
        try:
            return await handler(request)
        except NoFile:
            return no_file(request)
        except ConnectionError:
            raise  # the client's connection is cut
        except BadBody as bad:
            return fault(request, bad.status, bad.refusal, **NOT_SENT)
        except (web.RequestPayloadError, HttpProcessingError):
            return fault(request, 400, MALFORMED)
        except OSError:
            if not request.path.startswith(("/papers", "/jobs", "/entries")):
                raise
            return no_file(request)
        except web.HTTPException as it:
            name = FAULTS.get(it.status, "malformed")
            # a key in another form is no route of its own
            is_key = name == "no_route" and request.path.startswith("/keys/")
            field = "key" if is_key else None
            return fault(request, it.status, Refusal(name, field=field), **allowed(it))
        except (
            Exception
        ) as it:  # a line for each, without control characters, so that such requests fill no log
            print(
                f"counter: {request.method} {request.rel_url.raw_path[:100]}: {repr(it)[:200]}",
                file=sys.stderr,
                flush=True,
            )
            return fault(request, 500, Refusal("internal"))

    def is_link_of_demo(self, request: web.Request) -> bool:
        """Return True if somebody follows a link of the played bridge's page, which has another port of this machine, to the clerk's page."""
        wanted = {"Sec-Fetch-Site": "same-site", "Sec-Fetch-Mode": "navigate"}
        return (
            (request.method, request.path) == ("GET", "/")
            and all(request.headers.get(name) == value for name, value in wanted.items())
            and self.counter.setup.is_demo
        )

    # ---- the page

    async def page(self, request: web.Request) -> web.StreamResponse:
        return file_of(request, self.folder / "web" / "index.html")

    async def page_file(self, request: web.Request) -> web.StreamResponse:
        path = self.folder / "web" / request.match_info["name"]
        if not path.is_file():
            raise web.HTTPNotFound
        return file_of(request, path)

    async def openapi(self, request: web.Request) -> web.StreamResponse:
        return file_of(request, self.folder / "openapi.json")

    async def time(self, request: web.Request) -> web.StreamResponse:
        return as_json({"now": self.counter.milliseconds()})

    async def events(self, request: web.Request) -> web.StreamResponse:
        response = web.StreamResponse(
            headers={"Content-Type": "text/event-stream", "X-Accel-Buffering": "no", **NO_STORE}
        )
        writer = await response.prepare(request)
        if request.method == "HEAD":
            if isinstance(writer, StreamWriter):
                writer.chunked = False  # aiohttp would end chunks that never began
            return response
        transport = request.transport
        if transport is None:
            return response
        transport.get_extra_info("socket").setsockopt(
            socket.SOL_SOCKET, socket.SO_SNDBUF, SMALL_BUFFER
        )
        lists = await self.in_turn(self.counter.lists)
        # from here on nothing else comes between
        frames = [
            frame_of(name, what)
            for name, what in (
                ("hello", self.counter.hello()),
                ("state", self.counter.state()),
                ("lists", lists),
                ("tares", self.counter.tares.all_shown()),
                ("papers", self.counter.printing.state()),
            )
        ]
        page = Page([b"retry: 500\n\n", *frames], transport.abort)
        self.counter.pages.add(page)
        try:
            while (taken := await page.take()) and not transport.is_closing():
                await response.write(taken)
                if transport.get_write_buffer_size() and not await self.is_taken(transport):
                    transport.abort()
        except ConnectionError:
            pass
        finally:
            self.counter.pages.remove(page)
        return response

    async def is_taken(self, transport: asyncio.WriteTransport) -> bool:
        """Whether a slow page takes what waits for it in time."""
        until = self.counter.terminal.clock() + READS_NOTHING
        while transport.get_write_buffer_size() and not transport.is_closing():
            if self.counter.terminal.clock() > until:
                return False
            await asyncio.sleep(LOOK_AT_SLOW_PAGE_EVERY)
        return True

    # ---- weighings

    async def weigh(self, request: web.Request) -> web.StreamResponse:
        form = form_of(request.content_type, await request.read(), FIELDS[request.path])
        told = await self.counter.acts.carry_out(request.path, form)
        fields = REPEATED[told.is_repeated]
        return self.told(request, told, text_shown, **fields)

    def told(
        self,
        request: web.Request,
        told: Told,
        show: Callable[[str], dict[str, Any]] = text_shown,
        kind: str = PLAIN,
        **fields: str,
    ) -> web.StreamResponse:
        """Return an answer: its text byte for byte, or its JSON if the client asks for that, as `show` makes it."""
        fields |= {} if told.is_sent else NOT_SENT
        if told.refusal is not None:
            return refused(request, told.status, told.refusal, told.body, **fields)
        if not asks_for_json(request):
            return as_text(told.body, told.status, kind, **fields)
        try:
            response = as_json(show(told.body.decode("utf-8")), told.status)
        except (UnicodeDecodeError, NoText, NotUnderstood):
            # what answered isn't the office
            return self.told(request, NO_ANSWER)
        response.headers.update(fields)
        return response

    async def in_turn(self, think: Callable[[], T]) -> T:
        """Do one thing that takes milliseconds between two looks at what came, so that no weight waits for several."""
        async with self.thinking:
            await asyncio.sleep(0)
            return think()

    async def ask_office(self, target: str) -> Answer:
        """Few at a time, so that a weighing finds a place at the office whoever asks. Raises NoAnswer."""
        async with self.asking:
            return await self.counter.office.ask("GET", target)

    async def hand_on(self, request: web.Request) -> web.StreamResponse:
        try:
            # as it was written: request.path has %0D%0A as an end of a line
            answer = await self.ask_office(request.rel_url.raw_path)
        except NoAnswer:
            return self.told(request, NO_ANSWER)
        refusal = None if answer.status == 200 else refusal_in(answer.text)
        told = Told(answer.status, answer.body, refusal=refusal)
        show = indication_shown if request.path == "/indication" else text_shown
        return self.told(request, told, show, answer.kind)

    # ---- the terminal

    async def zero(self, request: web.Request) -> web.StreamResponse:
        return await self.said(
            request, lambda: self.counter.set_zero(request.headers.get("X-Remote-User", ""))
        )

    async def clear_tare(self, request: web.Request) -> web.StreamResponse:
        return await self.said(request, self.counter.clear_tare)

    async def said(
        self, request: web.Request, command: Callable[[], Awaitable[str]]
    ) -> web.StreamResponse:
        try:
            return as_json({"said": await command()})
        except NotSent:
            return not_done(request, 503, NOT_SAID | {"why": "not_sent"}, Refusal("not_sent"))
        except Unanswered:
            return not_done(request, 504, NOT_SAID | {"why": "unanswered"}, Refusal("unanswered"))

    # ---- entries

    async def entry(self, request: web.Request) -> web.StreamResponse:
        found = await self.text_of(int(request.match_info["number"]))
        if not asks_for_json(request):
            return as_json(found.shown(), found.status)
        told = Told(found.status, (found.text or "").encode(), refusal=found.refusal)
        return self.told(request, told, lambda it: {**text_shown(it), "from": found.source})

    async def text_of(self, number: int) -> Found:
        """Return the text of an entry: of a ticket as the office gives it now, of a slip as it passed or as its row's digest proves it."""
        known = self.counter.books.lists.entries.get(number)
        if known is None or known.kind in ("second", "single"):
            try:
                answer = await self.ask_office(f"/tickets/{number}")
            except NoAnswer:
                return Found(502, why="no_answer", refusal=NO_ANSWER.refusal)
            if answer.status == 200:
                return Found(200, answer.text, "office")
            return Found(answer.status, why=answer.text.strip(), refusal=refusal_in(answer.text))
        found = self.counter.books.lists.slip_again(number)
        if found is None or found[0] is None:
            return DAMAGED
        return Found(200, found[0], found[1])

    async def give(self, request: web.Request) -> web.StreamResponse:
        """Change what stands on an entry's paper besides its text. A line that the body doesn't have stays, and an empty one goes."""
        number = int(request.match_info["number"])
        try:
            wish = json.loads(await request.read())
            fields = {it: wish[it] for it in FREE_LINES if it in wish}
            is_text = all(isinstance(it, str) for it in fields.values())
            if not isinstance(wish, dict) or not is_text or set(wish) != set(fields):
                raise ValueError
        except (ValueError, TypeError, RecursionError):
            why = {"why": f"send texts, by the names {', '.join(FREE_LINES)}"}
            return not_done(request, 422, why, Refusal("bad_value"))
        if letters := self.counter.printing.unprintable(fields):
            unprintable = {"why": "unprintable", "letters": letters}
            return not_done(request, 422, unprintable, Refusal("unprintable"))
        found = await self.text_to_print(number)
        if found.text is None:
            return found.answered(request)
        entry = self.counter.books.lists.entries.get(number)
        if entry is None or entry.kind == "void":
            return not_done(request, 409, {"why": "void"}, Refusal("is_void"))
        try:
            lines = await self.counter.give(number, found.text, fields)
        except NoText:
            return DAMAGED.answered(request)
        if lines is None:
            return not_done(request, 409, {"why": "printed"}, Refusal("printed"))
        return as_json({"given": dict(lines)})

    # ---- papers

    async def papers(self, request: web.Request) -> web.StreamResponse:
        return as_json(self.counter.printing.state())

    async def print_paper(self, request: web.Request) -> web.StreamResponse:
        """Print a paper of an entry. The printer is the one that the form names, otherwise the one that prints automatically, otherwise the first."""
        body = form_of(request.content_type, await request.read(), FIELDS["/papers"])
        form = dict(urllib.parse.parse_qsl(body.decode("latin-1")))
        papers = self.counter.printing.papers
        names = [form.get("printer"), papers.by_itself, *(it.name for it in papers.printers)]
        printer = next((it for it in names if it), "")
        if papers.printer(printer) is None:
            refusal = Refusal("no_printer", field="printer")
            return not_done(request, 422, {"why": "no_printer"}, refusal)
        found = await self.text_to_print(int(request.match_info["number"]))
        if found.text is None:
            return found.answered(request)
        try:
            return as_json({"job": await self.counter.printing.print(found.text, printer)}, 202)
        except NoText:
            return DAMAGED.answered(request)

    async def text_to_print(self, number: int) -> Found:
        """As it passed, if it did: so a paper needs no office."""
        passed = self.counter.books.lists.texts.get(number)
        if passed is not None:
            return Found(200, passed.letters, "passed")
        return await self.text_of(number)

    async def paper_for_browser(self, request: web.Request) -> web.StreamResponse:
        """Return what the page prints itself, noted as printed."""
        found = await self.text_to_print(int(request.match_info["number"]))
        if found.text is None:
            return found.answered(request)
        try:
            return as_json(await self.counter.printing.for_browser(found.text))
        except NoText:
            return DAMAGED.answered(request)

    async def printable(self, request: web.Request) -> web.StreamResponse:
        """Answer with the letters of goods, order and driver that a printer can't print."""
        return as_json({"unprintable": self.counter.printing.unprintable(request.query)})

    async def print_again(self, request: web.Request) -> web.StreamResponse:
        return as_json(
            {}, 200 if await self.counter.printing.again(int(request.match_info["job"])) else 404
        )

    async def drop_job(self, request: web.Request) -> web.StreamResponse:
        return as_json(
            {}, 200 if await self.counter.printing.drop(int(request.match_info["job"])) else 404
        )

    async def search(self, request: web.Request) -> web.StreamResponse:
        words = request.query.get("q", "")[:40]
        hits, found = await self.in_turn(lambda: self.counter.books.lists.search(words))
        return as_json({"hits": hits, "found": found, "whole": self.counter.books.is_whole()})

    async def today(self, request: web.Request) -> web.StreamResponse:
        counter = self.counter
        return as_json(await self.in_turn(lambda: whole_day_of(counter.books.lists, counter.now())))

    async def today_as_table(self, request: web.Request) -> web.StreamResponse:
        counter = self.counter
        table = await self.in_turn(lambda: table_of(counter.books.lists, counter.now()))
        name = f"weighings-{counter.now().date().isoformat()}.csv"
        fields = {"Content-Disposition": f'attachment; filename="{name}"'}
        return as_text(table.encode(), 200, "text/csv; charset=utf-8; header=present", **fields)

    async def key(self, request: web.Request) -> web.StreamResponse:
        """Answer if an entry of the journal has the key. Unless a ticket shows it, this asks for an export. It stores nothing.

        The request with this key may still be on its way to the office, although its client is gone. So the acts that were begun come to their end before.
        """
        if await self.is_confirmed(request.match_info["key"]):
            return as_json({"found": True})
        under_way = set(self.counter.acts.tasks)
        if under_way and (await asyncio.wait(under_way, timeout=UNDER_WAY_FOR))[1]:
            return not_known(request, 503, Refusal("busy"))
        try:
            answer, _ = await self.counter.books.export_of_now()
            if answer.status != 200:
                return not_known(request, 503, refusal_in(answer.text) or Refusal("no_answer"))
            look = functools.partial(has_key, answer.text, request.match_info["key"])
            return as_json({"found": await asyncio.get_running_loop().run_in_executor(None, look)})
        except (NoAnswer, NoExport):
            return not_known(request, 502, Refusal("no_answer"))

    async def is_confirmed(self, key: str) -> bool:
        """Return True if the office now has a ticket with the digest of the key's entry. A digest covers its key, so this needs no export."""
        lists = self.counter.books.lists
        number = lists.number_of_key(key)
        if number is None or not lists.is_sound(number):
            return False
        digest, ticket = lists.digest_of(number), lists.ticket_with(number)
        if ticket is None:
            return False
        try:
            answer = await self.ask_office(f"/tickets/{ticket}")
            weighings = read_text(answer.text).weighings if answer.status == 200 else ()
        except (NoAnswer, NoText):
            return False
        return any(it.digest == digest for it in weighings)

    async def refresh(self, request: web.Request) -> web.StreamResponse:
        self.counter.books.wants_export = True
        return as_json({}, 202)

    async def seen(self, request: web.Request) -> web.StreamResponse:
        """Close the report that the lists started again, because a clerk has read it."""
        self.counter.books.journal.seen()
        self.counter.tell_state()
        return as_json({})

    # ---- kept tares

    async def plate(self, request: web.Request) -> web.StreamResponse:
        """Answer with a plate's last empty weight, and with what was given last for its paper."""
        plate, lists = request.match_info["plate"], self.counter.books.lists
        given = dict(lists.last_given(plate))
        return as_json({"plate": plate, "empty": lists.empty_of(plate), "given": given})

    async def keep_tare(self, request: web.Request) -> web.StreamResponse:
        try:
            wish = json.loads(await request.read())
            await self.counter.tares.keep(
                request.match_info["plate"], wish["kg"], request.headers.get("X-Remote-User", "")
            )
        except (ValueError, KeyError, TypeError, RecursionError):
            why = {"why": 'send {"kg": a whole number}'}
            return not_done(request, 422, why, Refusal("bad_value", field="kg"))
        except BadTare as bad:
            return not_done(request, 422, {"why": str(bad)}, Refusal("bad_value"))
        return as_json({})

    async def drop_tare(self, request: web.Request) -> web.StreamResponse:
        await self.counter.tares.drop(request.match_info["plate"])
        return as_json({})

    # ---- monitoring

    async def health(self, request: web.Request) -> web.StreamResponse:
        health = health_of(self.counter)
        return as_json(health, 200 if health["can_weigh"] else 503)

    async def metrics(self, request: web.Request) -> web.StreamResponse:
        return as_text(metrics_of(self.counter).encode(), 200, TEXT_FORM)
