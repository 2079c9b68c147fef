"""A counter over a played service, both over real sockets, for tests that ask the counter's routes."""

import asyncio
import collections
import contextlib
import json
import socket
import tempfile
import unittest
from collections.abc import Iterator, Mapping
from dataclasses import dataclass
from pathlib import Path
from typing import Any
from unittest import mock

from weighbridge_counter.connections import Connections, listen
from weighbridge_counter.counter import Counter
from weighbridge_counter.routes import Routes
from weighbridge_counter.setup import Setup

from .played_service import PlayedService

FOLDER = Path(__file__).resolve().parent.parent
JSON = {"Accept": "application/json"}
JSON_BODY = {"Content-Type": "application/json"}


def free_port() -> int:
    with socket.create_server(("127.0.0.1", 0)) as it:
        return int(it.getsockname()[1])


@dataclass(frozen=True)
class Answered:
    status: int
    fields: Mapping[str, str]  # by their names in small letters
    body: bytes

    @property
    def json(self) -> Any:
        return json.loads(self.body)


class Service(PlayedService):
    """The played service, which also notes what comes to its office, and can stop to answer."""

    def __init__(self) -> None:
        super().__init__(free_port(), free_port(), pace=20.0)
        self.came: list[tuple[str, str, dict[str, str]]] = []
        self.is_mute = False

    def judge(self, method: str, target: str, form: dict[str, str]) -> tuple[int, str]:
        self.came.append((method, target, form))
        judged = super().judge(method, target, form)
        if target == "/indication":
            self.scale.state = "S"  # a load that moves stands still from the next question on
        if self.is_mute:
            raise OSError
        return judged

    def posts(self) -> list[dict[str, str]]:
        return [form for method, _, form in self.came if method == "POST"]


class WithCounter(unittest.IsolatedAsyncioTestCase):
    async def asyncSetUp(self) -> None:
        asyncio.get_running_loop().slow_callback_duration = 60
        folder = tempfile.TemporaryDirectory(ignore_cleanup_errors=True)
        self.addCleanup(folder.cleanup)
        self.service = Service()
        await self.service.start()
        terminal, office = (("127.0.0.1", it) for it in self.service.ports)
        setup = Setup(state=Path(folder.name), terminal=terminal, office=office)
        self.counter = Counter(setup, lambda address: None)
        self.addCleanup(self.counter.printing.notes.shutdown)
        # a busy machine's standstill is none of the counter
        steady = mock.patch.object(self.counter.terminal, "is_in_doubt", lambda: False)
        steady.start()
        self.addCleanup(steady.stop)
        self.connections = Connections(collections.Counter())
        routes = Routes(self.counter, FOLDER)
        self.server = await listen(routes.application(), ("127.0.0.1", 0), self.connections)
        self.port = self.server.sockets[0].getsockname()[1]
        self.running = asyncio.ensure_future(self.counter.run())
        await self.until(lambda: self.counter.terminal.fanout.is_settled)
        await self.until(lambda: self.counter.books.lists.is_of_export)

    async def asyncTearDown(self) -> None:
        self.running.cancel()
        self.service.readings.cancel()
        for server in (self.server, *self.service.servers):
            server.close()
        with contextlib.suppress(asyncio.CancelledError):
            await self.running
        with contextlib.suppress(asyncio.TimeoutError):
            # so that no thread writes into the folder that is removed
            await asyncio.wait_for(self.counter.files.bring(), 5)

    async def until(self, is_so: Any, seconds: float = 60.0) -> None:
        for _ in range(int(seconds / 0.01)):
            if is_so():
                return
            await asyncio.sleep(0.01)
        self.fail("it never became so")

    async def drives_on(self, kg: int) -> None:
        """Empty the bridge, and put a load on it."""
        self.service.scale.kg = 0
        await self.until(lambda: self.service.is_cleared)
        self.service.scale.kg = kg

    async def ask(
        self, method: str, target: str, body: bytes | None = None, /, **fields: str
    ) -> Answered:
        """Ask the counter. The names of the fields have _ for -."""
        return await asked(self.port, method, target, body, fields)

    async def post(self, target: str, form: str, **fields: str) -> Answered:
        return await self.ask("POST", target, form.encode(), **fields)

    async def at_office(self, method: str, target: str, form: str = "") -> Answered:
        return await asked(self.service.ports[1], method, target, form.encode(), {})


async def asked(
    port: int, method: str, target: str, body: bytes | None, fields: Mapping[str, str]
) -> Answered:
    reader, writer = await asyncio.open_connection("127.0.0.1", port)
    lines = [f"{method} {target} HTTP/1.1", f"Host: 127.0.0.1:{port}", "Connection: close"]
    lines += [f"{name.replace('_', '-')}: {value}" for name, value in fields.items()]
    lines += [] if body is None else [f"Content-Length: {len(body)}"]
    writer.write("\r\n".join([*lines, "", ""]).encode() + (body or b""))
    head, _, rest = (await asyncio.wait_for(reader.read(), 60)).partition(b"\r\n\r\n")
    writer.close()
    status, *given = head.decode().split("\r\n")
    pairs = dict(it.split(": ", 1) for it in given)
    return Answered(
        int(status.split(" ")[1]), {name.lower(): it for name, it in pairs.items()}, rest
    )


def document() -> Any:
    return json.loads((FOLDER / "openapi.json").read_text(encoding="utf-8"))


def resolved(what: Any, whole: Any) -> Any:
    """Return a schema with each reference replaced by what it names."""
    if isinstance(what, list):
        return [resolved(it, whole) for it in what]
    if not isinstance(what, dict):
        return what
    if "$ref" in what:
        found = whole
        for name in what["$ref"].removeprefix("#/").split("/"):
            found = found[name]
        return resolved(found, whole)
    made = {name: resolved(it, whole) for name, it in what.items() if name != "nullable"}
    return {"anyOf": [made, {"type": "null"}]} if what.get("nullable") else made


def faults_of(method: str, path: str, answer: Answered) -> Iterator[str]:
    """Return what of an answer isn't as the description says."""
    import jsonschema

    whole = document()
    responses = whole["paths"][path][method.lower()]["responses"]
    if str(answer.status) not in responses:
        yield f"{answer.status} isn't listed"
        return
    response = resolved(responses[str(answer.status)], whole)
    kind = answer.fields.get("content-type", "").partition(";")[0]
    content = response.get("content", {})
    if content and kind not in content:
        yield f"{kind} isn't listed"
    elif kind == "application/json":
        schema = content[kind]["schema"]
        for it in jsonschema.Draft202012Validator(schema).iter_errors(answer.json):
            yield it.message[:300]
