"""Starts the parts of a demo one after another, watches them, and ends all of them."""

import asyncio
import contextlib
import errno
import fcntl
import json
import os
import random
import signal
import socket
import tempfile
import time
from dataclasses import dataclass
from pathlib import Path
from typing import IO, Any

import aiohttp
from aiohttp import web

from weighbridge_paper.text import DEMO
from weighbridge_paper.words import LANGUAGES

from .bridge import CALM, QUICK, Bridge
from .cell import INTERVAL, MAX, SPREAD, lines_of_point
from .day import visits_of_the_day
from .hearing import hear
from .pace import RATE, Pace
from .page import DemoPage
from .parts import Part, PartFault, run
from .player import Player

HOST = "127.0.0.1"
STARTS_WITHIN = 30.0  # seconds for each part
ZERO_WITHIN = 15.0
ANSWERS_WITHIN = 5.0
LOOK_EVERY = 0.05
PORT_IS_TAKEN = os.strerror(errno.EADDRINUSE)  # as the counter says it
TRIES = 5  # with other ports, because another program may take one before a part does
MARK = "weighbridge-demo.lock"  # what a folder of a demo has
COUNTER_ENDS_WITHIN = 4.0  # seconds: it finishes a weighing that is under way
LOADS = (0, MAX // 2, MAX)  # kg of the calibration's points


class FolderFault(Exception):
    """Raised if the folder can't be used. Its text says why, and what to do."""


@dataclass(frozen=True)
class Programs:
    weighbridge: str
    converter: str
    counter: str


@dataclass(frozen=True)
class Wish:
    is_quick: bool = False
    begins_empty: bool = False


@dataclass(frozen=True)
class Addresses:
    clerk: str
    bridge: str
    office: str
    till: str


def free_port() -> int:
    with socket.socket() as it:
        it.bind((HOST, 0))
        port: int = it.getsockname()[1]
        return port


def folder_of(wish: Path | None) -> Path:
    """Return the folder of the demo, which is made if it isn't there. Raises FolderFault."""
    if wish is None:
        try:
            return Path(tempfile.mkdtemp(prefix="weighbridge-demo-"))
        except OSError as fault:
            raise FolderFault(
                f"no temporary folder can be made, because {fault.strerror}; name a folder with --folder"
            ) from None
    folder = wish.absolute()
    try:
        folder.mkdir(mode=0o700, parents=True, exist_ok=True)
        if any(folder.iterdir()) and not (folder / MARK).is_file():
            raise FolderFault(
                f"{folder}: it has files of something else, and may hold a true journal; name an empty or a new folder"
            )
    except OSError as fault:
        raise FolderFault(
            f"{folder}: it can't be used, because {fault.strerror}; name another folder"
        ) from None
    return folder


def held(folder: Path) -> IO[str]:
    """Return a file that holds the folder as long as it is open. Raises FolderFault if another demo has it."""
    try:
        file = open(folder / MARK, "a", encoding="utf-8")
    except OSError as fault:
        raise FolderFault(
            f"{folder}: it can't be written, because {fault.strerror}; name another folder"
        ) from None
    try:
        fcntl.flock(file, fcntl.LOCK_EX | fcntl.LOCK_NB)
    except OSError:
        file.close()
        raise FolderFault(
            f"{folder}: another weighbridge-demo uses it; end that one, or name another folder"
        ) from None
    return file


class Demo:
    def __init__(self, programs: Programs, wish: Wish, folder: Path) -> None:
        self.programs, self.wish, self.folder = programs, wish, folder
        now = time.monotonic_ns()
        self.bridge = Bridge(
            visits_of_the_day(), random.Random(), QUICK if wish.is_quick else CALM, now / 1e9
        )
        self.player = Player(self.bridge, Pace(now), time.monotonic_ns)
        self.parts: list[Part] = []
        self.tasks: list[asyncio.Task[Any]] = []
        self.runner: web.AppRunner | None = None

    @property
    def journal(self) -> Path:
        return self.folder / "journal.db"

    # ---- the parts

    async def start(self) -> Addresses:
        """Start everything, and return once a vehicle can be weighed. Raises PartFault."""
        fifo = self.folder / "converter"
        await self._calibrate()
        await self._make_fifo(fifo)
        terminal, office = await self._start_service(fifo)
        await self._start_converter(fifo)
        page, address = await self._open_page()
        clerk, till = await self._start_counter(terminal, office, address)
        page.clerks_page = clerk
        await self._set_zero(clerk)
        self.tasks.append(asyncio.ensure_future(hear(clerk, self._hear)))
        if not self.wish.begins_empty:
            self.bridge.play(self.player.seconds())
        return Addresses(clerk, address, office, till)

    async def _calibrate(self) -> None:
        """Make the calibration by the converter's own commands, unless the folder has one."""
        file = self.folder / "calibration"
        if file.exists():
            return
        words = [self.programs.converter, "point", "--calibration", str(file)]
        for kg in LOADS:
            more = ["--load-kg", str(kg), "--interval", str(INTERVAL), "--spread", str(SPREAD)]
            await run(f"the calibration, {file},", [*words, *more], lines_of_point(kg))
        await run(
            f"the calibration, {file},",
            [self.programs.converter, "finish", "--calibration", str(file)],
        )

    async def _make_fifo(self, fifo: Path) -> None:
        try:
            fifo.unlink(missing_ok=True)
            os.mkfifo(fifo, 0o600)
        except OSError as fault:
            raise PartFault(
                f"{fifo}: no FIFO can be made, because {fault.strerror}; name another folder"
            ) from None

    async def _start_service(self, fifo: Path) -> tuple[str, str]:
        """Return the addresses of terminal and office."""
        for left in reversed(range(TRIES)):
            terminal, office = f"{HOST}:{free_port()}", f"{HOST}:{free_port()}"
            words = [self.programs.weighbridge, "serve", "--file", str(self.journal)]
            words += ["--terminal", terminal, "--office", office, "--converter", str(fifo)]
            words += ["--interval", str(INTERVAL), "--max", str(MAX), "--pace", str(RATE)]
            words += ["--window", str(RATE), "--serial", DEMO, "--turns", "1000000000"]
            words += ["--capacity", "100000", "--verbose"]
            part = Part("the service", words, self.folder / "service.log")
            if await self._begins(part, office, "address fault", left):
                return terminal, office
        raise AssertionError

    async def _start_converter(self, fifo: Path) -> None:
        words = [self.programs.converter, "run", "--verbose", "--fifo", str(fifo)]
        words += ["--calibration", str(self.folder / "calibration")]
        part = Part("the converter", words, self.folder / "converter.log")
        self.parts.append(part)
        await part.start(has_input=True)
        assert part.process is not None and part.process.stdin is not None
        self.player.pace = Pace(time.monotonic_ns())  # so that no line is late at the start
        self.tasks.append(asyncio.ensure_future(self.player.play(part.process.stdin)))

    async def _open_page(self) -> tuple[DemoPage, str]:
        """Open the page of the played bridge, and return it with its address."""
        page = DemoPage(self.bridge, self.player.seconds, "", Path(__file__).parent / "web")
        page.lines = self.player.counted
        self.runner = web.AppRunner(page.application(), access_log=None)
        await self.runner.setup()
        listener = socket.create_server((HOST, 0))
        await web.SockSite(self.runner, listener, shutdown_timeout=0.2).start()
        return page, f"http://{HOST}:{listener.getsockname()[1]}/"

    async def _start_counter(self, terminal: str, office: str, page: str) -> tuple[str, str]:
        """Return the address of the clerk's page, and that of the port for a till."""
        setup = self.folder / "counter.toml"
        for left in reversed(range(TRIES)):
            listen, till, display = (f"{HOST}:{free_port()}" for _ in range(3))
            values = {
                "demo": True,
                "serial": DEMO,
                "demo_page": page,
                "listen": listen,
                "terminal": terminal,
                "office": office,
                "state": str(self.folder / "counter"),
                "company": "Played weighbridge",
                "interval": INTERVAL,
                "max": MAX,
                "zone": zone_here(),
                "language": language_here(),
            }
            ports = {"till": (till, "change"), "display": (display, "read")}
            setup.write_text(toml_of(values, ports), encoding="utf-8")
            log = self.folder / "counter.log"
            part = Part(
                "the counter", [self.programs.counter, str(setup)], log, COUNTER_ENDS_WITHIN
            )
            if await self._begins(part, listen, PORT_IS_TAKEN, left):
                return f"http://{listen}/", till
        raise AssertionError

    async def _begins(self, part: Part, address: str, is_taken: str, left: int) -> bool:
        """Start the part, and wait until it listens there. Return False if another program took a port, unless no try is left. Raises PartFault."""
        self.parts.append(part)
        await part.start()
        host, _, port = address.partition(":")
        until = time.monotonic() + STARTS_WITHIN
        while part.is_running():
            if time.monotonic() > until:
                raise PartFault(
                    f"{part.name} doesn't listen on {address} within {STARTS_WITHIN:g} s; see {part.log}"
                )
            with contextlib.suppress(OSError):
                _, writer = await asyncio.open_connection(host, int(port))
                writer.close()
                if part.is_running():
                    return True
            await asyncio.sleep(LOOK_EVERY)
        if left == 0 or is_taken not in "\n".join(part.last_lines()):
            raise part.fault()
        self.parts.remove(part)
        return False

    async def _set_zero(self, clerk: str) -> None:
        """Set zero on the empty bridge, as an operator does in the morning. Raises PartFault."""
        until, said = time.monotonic() + ZERO_WITHIN, ""
        timeout = aiohttp.ClientTimeout(total=ANSWERS_WITHIN)
        async with aiohttp.ClientSession(timeout=timeout) as session:
            while time.monotonic() < until:
                self.refuse_ended()
                with contextlib.suppress(aiohttp.ClientError, asyncio.TimeoutError):
                    async with session.get(f"{clerk}health") as answer:
                        is_up = answer.status == 200
                    if is_up:
                        async with session.post(f"{clerk}zero") as answer:
                            said = str((await answer.json()).get("said"))
                        if said == "Z A":
                            return
                await asyncio.sleep(4 * LOOK_EVERY)
        raise PartFault(
            f"the counter gives no weight within {ZERO_WITHIN:g} s (zero: {said or 'not asked'}); see {self.folder}/counter.log and service.log"
        )

    def refuse_ended(self) -> None:
        """Raises PartFault if a part has ended."""
        for it in self.parts:
            if not it.is_running():
                raise it.fault()

    def _hear(self, name: str, what: Any) -> None:
        if name == "lists" or name == "entry":
            self.bridge.told_on_site({it["plate"]: it["gross"] for it in what["on_site"]})
        if name == "entry" and what["entry"]["kind"] != "void":
            self.bridge.weighed(self.player.seconds(), what["entry"])

    # ---- while it runs, and its end

    async def ends_by_itself(self) -> None:
        """Wait until a part ends unexpectedly. Raises PartFault, or what a task raised."""
        waiting = [asyncio.ensure_future(it.ended()) for it in self.parts]
        try:
            done, _ = await asyncio.wait(
                [*waiting, *self.tasks], return_when=asyncio.FIRST_COMPLETED
            )
        finally:
            for it in waiting:
                it.cancel()
        for task in done & set(self.tasks):
            task.result()
        self.refuse_ended()

    async def end(self) -> None:
        """End the counter, then the service and the converter."""
        for it in self.tasks:
            it.cancel()
        if self.runner is not None:
            await self.runner.cleanup()
        for part in reversed(self.parts):
            await part.end()

    def kill(self) -> None:
        """Kill all parts at once."""
        for it in self.parts:
            it.send(signal.SIGKILL)


def zone_here() -> str:
    """Return the name of this machine's time zone; UTC if it isn't known."""
    with contextlib.suppress(OSError):
        name = os.path.realpath("/etc/localtime").partition("/zoneinfo/")[2]
        if name and os.path.isfile(f"/usr/share/zoneinfo/{name}"):
            return name
    return "UTC"


def language_here() -> str:
    """Return the language of this user's locale if the page has it, else English."""
    names = (os.environ.get(it, "")[:2] for it in ("LC_ALL", "LC_MESSAGES", "LANG"))
    return next((it for it in names if it in LANGUAGES), "en")


def toml_of(values: dict[str, Any], ports: dict[str, tuple[str, str]]) -> str:
    """Return the setup of the counter. A text, a number and a flag are the same in JSON and in TOML."""
    lines = [f"{key} = {json.dumps(value, ensure_ascii=False)}" for key, value in values.items()]
    for name, (listen, may) in ports.items():
        lines += ["", "[[port]]", f'name = "{name}"', f'listen = "{listen}"', f'may = "{may}"']
    return "\n".join(lines) + "\n"
