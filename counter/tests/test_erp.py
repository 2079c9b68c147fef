"""The program of docs/erp.md gets each ticket once, over restarts of the program, lost answers and another journal."""

import asyncio
import contextlib
import os
import re
import signal
import sqlite3
import sys
import tempfile
from pathlib import Path

from .served import FOLDER, WithCounter

PAGE = FOLDER.parent / "docs" / "erp.md"


def program() -> str:
    (found,) = re.findall(r"^```python\n(.*?)^```$", PAGE.read_text(encoding="utf-8"), re.M | re.S)
    return str(found)


def end(process: asyncio.subprocess.Process) -> None:
    """Kill a program that a test left."""
    with contextlib.suppress(ProcessLookupError):
        os.kill(process.pid, signal.SIGKILL)


class TheProgram(WithCounter):
    async def asyncSetUp(self) -> None:
        await super().asyncSetUp()
        folder = tempfile.TemporaryDirectory()
        self.addCleanup(folder.cleanup)
        self.script, self.path = Path(folder.name) / "fetch.py", Path(folder.name) / "erp.db"
        self.script.write_text(program().replace("PAUSE = 5 ", "PAUSE = 0.1 "), encoding="utf-8")

    async def start(self) -> asyncio.subprocess.Process:
        process = await asyncio.create_subprocess_exec(
            sys.executable,
            str(self.script),
            f"http://127.0.0.1:{self.port}",
            str(self.path),
            stdin=asyncio.subprocess.DEVNULL,
            stdout=asyncio.subprocess.DEVNULL,
            stderr=asyncio.subprocess.DEVNULL,
        )
        self.addCleanup(end, process)
        return process

    async def kill(self, process: asyncio.subprocess.Process) -> None:
        self.assertIsNone(process.returncode, "the program still runs")
        process.kill()
        await process.wait()

    def stored(self) -> list[tuple[object, ...]]:
        try:
            with sqlite3.connect(f"file:{self.path}?mode=ro", uri=True) as database:
                return database.execute(
                    "SELECT number, digest, net_kg, sound, plate, direction FROM ticket"
                ).fetchall()
        except sqlite3.OperationalError:
            return []  # its tables aren't made yet

    def place(self) -> list[tuple[object, ...]]:
        """Return what the program sends next: the journal, and the number up to which it has everything."""
        with contextlib.closing(sqlite3.connect(f"file:{self.path}?mode=ro", uri=True)) as database:
            return database.execute("SELECT journal, after FROM place").fetchall()

    async def single(self, plate: str) -> None:
        await self.drives_on(18340)
        form = f"key={plate}&kind=single&plate={plate}&tare=5000"
        answer = await self.post("/weighings", form)
        self.assertEqual(201, answer.status, answer.body)
        await self.until(lambda: self.service.scale.tare == 0)

    async def test_each_ticket_is_fetched_once(self) -> None:
        process = await self.start()
        await self.single("A-1")
        await self.until(lambda: len(self.stored()) == 1)
        self.assertEqual([(1, self.service.rows[0][10], 13340, 1, "A-1", None)], self.stored())
        await self.kill(process)
        await self.single("A-2")
        process = await self.start()
        await self.until(lambda: len(self.stored()) == 2)
        await self.kill(process)
        with contextlib.closing(sqlite3.connect(self.path)) as database, database:
            database.execute("DELETE FROM ticket WHERE number = 2")
        journal = self.counter.books.journal
        journal.identifier = 32 * "a"  # as if an older copy was restored, with another ticket 2
        process = await self.start()
        await self.until(lambda: len(self.stored()) == 2)
        await self.single("A-3")
        await self.until(lambda: len(self.stored()) == 3)
        self.assertEqual([1, 2, 3], sorted(it[0] for it in self.stored()))
        self.counter.books.lists.is_of_export = False  # as after a start of the counter
        await asyncio.sleep(0.4)
        self.counter.books.lists.is_of_export = True
        await self.single("A-4")
        await self.until(lambda: len(self.stored()) == 4)
        await self.until(lambda: self.place() == [(32 * "a", 4)])
        await self.kill(process)

    def test_it_has_at_most_forty_lines(self) -> None:
        self.assertLessEqual(len(program().splitlines()), 40)
