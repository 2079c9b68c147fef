"""The counter's own files. None is a legal record.

If this program is killed or the power fails, each file has either its new content or its old content, always whole.

A disk that is full, read-only or hangs delays nobody and changes no answer, because a thread of its own writes the files, in the order of the calls.
Memory keeps what each file should say. If a write fails, the counter tries it again each second until the disk has it. The counter logs a fault
once, and logs once more when the fault is over.
"""

import asyncio
import functools
import json
import os
import queue
import sys
import threading
from collections import Counter
from collections.abc import Awaitable, Callable
from pathlib import Path
from typing import Any

from weighbridge_paper.devices import sync_folder

TRY_EVERY = 1.0  # seconds
SLOW_AFTER = 1.0  # seconds: a write that takes longer is a fault
WHAT_TO_DO = "look at the disk. Weighing continues, but the counter refuses each weighing with its own tare and can't keep a tare"
Beside = Callable[[Callable[[], None]], Awaitable[None]]


class NoFile(OSError):
    """Raised if a file couldn't be written. Its new content isn't on the disk, and nothing else was done."""


def store(path: Path, what: Any) -> None:
    """Write `what` into a file, or remove the file if `what` is None. Once this returns, a power cut can't undo it."""
    if what is None:
        path.unlink(missing_ok=True)
    else:
        new = path.with_name(path.name + ".new")
        try:
            with open(new, "w", encoding="utf-8") as file:
                json.dump(what, file)
                file.flush()
                os.fsync(file.fileno())
            os.replace(new, path)
        except OSError:
            new.unlink(missing_ok=True)  # this file may be what fills the disk
            raise
    sync_folder(path.parent)


def found_in(path: Path) -> Any:
    """Return what a file says. Return None if it is missing, or if it can't be read, which is logged."""
    try:
        return json.loads(path.read_text(encoding="utf-8"))
    except FileNotFoundError:
        return None
    except (OSError, ValueError, RecursionError) as fault:
        tell(f"{path}: it can't be read, because {why_of(fault)}; the counter treats it as missing")
        return None


def why_of(fault: Exception) -> str:
    return fault.strerror if isinstance(fault, OSError) and fault.strerror else str(fault)


def tell(line: str) -> None:
    print(f"counter: {line}", file=sys.stderr, flush=True)


class Thread:
    """Runs one call after another in a thread of its own. The program can end while a call hangs there."""

    def __init__(self) -> None:
        self.asked: queue.SimpleQueue[
            tuple[Callable[[], None], Callable[[Exception | None], None]]
        ] = queue.SimpleQueue()
        self.is_running = False

    async def __call__(self, work: Callable[[], None]) -> None:
        loop = asyncio.get_running_loop()
        done: asyncio.Future[None] = loop.create_future()

        def conclude(fault: Exception | None) -> None:
            if not done.done():
                done.set_result(None) if fault is None else done.set_exception(fault)

        def say(fault: Exception | None) -> None:
            if not loop.is_closed():
                loop.call_soon_threadsafe(conclude, fault)

        self.asked.put((work, say))
        if not self.is_running:
            self.is_running = True
            threading.Thread(target=self._work, name="files", daemon=True).start()
        await done

    def _work(self) -> None:
        while True:
            work, say = self.asked.get()
            try:
                work()
                say(None)
            except Exception as fault:
                say(fault)


class Files:
    """The counter's files. `says` has what each should say. `behind` names the files whose content may not be on the disk yet."""

    def __init__(self, folder: Path, beside: Beside | None = None) -> None:
        self.folder, self.beside = folder, beside or Thread()
        if not folder.is_dir():
            folder.mkdir(mode=0o700, parents=True, exist_ok=True)
            sync_folder(folder.parent)
        self.says: dict[str, Any] = {}
        self.changes: Counter[str] = Counter()  # by file: how often what it should say has changed
        self.behind: set[str] = set()
        self.stuck: set[int] = set()  # writes that take too long and haven't returned
        self.writes = 0
        self.faults: dict[str, str] = {}  # by file: why what it should say isn't on the disk
        self.something = asyncio.Event()
        self.on_change: Callable[[], None] = lambda: None

    def path(self, name: str) -> Path:
        return self.folder / name

    def has(self, name: str) -> bool:
        return self.read(name) is not None

    def read(self, name: str) -> Any:
        """Return what the file should say. Only the first call for a file reads the disk."""
        if name not in self.says:
            self.says[name] = found_in(self.path(name))
        return self.says[name]

    def keep(self, name: str, what: Any) -> None:
        """Write `what` into the file as soon as the disk takes it, or remove the file if `what` is None. Don't wait for the disk."""
        self._change(name, what)
        self.behind.add(name)
        self.something.set()

    async def write(self, name: str, what: Any, within: float) -> None:
        """Write `what` into the file and wait until the disk has it.

        Raises NoFile if that fails or takes longer than `within` seconds. The file then keeps its old content, or gets it back.
        """
        if self.stuck:
            raise NoFile(f"{self.path(name)}: the disk hasn't taken what was written before")
        before = self.read(name)
        self._change(name, what)
        task = asyncio.ensure_future(self._bring(name))
        try:
            await asyncio.wait_for(asyncio.shield(task), within)
        except (OSError, asyncio.TimeoutError):
            task.add_done_callback(lambda it: it.exception())
            self.keep(name, before)
            raise NoFile(
                f"{self.path(name)}: {self.faults.get(name, 'the disk takes too long')}"
            ) from None

    async def run(self) -> None:
        """Write the files that are behind. If that fails, try again each second."""
        while True:
            await self.something.wait()
            self.something.clear()
            if not await self.bring():
                await asyncio.sleep(TRY_EVERY)
                self.something.set()

    async def bring(self) -> bool:
        """Try once to write each file that is behind. Return True if no write failed."""
        is_well = True
        for name in sorted(self.behind):
            try:
                await self._bring(name)
            except OSError:
                is_well = False
        return is_well

    async def taken(self, within: float) -> None:
        """Wait up to `within` seconds until the disk has the files that are behind. A fault of the disk isn't raised."""
        if self.behind and not self.stuck:
            await asyncio.wait([asyncio.ensure_future(self.bring())], timeout=within)

    def _change(self, name: str, what: Any) -> None:
        self.says[name] = what
        self.changes[name] += 1

    async def _bring(self, name: str) -> None:
        change, self.writes = self.changes[name], self.writes + 1
        own = self.writes

        def is_slow() -> None:
            self.stuck.add(own)
            self._fails(name, f"the disk takes longer than {SLOW_AFTER:g} s")

        slow = asyncio.get_running_loop().call_later(SLOW_AFTER, is_slow)
        try:
            await self.beside(functools.partial(store, self.path(name), self.says[name]))
        except OSError as fault:
            self._fails(name, why_of(fault))
            raise
        finally:
            slow.cancel()
            self.stuck.discard(own)
        if self.changes[name] == change:
            self.behind.discard(name)
            if self.faults.pop(name, None) is not None:
                tell(f"{self.path(name)}: it is written again")
                self.on_change()

    def _fails(self, name: str, why: str) -> None:
        if name not in self.faults:
            tell(f"{self.path(name)}: it can't be written, because {why}; {WHAT_TO_DO}")
        if self.faults.get(name) != why:
            self.faults[name] = why
            self.on_change()
