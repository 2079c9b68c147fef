"""Papers in the counter. If a printer is set up, each weighing prints automatically. A press prints it again. Threads note and print it, next to the event loop."""

import asyncio
import contextlib
import re
import threading
from collections.abc import Callable, Mapping
from concurrent.futures import ThreadPoolExecutor
from typing import Any, TypeVar

from weighbridge_paper.layout import ONCE, WITHDRAWS, Paper, Template, blocks_of, given_of
from weighbridge_paper.page import page_of
from weighbridge_paper.printers import Papers
from weighbridge_paper.printing import Worker, unprintable
from weighbridge_paper.spool import Job, Spool
from weighbridge_paper.text import ZEROS, NoText, Text, check_digests, read_text
from weighbridge_paper.words import LANGUAGES

from .files import tell
from .given import Given, Lines, changed, lines_in
from .once import is_own_void
from .setup import Setup

TRY_EVERY = 1.0  # seconds
SLOW_AFTER = 5.0  # seconds: a disk that takes longer is a fault
END_WITHIN = 3.0  # seconds for a paper that is being printed at the end
MOST_SHOWN = 100
MOST_GIVEN = 100_000  # entries, of which what was given is known; a journal has as many places
SHOWN = ("waits", "begun", "failed")
T = TypeVar("T")


def papers_of(setup: Setup) -> Papers:
    """Return the printers of the setup. Without any, the browser prints, with the company's name above."""
    if setup.papers is not None:
        return setup.papers
    language = setup.language if setup.language in LANGUAGES else "en"
    return Papers(
        setup.state / "papers", Template((setup.company, *setup.address), (), language, setup.zone)
    )


class Printing:
    def __init__(
        self,
        papers: Papers,
        digest_of: Callable[[int], str | None],
        first_of: Callable[[int], int | None] = lambda number: None,
        given: Given | None = None,
    ) -> None:
        """`digest_of` and `first_of` are what the lists know of a number: its digest, and the First that it closes. `given` is filled here."""
        self.papers, self.digest_of, self.first_of = papers, digest_of, first_of
        # opened later, because a disk that takes nothing must not stop weighing
        self.spool = Spool(papers.spool, is_opened=False)
        # one after another, in the order of the presses
        self.notes = ThreadPoolExecutor(1, "papers")
        self.something, self.is_over = [
            threading.Event() for _ in papers.printers
        ], threading.Event()
        self.threads: list[threading.Thread] = []
        self.tasks: set[asyncio.Task[None]] = set()
        self.refused: int | None = None  # the number of the last text that wasn't the office's
        self.jobs: list[dict[str, Any]] = []
        self.fault = ""  # why nothing can be noted
        self.given, self.is_given_known = given or Given(), False
        self.on_change: Callable[[], None] = lambda: None
        self.on_unlinked: Callable[[], None] = lambda: None
        try:
            self.spool.open()
            self._know_given(self._read_given())
        except OSError as fault:
            self._fails(str(fault))

    def _read_given(self) -> list[tuple[int, str, tuple[tuple[str, str], ...]]]:
        return self.spool.given(MOST_GIVEN)

    def _know_given(self, read: list[tuple[int, str, tuple[tuple[str, str], ...]]]) -> None:
        """Take the lines of before this start. Lines that came later replace them."""
        since, self.given.by_digest = self.given.by_digest, {}
        for number, digest, pairs in read:
            self.given.keep(number, digest, lines_in(pairs))
        self.given.by_digest.update(since)
        self.is_given_known = True

    # ---- what runs

    async def run(self) -> None:
        loop = asyncio.get_running_loop()
        changed = asyncio.Event()

        def tell() -> None:
            if not self.is_over.is_set():
                loop.call_soon_threadsafe(changed.set)

        for printer, something in zip(self.papers.printers, self.something):
            worker = Worker(self.spool, printer, tell)
            self.threads.append(
                threading.Thread(
                    target=self._work, args=(worker, something), name=printer.name, daemon=True
                )
            )
            self.threads[-1].start()
        changed.set()
        probing = asyncio.ensure_future(self._probe())
        try:
            while True:
                await changed.wait()
                changed.clear()
                await self._show()
        finally:
            probing.cancel()

    async def _probe(self) -> None:
        """After a fault, try regularly if papers can be noted again."""
        while True:
            await asyncio.sleep(TRY_EVERY)
            if self.fault:
                with contextlib.suppress(OSError):
                    await self._beside(self.spool.probe)
                    if not self.is_given_known:
                        self._know_given(await self._beside(self._read_given, is_note=False))

    def _work(self, worker: Worker, something: threading.Event) -> None:
        said = ""
        while not self.is_over.is_set():
            something.clear()
            try:
                while not self.is_over.is_set() and worker.turn(self.is_over.is_set):
                    pass
                if said:
                    tell(f"printer {worker.printer.name}: it is served again")
                said = ""
            except Exception as fault:  # a printer never ends the counter
                if said != (said := f"printer {worker.printer.name}: {fault!r}"):
                    tell(said)
                worker.on_change()
            something.wait(TRY_EVERY)

    def end(self) -> None:
        """Wait a little for the paper that is being printed."""
        self.is_over.set()
        for it in self.something:
            it.set()
        for thread in self.threads:
            thread.join(END_WITHIN)

    async def _beside(self, work: Callable[[], T], is_note: bool = True) -> T:
        """Run `work` on the database, outside the event loop.

        Raises OSError, and logs the fault once. Once a note is written, logs that the fault is over.
        """
        loop = asyncio.get_running_loop()
        slow = loop.call_later(
            SLOW_AFTER,
            self._fails,
            f"{self.spool.folder}: the disk takes longer than {SLOW_AFTER:g} s: look at it",
        )
        try:
            found = await loop.run_in_executor(self.notes, work)
        except OSError as fault:
            self._fails(str(fault))
            raise
        finally:
            slow.cancel()
        if self.fault and is_note:
            self.fault = ""
            tell(f"{self.spool.folder}: papers are noted again")
            self.on_change()
        return found

    def _fails(self, why: str) -> None:
        if not self.fault:
            tell(f"{why}. Until the disk works, no paper is printed; weighing continues")
        self.fault = why
        self.on_change()

    async def _show(self) -> None:
        with contextlib.suppress(OSError):
            self.jobs = await self._beside(self._look, is_note=False)
        self.on_change()

    def _look(self) -> list[dict[str, Any]]:
        return [shown(it) for it in self.spool.jobs(*SHOWN, most=MOST_SHOWN)]

    def _wake(self) -> None:
        for it in self.something:
            it.set()

    # ---- what is asked

    def passed(self, letters: str, asked: Mapping[str, str]) -> None:
        """Note the text that the office returned for a request with these fields, and print it. A text that comes again isn't printed again."""
        try:
            text = read_text(letters)
            own = text.own.number
            self._check(
                text, {own: asked["key"]} if "key" in asked else {}, self.digest_of(own - 1)
            )
        except NoText as fault:
            tell(f"a text of the office isn't printed: {fault}")
            numbers = [int(it) for it in letters.split()[2:3] if re.fullmatch("[0-9]{1,10}", it)]
            self.refused = numbers[0] if numbers else 0
            self.on_change()
            return
        # at once, so that the lists, which get the text next, show it
        once = ((ONCE, "1"),) if "once" in asked else ()
        is_quiet = text.own.kind == "void" and is_own_void(asked.get("key", ""))
        lines = self.given.take(text, asked)
        task = asyncio.ensure_future(self._take(text, lines, once, is_quiet))
        self.tasks.add(task)
        task.add_done_callback(self.tasks.discard)

    async def _take(
        self, text: Text, lines: Lines, once: tuple[tuple[str, str], ...], is_quiet: bool
    ) -> None:
        given = (*lines.items(), *once, *self._first_of_void(text))

        def note() -> None:
            is_new = not self.spool.is_known(text)
            paper = self.spool.take(text, given)
            if is_new and self.papers.by_itself is not None and not is_quiet:
                self.spool.put(paper, self.papers.by_itself)

        with contextlib.suppress(OSError):
            await self._noted(note)

    def _check(self, text: Text, keys: Mapping[int, str], before: str | None) -> None:
        """Check that the text's digest is that of its fields. Raises NoText if it isn't.

        After a purge of all entries there is no previous entry, so its digest may be zeros.
        """
        own = text.own.number
        try:
            check_digests(text, keys, {} if before is None else {own - 1: before})
        except NoText:
            self.on_unlinked()
            if before is None:
                raise
            check_digests(text, keys, {own - 1: ZEROS})

    def _first_of_void(self, text: Text) -> tuple[tuple[str, str], ...]:
        """Return what a Void's paper says of its First, if the lists know it."""
        first = self.first_of(text.own.number) if text.own.kind == "void" else None
        return () if first is None else ((WITHDRAWS, str(first)),)

    async def _noted(self, note: Callable[[], T]) -> T:
        found = await self._beside(note)
        self._wake()
        await self._show()
        return found

    async def print(self, letters: str, printer: str) -> int:
        """The number of the job. Raises NoText."""
        text = read_text(letters)
        first = self._first_of_void(text)
        return await self._noted(lambda: self.spool.put(self.spool.take(text, first), printer))

    async def for_browser(self, letters: str) -> dict[str, Any]:
        """Return what the page prints, once it is noted. Raise NoText."""
        text = read_text(letters)
        first = self._first_of_void(text)

        def note() -> dict[str, Any]:
            paper = self.spool.take(text, first)
            is_original, given = self.spool.elsewhere(paper)
            return {
                "is_original": is_original,
                "blocks": page_of(blocks_of(Paper(text, given, is_original), self.papers.template)),
            }

        return await self._noted(note)

    def unprintable(self, fields: Mapping[str, str]) -> str:
        """Return the letters of free lines that a printer can't print. Without a printer a browser prints, which has its own fonts."""
        lines = "".join(value for _, value in given_of(fields))
        return unprintable(lines, self.papers.printers)

    async def give(
        self, letters: str, fields: Mapping[str, str], is_printed_too: bool
    ) -> Lines | None:
        """Change what stands on an entry's paper besides its text, and return it. Return None if its original is printed. Raises NoText and OSError."""
        text = read_text(letters)
        own = text.own
        lines = changed(self.given.of(own.digest), fields)

        def note() -> bool:
            return self.spool.give(self.spool.take(text), tuple(lines.items()), is_printed_too)

        if not await self._noted(note):
            return None
        self.given.keep(own.number, own.digest, lines)
        return lines

    async def again(self, job: int) -> bool:
        return await self._noted(lambda: self.spool.again(job))

    async def drop(self, job: int) -> bool:
        return await self._noted(lambda: self.spool.drop(job))

    def state(self) -> dict[str, Any]:
        return {
            "printers": [it.name for it in self.papers.printers],
            "by_itself": self.papers.by_itself,
            "jobs": self.jobs,
            "refused": self.refused,
            "is_writable": not self.fault,
        }

    def faults(self) -> bool:
        return (
            bool(self.fault)
            or self.refused is not None
            or any(it["why"] or it["state"] == "failed" for it in self.jobs)
        )


def shown(job: Job) -> dict[str, Any]:
    return {
        "job": job.id,
        "number": job.text.own.number,
        "kind": job.text.own.kind,
        "plate": job.text.plate,
        "printer": job.printer,
        "state": job.state,
        "why": job.why,
    }
