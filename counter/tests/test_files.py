"""The counter's own files on a disk that is full, read-only, hangs, or loses its power. Each reply and answer stays the same."""

import asyncio
import contextlib
import errno
import io
import json
import os
import tempfile
import unittest
import zoneinfo
from collections.abc import Callable
from pathlib import Path
from types import SimpleNamespace
from typing import Any
from unittest import mock

from aiohttp.test_utils import make_mocked_request
from weighbridge_counter.acts import ACT_FILE
from weighbridge_counter.counter import Counter
from weighbridge_counter.files import Files, NoFile, found_in, store
from weighbridge_counter.health import faults_of, health_of
from weighbridge_counter.metrics import metrics_of
from weighbridge_counter.papers import Printing
from weighbridge_counter.routes import Routes
from weighbridge_counter.setup import Setup
from weighbridge_counter.tares import Tares
from weighbridge_paper.layout import Template
from weighbridge_paper.printers import Papers

from .papers import USUAL
from .played import PlayedTerminal
from .test_acts import BODY, TICKET, Bridge, WithABridge

UTC = zoneinfo.ZoneInfo("UTC")
FAULTS = (errno.ENOSPC, errno.EROFS, errno.EIO)


class PlayedDisk:
    """A disk that takes writes, refuses them, or hangs until a test sets `goes_on`."""

    def __init__(self) -> None:
        self.fault: int | None = None
        self.goes_on, self.tries = asyncio.Event(), 0
        self.goes_on.set()

    async def __call__(self, work: Callable[[], object]) -> None:
        self.tries += 1
        await self.goes_on.wait()
        if self.fault is not None:
            raise OSError(self.fault, os.strerror(self.fault))
        work()


class OnADisk(WithABridge):
    def setUp(self) -> None:
        self.said = io.StringIO()
        told = contextlib.redirect_stderr(self.said)
        told.__enter__()
        self.addCleanup(told.__exit__, None, None, None)

    def bridge(self, *answers: tuple[int, str] | None) -> Bridge:
        bridge = super().bridge(*answers)
        self.disk = bridge.files.beside = PlayedDisk()
        return bridge

    def lines(self) -> list[str]:
        return [it for it in self.said.getvalue().split("\n") if it.startswith("counter: ")]


class TheWayToTheDisk(unittest.TestCase):
    def setUp(self) -> None:
        folder = tempfile.TemporaryDirectory()
        self.addCleanup(folder.cleanup)
        self.path = Path(folder.name) / "tares.json"

    def calls_of(self, work: Callable[[], object]) -> list[tuple[str, ...]]:
        """Return what reaches the disk, in its order."""
        calls: list[tuple[str, ...]] = []
        real = SimpleNamespace(fsync=os.fsync, replace=os.replace, unlink=os.unlink)

        def fsync(number: int) -> None:
            calls.append(("fsync", os.readlink(f"/proc/self/fd/{number}")))
            real.fsync(number)

        def replace(old: Path, new: Path) -> None:
            calls.append(("rename", str(old), str(new)))
            real.replace(old, new)

        def unlink(path: Path, **more: Any) -> None:
            calls.append(("unlink", str(path)))
            real.unlink(path, **more)

        with mock.patch.multiple(os, fsync=fsync, replace=replace, unlink=unlink):
            work()
        return calls

    def test_a_file_its_name_and_its_folder_reach_the_disk_in_this_order(self) -> None:
        new, folder = str(self.path) + ".new", str(self.path.parent)
        self.assertEqual(
            [("fsync", new), ("rename", new, str(self.path)), ("fsync", folder)],
            self.calls_of(lambda: store(self.path, {"AB-12": 5000})),
        )
        self.assertEqual(
            [("unlink", str(self.path)), ("fsync", folder)],
            self.calls_of(lambda: store(self.path, None)),
        )

    def test_after_any_failure_the_file_is_as_before_and_nothing_is_next_to_it(self) -> None:
        store(self.path, {"is": "old"})
        for name in (
            "weighbridge_counter.files.json.dump",
            "weighbridge_counter.files.os.fsync",
            "weighbridge_counter.files.os.replace",
        ):
            with mock.patch(name, side_effect=OSError(errno.ENOSPC, "full")), self.assertRaises(
                OSError
            ):
                store(self.path, {"is": "new"})
            self.assertEqual(
                ({"is": "old"}, [self.path.name]),
                (found_in(self.path), os.listdir(self.path.parent)),
                name,
            )

    def test_a_folder_that_can_not_be_synced_is_a_fault(self) -> None:
        with mock.patch(
            "weighbridge_counter.files.sync_folder", side_effect=OSError(errno.EIO, "broken")
        ), self.assertRaises(OSError):
            store(self.path, {"is": "new"})

    def test_a_file_that_is_none_of_the_counter_s_is_logged_and_ignored(self) -> None:
        for letters in (b"", b"{", b"\xff", b"[" * 100000):
            self.path.write_bytes(letters)
            with contextlib.redirect_stderr(io.StringIO()) as said:
                self.assertIsNone(found_in(self.path))
            self.assertIn("tares.json: it can't be read", said.getvalue())


class AFault(OnADisk):
    async def test_a_fault_is_logged_once_and_once_more_when_it_is_over(self) -> None:
        files = self.bridge().files
        for self.disk.fault in FAULTS:
            files.keep("zero.json", {"is_set": True})
            for _ in range(5):
                self.assertFalse(await files.bring())
        self.assertEqual(
            [
                f"counter: {files.path('zero.json')}: it can't be written, because {os.strerror(errno.ENOSPC)}; "
            ],
            [it.split("look at")[0] for it in self.lines()],
        )
        self.assertEqual(os.strerror(FAULTS[-1]), files.faults["zero.json"])
        self.disk.fault = None
        self.assertTrue(await files.bring())
        self.assertEqual(
            ([f"counter: {files.path('zero.json')}: it is written again"], {}),
            (self.lines()[1:], files.faults),
        )
        self.assertEqual({"is_set": True}, found_in(files.path("zero.json")))

    async def test_what_is_refused_is_not_made_up_for_later(self) -> None:
        files = self.bridge().files
        await files.write("tares.json", {"A": 1}, 1)
        self.disk.fault = errno.ENOSPC
        with self.assertRaises(NoFile):
            await files.write("tares.json", {"A": 1, "B": 2}, 1)
        self.disk.fault = None
        self.assertTrue(await files.bring())
        self.assertEqual(
            ({"A": 1}, {"A": 1}), (files.read("tares.json"), found_in(files.path("tares.json")))
        )

    async def test_a_write_that_hangs_is_refused_in_time_and_the_next_at_once(self) -> None:
        files = self.bridge().files
        self.disk.goes_on.clear()
        with mock.patch("weighbridge_counter.files.SLOW_AFTER", 0.05):
            with self.assertRaises(NoFile):
                await files.write("act.json", {"kg": 5000}, 0.1)
            tries = self.disk.tries
            for _ in range(100):
                with self.assertRaisesRegex(NoFile, "hasn't taken what was written before"):
                    await files.write("act.json", {"kg": 6000}, 60)
        self.assertEqual(
            (tries, ["the disk takes longer than 0.05 s"]),
            (self.disk.tries, list(files.faults.values())),
        )
        bringing = asyncio.ensure_future(files.bring())
        await asyncio.sleep(0)
        self.disk.goes_on.set()
        self.assertTrue(await bringing)
        self.assertEqual((None, {}), (found_in(files.path("act.json")), files.faults))

    async def test_a_newer_wish_is_not_lost_behind_an_older_write(self) -> None:
        files = self.bridge().files
        files.keep("act.json", None)
        self.disk.goes_on.clear()
        bringing = asyncio.ensure_future(files.bring())
        await asyncio.sleep(0)
        writing = asyncio.ensure_future(files.write("act.json", {"kg": 5000}, 1))
        for _ in range(5):
            await asyncio.sleep(0)
        files.keep("act.json", None)
        self.disk.goes_on.set()
        await asyncio.gather(bringing, writing)
        self.assertEqual({"act.json"}, files.behind)
        self.assertTrue(await files.bring())
        self.assertIsNone(found_in(files.path("act.json")))

    async def test_it_is_written_in_a_thread_that_holds_up_nobody(self) -> None:
        files = Files(Path(self.bridge().files.folder))
        running = asyncio.ensure_future(files.run())
        hangs = asyncio.Event()
        loop = asyncio.get_running_loop()

        def slow(path: Path, what: Any) -> None:
            import time

            loop.call_soon_threadsafe(hangs.set)
            time.sleep(0.3)
            store(path, what)

        with mock.patch("weighbridge_counter.files.store", slow):
            files.keep("zero.json", {"is_set": True})
            await asyncio.wait_for(hangs.wait(), 5)
            before = loop.time()
            await asyncio.sleep(0.01)
            self.assertLess(loop.time() - before, 0.2)
            for _ in range(200):
                if not files.behind:
                    break
                await asyncio.sleep(0.02)
        running.cancel()
        self.assertEqual({"is_set": True}, found_in(files.path("zero.json")))


class ATare(OnADisk):
    async def test_without_a_note_of_it_nothing_is_begun(self) -> None:
        for fault in FAULTS:
            bridge = self.bridge((201, TICKET))
            await bridge.until(bridge.acts.look())
            self.disk.fault = fault
            told = await self.weigh(bridge)
            self.assertEqual(
                (503, b"counter no_file\n", False), (told.status, told.body, told.is_sent)
            )
            self.assertEqual(
                ([], [], 0), (bridge.played.done, bridge.office.bodies, bridge.played.tare)
            )
            told = await self.weigh(bridge, b"key=K2&kind=first&plate=AB-12")
            self.assertEqual(
                (201, TICKET.encode()),
                (told.status, told.body),
                "a weighing without a tare still works",
            )

    async def test_a_note_that_hangs_keeps_nobody_waiting_at_the_terminal_or_the_office(
        self,
    ) -> None:
        bridge = self.bridge((201, TICKET), (201, TICKET))
        await bridge.until(bridge.acts.look())
        self.disk.goes_on.clear()
        with mock.patch("weighbridge_counter.acts.INTEND_WITHIN", 0.2):
            single = asyncio.ensure_future(bridge.acts.carry_out("/weighings", BODY))
            await asyncio.sleep(0.05)
            self.assertFalse(single.done() or bridge.acts.is_busy() or bridge.played.fanout.holder)
            first = asyncio.ensure_future(
                bridge.acts.carry_out("/weighings", b"key=K2&kind=first&plate=AB-12")
            )
            zero = asyncio.ensure_future(bridge.terminal.command("Z"))
            for _ in range(3):
                await asyncio.sleep(0)
                bridge.played.reading()
            self.assertEqual((201, ("Z A",)), ((await first).status, await zero))
            told = await single
        self.assertEqual((503, b"counter no_file\n", False), (told.status, told.body, told.is_sent))
        self.assertEqual(["Z"], bridge.played.done)
        self.disk.goes_on.set()
        self.assertTrue(await bridge.files.bring())
        self.assertIsNone(bridge.on_disk())

    async def test_an_answer_passes_byte_for_byte_though_its_end_can_not_be_noted(self) -> None:
        bridge = self.bridge((201, TICKET))

        def fails_from_now_on(line: str) -> str | None:
            if line.startswith("TA 5000"):
                self.disk.fault = errno.ENOSPC
            return PlayedTerminal.reply(bridge.played, line)

        bridge.played.reply = fails_from_now_on
        told = await self.weigh(bridge)
        self.assertEqual((201, TICKET.encode()), (told.status, told.body))
        self.assertEqual(
            (0, False, {"kg": 5000}),
            (bridge.played.tare, bridge.acts.may_be_left, bridge.on_disk()),
        )
        self.assertEqual([ACT_FILE], list(bridge.files.faults))
        bridge.played.fanout.ended()
        bridge.played.connect()
        bridge.played.reading(2)
        await bridge.until(bridge.acts.look())
        self.assertTrue(
            bridge.played.fanout.is_settled,
            "the counter checks a new connection, and everybody may ask",
        )
        self.disk.fault = None
        self.assertTrue(await bridge.files.bring())
        self.assertIsNone(bridge.on_disk())

    async def test_a_connection_that_begins_while_it_is_noted_takes_the_note_away_from_nobody(
        self,
    ) -> None:
        bridge = self.bridge((201, TICKET))
        await bridge.until(bridge.acts.look())
        running = asyncio.ensure_future(bridge.files.run())
        self.disk.goes_on.clear()
        single = asyncio.ensure_future(bridge.acts.carry_out("/weighings", BODY))
        for _ in range(5):
            await asyncio.sleep(0)
        look = asyncio.ensure_future(bridge.acts.look())
        seen: list[tuple[str, Any]] = []

        def reply(line: str) -> str | None:
            seen.append((line, bridge.on_disk()))
            return PlayedTerminal.reply(bridge.played, line)

        bridge.played.reply = reply
        for _ in range(5):
            await asyncio.sleep(0)
            bridge.played.reading()
        await look
        self.disk.goes_on.set()
        for _ in range(5):
            await asyncio.sleep(0)
        told = await bridge.until(single)
        running.cancel()
        self.assertEqual(
            (201, [("TA 5000 kg", {"kg": 5000})]),
            (told.status, [it for it in seen if it[0].startswith("TA ")]),
        )

    async def test_whoever_fails_over_an_answer_changes_none(self) -> None:
        for fault in (OSError(errno.ENOSPC, "full"), ValueError("no moment"), KeyError("x")):
            bridge = self.bridge((201, TICKET))
            bridge.acts.on_text.insert(0, mock.Mock(side_effect=fault))
            bridge.acts.on_answer = mock.Mock(side_effect=fault)
            told = await self.weigh(bridge, b"key=K1&kind=first&plate=AB-12")
            self.assertEqual(
                (201, TICKET.encode(), [TICKET]), (told.status, told.body, bridge.texts)
            )
        self.assertEqual(6, len(self.lines()))


class TheCounter(OnADisk):
    def counter(self) -> Any:
        folder = tempfile.TemporaryDirectory()
        self.addCleanup(folder.cleanup)
        counter: Any = Counter(Setup(state=Path(folder.name)), lambda address: None)
        self.disk = counter.files.beside = PlayedDisk()
        self.addCleanup(counter.printing.notes.shutdown)
        return counter

    async def test_a_zero_is_answered_as_the_scale_answers_it(self) -> None:
        for fault in (None, *FAULTS):
            bridge, counter = self.bridge(), self.counter()
            bridge.played.fanout.on_zero = counter.terminal.fanout.on_zero
            self.disk.fault = fault
            self.assertEqual(("Z A",), await bridge.until(bridge.terminal.command("Z")))
            self.assertEqual(
                (True, fault is None), (counter.zero.is_set, await counter.files.bring())
            )
            self.assertEqual(fault is not None, "files" in faults_of(counter))
            self.assertEqual(
                [] if fault is None else [os.strerror(fault)],
                list(health_of(counter)["files"].values()),
            )
            self.assertIn(
                f"weighbridge_counter_files_written {float(fault is None)}\n", metrics_of(counter)
            )

    async def test_the_fault_stops_no_weighing_and_is_over_by_itself(self) -> None:
        counter = self.counter()
        self.disk.fault = errno.ENOSPC
        with mock.patch("weighbridge_counter.files.TRY_EVERY", 0.01):
            running = asyncio.ensure_future(counter.files.run())
            counter.zero.was_set("anna")
            await asyncio.sleep(0.2)
            self.assertEqual((False, 1), (counter.state()["files_written"], len(self.lines())))
            self.assertGreater(self.disk.tries, 5)
            self.disk.fault = None
            await asyncio.sleep(0.1)
        running.cancel()
        self.assertEqual(
            (True, 2, "anna"),
            (
                counter.state()["files_written"],
                len(self.lines()),
                found_in(counter.files.path("zero.json"))["by"],
            ),
        )

    async def test_a_tare_that_can_not_be_noted_is_not_kept_and_none_is_dropped(self) -> None:
        counter = self.counter()
        routes = Routes(counter, Path("."))
        counter.terminal.is_in_doubt = lambda: False

        async def asked(method: str, plate: str) -> tuple[int, Any]:
            request = make_mocked_request(
                method,
                f"/tares/{plate}",
                headers={"Host": "127.0.0.1"},
                match_info={"plate": plate},
            )
            request._read_bytes = b'{"kg": 5000}'
            answer: Any = await routes.guarded(
                request, routes.keep_tare if method == "PUT" else routes.drop_tare
            )
            return answer.status, json.loads(answer.text)

        self.assertEqual((200, {}), await asked("PUT", "AB-1"))
        for self.disk.fault in FAULTS:
            self.assertEqual(
                [(503, {"why": "no_file"})] * 2,
                [await asked("PUT", "AB-2"), await asked("DELETE", "AB-1")],
            )
            self.assertEqual(
                (["AB-1"], ["AB-1"]),
                (list(counter.tares.kept), list(found_in(counter.files.path("tares.json")))),
            )
        self.disk.fault = None
        self.assertEqual((200, {}), await asked("DELETE", "AB-1"))
        self.assertEqual(
            {}, Tares(Files(counter.files.folder), counter.tares.today, 90, 60000).kept
        )


class TheNotesOfPapers(unittest.IsolatedAsyncioTestCase):
    async def becomes(self, look: Callable[[], object]) -> None:
        for _ in range(500):
            if look():
                return
            await asyncio.sleep(0.02)
        raise AssertionError("it doesn't become so")

    async def test_they_can_not_be_noted_at_the_start_and_then_can(self) -> None:
        with tempfile.TemporaryDirectory() as folder, contextlib.redirect_stderr(
            io.StringIO()
        ) as said:
            in_the_way = Path(folder) / "papers"
            in_the_way.write_text("a file where the folder should be")
            with mock.patch("weighbridge_counter.papers.TRY_EVERY", 0.02):
                printing = Printing(
                    Papers(in_the_way, Template(("Kieswerk",), (), "en", UTC)), lambda number: None
                )
                running = asyncio.ensure_future(printing.run())
                await self.becomes(printing.faults)
                printing.passed(USUAL["second"].text, {"key": "K2"})
                await self.becomes(lambda: not printing.tasks)
                self.assertEqual(
                    (False, 1), (printing.state()["is_writable"], said.getvalue().count("\n"))
                )
                in_the_way.unlink()
                await self.becomes(lambda: printing.state()["is_writable"])
            self.assertEqual(
                (2, True),
                (said.getvalue().count("\n"), "papers are noted again" in said.getvalue()),
                said.getvalue(),
            )
            self.assertTrue((await printing.for_browser(USUAL["second"].text))["is_original"])
            running.cancel()
            printing.end()
            printing.notes.shutdown()

    async def test_a_fault_of_noting_is_not_over_by_a_look(self) -> None:
        with tempfile.TemporaryDirectory() as folder, contextlib.redirect_stderr(
            io.StringIO()
        ) as said:
            printing = Printing(
                Papers(Path(folder), Template(("Kieswerk",), (), "en", UTC)), lambda number: None
            )
            with mock.patch.object(
                printing.spool, "take", side_effect=OSError("papers.db: database or disk is full")
            ):
                for _ in range(3):
                    with self.assertRaises(OSError):
                        await printing.for_browser(USUAL["second"].text)
                    await printing._show()
                    self.assertFalse(printing.state()["is_writable"])
            self.assertEqual(1, said.getvalue().count("\n"))
            printing.notes.shutdown()


if __name__ == "__main__":
    unittest.main()
