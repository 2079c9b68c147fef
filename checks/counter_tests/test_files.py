"""The counter's own files on a disk that is full, read-only or slow, or loses its power, and its lists after the journal was exchanged."""

import glob
import os
import re
import shutil
import signal
import subprocess
import time
from collections.abc import Callable, Iterator
from contextlib import contextmanager
from pathlib import Path
from typing import Any

from checks.lib.case import PROGRAM
from checks.lib.counter import NO_TARE
from checks.lib.counter_case import AtTheCounter, CounterCheck
from checks.lib.journal import spend
from checks.lib.small_disk import SmallDisk

SLOW = 3  # seconds that each fsync takes
NOT_NOTED = (503, "counter no_file\n")
NOT_WRITTEN, WRITTEN_AGAIN = "it can't be written", "is written again"


class Disk(CounterCheck):
    """A disk that takes nothing. Each reply and answer stays the same, but a tare that can't be noted is refused before it is set."""

    needs = (PROGRAM, "aiohttp", "prometheus_client")
    seconds = 60

    def setUp(self) -> None:
        self.bridge = self.new_bridge(20)
        try:
            self.disk = self.enterContext(SmallDisk(f"{self.bridge.folder}/state", "512k"))
        except subprocess.CalledProcessError:
            self.skipTest("this user can't mount a disk")
        self.bridge.start_counter()

    def test_full(self) -> None:
        self.takes_nothing("full", self.disk.fill, self.disk.empty)

    def test_read_only(self) -> None:
        self.takes_nothing("read-only", self.disk.make_read_only, self.disk.make_writable)

    def takes_nothing(self, what: str, begin: Callable[[], None], end: Callable[[], None]) -> None:
        bridge = self.bridge
        bridge.put(0)  # meanwhile the counter has removed what a start finds
        begin()
        self.weighs_on(what)
        time.sleep(3)
        found = self.lines_of(f"zero.json: {NOT_WRITTEN}")
        is_so = len(found) == 1 and "look at the disk" in found[0]
        self.holds(f"{what}: the log names each file once, with what to do", is_so, found)
        bridge.restart_counter()
        status = bridge.weigh_next(9170, f"{what}-start", "first", f"S-{what}".upper())[0]
        self.same(f"{what}: a counter that is started on it weighs", 201, status)
        bridge.put(0)
        bridge.ask("POST", "/zero")
        self.comes(f"{what}: and reports the fault again", lambda: "files" in self.faults())
        before = len(self.lines_of(WRITTEN_AGAIN))
        end()
        self.is_over(what)
        after = len(self.lines_of(WRITTEN_AGAIN))
        self.holds(f"{what}: and the log says that it is over", after > before)

    def lines_of(self, words: str) -> list[str]:
        """Return the lines of the counter's log that have these words."""
        log = Path(self.bridge.folder, "counter.log").read_text(encoding="utf-8")
        return [it for it in log.split("\n") if words in it]

    def faults(self) -> set[str]:
        return set(self.bridge.health()["faults"])

    def weighs_on(self, what: str) -> None:
        """Show that everything except a tare still works, with the scale's replies and the office's texts."""
        bridge = self.bridge
        bridge.put(0)
        said = bridge.ask("POST", "/zero")[1]
        answers = f"{what}: zero by the page is answered as the scale answers it"
        self.same(answers, '{"said": "Z A"}', said)
        files = self.comes(f"{what}: the fault stands in /health", lambda: bridge.health()["files"])
        zero = f"{bridge.folder}/state/zero.json"
        self.same(f"{what}: which says of which file", [zero], list(files))
        self.same(f"{what}: and it is a fault", True, "files" in self.faults())
        self.same(f"{what}: zero by a till, too", "Z A", bridge.terminal_says("till", "Z"))
        told = bridge.weigh_next(9170, f"{what}-tare", "single", "T-1", 5000)
        self.same(f"{what}: a weighing with a tare is refused", NOT_NOTED, told)
        self.same(f"{what}: before anything was set", NO_TARE, bridge.tare())
        is_there = bridge.has_key(f"{what}-tare")
        self.same(f"{what}: and nothing of it went to the office", False, is_there)
        form = (f"{what}-first", "first", f"F-{what}".upper())
        told = (201, bridge.weigh(*form)[1])
        again = bridge.weigh(*form, port=bridge.office)
        self.same(f"{what}: a First is answered byte for byte", told, again)
        kept = bridge.ask("PUT", "/tares/AB-12", body='{"kg": 5000}')[:2]
        self.same(f"{what}: a tare isn't kept", (503, '{"why": "no_file"}'), kept)
        self.comes(f"{what}: and papers can't be noted", lambda: "papers" in self.faults())
        self.same(f"{what}: it can weigh", True, bridge.health()["can_weigh"])

    def is_over(self, what: str) -> None:
        bridge, ends = self.bridge, f"{what}: the fault ends automatically"
        self.becomes(ends, set(), lambda: self.faults() & {"files", "papers"})
        status, text = bridge.weigh_next(9170, f"{what}-after", "single", "T-2", 5000)
        is_so = status == 201 and "PT       5000 kg\n" in text
        self.holds(f"{what}: then a weighing with a tare is stored", is_so, text)
        self.same(f"{what}: and cleared", NO_TARE, bridge.tare())
        self.same(f"{what}: a tare is kept", 200, bridge.keep_tare("AB-12", 5000))
        zero = Path(bridge.folder, "state/zero.json").read_text(encoding="utf-8")
        self.same(f"{what}: the zero is on the disk", True, '"is_set": true' in zero)


class Synced(AtTheCounter):
    """The order in which changes reach the disk, and a slow disk. It measures time, so nothing else runs then."""

    needs = (PROGRAM, "aiohttp", "prometheus_client", "strace")
    alone = True
    pace = 20
    seconds = 40

    @contextmanager
    def traced(self, *words: str) -> Iterator[str]:
        """Attach strace to the counter until the end of the block. Give the path of its log."""
        log = f"{self.bridge.folder}/strace.log"
        pid = str(self.bridge.process.pid)
        tracing = subprocess.Popen(
            ["strace", "-f", "-y", "-o", log, *words, "-p", pid], stderr=subprocess.PIPE, text=True
        )
        assert tracing.stderr is not None  # it is a pipe
        with tracing.stderr:
            self.holds("strace is there", "attached" in tracing.stderr.readline())
            try:
                yield log
            finally:
                tracing.send_signal(signal.SIGINT)
                tracing.wait()

    def test_slow_disk(self) -> None:
        """Show that nobody waits for an fsync that takes `SLOW` seconds."""
        bridge = self.bridge
        delay = f"inject=fsync,fdatasync:delay_enter={SLOW}s"
        with self.traced("-e", "trace=fsync,fdatasync", "-e", delay):
            bridge.put(0)
            with self.within("at once", 1):
                what = "a slow disk: zero is answered as the scale answers it"
                self.same(what, '{"said": "Z A"}', bridge.ask("POST", "/zero")[1])
            bridge.next_vehicle(9170)
            what = "a slow disk: the fault stands in /health"
            self.comes(what, lambda: "takes longer than" in str(bridge.health()["files"]))
            with self.within("in time", 2):
                told = bridge.weigh("slow-tare", "single", "T-1", 5000)
                self.same("a slow disk: a weighing with a tare is refused", NOT_NOTED, told)
            with self.within("as fast as ever", 1):
                status = bridge.weigh("slow-first", "first", "SLOW-1")[0]
                self.same("a slow disk: a First is stored", 201, status)
            moments = [it["at"] for name, it in bridge.events(4) if name == "weight"]
            gaps = [after - before for before, after in zip(moments, moments[1:])]
            what = "a slow disk: no weight waits for it"
            self.holds(what, bool(gaps) and max(gaps) < 700, f"{max(gaps, default=0)} ms at most")
        what = "a slow disk: the fault ends automatically"
        self.becomes(what, False, lambda: "files" in bridge.health()["faults"])

    @contextmanager
    def within(self, what: str, seconds: float) -> Iterator[None]:
        """Show that the block takes less than `seconds`."""
        began = time.monotonic()
        yield
        took = time.monotonic() - began
        self.holds(f"a slow disk: {what}", took < seconds, f"{took:.2f} s")

    def test_order(self) -> None:
        """Show in which order a change reaches the disk, so that a power cut leaves a whole file.

        A file is renamed once it is on the disk, and then its folder is synced. The folder is synced even if a tare is dropped.
        """
        bridge = self.bridge
        bridge.put(0)  # meanwhile the counter has removed what a start finds
        with self.traced("-e", "trace=fsync,rename,renameat,renameat2,unlink,unlinkat") as log:
            self.same("a tare is kept", 200, bridge.keep_tare("CUT-1", 5000))
            self.same("and dropped", 200, bridge.ask("DELETE", "/tares/CUT-1")[0])
            status = bridge.weigh_next(9170, "cut-1", "single", "CUT-1", 5000)[0]
            self.same("a Single with its tare", 201, status)

            def calls_on(name: str) -> list[str]:
                with open(log, encoding="utf-8") as file:
                    calls = [call_of(it, f"{bridge.folder}/state") for it in file]
                return following([it for it in calls if it], name)

            noted = ["fsync act.json.new", "rename act.json", "fsync ."]
            what = "and the note of a tare, including its removal"
            noted += ["unlink act.json", "fsync ."]
            self.becomes(what, noted, lambda: calls_on("act.json")[-5:])
            changes = ["fsync tares.json.new", "rename tares.json", "fsync ."] * 2
            what = "each change of tares.json is the file, its name, its folder"
            self.same(what, changes, calls_on("tares.json"))


def call_of(line: str, folder: str) -> str | None:
    """Return a call on the folder or one of its files as its name and that file. Return None for any other call, and for the end of one that another interrupted."""
    found = re.search(
        r"(fsync)\(\d+<([^>]*)>|(rename|unlink)\w*\((?:AT_FDCWD[^,]*, )?\"([^\"]*)\"(?:, (?:AT_FDCWD[^,]*, )?\"([^\"]*)\")?",
        line,
    )
    if not found:
        return None
    name, path = (found[1], found[2]) if found[1] else (found[3], found[5] or found[4])
    is_there = path == folder or os.path.dirname(path) == folder
    return f"{name} {os.path.relpath(path, folder)}" if is_there else None


def following(calls: list[str], name: str) -> list[str]:
    """Return the calls on one file. Each rename or removal is followed by the next call in the folder."""
    found = []
    for it, after in zip(calls, [*calls[1:], ""]):
        if it.split(" ")[1] in (name, f"{name}.new"):
            found += [it] if it.startswith("fsync") else [it, after]
    return found


class Journal(AtTheCounter):
    """A journal that is purged, or exchanged for another one."""

    needs = (PROGRAM, "aiohttp", "prometheus_client")
    pace = 20
    seconds = 60

    def plates(self, which: str) -> list[str]:
        """Return the plates of a list, the newest first."""
        return [it["plate"] for it in self.bridge.event("lists")[which]]

    def exchange(self, change: Callable[[str], None]) -> None:
        """Stop the service, change its files, and start it again."""
        self.bridge.put(0)
        self.bridge.kill_service()
        change(f"{self.bridge.folder}/journal.db")
        self.bridge.start_service()
        self.bridge.wait_until_up()

    def told(self) -> tuple[str, int, int] | None:
        """Return what the counter says of another journal: why, and the newest number before and now."""
        it: Any = self.bridge.state()["journal_changed"]
        return (it["why"], it["before"], it["now"]) if it else None

    def pair(self, plate: str) -> int:
        self.bridge.weigh_next(9170, f"{plate}-1", "first", plate)
        return self.bridge.weigh_next(4070, f"{plate}-2", "second", plate)[0]

    def weigh_in(self, key: str, plate: str) -> int:
        return self.bridge.weigh_next(9170, key, "first", plate)[0]

    def test_another_journal(self) -> None:
        """Show that the counter reports no purge as another journal, but a new file and an older copy, until a clerk closes it."""
        self.after_a_purge()
        self.after_an_older_copy()
        self.after_a_new_file()

    def after_a_purge(self) -> None:
        bridge = self.bridge
        for plate in ("P-1", "P-2", "P-3"):
            self.same(f"{plate} is weighed in and out", 201, self.pair(plate))
        self.becomes("they are on the lists", 6, lambda: len(self.plates("today")))
        exports = bridge.metric("exports_total")
        self.exchange(purged(2))
        what = "after a purge of a part the lists are read again"
        self.comes(what, lambda: bridge.metric("exports_total") > exports)
        what = "they have what stays, and the counter reports nothing"
        self.same(what, (["P-3", "P-3", "P-2", "P-2"], None), (self.plates("today"), self.told()))
        self.exchange(purged(6))
        what = "after a purge of everything a vehicle is weighed in"
        self.same(what, 201, self.weigh_in("after-purge", "Q-7"))
        refused = bridge.json("GET", "/papers")["refused"]
        self.same("its paper isn't taken for a changed text", None, refused)
        bridge.put(0)
        self.becomes("the lists have it, and nothing else", ["Q-7"], lambda: self.plates("today"))
        what = "and the counter reports at most that no entry is left"
        self.holds(what, self.told() in (None, ("empty", 6, 0)), self.told())
        bridge.ask("POST", "/lists/seen")

    def after_an_older_copy(self) -> None:
        bridge, copy = self.bridge, f"{self.bridge.folder}/copy-of-the-journal"
        self.exchange(lambda path: copied(path, copy))
        self.weigh_in("after-copy-1", "Q-8")
        self.weigh_in("after-copy-2", "Q-9")
        self.same("two more are on site", ["Q-9", "Q-8", "Q-7"], self.plates("on_site"))
        self.exchange(lambda path: restored(copy, path))
        what = "after an older copy was restored only its vehicles are on site"
        self.becomes(what, ["Q-7"], lambda: self.plates("on_site"))
        changed = ("shorter", 9, 7)
        self.same("the counter reports it, with the numbers", changed, self.told())
        faults = bridge.health()["faults"]
        self.same("and /health names it", True, "journal_changed" in faults)
        bridge.restart_counter()
        self.same("even after the counter was started again", changed, self.told())
        status = bridge.ask("POST", "/lists/seen")[0]
        self.same("a clerk closes it", (200, None), (status, self.told()))

    def after_a_new_file(self) -> None:
        bridge = self.bridge
        self.exchange(removed)
        self.weigh_in("new-1", "NEW-1")
        what = "after a new file Today has its papers and no older ones"
        self.becomes(what, ["NEW-1"], lambda: self.plates("today"))
        self.same("On site too", ["NEW-1"], self.plates("on_site"))
        told = self.told()
        is_told = told in (("empty", 7, 0), ("shorter", 7, 1))
        self.holds("and the counter reports it", is_told, told)
        is_found = bridge.json("GET", "/keys/after-purge")["found"]
        self.same("a key of the file before isn't found", False, is_found)
        refused = bridge.json("GET", "/papers")["refused"]
        self.same("the paper of the new file isn't refused", None, refused)


def purged(until: int) -> Callable[[str], None]:
    """Return a change that removes the entries up to `until` as a purge does. Their numbers and keys stay as spent ones."""

    return lambda path: spend(path, until)


def copied(path: str, folder: str) -> None:
    os.mkdir(folder)
    for it in glob.glob(f"{path}*"):
        shutil.copy(it, folder)


def restored(folder: str, path: str) -> None:
    removed(path)
    for it in glob.glob(f"{folder}/*"):
        shutil.copy(it, os.path.dirname(path))


def removed(path: str) -> None:
    for it in glob.glob(f"{path}*"):
        os.unlink(it)
