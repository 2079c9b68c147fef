#!/usr/bin/env python3
"""Journals of version 1 as the program 1.0.0 left them: how they were made, and where they are.

Usage: version_one.py make PROGRAM FOLDER [ENTRIES]. PROGRAM is weighbridge 1.0.0; in FOLDER it makes `none`, `pair` and `purged`, each as the two
files of a journal, `.db` and `.db-wal`, and as that program's exports of it, `.journal.csv` and `.tickets.csv`, all packed by gzip. The vehicles are
weighed over sockets, under a clock of 2025, and the service is killed at the end, so that what it stored last stands in the log. With ENTRIES it
makes `many` alone, with so many Singles, in some twenty minutes for 90,000, by what 300 took. It needs faketime. checks/data/version_1 was made so, by the program of the last
commit before version 2 of the journal.

       version_one.py unpack NAME PATH. It puts the two files of a journal that is kept there at PATH, and its exports beside them.
"""

import glob
import gzip
import os
import subprocess
import sys
import tempfile
from collections.abc import Callable, Sequence
from pathlib import Path

sys.path.insert(0, os.path.dirname(os.path.dirname(os.path.dirname(os.path.abspath(__file__)))))
from checks.lib import bridge  # noqa: E402

KEPT = os.path.join(
    os.path.dirname(os.path.dirname(os.path.abspath(__file__))), "data", "version_1"
)
SPRING, AUTUMN = "@2025-03-10 08:00:00", "@2025-09-01 08:00:00"
LIBRARY = "/usr/lib/*/faketime/libfaketimeMT.so.1"
LINES_A_SECOND = 1000.0
FILES, EXPORTS = (".db", ".db-wal"), (".journal.csv", ".tickets.csv")


def unpack(name: str, path: str, ends: Sequence[str] = FILES) -> None:
    """Put the two files of a journal that is kept at this path."""
    for end in ends:
        Path(path.removesuffix(".db") + end).write_bytes(kept(f"{name}{end}"))


def kept(name: str) -> bytes:
    return gzip.decompress(Path(KEPT, f"{name}.gz").read_bytes())


def export_of(name: str, what: str) -> str:
    """Return what the program 1.0.0 exported of a journal that is kept."""
    return kept(f"{name}.{what}.csv").decode()


class Bridge:
    """A bridge of version 1, at which one vehicle after another is weighed."""

    def __init__(self, program: str, path: str, clock: str) -> None:
        os.environ |= {"LD_PRELOAD": glob.glob(LIBRARY)[0], "FAKETIME": clock}
        os.environ |= {"TZ": "UTC", "DONT_FAKE_MONOTONIC": "1"}
        self.converter = bridge.Played(LINES_A_SECOND)
        self.service = bridge.Service(program, path, self.converter, "--capacity", "100000")
        for name in ("LD_PRELOAD", "FAKETIME", "DONT_FAKE_MONOTONIC"):
            del os.environ[name]

    def ask(self, command: str, wanted: str) -> None:
        with bridge.Terminal(self.service) as terminal:
            found = terminal.ask(command)
        if found != wanted:
            raise SystemExit(f"{command}: {found}")

    def enter(self, key: str, kind: str, plate: str, load: int = 0) -> None:
        """Weigh a vehicle, or void an open weighing."""
        if kind == "void":
            target, body = "/voids", f"key={key}&plate={plate}"
        else:
            target, body = "/weighings", f"key={key}&kind={kind}&plate={plate}"
            self.service.next_vehicle(load)
        answer = bridge.post(self.service, target, body)
        if answer is None or answer[0] != 201:
            raise SystemExit(f"{key}: {answer}")

    def pairs(self, first: int, last: int) -> None:
        for number in range(first, last + 1):
            self.enter(f"F{number}", "first", f"P-{number}", 9000 + number)
            self.enter(f"S{number}", "second", f"P-{number}", 4000 + number)

    def singles(self, first: int, last: int) -> None:
        self.service.put(0)
        self.ask("TA 5003 kg", "TA A       5000 kg")
        for number in range(first, last + 1):
            self.enter(f"T{number}", "single", f"T-{number % 5000}", 6000 + 20 * (number % 1000))
        self.ask("TAC", "TAC A")

    def voids(self, first: int, last: int) -> None:
        for number in range(first, last + 1):
            self.enter(f"W{number}", "first", f"V-{number}", 7000 + number)
            self.enter(f"V{number}", "void", f"V-{number}")

    def stop(self) -> None:
        self.service.close()


def make_none(program: str, path: str) -> None:
    Bridge(program, path, SPRING).stop()


def make_pair(program: str, path: str) -> None:
    it = Bridge(program, path, SPRING)
    it.enter("K1", "first", "AB-12", 9170)
    it.enter("K2", "second", "AB-12", 4070)
    it.stop()


def make_purged(program: str, path: str) -> None:
    """Make 300 entries, of which those below 281 are purged."""
    it = Bridge(program, path, SPRING)
    it.pairs(1, 100)
    it.singles(1, 60)
    it.voids(1, 10)
    it.stop()
    it = Bridge(program, path, AUTUMN)
    it.pairs(101, 105)
    it.singles(61, 64)
    it.voids(11, 12)
    it.enter("O1", "first", "O-1", 8000)
    it.enter("O2", "first", "O-2", 8100)
    answer = bridge.post(it.service, "/purge")
    it.stop()
    if answer != (200, "PURGED 280\n"):
        raise SystemExit(f"purge: {answer}")


def make_many(program: str, path: str, entries: int) -> None:
    it = Bridge(program, path, SPRING)
    it.singles(1, entries)
    it.stop()


def make_all(program: str, folder: str, entries: str = "") -> None:
    makers: dict[str, Callable[[str, str], None]] = {
        "none": make_none,
        "pair": make_pair,
        "purged": make_purged,
    }
    if entries:
        makers = {"many": lambda program, path: make_many(program, path, int(entries))}
    os.makedirs(folder, exist_ok=True)
    program = os.path.abspath(program)
    for name, make in makers.items():
        with tempfile.TemporaryDirectory() as here:
            path = os.path.join(here, name + ".db")
            make(program, path)
            for end in FILES:
                pack(folder, name + end, os.path.join(here, name + end))
            for end in EXPORTS:
                words = [program, "export", "--file", path, "--what", end.split(".")[1]]
                with open(os.path.join(here, name + end), "w") as file:
                    subprocess.run(words, stdout=file, check=True)
                pack(folder, name + end, os.path.join(here, name + end))


def pack(folder: str, name: str, path: str) -> None:
    packed = gzip.compress(Path(path).read_bytes(), mtime=0)
    Path(folder, f"{name}.gz").write_bytes(packed)


def main(word: str, *words: str) -> None:
    if word == "make":
        make_all(*words)
    elif word == "unpack":
        name, path = words
        unpack(name, path, ends=FILES + EXPORTS)
    else:
        raise SystemExit(__doc__)


if __name__ == "__main__":
    main(*sys.argv[1:])
