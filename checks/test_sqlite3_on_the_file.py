"""Shows that copies of the journal's two files, made while vehicles are weighed, are sound and complete.

While the service runs, the `sqlite3` shell is refused. The check copies both files, the database and its log, again and
again while vehicles are weighed. `weighbridge check` finds each copy sound. A copy has no fewer entries than requests
had returned 201 before it was begun, and no more than were sent when it was done. The exception is a copy during which
the database itself was written, which happens once its log is long. A database from before that with a log from after
it is refused as `store 2 disk`. The shell finds the copy's integrity ok, and the entries of the export. Each digest is
that of its text, and each previous digest that of the entry before. A copy of the database without its log lacks
entries. Once the service is stopped the shell reads the file itself. The service that is started over it afterwards
continues with the next number.
"""

import csv
import io
import os
import shutil
import subprocess
import threading

from checks.lib import bridge
from checks.lib.case import PROGRAM, Check
from checks.lib.journal import ZEROS, digest_of
from checks.lib.program import PROGRAM as BUILT
from checks.lib.program import printed
from checks.lib.showing import fail, same

VEHICLES = 300
COPIES = 40
KINDS = {1: "first", 2: "second", 3: "single", 4: "void"}


class Weighing(threading.Thread):
    """Weighs vehicle after vehicle: a First, and then its Second or a Void."""

    def __init__(self, service: bridge.Service) -> None:
        super().__init__(daemon=True)
        self.service = service
        self.asked = self.answered = 0
        self.refused: list[tuple[object, ...]] = []

    def run(self) -> None:
        for number in range(1, VEHICLES + 1):
            self.weigh("/weighings", f"kind=first&plate=P-{number}")
            if number % 3 == 0:
                self.weigh("/voids", f"plate=P-{number}")
            else:
                self.weigh("/weighings", f"kind=second&plate=P-{number}")

    def weigh(self, target: str, form: str) -> None:
        self.service.next_vehicle(9170 - self.asked % 1000)
        self.asked += 1
        answer = bridge.post(self.service, target, f"key=K{self.asked}&{form}")
        if answer and answer[0] == 201:
            self.answered += 1
        else:
            self.refused.append((target, form, answer))


def shell(file: str, *commands: str) -> tuple[int, str, str]:
    """Return the status of the sqlite3 shell, and what it printed and reported."""
    it = subprocess.run(
        ["sqlite3", file, *commands], stdin=subprocess.DEVNULL, capture_output=True, text=True
    )
    return it.returncode, it.stdout, it.stderr


def copy(file: str, folder: str, name: str, with_log: bool = True) -> str:
    """Make a copy of the database, and then of its log."""
    copied = os.path.join(folder, name)
    shutil.copyfile(file, copied)
    if with_log and os.path.exists(file + "-wal"):
        shutil.copyfile(file + "-wal", copied + "-wal")
    return copied


def count_in(file: str) -> int:
    """Return how many entries `weighbridge check` finds in a file that is sound."""
    status, out, err = printed("check", "--file", file)
    word, _, count = out.strip().partition(" ")
    if (status, word, err) != (0, "SOUND", ""):
        fail(f"{file}: {out}{err}, status {status}")
    return int(count)


def written(file: str) -> int:
    """Return when the database itself was last written, which is once its log is long and is copied into it."""
    return os.stat(file).st_mtime_ns


def show_copies(service: bridge.Service, folder: str, file: str) -> None:
    """Copies that are taken while vehicles are weighed."""
    weighing = Weighing(service)
    early = copy(file, folder, "early.db", with_log=False)
    weighing.start()
    taken = sound = during = 0
    for number in range(COPIES):
        before, was_written = weighing.answered, written(file)
        copied = copy(file, folder, f"copy{number}.db")
        after = weighing.asked
        if written(file) == was_written:
            taken += 1
            during += after > before
            sound += before <= count_in(copied) <= after
        weighing.join(0.1)
    weighing.join()
    same("all vehicles are weighed", (2 * VEHICLES, []), (weighing.answered, weighing.refused))
    same("copies with the entries that were stored", taken, sound)
    print(
        f"of {COPIES} copies {taken} were taken while the database itself wasn't written, {during} of them at a weighing",
        flush=True,
    )
    same("the database itself was written meanwhile", True, written(file) > written(early))
    shutil.copyfile(file + "-wal", early + "-wal")
    refused = printed("check", "--file", early)
    same("a database of before with a log of after", (1, "", "store 2 disk\n"), refused)


def exported_rows(text: str) -> list[tuple[str, ...]]:
    """Return the entries of an export as the shell shows them."""
    return [
        (row["number"], row["key"], row["plate"], row["gross_kg"], row["digest"], row["previous"])
        for row in csv.DictReader(io.StringIO(text))
    ]


def shown_rows(file: str) -> list[tuple[str, ...]]:
    columns = "number, request_key, plate, gross_kg, digest, previous"
    status, out, err = shell(file, f"SELECT {columns} FROM journal ORDER BY number")
    same("the shell reads it", (0, ""), (status, err))
    return [tuple(line.split("|")) for line in out.splitlines()]


def show_in_shell(what: str, file: str, text: str) -> None:
    """Show that the shell finds the entries of the export, and that each digest is that of its text."""
    same(f"{what}: integrity", (0, "ok\n", ""), shell(file, "PRAGMA integrity_check"))
    same(f"{what}: entries", exported_rows(text), shown_rows(file))
    columns = "number, request_key, kind, plate, moment, coalesce(gross_kg, '-'), coalesce(preset_kg, '-'), digest, previous"
    _, out, _ = shell(file, f"SELECT {columns} FROM journal ORDER BY number")
    rows = [line.split("|") for line in out.splitlines()]
    digests = [
        digest_of(number, key, KINDS[int(kind)], *more, previous=previous)
        for number, key, kind, *more, _, previous in rows
    ]
    same(f"{what}: digests", [row[-2] for row in rows], digests)
    same(f"{what}: previous digests", [row[-1] for row in rows], [ZEROS, *digests[:-1]])


class Sqlite3OnTheFile(Check):
    """Copies of a journal, and the shell."""

    needs = (PROGRAM, "sqlite3")
    seconds = 60

    def test_copies_and_the_shell(self) -> None:
        folder = self.folder()
        file = os.path.join(folder, "journal.db")
        played = bridge.Played(1000.0)
        service = self.enterContext(
            bridge.Service(BUILT, file, played, "--capacity", "100000", "--pace", "50")
        )
        show_copies(service, folder, file)
        status, out, err = shell(file, "SELECT count(*) FROM journal")
        self.same(
            "the shell is refused while the service runs",
            (True, "", True),
            (status != 0, out, "locked" in err),
        )
        answer = bridge.get(service, "/journal.csv")
        text = answer[1] if answer else ""
        copied = copy(file, folder, "copy.db")
        self.same("a copy at rest", 2 * VEHICLES, count_in(copied))
        show_in_shell("a copy at rest", copied, text)
        alone = copy(file, folder, "alone.db", with_log=False)
        self.assertLess(count_in(alone), 2 * VEHICLES, "a copy without the log lacks entries")
        service.process.terminate()
        service.process.wait()
        show_in_shell("the file itself, once the service is stopped", file, text)
        self.show_next(file)

    def show_next(self, file: str) -> None:
        """Show that a service over the file that the shell has read continues with the next number."""
        number = 2 * VEHICLES + 1
        played = bridge.Played(200.0)
        with bridge.Service(BUILT, file, played, "--capacity", "100000") as service:
            service.next_vehicle(9170)
            answer = bridge.post(service, "/weighings", "key=N1&kind=first&plate=AB-12")
            status, body = answer or (0, "")
            slip = (201, f"WEIGHING SLIP {number}")
            self.same("the next weighing", slip, (status, body.split("\n")[0]))
            self.same("the check", (200, f"SOUND {number}\n"), bridge.get(service, "/check"))
