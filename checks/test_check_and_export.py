"""Shows what `weighbridge check`, `export` and `--version` print, and with which status.

`--version` names kit and sources. The journals are sound, changed, with a gap, empty, missing, no store's, and held by
another program.
"""

import contextlib
import os
import sqlite3
import subprocess
from pathlib import Path

from checks import TOP
from checks.lib.case import PROGRAM, Check
from checks.lib.journal import OLD_FIRST, OLD_TABLES, PAIR, change, write_rows
from checks.lib.program import PROGRAM as BUILT
from checks.lib.program import printed

JOURNAL_COLUMNS = (
    "number,key,kind,plate,moment,gross_kg,preset_kg,interval_kg,max_kg,serial,digest,previous\n"
)
FIRST, SECOND = (
    f"{row[0]},{row[1]},{kind},AB-12,{moment},{row[5]},,20,60000,WB01,{row[10]},{row[11]}\n"
    for row, kind, moment in zip(
        PAIR, ("first", "second"), ("2025-03-10 08:00:00", "2025-03-10 09:30:00")
    )
)
TICKET_COLUMNS = "ticket,kind,plate,first,at,gross_kg,tare_kg,net_kg\n"
TICKET = "2,pair,AB-12,1,2025-03-10 09:30:00,18340,8140,10200\n"
CHECK = ["check"]
JOURNAL = ["export", "--what", "journal"]
TICKETS = ["export", "--what", "tickets"]
LOOKS = (CHECK, JOURNAL, TICKETS)
AS_IT_IS = "the journal is damaged, and was exported as it is: "
DAMAGED = "refused 17 damaged\n"


def rows_of(path: str) -> list[tuple[object, ...]]:
    asked = ("SELECT * FROM journal", "SELECT * FROM spent", "PRAGMA integrity_check")
    with contextlib.closing(sqlite3.connect(path)) as connection:
        return [row for it in asked for row in connection.execute(it)]


class CheckAndExport(Check):
    """The commands over journals of every kind."""

    needs = (PROGRAM,)

    def setUp(self) -> None:
        self.box = self.folder()

    def made(self, name: str, *statements: str) -> str:
        """Make a journal with the worked pair, and change it. Return its path."""
        path = os.path.join(self.box, f"{name}.db")
        write_rows(path, PAIR)
        change(path, *statements)
        return path

    def says(
        self, what: str, words: list[str], path: str, status: int, out: str = "", err: str = ""
    ) -> None:
        """Show what a command says of a file."""
        found = printed(*words, "--file", path)
        self.same(f"{' '.join(words)} of {what}", (status, out, err), found)

    def says_all(self, what: str, path: str, fault: str) -> None:
        """Show that each command refuses a file by the same fault."""
        for words in LOOKS:
            self.says(what, words, path, 1, err=f"store {fault}\n")

    def test_sound(self) -> None:
        sound = self.made("sound")
        before = rows_of(sound)
        for _ in range(2):
            self.says("a sound journal", CHECK, sound, 0, "SOUND 2\n")
            self.says("a sound journal", JOURNAL, sound, 0, JOURNAL_COLUMNS + FIRST + SECOND)
            self.says("a sound journal", TICKETS, sound, 0, TICKET_COLUMNS + TICKET)
        self.same("its rows and its integrity after that", before, rows_of(sound))

    def test_first_weighing_alone(self) -> None:
        what, path = "a first weighing", self.made("first", "DELETE FROM journal WHERE number = 2")
        self.says(what, CHECK, path, 0, "SOUND 1\n")
        self.says(what, JOURNAL, path, 0, JOURNAL_COLUMNS + FIRST)
        self.says(what, TICKETS, path, 0, TICKET_COLUMNS)

    def test_damaged(self) -> None:
        what, changed = "a changed gross", "UPDATE journal SET gross_kg = 18360"
        path = self.made("damaged", f"{changed} WHERE number = 1")
        text = JOURNAL_COLUMNS + FIRST.replace("18340", "18360") + SECOND
        self.says(what, CHECK, path, 1, "DAMAGED 1\n")
        self.says(what, JOURNAL, path, 0, text, f"{AS_IT_IS}DAMAGED 1\n")
        self.says(what, TICKETS, path, 1, err=DAMAGED)
        digest = "eba23531a9d727ecf55fe0311e70eb4482f3f871908d8e4fb0018b1c4730bb65"
        again = f"{changed}, digest = '{digest}' WHERE number = 1"
        for what, statement in (
            ("a changed gross whose digest was made again", again),
            ("a missing number", "UPDATE journal SET number = 3 WHERE number = 2"),
        ):
            path = self.made(what.replace(" ", "_"), statement)
            self.says(what, CHECK, path, 1, "DAMAGED 2\n")
            self.says(what, TICKETS, path, 1, err=DAMAGED)

    def test_no_entries(self) -> None:
        path = os.path.realpath(os.path.join(self.box, "empty.db"))
        Path(path).touch()
        none = f"{path}: it has none of the tables of a journal, so no entry was checked; its entries may be in {path}-wal: copy both files: see operating.md, Back up the journal\n"
        what = "a file without a byte"
        self.says(what, CHECK, path, 0, "SOUND 0\n", none)
        self.says(what, JOURNAL, path, 0, JOURNAL_COLUMNS, none)
        self.says(what, TICKETS, path, 0, TICKET_COLUMNS, none)
        fresh = self.made("fresh", "DELETE FROM journal")
        self.says("a journal that has its tables and no entry", CHECK, fresh, 0, "SOUND 0\n")

    def test_no_journal(self) -> None:
        folder = os.path.join(self.box, "folder")
        os.mkdir(folder)
        trace = Path(folder, "trace")
        trace.write_text("r 9170 4\nt SI\n", encoding="ascii")
        self.says_all("a file that isn't there", os.path.join(folder, "journal.db"), "2 disk")
        self.says_all("a folder that isn't there", f"{self.box}/none/journal.db", "2 disk")
        self.says_all("a folder", folder, "2 disk")
        self.same("files made", ["trace"], os.listdir(folder))
        self.says_all("a file that is no database", str(trace), "2 disk")
        self.same("the file after that", "r 9170 4\nt SI\n", trace.read_text(encoding="ascii"))

    def test_other_tables(self) -> None:
        about = os.path.join(self.box, "about.db")
        change(about, "CREATE TABLE about (name TEXT NOT NULL PRIMARY KEY, value INTEGER) STRICT")
        self.says_all("one table of four", about, "4 foreign")
        kind = self.made("kind", "UPDATE journal SET kind = 5 WHERE number = 2")
        self.says_all("a row with another kind", kind, "4 foreign")
        version = self.made("version", "UPDATE about SET value = 3")
        self.says_all("tables with another version", version, "4 foreign")
        old = Path(self.box, "old.db")
        write_rows(str(old), [OLD_FIRST], OLD_TABLES)
        before = old.read_bytes()
        self.says_all("tables with version 1", str(old), "6 old_version")
        self.same("the file of version 1 after that", before, old.read_bytes())

    def test_held_by_another(self) -> None:
        path = self.made("held")
        connection = sqlite3.connect(path, isolation_level=None)
        connection.execute("BEGIN EXCLUSIVE")
        self.says("a file that another program holds", CHECK, path, 1, err="store 2 disk\n")
        connection.execute("ROLLBACK")
        connection.close()
        self.says("it afterwards", CHECK, path, 0, "SOUND 2\n")

    def test_standard_output_takes_nothing(self) -> None:
        path = self.made("sound")
        for words in LOOKS:
            with open("/dev/full", "wb") as full:
                command = [BUILT, *words, "--file", path]
                ran = subprocess.run(
                    command, stdin=subprocess.DEVNULL, stdout=full, stderr=subprocess.PIPE
                )
            ended = (ran.returncode, ran.stderr)
            self.same(" ".join(words), (1, b"write fault\n"), ended)


class Version(Check):
    """What `--version` names."""

    needs = (PROGRAM, "the kit")

    def test_version(self) -> None:
        script = "find crates/*/src crates/*/specs crates/*/proofs -type f | LC_ALL=C sort | xargs sha256sum | sha256sum | cut -c 1-64"
        sources, kit = (
            subprocess.run(words, cwd=TOP, capture_output=True, text=True, check=True).stdout
            for words in (["sh", "-c", script], ["rt", "version"])
        )
        version = "weighbridge 2.1.1"
        wanted = f"{version}\nproved by {kit.rstrip()}\nsources {sources}"
        self.assertEqual((0, wanted, ""), printed("--version"))
