"""The papers that wait for a printer, that were printed and that failed. No law requires this database, but it decides what an original is.

A paper is the original once. That is noted, and on the disk, before it is printed: so a crash makes a duplicate too many, and never an original too many.
"""

import contextlib
import datetime
import fcntl
import json
import os
import sqlite3
from collections.abc import Iterator
from dataclasses import dataclass
from pathlib import Path

from .layout import Paper
from .text import NoText, Text, read_text
from .words import FREE_LINES

MOST_TRIES = 3  # that were cut in the middle; then somebody has to press
KEPT_DAYS = 60  # that a job which came to its end is listed
BUSY_WITHIN = 10.0  # seconds
TABLES = """
CREATE TABLE IF NOT EXISTS paper (
    id INTEGER PRIMARY KEY, serial TEXT NOT NULL, number INTEGER NOT NULL, digest TEXT NOT NULL,
    letters TEXT NOT NULL, given TEXT NOT NULL, is_spent INTEGER NOT NULL DEFAULT 0, UNIQUE (serial, number, digest)
) STRICT;
CREATE TABLE IF NOT EXISTS job (
    id INTEGER PRIMARY KEY, paper INTEGER NOT NULL REFERENCES paper, printer TEXT NOT NULL, state TEXT NOT NULL,
    why TEXT NOT NULL DEFAULT '', is_original INTEGER NOT NULL DEFAULT 0, tries INTEGER NOT NULL DEFAULT 0, at TEXT NOT NULL
) STRICT;
CREATE INDEX IF NOT EXISTS job_by_state ON job (state, printer);
"""
JOB = "SELECT job.id, paper, printer, state, why, is_original, is_spent, letters, given FROM job JOIN paper ON paper.id = job.paper"
BROWSER = "browser"


@dataclass(frozen=True)
class Job:
    id: int
    paper: int
    printer: str
    state: str  # waits, begun, printed, failed, dropped
    why: str  # a name of devices.TROUBLES, or empty
    is_original: bool  # if it was begun; else what it would be now
    text: Text
    given: tuple[tuple[str, str], ...]

    def what(self, is_original: bool) -> Paper:
        return Paper(self.text, self.given, is_original)


class Spool:
    def __init__(self, folder: Path, is_opened: bool = True) -> None:
        """Open the spool, unless `is_opened` is false. Raises OSError if the folder is another user's, or if the spool can't be opened."""
        self.folder, self.is_made = folder, False
        refuse_strange_root(folder)
        if is_opened:
            self.open()

    def open(self) -> None:
        """Make the folder and the tables that are missing. Raises OSError."""
        with self._open():
            pass

    def probe(self) -> None:
        """Write a transaction that changes no paper. Raises OSError if nothing can be noted."""
        with self._open() as database:
            found = database.execute("PRAGMA user_version").fetchone()[0]
            database.execute(f"PRAGMA user_version = {1 - int(found != 0)}")

    def _make(self, database: sqlite3.Connection) -> None:
        for it in TABLES.split(";"):
            database.execute(it)
        database.execute(
            "DELETE FROM job WHERE state IN ('printed', 'dropped') AND at < ?",
            (moment(-KEPT_DAYS),),
        )

    @contextlib.contextmanager
    def _open(self) -> Iterator[sqlite3.Connection]:
        """Begin a transaction, which is on the disk at its end. Raise OSError if the database can't be read or written."""
        path = self.folder / "papers.db"
        if not self.is_made:
            self.folder.mkdir(mode=0o700, parents=True, exist_ok=True)
        try:
            with contextlib.closing(
                sqlite3.connect(path, timeout=BUSY_WITHIN, isolation_level=None)
            ) as database:
                database.execute("PRAGMA synchronous = EXTRA")
                database.execute("BEGIN IMMEDIATE")
                if not self.is_made:
                    self._make(database)
                yield database
                database.execute("COMMIT")
                self.is_made = True
        except sqlite3.Error as fault:
            raise OSError(
                f"{path}: {fault}: look at the disk; if the file is broken, move it away"
            ) from None

    # ---- papers

    def is_known(self, text: Text) -> bool:
        """Return whether it was printed, or waits for a printer."""
        with self._open() as database:
            words = (found := paper_id(database, text), found)
            return (
                database.execute(
                    "SELECT 1 FROM paper WHERE id = ? AND (is_spent OR EXISTS (SELECT 1 FROM job WHERE paper = ?))",
                    words,
                ).fetchone()
                is not None
            )

    def take(self, text: Text, given: tuple[tuple[str, str], ...] = ()) -> int:
        """Return the paper of a text. It keeps what the clerk gave first until something else is given."""
        with self._open() as database:
            own = text.own
            database.execute(
                "INSERT OR IGNORE INTO paper (serial, number, digest, letters, given) VALUES (?, ?, ?, ?, '[]')",
                (own.serial, own.number, own.digest, text.letters),
            )
            found = paper_id(database, text)
            assert found is not None
            if given:
                database.execute(
                    "UPDATE paper SET given = ? WHERE id = ?", (json.dumps(given), found)
                )
            return found

    def give(
        self, paper: int, given: tuple[tuple[str, str], ...], is_printed_too: bool = False
    ) -> bool:
        """Change the free lines. Return False if the original was printed and `is_printed_too` is false: nothing is changed then."""
        with self._open() as database:
            (before,) = database.execute(
                "SELECT given FROM paper WHERE id = ?", (paper,)
            ).fetchone()
            others = (it for it in given_in(before) if it[0] not in FREE_LINES)
            words = (json.dumps((*given, *others)), paper, is_printed_too)
            return (
                database.execute(
                    "UPDATE paper SET given = ? WHERE id = ? AND (? OR NOT is_spent)", words
                ).rowcount
                == 1
            )

    def given(self, most: int) -> list[tuple[int, str, tuple[tuple[str, str], ...]]]:
        """Return number, digest and what the clerk gave, of the newest papers for which something was given; the oldest of them comes first."""
        with self._open() as database:
            rows = database.execute(
                "SELECT number, digest, given FROM paper WHERE given != '[]' ORDER BY id DESC LIMIT ?",
                (most,),
            ).fetchall()
        return [(number, digest, given_in(it)) for number, digest, it in reversed(rows)]

    def text_of(self, number: int) -> Text | None:
        """Return the newest text of a number, to print it again."""
        with self._open() as database:
            row = database.execute(
                "SELECT letters FROM paper WHERE number = ? ORDER BY id DESC LIMIT 1", (number,)
            ).fetchone()
        return None if row is None else stored(row[0])

    # ---- jobs

    def put(self, paper: int, printer: str) -> int:
        """Return the job of a paper at a printer. If one waits there already, it is that one, so that many presses make one paper."""
        with self._open() as database:
            row = database.execute(
                "SELECT id FROM job WHERE (paper, printer, state) = (?, ?, 'waits')",
                (paper, printer),
            ).fetchone()
            if row is not None:
                return int(row[0])
            made = database.execute(
                "INSERT INTO job (paper, printer, state, at) VALUES (?, ?, 'waits', ?)",
                (paper, printer, moment()),
            ).lastrowid
            assert made is not None
            return made

    def next(self, printer: str) -> Job | None:
        with self._open() as database:
            row = database.execute(
                f"{JOB} WHERE state = 'waits' AND printer = ? ORDER BY job.id LIMIT 1", (printer,)
            ).fetchone()
        return None if row is None else job_of(row)

    def job(self, number: int) -> Job | None:
        with self._open() as database:
            row = database.execute(f"{JOB} WHERE job.id = ?", (number,)).fetchone()
        return None if row is None else job_of(row)

    def jobs(self, *states: str, most: int = -1) -> list[Job]:
        """Return the oldest jobs of a state, or all without a number."""
        places = ",".join("?" * len(states))
        with self._open() as database:
            return [
                job_of(it)
                for it in database.execute(
                    f"{JOB} WHERE state IN ({places}) ORDER BY job.id LIMIT ?", (*states, most)
                )
            ]

    def begin(self, job: Job, is_original: bool) -> bool:
        """Note that a paper is printed now, and as what.

        Return False if another one became the original meanwhile, if something else was given for it, or if the job waits no more.
        """
        with self._open() as database:
            row = database.execute(
                f"{JOB} WHERE job.id = ? AND state = 'waits'", (job.id,)
            ).fetchone()
            if row is None:
                return False
            now = job_of(row)
            if (is_original and not now.is_original) or now.given != job.given:
                return False
            database.execute(
                "UPDATE job SET state = 'begun', why = '', is_original = ?, at = ? WHERE id = ?",
                (is_original, moment(), job.id),
            )
            if is_original:
                database.execute("UPDATE paper SET is_spent = 1 WHERE id = ?", (row[1],))
            return True

    def give_back(self, job: int, why: str) -> None:
        """Nothing came out: it waits again, as what it was."""
        with self._open() as database:
            database.execute(
                "UPDATE paper SET is_spent = 0 WHERE id = (SELECT paper FROM job WHERE id = ? AND state = 'begun' AND is_original)",
                (job,),
            )
            database.execute(
                "UPDATE job SET state = 'waits', is_original = 0, why = ?, at = ? WHERE id = ? AND state = 'begun'",
                (why, moment(), job),
            )

    def was_cut(self, job: int, why: str) -> None:
        """Something may have come out: it waits again, as a further print; too often, and it has failed."""
        with self._open() as database:
            cut(database, why, "id = ?", job)

    def recover(self, printer: str) -> None:
        """Return the jobs that a program began which has ended. The caller holds the printer."""
        with self._open() as database:
            cut(database, "crashed", "printer = ?", printer)

    def printed(self, job: int, why: str = "") -> None:
        self._becomes(job, "printed", why, "begun")

    def tell(self, job: int, why: str) -> None:
        """Note why a job waits, or why its printing stands still."""
        with self._open() as database:
            database.execute("UPDATE job SET why = ? WHERE id = ? AND why != ?", (why, job, why))

    def again(self, job: int) -> bool:
        """Let a job that failed wait again."""
        return self._becomes(job, "waits", "", "failed")

    def drop(self, job: int) -> bool:
        """Drop a job that waits or failed."""
        return self._becomes(job, "dropped", "", "waits") or self._becomes(
            job, "dropped", "", "failed"
        )

    def _becomes(self, job: int, state: str, why: str, before: str) -> bool:
        with self._open() as database:
            words = (state, why, moment(), job, before)
            return (
                database.execute(
                    "UPDATE job SET state = ?, why = ?, at = ?, tries = 0 WHERE id = ? AND state = ?",
                    words,
                ).rowcount
                == 1
            )

    # ---- other ways

    def elsewhere(self, paper: int) -> tuple[bool, tuple[tuple[str, str], ...]]:
        """Notes a print that somebody else makes, as a browser. Whether it is the original, and what the clerk gave."""
        with self._open() as database:
            is_spent, given = database.execute(
                "SELECT is_spent, given FROM paper WHERE id = ?", (paper,)
            ).fetchone()
            words = (paper, BROWSER, not is_spent, moment())
            database.execute(
                "INSERT INTO job (paper, printer, state, is_original, at) VALUES (?, ?, 'printed', ?, ?)",
                words,
            )
            database.execute("UPDATE paper SET is_spent = 1 WHERE id = ?", (paper,))
        return not is_spent, given_in(given)

    @contextlib.contextmanager
    def holding(self, printer: str) -> Iterator[bool]:
        """Hold a printer for this program. Yield False if another one holds it."""
        with open(self.folder / f"{printer}.lock", "w") as file:
            try:
                fcntl.flock(file, fcntl.LOCK_EX | fcntl.LOCK_NB)
                yield True
            except BlockingIOError:
                yield False


def refuse_strange_root(folder: Path) -> None:
    """Files that root makes in another user's folder would keep that user out, or be made where that user's links lead."""
    for it in (folder.absolute(), *folder.absolute().parents):
        if os.geteuid() == 0 and os.path.lexists(it) and (owner := it.lstat().st_uid) != 0:
            raise PermissionError(
                f"{it} belongs to the user {owner}: run this as that user, by runuser -u"
            )


def cut(database: sqlite3.Connection, why: str, which: str, value: int | str) -> None:
    state = f"CASE WHEN tries + 1 < {MOST_TRIES} THEN 'waits' ELSE 'failed' END"
    database.execute(
        f"UPDATE job SET state = {state}, tries = tries + 1, is_original = 0, why = ?, at = ? WHERE state = 'begun' AND {which}",
        (why, moment(), value),
    )


def paper_id(database: sqlite3.Connection, text: Text) -> int | None:
    own = text.own
    row = database.execute(
        "SELECT id FROM paper WHERE (serial, number, digest) = (?, ?, ?)",
        (own.serial, own.number, own.digest),
    ).fetchone()
    return None if row is None else int(row[0])


def job_of(row: tuple[int, int, str, str, str, int, int, str, str]) -> Job:
    number, paper, printer, state, why, was_original, is_spent, letters, given = row
    is_original = not is_spent if state in ("waits", "failed") else bool(was_original)
    return Job(number, paper, printer, state, why, is_original, stored(letters), given_in(given))


def given_in(column: str) -> tuple[tuple[str, str], ...]:
    return tuple((it[0], it[1]) for it in json.loads(column))


def stored(letters: str) -> Text:
    try:
        return read_text(letters)
    except NoText as fault:
        raise OSError(
            f"papers.db has a text that was changed: {fault}: move the file away"
        ) from None


def moment(days: int = 0) -> str:
    return (datetime.datetime.now(datetime.timezone.utc) + datetime.timedelta(days)).strftime(
        "%Y-%m-%d %H:%M:%S"
    )
