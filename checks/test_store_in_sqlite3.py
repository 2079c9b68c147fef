"""Shows that `sqlite3` opens a database of the store, and that the store opens one of `sqlite3`.

It builds a small program in a temporary folder by `rt try`, which proves nothing, and takes some minutes.
"""

import os
import re
import sqlite3
import subprocess

from checks.lib.built_over import folder_with
from checks.lib.case import Check
from checks.lib.journal import PAIR, change, write_rows

# The lines that the program prints of the pair.
SHOWN = "".join(
    f"{row[0]} {row[1]} {row[3]} {kind} Some({row[5]}) {row[10]} true\n"
    for row, kind in zip(PAIR, ("first", "second"))
)


def rows_of(path: str, words: str) -> list[tuple[object, ...]]:
    """Return the rows that the module of Python finds, which is sqlite3 itself."""
    connection = sqlite3.connect(path)
    found = connection.execute(words).fetchall()
    connection.close()
    return found


class StoreInSqlite3(Check):
    """A small program over the store, and databases that it and sqlite3 give each other."""

    needs = ("the kit",)
    seconds = 600

    def setUp(self) -> None:
        self.box = self.folder()
        self.crate = folder_with("store_shell", self.box)

    def run_program(self, *words: str) -> str:
        """Return what the program prints."""
        ran = subprocess.run(
            ["rt", "try", "--seconds", "120", *words],
            cwd=self.crate,
            capture_output=True,
            text=True,
        )
        self.assertEqual(0, ran.returncode, ran.stdout + ran.stderr)
        return ran.stdout

    def database_in(self, said: str, name: str) -> str:
        """Write the database whose bytes the program printed, and show that it is whole. Return its path."""
        path = os.path.join(self.box, f"{name}.db")
        with open(path, "wb") as file:
            file.write(bytes.fromhex("".join(re.findall(r"(?m)^[0-9a-f]{512,}$", said))))
        found = rows_of(path, "PRAGMA integrity_check")
        self.same(f"integrity of the {name} database", [("ok",)], found)
        return path

    def of_sqlite3(self, mode: str) -> str:
        """Return the path of a database that sqlite3 made, with the worked pair."""
        path = os.path.join(self.box, f"{mode}.db")
        self.assertEqual([(mode,)], rows_of(path, f"PRAGMA journal_mode = {mode}"))
        write_rows(path, PAIR)
        return path

    def given(self, path: str, *words: str) -> str:
        return self.run_program("--data", f"journal.db={path}", "--", "journal.db", *words)

    def test_databases(self) -> None:
        written = self.database_in(self.run_program(), "written")
        names = "SELECT name FROM sqlite_schema WHERE name NOT LIKE 'sqlite_%' ORDER BY name"
        tables = [(it,) for it in ("about", "journal", "open_weighing", "spent")]
        self.same("its tables", tables, rows_of(written, names))
        self.same("its entries", PAIR, rows_of(written, "SELECT * FROM journal"))
        for mode in ("delete", "wal"):
            said = self.given(self.of_sqlite3(mode))
            found = "".join(re.findall(r"(?m)^(?:[12] K|next ).*\n", said))
            self.same(f"entries of the database in mode {mode}", f"{SHOWN}next 3\n", found)

    def test_purge(self) -> None:
        path = self.of_sqlite3("delete")
        said = self.given(path, "2")
        self.assertIn("gone 1, left 1, open 0\n", said, "counts of a purge")
        purged = self.database_in(said, "purged")
        self.same("its entries", PAIR[1:], rows_of(purged, "SELECT * FROM journal"))
        self.same("its spent keys", [("K1", 1)], rows_of(purged, "SELECT * FROM spent"))
        # a table of open weighings that says something else than the journal
        change(
            path,
            "CREATE TABLE open_weighing (plate TEXT NOT NULL PRIMARY KEY, number INTEGER NOT NULL UNIQUE) STRICT",
            "INSERT INTO open_weighing VALUES ('AB-12', 1), ('EF-56', 9)",
            f"INSERT INTO journal VALUES (3, 'K3', 1, 'CD-34', 1741599000, 18340, NULL, 20, 60000, 'WB01', '', '{PAIR[1][10]}')",
        )
        said = self.given(path, "0")
        self.assertIn("gone 0, left 3, open 1\n", said, "counts of a purge of nothing")
        mended = self.database_in(said, "mended")
        found = rows_of(mended, "SELECT * FROM open_weighing")
        self.same("its open weighings", [("CD-34", 3)], found)
