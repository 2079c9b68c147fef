"""A journal's file that is changed by hand as an intruder at a bridge may, who may also compute digests again."""

import sqlite3
from contextlib import closing
from typing import Any

from checks.lib.journal import ZEROS, digest_of

KINDS = ("first", "second", "single", "void")


class File:
    """The journal in a file that no service holds."""

    def __init__(self, path: str) -> None:
        self.path = path

    def do(self, statement: str, *values: object) -> list[Any]:
        """Return the rows that a statement shows."""
        with closing(sqlite3.connect(self.path)) as connection, connection:
            return connection.execute(statement, values).fetchall()

    def number(self, where: str) -> int:
        """Return the least number of an entry of which this holds."""
        return int(self.do(f"SELECT min(number) FROM journal WHERE {where}")[0][0])

    def change(self, number: int, what: str, *values: object) -> None:
        """Changes an entry, and leaves its digest as it was."""
        self.do(f"UPDATE journal SET {what} WHERE number = ?", *values, number)

    def forge(self, number: int, what: str | None = None, *values: object) -> None:
        """Change an entry, and compute its digest again. The next entry still has the former digest."""
        if what:
            self.change(number, what, *values)
        columns = "number, request_key, kind, plate, moment, ifnull(gross_kg, '-'), ifnull(preset_kg, '-'), max_kg, serial, previous, interval_kg"
        number, key, kind, plate, moment, gross, preset, *setup = self.do(
            f"SELECT {columns} FROM journal WHERE number = ?", number
        )[0]
        digest = digest_of(number, key, KINDS[kind - 1], plate, moment, gross, preset, *setup)
        self.do("UPDATE journal SET digest = ? WHERE number = ?", digest, number)

    def relink(self, number: int) -> None:
        """Chain the entries from this number on again, each to the one below it, if that is there."""
        numbers = "SELECT number FROM journal WHERE number >= ? ORDER BY number"
        for (at,) in self.do(numbers, number):
            below = self.do("SELECT digest FROM journal WHERE number = ?", at - 1)
            self.forge(at, "previous = ?", below[0][0] if below else ZEROS)

    def take_out(self, where: str) -> None:
        self.do(f"DELETE FROM journal WHERE {where}")
