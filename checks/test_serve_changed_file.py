"""Shows that a service closes a journal that another program changes while it is served, and that the terminal continues.

The first entry of a long journal is an open First. While the service runs, the check overwrites the page of the file
that has its row with one that lacks it, but the table of open weighings still names it. A Second of its plate then
returns 503, and the store is closed. Each request that reads the journal returns 503, while the indication and the
terminal continue.
"""

import contextlib
import os
import shutil
import sqlite3
from pathlib import Path

from checks.lib import bridge, journal
from checks.lib.case import PROGRAM, Check
from checks.lib.program import PROGRAM as BUILT
from checks.lib.waiting import wait_until

ENTRIES = 97_000
PAGE = 4_096
TABLE_LEAF = 13
LOADS = [0] * 8 + [9_170] * 8
REFUSED = (503, "refused 15 store\n")
# The bridge isn't as it must be for the weighing, or not yet.
LATER = [
    (409, f"refused {it}\n") for it in ("7 unstable", "11 not_cleared", "8 below_min", "4 no_load")
]


def pages_without_first(path: str) -> dict[int, bytes]:
    """Return the pages of the table's rows, by their places, that differ if the row of the first entry is missing."""
    other = path + ".other"
    shutil.copyfile(path, other)
    journal.change(other, "DELETE FROM journal WHERE number = 1")
    before, after = (Path(it).read_bytes() for it in (path, other))
    pages = {at: after[at : at + PAGE] for at in range(PAGE, len(before), PAGE)}
    return {
        at: page
        for at, page in pages.items()
        if page != before[at : at + PAGE] and page[0] == TABLE_LEAF
    }


def open_first_entry(path: str) -> None:
    """Make the first entry an open First. The second entry still holds the digest of before. A check would name it, but none is run."""
    with contextlib.closing(sqlite3.connect(path)) as conn:
        asked = "SELECT request_key, moment FROM journal WHERE number = 1"
        key, moment = conn.execute(asked).fetchone()
    digest = journal.digest_of(1, key, "first", "OPEN", moment, 18340, "-")
    opened = f"kind = 1, plate = 'OPEN', preset_kg = NULL, digest = '{digest}'"
    journal.change(path, f"UPDATE journal SET {opened} WHERE number = 1")


class ServeChangedFile(Check):
    """A page of the file is overwritten while it is served."""

    needs = (PROGRAM,)

    def weigh(self, body: str) -> bridge.Answer | None:
        """Ask for a weighing until the bridge is as it must be for it."""

        def ask() -> bridge.Answer | None:
            return bridge.post(self.service, "/weighings", body)

        return wait_until(body, ask, lambda it: it not in LATER, 60, 0)

    def test_row_that_is_gone(self) -> None:
        path = os.path.join(self.folder(), "journal.db")
        journal.make_journal(path, ENTRIES)
        open_first_entry(path)
        pages = pages_without_first(path)
        self.assertEqual(1, len(pages), "pages that hold the row")
        converter = bridge.Converter(400.0, lambda number: LOADS[number % len(LOADS)])
        self.service = self.enterContext(
            bridge.Service(BUILT, path, converter, "--capacity", "100000")
        )
        before = self.weigh("key=X1&kind=first&plate=OTHER")
        self.assertEqual(201, before and before[0], "a weighing before the change")
        with open(path, "r+b") as file:
            for at, page in pages.items():
                file.seek(at)
                file.write(page)
        for what, answer in (
            ("the Second of the row", self.weigh("key=X2&kind=second&plate=OPEN")),
            ("a weighing again", self.weigh("key=X1&kind=first&plate=OTHER")),
            ("the check", bridge.get(self.service, "/check")),
        ):
            self.same(what, REFUSED, answer)
        indication = bridge.get(self.service, "/indication")
        self.same("the indication continues", 200, indication and indication[0])
        with bridge.Terminal(self.service) as terminal:
            self.assertIn(terminal.ask("SI")[:3], ("S S", "S D"), "the terminal continues")
