"""Shows that a head office stores only what a sound journal has, whatever comes under a bridge's login.

The exports come by chance. Each one begins as an export of a sound journal: whole, cut, or with the newest entries only. Then some are changed. Fields get other values,
with digests that don't fit or that were computed again. Lines are lost, doubled, swapped or broken, and bytes are changed, lost or added. After each load
these must hold:

- An entry that was stored stays as it is.
- What was added is in the export, and fits its digest.
- A refused load stored nothing, and the refusal is written down.
- The sums of days and the vehicles on site are those of the entries.
- Nothing of another bridge changed.

Then the whole journal is loaded as it is at the bridge. All of it is stored, except entries whose number a false record has: a finding names each of them.
`--times` multiplies the 60 journals.
"""

import csv
import io
import time
from collections import Counter
from typing import Any

from checks.lib.books import Book
from checks.lib.case import many
from checks.lib.head_office import DAY, Ended, OfficeCheck

LOADED_WITHIN = 20  # seconds
SEED = 20261201


def rows_of(export: bytes) -> set[str]:
    """Return the records of an export that have the form of one, as lines without quotes."""
    text = export.decode("ascii", "replace").replace("\N{REPLACEMENT CHARACTER}", "?")
    return {",".join(row) for row in csv.reader(io.StringIO(text.replace("\0", "?"), newline=""))}


class Inputs(OfficeCheck):
    """Two bridges: one whose exports come by chance, and another that must stay as it is."""

    needs = ("PostgreSQL", "sqitch", "hypothesis")
    slow = True
    seconds = 100

    def setUp(self) -> None:
        super().setUp()
        self.seen, self.slowest, self.count = Counter[int](), 0.0, 0
        book = self.office.book("SOUTH", 30, days=90, age=3 * DAY)
        self.same("another bridge is loaded", 0, self.load("SOUTH", book)[0])
        self.south = self.state("SOUTH")

    def load(self, bridge: str, source: str | Book, *words: str) -> Ended:
        began = time.monotonic()
        ended = self.office.load(bridge, source, *words)
        self.slowest = max(self.slowest, time.monotonic() - began)
        return ended

    def refusals(self) -> int:
        return int(self.office.reads("SELECT count(*) FROM head_office.refusal"))

    def entries(self, bridge: str) -> dict[int, str]:
        """Return the stored entries of a bridge as lines of an export."""
        columns = "e.number, key, kind, plate, moment at time zone 'UTC', gross_kg, preset_kg, interval_kg, max_kg, serial"
        digests = "encode(digest, 'hex'), encode(previous, 'hex')"
        lines = self.office.rows(
            f"SELECT head_office.line_of({columns}, {digests}) FROM head_office.entry e JOIN head_office.journal USING (journal) WHERE bridge = '{bridge}'"
        )
        return {int(line.split(",")[0]): line for line in lines}

    def state(self, bridge: str) -> tuple[dict[int, str], list[str], list[str]]:
        """Return a bridge's entries, days and findings."""
        days = f"SELECT * FROM head_office.day_total WHERE bridge = '{bridge}' ORDER BY day"
        found = self.office.findings(bridge, "what, first, last, record")
        return self.entries(bridge), self.office.rows(days), found

    def test_exports_by_chance(self) -> None:
        from hypothesis import HealthCheck, Phase, given, seed, settings
        from hypothesis import strategies as some

        @seed(SEED)
        @settings(
            max_examples=many(60),
            deadline=None,
            database=None,
            phases=[Phase.generate, Phase.shrink],
            suppress_health_check=list(HealthCheck),
        )
        @given(some.data())
        def show(data: Any) -> None:
            self.try_one(data)

        show()
        print(f"loads by their status: {self.seen}; the slowest took {self.slowest:.1f} s")
        for status in (0, 1, 2):
            self.holds(f"some loads ended with status {status}", self.seen[status])

    def try_one(self, data: Any) -> None:
        """Load a sound beginning, then exports by chance, and then the whole journal. Compare the office with what it may have after each."""
        from hypothesis import strategies as some

        from checks.lib import head_office_chance as chance

        self.count += 1
        office, bridge = self.office, f"N{self.count}"
        office.register(bridge, serial=f"S{self.count}X", days=90)
        count = data.draw(some.integers(4, 24), label="entries")
        book = chance.book_of(f"S{self.count}X", count)
        begun = data.draw(some.integers(0, count), label="loaded before")
        if begun:
            self.load(bridge, office.export(book, begun))
            self.assertEqual(begun, len(self.entries(bridge)), "a sound beginning")
        for _ in range(data.draw(some.integers(1, 2), label="exports")):
            self.load_by_chance(bridge, *chance.drawn_export(chance.false_book(book, data), data))
        now = self.entries(bridge)
        status, said = self.load(bridge, office.export(book))
        after, _, found = self.state(bridge)
        left = {it: after.get(it) for it in now}
        self.assertEqual(now, left, "what is stored stays, after the whole journal too")
        if status == 2:
            # by a false record the journal may seem to be loaded later, another's, or longer
            self.assertIn(": refused: ", said)
            self.assertTrue(found, "a finding or a refusal names it")
        else:
            named = [line.split("|") for line in found]
            for number in range(1, count + 1):
                if after.get(number) != book.line(number):
                    is_named = any(int(it[1]) <= number <= int(it[2]) for it in named)
                    what = f"entry {number} isn't stored, and a finding names it: {said}"
                    self.assertTrue(is_named, what)
        self.assertEqual("", office.differences(), "the sums are those of the entries")
        self.assertEqual("0", office.unsound(), "no stored entry is unsound")
        self.assertEqual(self.south, self.state("SOUTH"), "the other bridge is as before")
        self.assertLess(self.slowest, LOADED_WITHIN, "no load takes long")

    def load_by_chance(self, bridge: str, export: bytes, words: list[str]) -> None:
        path = f"{self.office.folder}/chance.csv"
        with open(path, "wb") as it:
            it.write(export)
        before, refused = self.entries(bridge), self.refusals()
        status, said = self.load(bridge, path, *words)
        after = self.entries(bridge)
        self.assertIn(status, (0, 1, 2), said)
        self.seen[status] += 1
        self.assertNotRegex(said, "syntax error|Traceback")
        self.assertEqual(before, {it: after.get(it) for it in before}, "what is stored stays")
        added = {it: line for it, line in after.items() if it not in before}
        if status == 2:
            self.assertEqual({}, added, f"a refused load stores nothing: {said}")
            self.assertEqual(refused + 1, self.refusals(), "and is written down")
        known = rows_of(export)
        for line in added.values():
            self.assertIn(line, known, f"what is stored is in the export, {words}")
