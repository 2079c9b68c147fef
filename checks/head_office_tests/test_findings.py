"""A load finds each thing once and by its name, and people acknowledge it. Others are exports that are older, of the future, cut or empty."""

import re
import time
from collections.abc import Callable

from checks.lib.books import Book
from checks.lib.head_office import (
    DAY,
    LOADER,
    PARTS,
    READER,
    REGISTRAR,
    OfficeCheck,
    lines_of,
    written,
)


class Findings(OfficeCheck):
    """One thing at a time is done to a journal."""

    needs = ("PostgreSQL", "sqitch")
    seconds = 20

    def find(self, name: str, wanted: str, change: Callable[[Book], object]) -> None:
        """Change a journal that was loaded, and show that the next load finds that and nothing else."""
        office = self.office
        book = office.book(name, 30, age=7_200)
        office.load(name, office.export(book))
        change(book)
        office.load(name, book)
        columns = "what || ' ' || first || coalesce('-' || nullif(last, first), '')"
        self.same(wanted, [wanted], office.findings(name, columns))

    def test_entries(self) -> None:
        now = int(time.time())
        self.find(
            "AHEAD",
            "ahead 31-32",
            lambda it: it.add("single", "F-1", moment=now + 3_600).add("single", "F-2"),
        )
        self.find("OVER", "out of range 31", lambda it: it.add("single", "F-1", 60_200))
        self.find("OFF", "out of range 31", lambda it: it.add("single", "F-1", 20_010))
        high = 26_000
        self.find("TARE", "out of range 31", lambda it: it.add("single", "F-1", preset=high))
        asked = "SELECT regexp_replace(line, ',20[^,]*:[^,]*', '') FROM head_office.ticket_line WHERE bridge = 'TARE' AND ticket = 31"
        what = "  a preset tare above the gross, whose net is below zero"
        self.same(what, "31,preset,F-1,,20000,26000,-6000", self.office.reads(asked))
        self.find("EVEN", "out of range 31", lambda it: it.add("single", "F-1", preset=20_000))
        self.find("OPEN", "open twice 32", lambda it: it.add("first", "F-1").add("first", "F-1"))
        wanted, book = "added 1, findings 0", self.office.book("EDGE").add("single", "F-1", 60_180)
        self.loads("Max + 9 e is in range", "EDGE", self.office.export(book), wanted)

    def test_setup(self) -> None:
        office = self.office
        book = office.book("SETUP", 30, age=7_200)
        office.load("SETUP", office.export(book, 20))
        book.add("single", "F-1", most=50_000).add("single", "F-2", most=50_000)
        wanted = r"^setup 31: e 20 kg, Max 50000 kg, serial SETUP1; before e 20 kg, Max 60000 kg, serial SETUP1$"
        self.loads("the setup changed between entries", "SETUP", book, wanted, 1)
        self.same("  once, where it changed", ["setup|31|31"], office.findings("SETUP"))

    def test_dated_back(self) -> None:
        office = self.office
        book = office.book("BACK", 30, age=7_200)
        office.load("BACK", office.export(book, fetched=book.moment + 3_600))
        book.add("single", "F-1").add("single", "F-2")
        book.add("single", "F-3", moment=int(time.time()) - 10)
        what = "entries dated before the last load, which lacked them"
        self.loads(what, "BACK", book, "^dated back 31-32: ", 1)
        self.same("  as one", ["dated back|31|32"], office.findings("BACK"))

    def test_clock(self) -> None:
        office = self.office
        book = office.book("SLOW", 6)
        slow = time.strftime("%Y-%m-%dT%H:%M:%SZ", time.gmtime(time.time() - 3 * 86_400 - 60))
        what, wanted = (
            "a clock that is slow by days",
            "^clock: the bridge's clock is 3 days behind$",
        )
        self.loads(what, "SLOW", office.export(book), wanted, 1, "--clock", slow)
        apart = "SELECT apart BETWEEN '-3 days -2 minutes' AND '-3 days' FROM head_office.heard"
        self.same("  is shown", "t", office.reads(apart))
        again = "^SLOW: records 6, added 0, findings 1, new 0$"
        self.loads("  and found once", "SLOW", office.export(book), again, 0, "--clock", slow)
        self.loads("  without a clock nothing is said", "SLOW", office.export(book), "findings 0")
        wrong = "^SLOW: refused: .*yesterday noon"
        what = "  no moment is refused"
        self.loads(what, "SLOW", office.export(book), wrong, 2, "--clock", "yesterday noon")

    def test_two_names(self) -> None:
        office = self.office
        book = office.book("NAME", 12)
        office.register("ALIAS")
        path = office.export(book)
        office.load("NAME", path)
        office.owner("UPDATE head_office.instrument SET bridge = 'ALIAS' WHERE serial = 'NAME1'")
        wanted = "^two names 1: journal [0-9]+ of NAME has this entry$"
        self.loads("a journal with two names", "ALIAS", path, wanted, 1)
        self.same("  once", ["two names|1|1"], office.findings("ALIAS"))

    def test_no_follower(self) -> None:
        office = self.office
        book = office.book("ALONE", 12)
        office.load("ALONE", office.export(book))
        office.told("INSERT INTO head_office.journal (bridge, note) VALUES ('ALONE', 'migrated')")
        book.rows[0]["own_previous"] = "0" * 63 + "1"
        wanted = "^no follower 1: journal [0-9]+ of ALONE has this entry with another digest$"
        what = "a journal that was migrated without a follower"
        self.loads(what, "ALONE", book.chain(), wanted, 1)

    def test_retention_and_places(self) -> None:
        office = self.office
        office.register("LOWER", days=180)
        for days in (200, 30):
            office.told(f"UPDATE head_office.bridge SET retention_days = {days}")
        found = office.findings("LOWER", "what, record")
        wanted = [f"lowered|from 200 to 30 days, by {REGISTRAR}"]
        self.same("a retention that was lowered, and by whom", wanted, found)
        book = office.book("FULL", 24)
        office.told("UPDATE head_office.bridge SET places = 30 WHERE bridge = 'FULL'")
        self.loads("24 of 30 places", "FULL", office.export(book), "added 24, findings 0")
        book.add("first", "F-1").add("first", "F-2")
        wanted_line = "^nearly full: 28 of 30 places are taken$"
        self.loads("and 28, with two open Firsts", "FULL", office.export(book), wanted_line, 1)
        book.add("void", "F-1")
        self.loads("  are said once", "FULL", office.export(book), "new 0$")
        lacking = "SELECT count(*) FROM head_office.finding f LEFT JOIN head_office.advice a USING (what) WHERE a.rank IS NULL OR a.rank = 50 OR a.to_do = ''"
        what = "each finding has a rank and says what to do"
        self.same(what, "0", office.reads(lacking))

    def test_runs_and_their_acknowledgement(self) -> None:
        office = self.office
        book = office.book("RUN", 5_000, age=DAY * 8)
        office.load("RUN", office.export(book))
        stored = book.line(2)
        book.change(2, gross=9_000).chain(2)
        what = "entry 2 of 5,000 changed and each digest computed again is one finding, with the entry that really differs"
        wanted = f"^RUN: records 5000, added 0, findings 1, new 1\ndiffers 2-5000: {re.escape(book.line(2))}\n  stored here: {re.escape(stored)}\n  and 4998 behind it in their digests"
        self.loads(what, "RUN", book, wanted, 1)
        book.change(3_000, plate="OTHER").chain(3_000)
        self.loads("and two that really differ are two", "RUN", book, "findings 2, new 2$", 1)
        each = ["differs|2|5000", "differs|2|2999", "differs|3000|5000"]
        self.same("  each with those behind it", each, office.findings("RUN"))

        asked = "SELECT count(*) FROM head_office.open_finding"
        page, shown = office.page(), "<td>3000-5000</td>"
        what = "a finding stands on the page until somebody acknowledges it"
        self.holds(what, shown in page and office.reads(asked) == "3", page)
        one = "INSERT INTO head_office.acknowledgement (finding, note) SELECT max(finding), '{}' FROM head_office.open_finding"
        for user, note, words in (
            (REGISTRAR, "  ", "note_says_something"),
            (READER, "seen", "permission denied"),
            (LOADER, "seen", "permission denied"),
        ):
            what = f"{user} acknowledges none with the note {note!r}"
            self.refuses(what, words, one.format(note), user)
        other = "INSERT INTO head_office.acknowledgement (finding, note, by) VALUES (1, 'seen', 'somebody')"
        what = "nobody acknowledges for somebody else"
        self.refuses(what, "permission denied", other, REGISTRAR)
        office.told(one.format("the slip of 3000 was seen"))
        by_whom = "SELECT acknowledged_by, note, acknowledged_at > now() - interval '1 minute' FROM head_office.finding_beside_stored WHERE acknowledged_at IS NOT NULL"
        row = f"{REGISTRAR}|the slip of 3000 was seen|t"
        self.same("with a note it is acknowledged by name", row, office.reads(by_whom))
        page = office.page()
        is_gone = shown not in page and office.load("RUN", book)[0] == 0
        what = "  is gone from the page, and not found again"
        self.holds(what, is_gone and office.reads(asked) == "2", page)
        changing = "UPDATE head_office.acknowledgement SET note = 'x'"
        what = "  and its note is never changed"
        self.refuses(what, "acknowledgement is never changed", changing)


class Ages(OfficeCheck):
    """Exports that are older than the last one, of the future, cut or empty."""

    needs = ("PostgreSQL", "sqitch")
    seconds = 20

    def test_older(self) -> None:
        office = self.office
        book = office.book("AGE", 40, age=3_600)
        older, newer = office.export(book, 30, "older"), office.export(book, 40, "newer")
        office.load("AGE", newer)
        before = office.state()
        what = "an older honest export is refused as older"
        wanted = "^AGE: refused: this export was fetched at .*, and one of .* was loaded before$"
        self.loads(what, "AGE", older, wanted, 2)
        found = (office.refusals("AGE"), office.passing("AGE"))
        self.same("  and is an open finding", ([f"older|{LOADER}"], ["open"]), found)
        self.same("  and changes nothing", before, office.state())
        wanted = "^AGE: records 40, added 0, findings 0"
        self.loads("the same export again is none", "AGE", newer, wanted)
        self.same("  and makes up for it", ["made up"], office.passing("AGE"))
        given, wanted = ("--fetched", "2020-01-01T00:00:00Z"), "fetched at 2020-01-01"
        self.loads("the moment may be said", "AGE", newer, wanted, 2, *given)
        future = office.export(Book("AGE1").fill(3), fetched=time.time() + 3_600)
        wanted = "^AGE: refused: fetched at .*: set the clocks$"
        self.loads("an export of the future", "AGE", future, wanted, 2)

    def test_overtaken(self) -> None:
        office = self.office
        book = office.book("RACE", 40, age=3_600)
        older, newer = office.export(book, 30, "older"), office.export(book, 40, "newer")
        with office.held_load("RACE", newer):
            second = office.start(f"{PARTS}/load", "RACE", older)
            time.sleep(0.7)
            self.holds("an export that was overtaken waits", second.poll() is None)
        said = second.communicate(timeout=60)[0]
        is_older = second.returncode == 2 and "was loaded before" in said
        is_found = office.findings("RACE", "what") == ["not loaded"]
        self.holds("  and is refused as older", is_older and is_found, said)

    def test_cut_or_empty(self) -> None:
        office = self.office
        book = office.book("CUT", 45, age=3_600)
        office.load("CUT", office.export(book, 40))
        text = "".join(lines_of(office.export(book)))
        for where, cut in (
            ("in its last column", text[:-20]),
            ("at the end of its last column but one", text[: text.rindex(",") + 1]),
        ):
            what = f"an export that is cut {where} is named as cut"
            path = written(f"{office.folder}/cut.csv", [cut, "\n"])
            wanted = "^CUT: refused: the export is cut off in its last line$"
            self.loads(what, "CUT", path, wanted, 2)
        self.same("  and the entry is no finding", ["refused"], office.findings("CUT", "what"))
        whole, wanted = office.fresh(book), "^CUT: records 45, added 5, findings 0"
        self.loads("whole again, it is taken", "CUT", whole, wanted)
        empty = office.fresh(book, 0)
        wanted = "^CUT: refused: the export has no record, and entries up to 45 had to be kept"
        self.loads("an empty export is reported as empty", "CUT", empty, wanted, 2)
        found = office.findings("CUT", "what")
        self.same("  and nothing is early", ["refused", "refused"], found)
        wanted = "^CUT: records 45, added 0, findings 0"
        self.loads("and the next whole one is as ever", "CUT", book, wanted)

    def test_purged_whole(self) -> None:
        office = self.office
        book = office.book("PURGE", 10, age=90 * DAY)
        office.load("PURGE", office.export(book))
        what = "a journal all of which was past retention may be empty"
        wanted = "^PURGE: records 0, added 0, findings 0"
        self.loads(what, "PURGE", office.fresh(book, 0), wanted)
