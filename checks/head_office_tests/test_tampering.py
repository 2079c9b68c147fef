"""Each row of the list in docs/head_office_use.md: what was done at the bridge, what its own check says, and what the head office finds."""

import re

from checks.lib.books import Book
from checks.lib.case import PROGRAM
from checks.lib.head_office import OfficeCheck, at_last_entry, lines_of
from checks.lib.head_office_journals import COUNT, Journal, JournalCheck
from checks.lib.journal import ZEROS

# Digests of changed entries, as any text that a journal can hold
HOSTILE = (
    "''",
    "'<b>'",
    "char(0) || 'abc'",
    "'a' || char(10) || '\\.' || char(10) || 'b'",
    "'\"q,uote'",
    "'é'",
    "char(13)",
    "char(27) || '[2J'",
    "''');drop table head_office.entry;--'",
    "upper(digest)",
    "'\\x' || substr(digest, 3)",
)
RAISED = "gross_kg = gross_kg + 20"
NOT_LOADED = "kind = 3 AND number > 45"


class Tampering(JournalCheck):
    """Journals that the program weighed, and that an intruder at the bridge changes."""

    needs = (PROGRAM, "PostgreSQL", "sqitch")
    seconds = 45

    def loaded(self, name: str, count: int = COUNT) -> Journal:
        """Return a journal of which the head office has this many entries."""
        it = self.journal(name)
        status, said = self.office.load(name, at_last_entry(it.first(count)))
        self.assertEqual(0, status, said)
        return it

    def finds(self, what: str, it: Journal, wanted: str, own: str = "", status: int = 1) -> None:
        """Load a journal that was tampered with, and show what the head office says and what its own check does."""
        said, name = it.own_check(), it.do("SELECT max(serial) FROM journal")[0][0][:-1]
        self.loads(f"{what} (own check: {said})", name, it.export(), wanted, status)
        if own:
            self.holds(f"  its own check says {own}", said.startswith(own), said)

    def has_advice(self) -> None:
        stored = "SELECT count(*) FROM head_office.finding_beside_stored WHERE means <> '' AND to_do <> ''"
        found = self.office.reads("SELECT count(*) FROM head_office.finding")
        self.same("each finding says what to do", found, self.office.reads(stored))

    def test_weight(self) -> None:
        it, office = self.loaded("WEIGHT"), self.office
        number = it.number("kind = 3")
        stored = re.escape(lines_of(it.export())[number].strip())
        it.change(number, RAISED)
        wanted = f"^unsound {number}: {number},.*\n  stored here: {stored}$"
        self.finds("a weight changed", it, wanted, "DAMAGED")
        before = office.state()
        wanted = "^WEIGHT: records 60, added 0, findings 1, new 0$"
        self.finds("  the same finding again is no new one", it, wanted, status=0)
        self.same("  and is written once", before, office.state())
        self.has_advice()

    def test_digests_computed_again(self) -> None:
        it = self.loaded("DIGEST")
        number = it.number("kind = 3")
        it.forge(number, RAISED)
        what, wanted = "a weight changed, its digest computed again", f"^differs {number}: "
        self.finds(what, it, f"{wanted}{number},", f"DAMAGED {number + 1}")
        it.relink(number)
        behind = f"and {COUNT - number} behind it in their digests"
        wanted = f"^differs {number}-60: {number},.*\n.*\n  {behind}"
        self.finds("and each digest above it", it, wanted, "SOUND")
        it = self.loaded("KEY")
        it.forge(1, "request_key = 'other'")
        self.finds("another key for a stored entry", it, "^differs 1: 1,other,", "DAMAGED 2")
        it = self.loaded("REPLACED")
        it.do("UPDATE journal SET max_kg = 50000")
        it.relink(1)
        wanted = "refused: the journal of REPLACED was replaced whole: .* 60 of 60 entries differ in more, the first of them 1$"
        self.finds("every entry with its digest made again", it, wanted, "SOUND", 2)
        self.has_advice()

    def test_removed(self) -> None:
        it = self.loaded("INSIDE")
        number = it.number("kind = 3 AND number > 20")
        it.take_out(f"number = {number}")
        wanted = f"^missing {number}: 1 of them stored then"
        self.finds("an entry removed after it was loaded", it, wanted, f"DAMAGED {number}")
        it = self.loaded("UNSEEN", 40)
        number = it.number(NOT_LOADED)
        it.take_out(f"number = {number}")
        wanted = f"^unseen {number}: 0 of them stored then"
        self.finds("an entry removed before it was loaded", it, wanted, f"DAMAGED {number}")
        it = self.loaded("HEAD")
        it.take_out("number <= 6")
        wanted = "^early 6: gone with all before"
        self.finds("young entries removed at the beginning", it, wanted, "SOUND")
        it = self.loaded("PAIR", 40)
        pairs = "SELECT min(f.number) FROM journal f JOIN journal s ON s.plate = f.plate AND s.number > f.number AND s.kind = 2 WHERE f.kind = 1 AND f.number > 40"
        number = it.do(pairs)[0][0]
        it.take_out(f"number = {number}")
        wanted = f"^unpaired {number + 1}: second of "
        self.finds("a First removed before it was loaded", it, wanted, f"DAMAGED {number}")
        self.has_advice()

    def test_backup_restored(self) -> None:
        it = self.loaded("BACKUP")
        it.take_out("number > 54")
        self.finds("a backup restored", it, "^shorter 55-60: ")
        it.do(
            "INSERT INTO journal SELECT 55, 'again', 3, 'AGAIN', moment + 60, 20000, 5000, 20, 60000, serial, '', digest FROM journal WHERE number = 54"
        )
        it.forge(55)
        self.finds("and weighed on: numbers given again", it, "^differs 55: 55,again,")
        self.has_advice()

    def test_before_it_was_loaded(self) -> None:
        it = self.loaded("FALLS", 40)
        number = it.number(NOT_LOADED)
        it.change(number, "moment = moment - 864000")
        it.relink(number)
        what = "a moment set back and each digest from it on computed again, before it was loaded"
        self.finds(what, it, f"^falls {number}: ", "SOUND")
        it = self.loaded("AGAIN", 40)
        key = it.do("SELECT request_key FROM journal WHERE number = 10")[0][0]
        number = it.number(NOT_LOADED)
        it.forge(10, "request_key = 'other'")
        it.forge(number, "request_key = ?", key)
        wanted = f"^key again {number}: key {key} of number 10"
        self.finds("a key used again, before it was loaded", it, wanted, "DAMAGED 11")
        it = self.loaded("CHAIN", 40)
        number = it.number(NOT_LOADED)
        it.forge(number, RAISED)
        what = "a weight changed, its digest made again, before it was loaded"
        wanted = f"^unchained {number + 1}: previous [0-9a-f]{{64}}, after [0-9a-f]{{64}}$"
        self.finds(what, it, wanted, f"DAMAGED {number + 1}")
        it = self.loaded("ZEROS", 40)
        it.forge(41, "previous = ?", ZEROS)
        it.relink(42)
        wanted = "^unchained 41: previous 0{64}, after "
        self.finds("the chain begun again, before it was loaded", it, wanted, "DAMAGED 41")
        it = self.loaded("LATE", 40)
        number = it.number(NOT_LOADED)
        it.change(number, RAISED)
        it.relink(number)
        it.take_out("number > 58")
        what = "not found: changed with each digest from it on, and the last two removed, before they were loaded"
        self.finds(what, it, "^LATE: records 58, added 18, findings 0", "SOUND", 0)
        self.has_advice()

    def test_preset_tare(self) -> None:
        """Load a preset tare above the gross, which no service stores: the bridge's own export has a net below zero."""
        it = self.loaded("PRESET", 40)
        number = it.number("kind = 3 AND number > 41")
        it.change(number, "preset_kg = gross_kg + 6000")
        it.relink(number)
        wanted = (
            f"^out of range {number}: preset tare [0-9]+ kg is not below the gross of [0-9]+ kg$"
        )
        self.finds("a preset tare above the gross", it, wanted)
        tickets = it.export("tickets")
        text = "".join(lines_of(tickets))
        is_below = f"{number},preset," in text and ",-6000\n" in text
        self.holds("  whose net is below zero in the bridge's own export", is_below, text)
        self.same("  and here", (0, ""), self.office.run("compare", "PRESET", tickets))

    def test_hostile_digests(self) -> None:
        self.loaded("BYTES")
        for place, text in enumerate(HOSTILE):
            it = Journal(f"{self.office.folder}/bytes{place}.db", "BYTES1")
            number = 5 + 3 * place
            it.change(number, f"digest = {text}")
            status, said = self.office.load("BYTES", it.export())
            is_found = status == 1 and re.search(f"^unsound {number}: {number},", said, re.M)
            self.holds(f"a digest {text}", is_found, said)
            what = "  printed without a byte that a terminal obeys"
            self.holds(what, not re.search(r"[^ -~\n]", said), said)
        it = Journal(f"{self.office.folder}/foreign.db", "BYTES1")
        it.change(1, "digest = CAST(x'ff' AS TEXT)")
        what = "a digest that isn't UTF-8: the program exports nothing, and the bridge falls silent"
        self.same(what, "store 4 foreign", it.own_check())


class NineOfTen(OfficeCheck):
    """Ten tamperings, each at a bridge of its own. Nine are done after the journal was loaded."""

    needs = ("PostgreSQL", "sqitch")
    seconds = 15

    @staticmethod
    def tampered(at: int, book: Book) -> list[int]:
        """Tamper with a journal of thirty entries in one of the ten ways. Return the numbers that are removed."""
        if at in (0, 1, 2, 9):
            book.change(20, gross=9_000)
        if at == 1:
            later = [row["digest"] for row in book.rows[20:]]
            before = book.rows[19]["previous"]
            book.rows[19]["own_previous"] = before
            book.chain(20)
            for row, digest in zip(book.rows[20:], later):
                row["digest"] = digest
        elif at in (2, 9):
            book.chain(20)
        elif at == 6:
            book.add("single", "F-1", moment=book.moment + 1)
        elif at == 7:
            now = book.moment + 3_600
            book.add("first", "F-1", moment=now - 20).add("first", "F-1", moment=now - 10)
        elif at == 8:
            book.change(1, key="OTHER").chain(1)
        return {3: [20], 4: [*range(25, 31)], 5: [*range(1, 7)]}.get(at, [])

    def test_ten(self) -> None:
        done = (
            "a weight changed",
            "a weight changed and its digest computed again",
            "a weight changed and each digest computed again",
            "an entry removed",
            "the last ones removed",
            "the first ones removed",
            "an entry dated back",
            "a First that hides another",
            "the whole journal made again",
            "changed with each digest computed again before it was loaded",
        )
        office = self.office
        for at in range(len(done)):
            book = office.book(f"T{at}", 30, age=7_200)
            if at == 9:
                self.tampered(at, book)
            office.load(f"T{at}", office.export(book, fetched=book.moment + 600))
            removed = self.tampered(at, book) if at < 9 else []
            office.load(f"T{at}", office.fresh(book, without=removed))
        page = office.page().split("<h3>Loads that were refused")[0]
        named = [name for at, name in enumerate(done) if f"<td>T{at}</td>" in page]
        self.same("nine of ten tamperings are named on the day's page", [*done[:9]], named)
