"""Tables of the years, and years whose plates are dropped.

A load makes the table that it needs. A table is read-only except for what a load brings, and a number is in one of them only.
"""

import calendar
import re
import subprocess
import time

from checks import TOP
from checks.lib.books import Book
from checks.lib.cluster import BIN
from checks.lib.head_office import (
    DAY,
    LOADER,
    OWNER,
    PARTS,
    READER,
    REGISTRAR,
    OfficeCheck,
    lines_of,
)

NOW = time.gmtime().tm_year
STATE = "SELECT md5(string_agg(e::text, '|' ORDER BY number)) FROM head_office.entry e"
CHANGES = (
    "UPDATE {} SET gross_kg = gross_kg + 20",
    "DELETE FROM {}",
    "TRUNCATE {}",
    "INSERT INTO {} SELECT * FROM head_office.entry LIMIT 1",
    "COPY {} FROM '/dev/null'",
)


def moment_of(year: int, month: int = 6, day: int = 1) -> int:
    return calendar.timegm((year, month, day, 0, 0, 0))


def copy_of(book: Book) -> Book:
    copy = Book(book.serial)
    copy.rows = [dict(row) for row in book.rows]
    return copy


class Years(OfficeCheck):
    """Tables of the years."""

    needs = ("PostgreSQL", "sqitch")
    seconds = 20

    def tables(self) -> str:
        asked = "SELECT string_agg(substr(relname, 7), ' ' ORDER BY relname) FROM pg_inherits JOIN pg_class c ON c.oid = inhrelid WHERE inhparent = 'head_office.entry'::regclass"
        return self.office.owner(asked)

    def test_tables(self) -> None:
        office = self.office
        what = "a new head office has the tables of this year and the next one"
        self.same(what, f"{NOW} {NOW + 1} before", self.tables())
        what = "  and no query is held against the constraints of each"
        self.same(what, "off", office.owner("SHOW constraint_exclusion"))
        book = office.book("OLD", days=3650, step=3_600)
        for year in (NOW - 6, NOW - 3):
            book.moment = moment_of(year)
            book.fill(6)
        book.add("first", "N-1", 9_000, moment=moment_of(NOW - 3, 12, 31) + DAY - 1)
        book.add("second", "N-1", 20_000, moment=moment_of(NOW - 2, 1, 1))
        book.moment = int(time.time()) - DAY
        book.fill(4)
        status, said = office.load("OLD", office.export(book, without=(4, 5)))
        made = f"{NOW - 6} {NOW - 3} {NOW - 2} {NOW} {NOW + 1} before"
        what = "a load makes the tables of the years that it brings entries of"
        self.holds(what, (status, self.tables()) == (1, made), (said, self.tables()))
        pair = "SELECT ticket, first FROM head_office.ticket WHERE plate = 'N-1'"
        what = "a First of one year and its Second of the next are a pair"
        self.same(what, "14|13", office.reads(pair))
        what = "entries of a year that is over are taken in late"
        wanted = r"\AOLD: records 18, added 2, findings 0, new 0\n\Z"
        self.loads(what, "OLD", book, wanted)
        count = office.owner(f"SELECT count(*) FROM head_office.entry_{NOW - 6}")
        self.same("  into the table of their year", "6", count)
        what = "  and what is kept of sums and years is what the entries say"
        self.same(what, "", office.differences())
        self.never_changed()
        self.one_number_one_entry(book, made)

    def never_changed(self) -> None:
        """Show that nobody changes a table of a year, not even the owner."""
        office, before = self.office, self.office.owner(STATE)
        names = {f"entry_{NOW - 6}": "a year that is over", f"entry_{NOW}": "this year"}
        users = [(it, it, "permission denied") for it in (LOADER, READER, REGISTRAR)]
        users += [
            (OWNER, it, "is never changed|is stored by a load") for it in (OWNER, "head_office")
        ]
        for table in (*names, "entry"):
            for change in CHANGES:
                statement = change.format(f"head_office.{table}")
                left = []
                for login, role, words in users:
                    status, said = office.ask(f"SET ROLE {role}", statement, user=login)
                    if not (status and re.search(f"{words}|must be superuser", said)):
                        left.append((role, said))
                named = change.format(f"the table of {names.get(table, 'all entries')}")
                self.same(f"nobody, the owner neither, may: {named}", [], left)
        self.same("  and nothing was changed by that", before, office.owner(STATE))
        what, drop = "  nor drop one, but the owner", f"DROP TABLE head_office.entry_{NOW - 6}"
        self.refuses(what, "must be owner", drop, LOADER)

    def one_number_one_entry(self, book: Book, made: str) -> None:
        """Show that the tables of all years have a number once."""
        office, before = self.office, self.office.owner(STATE)
        moved = copy_of(book).change(3, moment=moment_of(NOW - 4)).chain(3)
        status, said = office.load("OLD", moved)
        numbers = office.owner("SELECT count(*), count(DISTINCT number) FROM head_office.entry")
        found = (status, numbers, self.tables())
        is_found = found == (1, "18|18", made) and "\ndiffers 3-18: 3,K3," in said
        what = "a stored number in another year is a finding, and no second row"
        self.holds(what, is_found, (said, found))
        self.same("  nor is any other", before, office.owner(STATE))
        twice = office.fresh(book)
        with open(twice, "a", encoding="utf-8") as it:
            for moment in (moment_of(NOW - 1), int(time.time()) - 5):
                it.write(copy_of(book).add("single", "T-1", moment=moment).line(19) + "\n")
        what = "a new number that stands in two years is refused"
        self.loads(what, "OLD", twice, "a number stands twice in the export", 2)
        found_now = (office.owner(STATE), self.tables())
        self.same("  and no table is made for it", (before, made), found_now)
        book.moment, book.step = int(time.time()) - 5, 1
        book.add("single", "K-1", key="K1")
        wanted = "\nkey again 19: key K1 of number 1\n"
        self.loads("a key of another year is found", "OLD", book, wanted, 1)

    def test_moments_of_no_year(self) -> None:
        office = self.office
        book = office.book("ODD", days=3650, step=1)
        odd = [1971, 1999, *range(NOW + 1, NOW + 40), 9999]
        for place, year in enumerate(odd):
            book.add("single", f"O-{place}", moment=moment_of(year))
        book.add("single", "U-1", moment=moment_of(2004)).rows[-1]["digest"] = "f" * 64
        status, said = office.load("ODD", book)
        is_one = (status, self.tables()) == (1, f"{NOW} {NOW + 1} before misdated")
        is_one = is_one and f"added {len(odd)}," in said and "\nahead 3-42: " in said
        what = (
            f"entries of {len(odd)} years that can't be are stored in one table, and are findings"
        )
        self.holds(what, is_one, (said[:500], self.tables()))
        self.holds("  an unsound one makes no table", "\nunsound 43: 43,K43," in said, said)
        wanted = r"\AODD: records 43, added 0, findings 1, new 0\n\Z"
        self.loads("  loaded again they are known", "ODD", book, wanted)
        what = "  and what is kept is what the entries say"
        self.same(what, "", office.differences())
        most = "SELECT count(DISTINCT head_office.year_of(timestamp '0001-01-01' + n * interval '1 year', head_office.next_year())) FROM generate_series(0, 9998) n"
        what = "there are at most as many tables as years since 2000, and one more"
        self.same(what, str(NOW - 2000 + 2), office.owner(most))

    def test_two_loads_that_need_one_table(self) -> None:
        office, exports = self.office, {}
        for name, begin in (
            ("TURN", moment_of(NOW - 2)),
            ("TURNS", moment_of(NOW - 2)),
            ("SAME", int(time.time()) - DAY),
        ):
            book = office.book(name, days=3650)
            book.moment = begin
            exports[name] = office.export(book.fill(6), name=name)
        with office.held_load("TURN", exports["TURN"]) as first:
            second = office.start(f"{PARTS}/load", "TURNS", exports["TURNS"])
            time.sleep(0.7)
            what = "a load waits for the table that another one makes"
            self.holds(what, second.poll() is None)
            what, wanted = "  and none that needs another", "^SAME: records 6, added 6, findings 0"
            self.loads(what, "SAME", exports["SAME"], wanted)
            recent = "SELECT count(*) FROM head_office.ticket WHERE at > now() - interval '2 days'"
            self.holds("  nor a reader", int(office.reads(recent)) > 0)
            said = second.communicate(timeout=60)[0]
            found = (second.returncode, first.poll(), said)
            what = "  and does without it, if that one doesn't end"
            self.same(what, (0, None, "TURNS: records 6, added 6, findings 0, new 0\n"), found)
        asked = "SELECT bridge, e.tableoid::regclass, count(*) FROM head_office.entry e JOIN head_office.journal USING (journal) WHERE bridge ~ '^TURN' GROUP BY 1, 2 ORDER BY 1"
        each = [f"TURN|head_office.entry_{NOW - 2}|6", "TURNS|head_office.entry_before|6"]
        self.same("  each is in one table", each, office.rows(asked))
        what, wanted = "  loaded again it is known there", "^TURNS: records 6, added 0, findings 0"
        self.loads(what, "TURNS", exports["TURNS"], wanted)


class DroppedPlates(OfficeCheck):
    """A year whose plates are dropped: what goes, what stays, and what can be shown with it."""

    needs = ("PostgreSQL", "sqitch")
    seconds = 12

    def test_seal(self) -> None:
        office, year = self.office, NOW - 3
        book = office.book("YEARS")
        book.moment, book.step = moment_of(year, 12, 28) - 6 * 3_600, 6 * 3_600
        for n in range(10):
            book.add("first", f"S-{n}", 9_000 + 20 * n).add("second", f"S-{n}", 20_000)
            book.add("single", "T-1", 15_000)
        # a First of the old year, by the zone of the bridge, whose Second is of the next one
        years = {row["number"]: time.gmtime(row["moment"] + 3_600).tm_year for row in book.rows}
        last = max(number for number, its in years.items() if its == year)
        book.moment, book.step = int(time.time()) - DAY, 600
        path = office.export(book.fill(6))
        office.load("YEARS", path)
        seal = f"SELECT head_office.seal('YEARS', {year})"
        wanted = "nobody registered how long plates of YEARS are kept"
        self.refuses(f"no plate is dropped: {wanted}", wanted, seal, REGISTRAR)
        office.told("UPDATE head_office.bridge SET plate_years = 3")
        wanted = "isn't over for 3 whole years"
        self.refuses(f"no plate is dropped: {wanted}", wanted, seal, REGISTRAR)
        office.told("UPDATE head_office.bridge SET plate_years = 2")
        due = office.reads("SELECT year FROM head_office.due_year")
        self.same("the year is due", str(year), due)
        self.refuses("a reader drops none", "permission denied", seal, READER)
        totals = "SELECT sum(tickets), sum(net_kg) FROM head_office.day_total"
        nets = f"SELECT string_agg(ticket || ' ' || net_kg, ',' ORDER BY ticket) FROM head_office.{{}} WHERE ticket <= {last}"
        before = office.reads(totals), office.reads(nets.format("ticket"))
        said = office.told(seal)
        digest = said.split(", ")[-1]
        wanted = rf"YEARS: journal \d+, 1 to {last}, {last} entries, [0-9a-f]{{64}}$"
        self.holds("its plates are dropped", re.match(wanted, said), said)
        words = [f"{BIN}/pg_dump", "-t", "head_office.*", "--data-only", office.database]
        dump, gone = office.exec(words, OWNER)[1], [f"S-{n}" for n in range((last - 1) // 3)]
        left = [it for it in gone if re.search(rf"\b{it}\b", dump)]
        self.same("  no dump has them any more", [], left)
        found = office.reads(totals), office.reads(nets.format("sealed_ticket"))
        self.same("  the totals stay, and each ticket's net", before, found)
        self.same("  which is what the entries say", "", office.differences())
        page = lines_of(f"{TOP}/docs/head_office_archive.md")
        command = next(line.strip() for line in page if "basenc --base16 -d" in line)
        command = command.replace("journal.csv", path)

        def shown(first: int) -> str:
            """Return the digest that the page's line computes from an export."""
            line = command.replace("first=1 last=412", f"first={first} last={last}")
            ran = subprocess.run(["sh", "-c", line], capture_output=True, text=True)
            return ran.stdout.split()[0]

        what = "  whoever has an export of the year shows by the page's line that it is the one"
        self.same(what, digest, shown(1))
        self.holds("  and not by another", digest != shown(2))
        changed = "SELECT year FROM head_office.unsound_year"
        self.same("  nothing of what is kept was changed", "", office.reads(changed))
        for by, wanted, what in (
            ("+ 20", str(year), "  and if it is, that is seen"),
            ("- 20", "", "  until it is as before"),
        ):
            office.owner(
                "ALTER TABLE head_office.sealed_entry DISABLE TRIGGER never_changed",
                f"UPDATE head_office.sealed_entry SET gross_kg = gross_kg {by} WHERE number = 1",
                "ALTER TABLE head_office.sealed_entry ENABLE TRIGGER never_changed",
            )
            self.same(what, wanted, office.reads(changed))
        what = "a whole export that still has them is accepted as ever"
        self.loads(what, "YEARS", book, "^YEARS: records [0-9]+, added 0, findings 0")
        stored = f"SELECT count(*) FROM head_office.entry WHERE number <= {last - 3}"
        self.same("and none of them is stored again", "0", office.reads(stored))
        book.moment, book.step = int(time.time()), 0
        what = "and what is weighed next is chained to what is stored"
        self.loads(what, "YEARS", book.fill(3), "added 3, findings 0")
        self.same("  and counted", "", office.differences())
