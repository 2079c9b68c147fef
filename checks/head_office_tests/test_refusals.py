"""Refused loads, and what comes in masses: each is written down, and none hides another thing or another bridge."""

import re

from checks.lib.books import Book
from checks.lib.head_office import DAY, LOADER, Office, OfficeCheck, written

REFUSED_PART = "<h3>Loads that were refused"


def add_lines(path: str, *lines: str) -> str:
    with open(path, "a", encoding="utf-8") as it:
        it.writelines(f"{line}\n" for line in lines)
    return path


def replaced(office: Office, name: str) -> str:
    """Write an export of a bridge in which the journal was replaced whole."""
    return office.fresh(Book(f"{name}1", age=DAY + 300).fill(30))


class Refusals(OfficeCheck):
    """Rows of refused loads, findings of them, and the day's page."""

    needs = ("PostgreSQL", "sqitch")
    seconds = 25

    def test_rows_and_findings(self) -> None:
        office = self.office
        book = office.book("REFUSED", 30)
        office.load("REFUSED", office.export(book))
        other = office.fresh(Book("REFUSED2").fill(9), name="other")
        wanted = "^REFUSED: refused: serial REFUSED2 is not registered$"
        self.loads("an export that is refused", "REFUSED", other, wanted, 2)
        asked = "SELECT by, bridge, reason, why, fetched_at IS NOT NULL, at > now() - interval '1 minute', address IS NULL FROM head_office.refusal"
        row = f"{LOADER}|REFUSED|serial|serial REFUSED2 is not registered|t|t|t"
        self.same("  is a row: when, from whom, why", row, office.reads(asked))
        finding = ["refused|serial REFUSED2 is not registered"]
        self.same("  and a finding", finding, office.findings("REFUSED", "what, record"))
        office.load("REFUSED", other)
        counts = (len(office.refusals("REFUSED")), len(office.findings("REFUSED")))
        self.same("again: a row, and no new finding", (2, 1), counts)
        office.acknowledge("REFUSED")
        office.load("REFUSED", other)
        what = "once that was acknowledged, the next one is a finding again"
        self.same(what, 2, len(office.findings("REFUSED")))

        def last(what: str, wanted: str, path: str) -> None:
            office.load("REFUSED", path)
            self.same(what, f"{wanted}|{LOADER}", office.refusals("REFUSED")[-1])

        cut = written(f"{office.folder}/cut.csv", [book.line(1)])
        last("an export that is cut off, which the bridge's own script refuses", "cut", cut)
        last("one that PostgreSQL refuses", "form", add_lines(office.export(book), "1,2,3"))
        twice = add_lines(office.export(book, 0), *[Book("REFUSED1").fill(31).line(31)] * 2)
        self.loads("a new number twice", "REFUSED", twice, "duplicate key value", 2)
        what = "a journal that was replaced whole is reported as that"
        wanted = "refused: the journal of REFUSED was replaced whole: .* 30 of 30 entries differ in more, the first of them 1$"
        self.loads(what, "REFUSED", replaced(office, "REFUSED"), wanted, 2)
        found = office.findings("REFUSED", "what")[-1]
        self.same("  by a finding of that name", "replaced", found)
        page = office.page()
        words = (">replaced</td>", "serial REFUSED2 is not registered")
        self.same("all of it is on the day's page", [], [it for it in words if it not in page])

    def test_hundred_of_a_login(self) -> None:
        office, login = self.office, self.login("chatty", "REFUSED")
        asked = "SELECT head_office.note_refusal('REFUSED', 'cut', 'again ' || g) FROM generate_series(1, 150) g"
        office.told(asked, user=login)
        mine = [it for it in office.refusals("REFUSED") if it.endswith(f"|{login}")]
        self.same("a login has a hundred of them in a day", 100, len(mine))
        deleting = "DELETE FROM head_office.refusal"
        self.refuses("and nobody removes any of them", "refusal is never changed", deleting)
        other = "SELECT head_office.note_refusal('REFUSED', 'listener', 'who took the port')"
        office.told(other, user=login)
        what = "a login that had its hundred of one reason is heard with another"
        found = office.findings("REFUSED", "record")[-1:]
        self.same(what, ["who took the port"], found)

    def test_older_exports_in_masses(self) -> None:
        office = self.office
        office.load("FLOOD", office.export(office.book("FLOOD", 30)))
        older = "INSERT INTO head_office.handed (number, key, kind, plate, moment, interval_kg, max_kg, serial, digest) VALUES (31, 'K', 'void', 'X', now(), 20, 60000, 'FLOOD1', ''); SELECT head_office.take_in('FLOOD', false, '2020-01-01Z')"
        office.told(*[older] * 101, user=LOADER)
        what = "of 101 older exports a hundred are written down"
        self.same(what, [f"older|{LOADER}"] * 100, office.refusals("FLOOD"))
        self.same("  and are one finding", ["open"], office.passing("FLOOD"))
        office.load("FLOOD", replaced(office, "FLOOD"))
        page = office.page()
        what = "  and a journal that is replaced whole then is on the page"
        is_shown = re.search('<td>FLOOD</td><td title="[^"]*">replaced</td>', page)
        self.holds(what, is_shown, page[2000:3000])
        at = office.reads(
            "SELECT to_char(max(at) AT TIME ZONE 'Europe/Berlin', 'YYYY-MM-DD HH24:MI') FROM head_office.refusal WHERE reason = 'older'"
        )
        row = f'<tr><td>FLOOD</td><td>{LOADER}</td><td>{at}</td><td class="n">100</td>'
        self.holds("  next to the refused loads, of the bridge's own zone", row in page, at)
        self.same("  which made up for none", ["open"], office.passing("FLOOD"))

    def test_refusals_of_many_logins(self) -> None:
        office = self.office
        office.register("LOUD", "STILL")
        insert = "INSERT INTO head_office.refusal (at, by, bridge, reason, why) "
        office.owner(
            f"{insert} SELECT now() - interval '1 minute', 'login' || g, 'LOUD', 'serial', 'of another bridge' FROM generate_series(1, 60) g",
            f"{insert} SELECT now() - interval '2 minutes', 'login', 'NOBODYS' || g, 'bridge', 'no bridge' FROM generate_series(1, 60) g",
            f"{insert} VALUES (now() - interval '6 days', 'login1', 'STILL', 'serial', 'of another bridge')",
        )
        page = office.page().split(REFUSED_PART)[1].split("<h3>")[0]
        counts = [page.count(it) for it in ("<td>LOUD</td>", "<td>STILL</td>", "<td>NOBODYS")]
        what = "sixty logins whose loads of a bridge are refused don't take another bridge's refusal off the page"
        self.holds(what, counts[:2] == [10, 1] and 0 < counts[2] <= 10, counts)
        wanted = "and more, in the table refusal: (.*, )?50 of LOUD, .*[0-9]+ of bridges that nobody registered</p>"
        self.holds("  and how many more is said of each", re.search(wanted, page), page[-500:])

    def test_findings_in_masses(self) -> None:
        office = self.office
        lost, many = office.book("LOST", 30, age=7_200), office.book(
            "MANY", 140, age=7_200, step=10
        )
        office.load("LOST", office.export(lost))
        office.load("LOST", office.fresh(lost, without=(20, 21, 22)))
        for digit in "abc":
            for row in many.rows:
                row["digest"] = digit * 64
            office.load("MANY", many)
        page = office.page().split(REFUSED_PART)[0]
        what = "140 unsound records of a bridge don't take another's finding off the page"
        self.holds(what, '">missing</td><td>20-22</td>' in page, page[2000:])
        shown = "SELECT count(*) FROM head_office.open_finding WHERE bridge = 'MANY'"
        count = int(office.reads(shown))
        is_so = count > 200 and page.count("<td>MANY</td>") == 10
        is_so = is_so and f" {count - 10} of MANY" in page
        self.holds("  ten are shown of it, and how many more", is_so, count)
        heads = "<th>record, in UTC</th><th>stored here, in UTC</th>"
        self.holds("  and whose times are which is said", heads in page)
        said = office.run("watch", f"{office.folder}/flooded")[1]
        is_said = re.search("^LOST: finding [0-9]+, missing 20-22: ", said, re.M)
        self.holds("  nor does the watch keep it to itself", is_said, said[:500])

    def test_overdue_whole_export(self) -> None:
        """Load a bridge by only its newest entries."""
        office = self.office
        book = office.book("PART", 30, age=7_200)
        office.load("PART", office.export(book))
        heard = "SELECT whole = to_timestamp({}), whole < loaded, is_silent, is_overdue FROM head_office.heard"
        whole = book.moment
        what = "when the last whole export was loaded"
        self.same(what, "t|t|f|f", office.reads(heard.format(whole)))
        office.told("UPDATE head_office.bridge SET whole_within = '1 second'")
        book.add("single", "F-1")
        newest = add_lines(office.export(book, 0), *(book.line(it) for it in range(25, 32)))
        wanted = "^PART: records 7, added 1, findings 0"
        self.loads("only the newest entries are loaded", "PART", newest, wanted, 0, "--newest")
        what = "  and the whole export is overdue"
        self.same(what, "t|t|f|t", office.reads(heard.format(whole)))
        page = office.page().split("<h3>Bridges that fell silent")[1].split("<h3>")[0]
        at = office.reads(
            f"SELECT to_char(to_timestamp({whole}) AT TIME ZONE 'Europe/Berlin', 'YYYY-MM-DD HH24:MI')"
        )
        row = f"<td>PART</td><td>whole export overdue</td><td>[^<]*</td><td>{at}</td>"
        self.holds("  on the page too", re.search(row, page), (at, page))
        said = office.run("watch", f"{office.folder}/overdue")[1]
        wanted = "PART: the whole export is overdue, last loaded 20"
        self.holds("  and the watch says it", wanted in said, said[:500])
        office.told("UPDATE head_office.bridge SET whole_within = '1 day'")
        office.load("PART", book)
        found = office.reads("SELECT is_overdue FROM head_office.heard")
        self.same("  until it is loaded", "f", found)
