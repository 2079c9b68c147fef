"""Sums of days and open vehicles, which a load keeps, next to what the entries say. Others are who registered what, and Grafana's questions."""

import json
import re

from checks.lib.books import Book
from checks.lib.head_office import (
    DAY,
    OWNER,
    PARTS,
    READER,
    REGISTRAR,
    OfficeCheck,
    lines_of,
)

# Weighings of a journal with gaps: an entry that comes late changes what those behind it are.
WEIGHED = (
    "A first, B first, A second, C single, A first, B void",
    "A second, B first, D first, B second, C single",
    "E first, E second, E first, E second, A first, A second",
)
GAPS = ((1, 4, 5, 6, 13, 14), (1, 4, 5, 13, 14), (1, 4, 13, 14), (1, 4, 13), (1, 4), (1,))


class Sums(OfficeCheck):
    """After each kind of change the sums are what the entries say."""

    needs = ("PostgreSQL", "sqitch")
    seconds = 12

    def test_late_and_unsound_entries(self) -> None:
        office = self.office
        book = office.book("SUM", age=40 * DAY, step=40_000)
        for it in ", ".join(WEIGHED).split(", "):
            plate, kind = it.split()
            book.add(kind, plate, 10_000 + 20 * len(book.rows) ** 2)
        totals = "SELECT count(*), sum(tickets), sum(net_kg) FROM head_office.day_total"
        asked = "SELECT string_agg(plate || number, ' ' ORDER BY plate) FROM head_office.on_site"
        office.load("SUM", office.export(book, 16, without=(1, 4, 5, 6, 9, 13, 14)))
        before = office.reads(totals)
        self.same("with gaps", "", office.differences())
        for gaps in GAPS:
            office.load("SUM", office.fresh(book, 16, without=gaps))
            what = f"a missing entry that comes late, before {len(gaps)} others"
            self.same(what, "", office.differences())
        office.load("SUM", office.fresh(book, 17))
        what = "and the last one, with a new Second of the same plate"
        self.same(what, "", office.differences())
        found = (before != office.reads(totals), office.reads(asked))
        self.same("  and they have changed", (True, "D9"), found)
        bad = Book("SUM1", age=40 * DAY, step=40_000)
        bad.rows = [dict(row) for row in book.rows]
        bad.add("second", "D", 8_000)
        for what, gross, on_site in (
            ("an entry that is unsound isn't counted", 9_000, "D9"),
            ("and is, once a sound one comes", 8_000, ""),
        ):
            office.load("SUM", bad.change(18, gross=gross))
            self.same(what, ("", on_site), (office.differences(), office.reads(asked)))
        office.told("UPDATE head_office.bridge SET zone = 'Pacific/Auckland'")
        self.same("days of another zone", "", office.differences())
        office.owner(
            "UPDATE head_office.day_sum SET net_kg = net_kg + 20 WHERE day = (SELECT min(day) FROM head_office.day_sum)",
            "INSERT INTO head_office.open_entry SELECT journal, 'X', 1, now(), 20 FROM head_office.journal",
        )
        found_lines = office.differences().split("\n")
        what = "a sum and an open vehicle that were changed by hand are seen"
        self.holds(what, len(found_lines) == 2, found_lines)
        office.owner("SELECT head_office.rebuild_sums('SUM')")
        self.same("  and computed again", "", office.differences())

    def test_follower_that_is_registered_late(self) -> None:
        office = self.office
        book = office.book("LATER", 30, age=20 * DAY, step=20_000)
        office.load("LATER", office.export(book))
        office.told("INSERT INTO head_office.journal (bridge, note) VALUES ('LATER', 'migrated')")
        book.rows[0]["own_previous"] = "0" * 63 + "1"
        office.load("LATER", book.chain().fill(6))
        what = "a journal that was migrated, and isn't registered as a follower yet"
        self.same(what, "", office.differences())
        office.told(
            "INSERT INTO head_office.follower SELECT 'LATER', max(journal), min(journal) FROM head_office.journal"
        )
        tickets = office.reads("SELECT sum(tickets) FROM head_office.day_total")
        self.same("and is now", ("", "24"), (office.differences(), tickets))


class Registered(OfficeCheck):
    """Changes of a registrar, which are written down."""

    needs = ("PostgreSQL", "sqitch")

    def test_changes(self) -> None:
        office = self.office
        office.register("LOWER", days=200)
        office.follow("LOWER")
        office.told(
            "UPDATE head_office.bridge SET retention_days = 30",
            "INSERT INTO head_office.loader VALUES ('nobodys', 'LOWER')",
        )
        rows = f"SELECT of_table, count(*) > 0, min(by) FROM head_office.change WHERE by = '{REGISTRAR}' GROUP BY of_table ORDER BY of_table"
        tables = ("bridge", "follower", "instrument", "journal", "loader")
        wanted = [f"{it}|t|{REGISTRAR}" for it in tables]
        self.same("who registered what is written down", wanted, office.rows(rows))
        last = "FROM head_office.change WHERE of_table = '{}' ORDER BY change DESC LIMIT 1"
        both = "SELECT was ->> 'retention_days', is_now ->> 'retention_days' "
        what = "  a change with what was and what is"
        self.same(what, "200|30", office.reads(both + last.format("bridge")))
        office.told("DELETE FROM head_office.loader WHERE login = 'nobodys'")
        removed = "SELECT was ->> 'login', is_now IS NULL "
        what = "  and what was removed"
        self.same(what, "nobodys|t", office.reads(removed + last.format("loader")))
        for user, words in ((REGISTRAR, "permission denied"), (OWNER, "change is never changed")):
            what = f"{user} removes none of it"
            self.refuses(what, words, "DELETE FROM head_office.change", user)


class Questions(OfficeCheck):
    """Questions of people and of Grafana over tickets, after a month of weighings."""

    needs = ("PostgreSQL", "sqitch")

    def test_haulier(self) -> None:
        office, name = self.office, "Sand & Kies, Ulm"
        book = office.book("SUM", age=40 * DAY, step=40_000)
        for at in range(30):
            book.add(("first", "second", "single")[at % 3], "ABC"[at // 3 % 3], 20_000 + 20 * at)
        office.load("SUM", office.export(book))
        office.told(f"INSERT INTO head_office.haulier VALUES ('{name}', 'A'), ('{name}', 'C')")
        asked = "SELECT to_char(min(day), 'YYYY-MM') FROM head_office.haulier_ticket"
        month = office.reads(asked)
        status, said = office.run("haulier", name, month)
        asked = f"SELECT count(*) FROM head_office.ticket JOIN head_office.bridge USING (bridge) WHERE plate IN ('A', 'C') AND to_char(at AT TIME ZONE zone, 'YYYY-MM') = '{month}'"
        count, lines = int(office.reads(asked)), said.strip().split("\n")
        head = "bridge,ticket,kind,plate,first,at,gross_kg,tare_kg,net_kg"
        is_so = status == 0 and lines[0] == head and len(lines) - 1 == count > 0
        what = "a haulier's tickets of a month, as CSV"
        self.holds(what, is_so and lines[1].startswith("SUM,"), said)
        found = office.run("haulier", name, "2001-01")
        self.same("  of a month without any", (0, f"{head}\n"), found)
        wanted = (2, "Nobody: no plate is registered for such a haulier\n")
        found = office.run("haulier", "Nobody", month)
        self.same("  a haulier that nobody registered", wanted, found)
        status = office.run("haulier", "Nobody", "2026-13")[0]
        self.same("  another word than a month", 2, status)

    def test_grafana(self) -> None:
        office = self.office
        office.load("NORTH", office.export(office.book("NORTH", 30)))
        board = json.loads("".join(lines_of(f"{PARTS}/grafana/dashboard.json")))
        last_month = r"\1 BETWEEN now() - interval '30 days' AND now()"
        for panel in board["panels"]:
            for target in panel["targets"]:
                sql = re.sub(r"\$__timeFilter\(([^)]*)\)", last_month, target["rawSql"])
                found = office.ask(sql, user=READER)
                self.ends(f"Grafana's panel: {panel['title']}", 0, "", found)


class Silence(OfficeCheck):
    """A bridge that is heard of, falls silent, or is idle."""

    needs = ("PostgreSQL", "sqitch")

    def test_silence(self) -> None:
        office = self.office
        office.load("LIVE", office.book("LIVE", 6))
        office.register("NEVER")
        heard = "SELECT is_silent, is_idle FROM head_office.heard WHERE bridge = '{}'"
        live = heard.format("LIVE")
        self.same("a bridge that was heard of isn't silent", "f|f", office.reads(live))
        office.told(
            "UPDATE head_office.bridge SET load_within = '1 second', entry_within = '1 second' WHERE bridge = 'LIVE'"
        )
        what = "and falls silent, and idle, after what was registered for it"
        self.becomes(what, "t|t", lambda: office.reads(live))
        what = "one that was never heard of is silent"
        self.same(what, "t|f", office.reads(heard.format("NEVER")))
