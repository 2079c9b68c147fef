"""Loads of journals that nobody tampered with, whole and with only the newest entries. Others are loads that are cut, killed, stopped or come at once, and what is no
export of the program."""

import csv
import datetime
import os
import re
import subprocess
import time
import zoneinfo
from collections.abc import Callable

from checks import TOP
from checks.lib.books import HEADER, Book
from checks.lib.case import PROGRAM
from checks.lib.head_office import (
    DAY,
    PARTS,
    REGISTRAR,
    OfficeCheck,
    at_last_entry,
    lines_of,
    written,
)
from checks.lib.head_office_journals import JournalCheck, weighed
from checks.lib.journal import digest_of

BERLIN = zoneinfo.ZoneInfo("Europe/Berlin")
EXPORT = r"^{}: records {}, added {}, findings 0"
# Files that are no export: the name, the status and line of the load, and what is put in place of what in the first record
CHANGED: list[tuple[str, int, str, str, str | Callable[[re.Match[str]], str]]] = [
    ("a number with a zero", 0, "findings 0", r"^1,", "01,"),
    ("a number with a sign", 0, "findings 0", r"^1,", "+1,"),
    ("a number of thirty digits", 2, "out of range for type bigint", r"^1,", "1" * 30 + ","),
    ("no number", 2, "null value", r"^1,", ","),
    ("a number twice", 1, "^unsound 2: 2,", r"^1,", "2,"),
    ("a key with a quote", 1, "^unsound 1: 1,", r"^1,[^,]*", '1,"a\'b"'),
    ("a key with SQL", 1, "^unsound 1: 1,", r"^1,[^,]*", "1,');drop table head_office.entry;--"),
    ("no key", 1, "^unsound 1: 1,", r"^1,[^,]*", "1,"),
    ("no serial", 1, "^unsound 1: 1,", r"60000,[^,]*", "60000,"),
    ("a key with a line feed", 1, "^unsound 1: 1,", r"^1,([^,]*)", '1,"\\1\n"'),
    ("an unknown kind", 1, "^unsound 1: 1,", r"first", "third"),
    ("a plate of other letters", 1, "^unsound 1: 1,", r"first,[^,]*", "first,ÄB-12"),
    ("the moment now", 1, "^unsound 1: 1,", r"20[\d-]* [\d:]*", "now"),
    ("the moment infinity", 2, "infinit|violates check", r"20[\d-]* [\d:]*", "infinity"),
    ("a 30 February", 2, "out of range", r"20[\d-]* ", "2025-02-30 "),
    ("a gross with a point", 2, "invalid input syntax", r"(:\d\d),(\d*),", r"\1,\2.0,"),
    ("a negative gross", 1, "^unsound 1: 1,", r"(:\d\d),", r"\1,-"),
    ("a digest in capitals", 1, "^unsound 1: 1,", r"[0-9a-f]{64}", lambda it: it[0].upper()),
    ("a field too many", 2, "extra data after last", r"$", ","),
    ("a field too few", 2, "missing data for column", r",[^,]*$", ""),
    ("an open quote", 2, "unterminated CSV quoted field", r"^1,", '1,"'),
    ("a line of its own", 2, "invalid input syntax", r"$", "\n\\."),
    ("a zero byte in a key", 1, "^unsound 1: 1,", r"^1,[^,]*", "1,a\0b"),
]
# New records with a digest that fits, which no bridge has: number, kind, plate, gross, Max
FORBIDDEN = (
    ("a number past the last", 2**32, "first", "AB-12", 20_000, 60_000),
    ("a plate in small letters", 61, "first", "ab-12", 20_000, 60_000),
    ("a formula as plate", 61, "first", "=1+1", 20_000, 60_000),
    ("a Void with weights", 61, "void", "AB-12", 20_000, 60_000),
    ("a gross of 0", 61, "first", "AB-12", 0, 60_000),
    ("a Max past its limit", 61, "first", "AB-12", 20_000, 500_001),
)
HEADERS = {
    "a header with columns exchanged": HEADER.replace("number,key", "key,number"),
    "a header with another name": HEADER.replace("digest", "hash"),
    "no header": "",
    "a header with semicolons": HEADER.replace(",", ";"),
}


def totals(tickets: str) -> list[str]:
    """Return the totals of the days in Berlin of an export of tickets."""
    days: dict[str, list[int]] = {}
    for it in csv.DictReader(lines_of(tickets)):
        at = datetime.datetime.fromisoformat(it["at"]).replace(tzinfo=datetime.timezone.utc)
        day = days.setdefault(at.astimezone(BERLIN).date().isoformat(), [0, 0, 0])
        for place, value in enumerate((1, int(it["gross_kg"]), int(it["net_kg"]))):
            day[place] += value
    return [f"{day}|{it[0]}|{it[1]}|{it[2]}|{it[2]}" for day, it in sorted(days.items())]


class Loads(JournalCheck):
    """A journal that the program weighed."""

    needs = (PROGRAM, "PostgreSQL", "sqitch")
    seconds = 15

    def test_whole_journal(self) -> None:
        office = self.office
        office.register("NORTH")
        whole, tickets = weighed()["journal"], weighed()["tickets"]
        lines, part = lines_of(whole), f"{office.folder}/part.csv"
        os.utime(written(part, lines[:1]), (time.time() - DAY,) * 2)
        self.loads("a header alone", "NORTH", part, EXPORT.format("NORTH", 0, 0))
        forty = at_last_entry(written(part, lines[:41]))
        self.loads("the first forty entries", "NORTH", forty, EXPORT.format("NORTH", 40, 40))
        self.loads("the whole journal", "NORTH", whole, EXPORT.format("NORTH", 60, 20))
        before = office.state()
        self.loads("again", "NORTH", whole, EXPORT.format("NORTH", 60, 0) + ", new 0")
        self.same("nothing was changed by that", before, office.state())
        what = "the tickets that are computed here are the bridge's own, line by line"
        self.same(what, (0, ""), office.run("compare", "NORTH", tickets))
        own = lines_of(tickets)
        changed = [own[0], re.sub(r"\d+$", "10", own[1]), *own[2:]]
        found = office.run("compare", "NORTH", written(part, changed))
        self.ends("a net that was changed in the tickets is shown", 1, "^> ", found)
        found = office.run("compare", "NOTH", tickets)
        what = "a bridge that there isn't is reported"
        self.same(what, (2, "NOTH: no such bridge\n"), found)
        found = office.run("compare", "NORTH", written(part, own[:4] + own[5:]))
        self.ends("and a ticket that was left out", 1, "^< ", found)
        days = "SELECT day, tickets, gross_kg, net_kg, brought_kg + taken_kg + preset_kg FROM head_office.day_total ORDER BY day"
        what = "the totals of the bridge's own days are the tickets'"
        self.same(what, totals(tickets), office.rows(days))
        on_site = "SELECT count(*), min(bridge), min(gross_kg) > 0 FROM head_office.on_site"
        self.same("open Firsts are on site", "10|NORTH|t", office.reads(on_site))

    def test_other_settings(self) -> None:
        self.office.register("NORTH")
        options = "-c datestyle=German,DMY -c timezone=Asia/Tokyo -c standard_conforming_strings=off -c search_path=pg_temp"
        more = {"PGCLIENTENCODING": "LATIN1", "PGOPTIONS": options}
        what, wanted = "under other settings of the session", EXPORT.format("NORTH", 60, 60)
        self.loads(what, "NORTH", weighed()["journal"], wanted, 0, **more)


class BrokenOff(OfficeCheck):
    """Loads that are cut, killed, stopped, or come at once."""

    needs = ("PostgreSQL", "sqitch", "curl")
    settings = ("timezone = 'Asia/Tokyo'",)  # with fsync, because the server is stopped
    seconds = 15

    def setUp(self) -> None:
        super().setUp()
        self.path = self.office.export(self.office.book("EAST", 60))
        with open(self.path, "rb") as it:
            self.text = it.read()
        self.before = self.office.state()

    def test_cut(self) -> None:
        self.loads("a file that isn't there", "EAST", "/nowhere", "no file /nowhere", 2)
        end = self.text.index(b",second,", 3000) + 3
        for what, data, wanted in (
            ("a file cut in a record", self.text[:3000], "the export is cut off"),
            ("and ended by a line feed", self.text[:end] + b"\n", "missing data for column"),
            ("a file without its last line feed", self.text[:-1], "the export is cut off"),
            ("an empty file", b"", "the export is cut off"),
        ):
            path = f"{self.office.folder}/cut.csv"
            with open(path, "wb") as it:
                it.write(data)
            self.loads(what, "EAST", path, wanted, 2)
        nobodys = "http://127.0.0.1:1/journal.csv"
        self.loads("an office that doesn't answer", "EAST", nobodys, "no export came", 2)
        nowhere = f"{self.office.folder}/nowhere"
        self.loads("a server that doesn't answer", "EAST", self.path, "", 2, PGHOST=nowhere)
        self.same("none of them changed anything", self.before, self.office.state())

    def test_killed(self) -> None:
        office = self.office
        with office.held_load("EAST", self.path) as held:
            held.kill()
        self.same("the loader killed before its commit", self.before, office.state())
        with office.held_load("EAST", self.path):
            self.cluster.stop("immediate")
        self.cluster.start()
        what = "the server stopped at once before the commit"
        self.same(what, self.before, office.state())
        words = ["psql", "-X", "-v", "ON_ERROR_STOP=1", "-v", "bridge=EAST", "-f"]
        with office.start(*words, f"{PARTS}/load.sql", stdin=subprocess.PIPE) as loader:
            assert loader.stdin
            loader.stdin.write(self.text[:3000].decode())
            loader.stdin.flush()
            time.sleep(0.5)
            loader.kill()
        self.same("the loader killed in its copy", self.before, office.state())

    def test_two_at_once(self) -> None:
        office = self.office
        with office.held_load("EAST", self.path):
            second = office.start(f"{PARTS}/load", "EAST", self.path)
            time.sleep(0.5)
            what = "a load waits while another one of the bridge isn't committed"
            self.holds(what, second.poll() is None)
        said = second.communicate(timeout=60)[0]
        self.same("and then adds nothing", "EAST: records 60, added 0, findings 0, new 0\n", said)
        self.same("all of them are stored once", 60, office.stored("EAST"))


class Others(OfficeCheck):
    """Other bridges, files and serials."""

    needs = ("PostgreSQL", "sqitch")
    seconds = 12

    def test_other_bridges(self) -> None:
        office = self.office
        office.register("NORTH")
        east = office.book("EAST", 60)
        path = office.export(east)
        wanted = "refused: serial EAST1 is registered for EAST"
        self.loads("another bridge's export", "NORTH", path, wanted, 2)
        wanted = "refused: no bridge NOWHERE"
        self.loads("a bridge that isn't registered", "NOWHERE", path, wanted, 2)
        for number in (59, 60):
            east.change(number, serial="EAST2").chain(number)
        wanted = "refused: serial EAST2 is not registered"
        self.loads("an unknown serial", "EAST", office.export(east), wanted, 2)

    def test_new_file(self) -> None:
        office, registered = self.office, "INSERT INTO head_office.journal (bridge, note) VALUES"
        former, new = office.book("TWICE", 60, age=9_000), Book("TWICE1", age=3_600).fill(12)
        old, newer = office.export(former, name="old"), office.export(new, name="new")
        office.load("TWICE", old)
        what = "a new file that nobody registered"
        wanted = "refused: a journal of TWICE that is not registered"
        self.loads(what, "TWICE", newer, wanted, 2)
        office.told(f"{registered} ('TWICE', 'the first is full')")
        known = EXPORT.format("TWICE", 60, 0)
        self.loads("the former file, once the new one is registered", "TWICE", old, known)
        self.loads("the new file", "TWICE", newer, EXPORT.format("TWICE", 12, 12))
        self.loads("the former file again", "TWICE", old, known)
        what = "a shorter export of the former file is no news"
        shorter = office.fresh(former, 40, name="shorter")
        self.loads(what, "TWICE", shorter, EXPORT.format("TWICE", 40, 0))
        heard = office.reads("SELECT number FROM head_office.heard")
        self.same("and the bridge was heard of by its newest file", "12", heard)
        office.told(
            f"{registered} ('TWICE', 'by mistake')",
            "DELETE FROM head_office.journal WHERE note = 'by mistake'",
        )
        what = "a journal that was registered by mistake is taken back, and no other"
        other = "DELETE FROM head_office.journal WHERE note = 'the first is full'"
        self.refuses(what, "violates foreign key", other, REGISTRAR)


class NoExports(OfficeCheck):
    """Files that are no export of the program, because a record or the header is changed."""

    needs = ("PostgreSQL", "sqitch")
    seconds = 15

    def setUp(self) -> None:
        super().setUp()
        book = self.office.book("EAST", 60)
        self.lines = lines_of(self.office.export(book))
        self.office.load("EAST", self.office.export(book))
        self.before = self.entries()

    def entries(self) -> str:
        asked = (
            "SELECT md5(string_agg(e::text, '|' ORDER BY journal, number)) FROM head_office.entry e"
        )
        return self.office.owner(asked)

    def load(self, what: str, status: int, wanted: str, *lines: str) -> None:
        path = written(f"{self.office.folder}/changed.csv", lines)
        self.loads(what, "EAST", path, wanted, status)

    def test_first_record(self) -> None:
        head, first, *others = self.lines
        for what, status, wanted, old, new in CHANGED:
            changed = re.sub(old, new, first.rstrip("\n"), count=1) + "\n"
            self.load(what, status, wanted, head, changed, *others)
        self.same("none of them changed an entry", self.before, self.entries())

    def test_new_record(self) -> None:
        last, moment = self.lines[-1].split(",")[10], int(time.time())
        at = time.strftime("%Y-%m-%d %H:%M:%S", time.gmtime(moment))
        for what, number, kind, plate, gross, most in FORBIDDEN:
            digest = digest_of(number, "K", kind, plate, moment, gross, "-", most, "EAST1", last)
            record = f"{number},K,{kind},{plate},{at},{gross},,20,{most},EAST1,{digest},{last}\n"
            wanted = 'violates check constraint "(form|weights_of_kind)"'
            self.load(f"{what}, with a digest that fits", 2, wanted, *self.lines, record)
        self.same("none of them changed an entry", self.before, self.entries())

    def test_header_and_line_ends(self) -> None:
        for what, header in HEADERS.items():
            wanted = "column name mismatch|wrong number of fields"
            self.load(what, 2, wanted, header, *self.lines[1:])
        ended = [it.replace("\n", "\r\n") for it in self.lines]
        wanted = "^EAST: records 60, added 0"
        self.load("CR LF as line ends are harmless", 0, wanted, *ended)
        self.same("none of them changed an entry", self.before, self.entries())


class Newest(OfficeCheck):
    """Only the newest entries, which the page's own line cuts out of an export."""

    needs = ("PostgreSQL", "sqitch")
    seconds = 20

    def setUp(self) -> None:
        super().setUp()
        page = lines_of(f"{TOP}/docs/head_office_use.md")
        self.line = next(it.strip() for it in page if "> newest.csv" in it)

    def newest(self, export: str, count: int, is_of_now: bool = False) -> str:
        """Write the newest entries of an export, fetched when the last one was the newest."""
        folder = os.path.dirname(export)
        written(f"{folder}/journal.csv", lines_of(export))
        words = ["sh", "-c", self.line.replace("200", str(count))]
        subprocess.run(words, cwd=folder, check=True)
        path = f"{folder}/newest.csv"
        return path if is_of_now else at_last_entry(path)

    def load(self, what: str, name: str, source: str, wanted: str, status: int = 0) -> None:
        what = f"only the newest entries, {what}"
        self.loads(what, name, source, wanted, status, "--newest")

    def refused(self, what: str, source: str, wanted: str) -> None:
        self.load(what, "NEWEST", source, f"refused: {wanted}", 2)

    def test_newest(self) -> None:
        office, name = self.office, "NEWEST"
        book = office.book(name, 60)
        lines = lines_of(office.export(book))

        def newest(last: int, count: int, **more: bool) -> str:
            return self.newest(office.export(book, last), count, **more)

        what = "the page's line leaves the header and this many entries"
        self.same(what, [lines[0], *lines[56:]], lines_of(newest(60, 5)))
        self.same("and all of them if there are fewer", lines, lines_of(newest(60, 61)))
        begin = "the newest entries begin at {}, and what is stored ends at {}"
        whole = ": load the whole export"
        self.refused("as a first load", newest(60, 5), begin.format(56, 0) + whole)
        for what, last, count, added in (
            ("if these are all", 20, 30, 20),
            ("some of which are stored", 40, 30, 20),
            ("that follow what is stored", 50, 10, 10),
        ):
            records = min(last, count)
            self.load(what, name, newest(last, count), EXPORT.format(name, records, added))
        before = office.state()
        what = "that don't reach what is stored"
        self.refused(what, newest(60, 9), begin.format(52, 50) + whole)
        header = office.fresh(book, 0)
        self.refused("none of them", header, begin.format("none", 50))
        old = [it.rsplit(",", 1)[0] + "\n" for it in lines]
        unchained = written(f"{office.folder}/unchained.csv", [old[0], *old[51:54]])
        wanted = "entries of version 1 don't name the entry before them, so nothing ties the newest"
        self.refused("of version 1", unchained, wanted)
        self.same("and nothing was changed by that", before, office.state())
        self.load("once more", name, newest(60, 15), EXPORT.format(name, 15, 10))
        restored = newest(54, 10, is_of_now=True)
        self.load("after a backup was restored", name, restored, "^shorter 55-60: ", 1)
        what = "the same not declared to be only the newest"
        part = newest(60, 15, is_of_now=True)
        self.loads(what, name, part, "^early 45: gone with all before", 1)

    def test_broken_tie(self) -> None:
        """Load behind an entry that was changed, with its digest and all later ones made again."""
        office = self.office
        book = office.book("TIE", 60)
        office.load("TIE", office.export(book, 40))
        stored = book.rows[39]["digest"]
        came = book.change(40, key="other").chain(40).rows[39]["digest"]
        part = self.newest(office.fresh(book), 20, is_of_now=True)
        wanted = f"^unchained 41: previous {came}, after {stored}$"
        self.load("with a broken tie", "TIE", part, wanted, 1)
        self.load("and again", "TIE", part, EXPORT.format("TIE", 20, 0) + ", new 0")
        asked = "SELECT number FROM head_office.unchained_entry"
        self.same("what is unchained there", "41", office.reads(asked))
        what = "the whole export says what is behind it"
        self.loads(what, "TIE", book, "^differs 40: 40,other,", 1)
        part = office.fresh(book.change(30, key="another").chain(30))
        what = "behind an entry that was changed, each digest made again"
        part = self.newest(part, 20, is_of_now=True)
        wanted = "refused: a journal of TIE that is not registered"
        self.load(what, "TIE", part, wanted, 2)
        what = "the whole export says where that begins"
        self.loads(what, "TIE", book, "^differs 30-39: 30,another,", 1)

    def test_zeros(self) -> None:
        """Zeros as the digest before an entry are sound only where all below was purged, or nothing was ever stored."""
        office = self.office
        book = office.book("ZERO", age=40 * DAY).fill(5)
        path = office.export(book)
        self.load("of a new journal", "ZERO", path, EXPORT.format("ZERO", 5, 5))
        for first, wanted, status, what in (
            (6, EXPORT.format("ZERO", 3, 3), 0, "begun again after a purge of all"),
            (
                9,
                "^unchained 9: previous 0{64}, after [0-9a-f]{64}$",
                1,
                "begun again before that was past retention",
            ),
        ):
            book.moment = int(time.time()) - 900 + 60 * first
            book.add("single", "Z-1", own_previous="0" * 64).add("single", "Z-1").add(
                "single", "Z-1"
            )
            part = office.export(book, without=range(1, first))
            self.load(what, "ZERO", part, wanted, status)
