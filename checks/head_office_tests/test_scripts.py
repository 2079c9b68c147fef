"""Shows that each script of the head office ends with the status that it promises, and that none swallows a failure.

Programs in the place of the machine's own write down how they were called, or fail.
"""

import calendar
import datetime
import functools
import getpass
import http.server
import os
import re
import shutil
import tempfile
import threading
import time
from collections.abc import Iterator
from contextlib import contextmanager

from checks.lib.books import HEADER, Book
from checks.lib.head_office import (
    DAY,
    LOADER,
    NOWHERE,
    OWNER,
    PARTS,
    READER,
    Ended,
    OfficeCheck,
    lines_of,
)


def moment_of(
    year: int, month: int, day: int, hour: int = 0, minute: int = 0, second: int = 0
) -> int:
    """Return a moment of UTC in seconds."""
    return calendar.timegm((year, month, day, hour, minute, second))


def logging(log: str, *names: str) -> dict[str, str]:
    """Return programs that write down how they are called, and then do what they do."""
    return {it: f'echo "{it} $*" >>{log}\nexec {shutil.which(it)} "$@"' for it in names}


def calls_in(log: str) -> list[list[str]]:
    return [line.split() for line in lines_of(log)]


def text_of(path: str) -> str:
    return "".join(lines_of(path))


@contextmanager
def served(folder: str) -> Iterator[str]:
    """Serve a folder. The address is that of its export."""

    class Quiet(http.server.SimpleHTTPRequestHandler):
        def log_message(self, format: str, *words: object) -> None:
            pass

    handler = functools.partial(Quiet, directory=folder)
    with http.server.ThreadingHTTPServer(("127.0.0.1", 0), handler) as server:
        threading.Thread(target=server.serve_forever, daemon=True).start()
        yield f"http://127.0.0.1:{server.server_port}/export.csv"
        server.shutdown()


class Scripts(OfficeCheck):
    """The scripts of head_office, one after the other."""

    needs = ("PostgreSQL", "sqitch", "curl")
    seconds = 40

    def book(self, name: str, zone: str = "UTC") -> Book:
        """Register a bridge, and return an empty book of it."""
        self.office.register(name, zone=zone, days=3650)
        return Book(f"{name}1")

    def file(self, name: str, text: str | bytes, mode: int = 0o644) -> str:
        path = f"{self.office.folder}/{name}"
        os.makedirs(os.path.dirname(path), exist_ok=True)
        with open(path, "wb") as it:
            it.write(text.encode() if isinstance(text, str) else text)
        os.chmod(path, mode)
        return path

    def with_programs(self, **programs: str) -> dict[str, str]:
        """Return an environment in which these shell scripts come before the machine's programs."""
        folder = tempfile.mkdtemp(dir=self.office.folder)
        for name, text in programs.items():
            self.file(f"{os.path.basename(folder)}/{name}", f"#!/bin/sh\n{text}\n", 0o755)
        return {"PATH": f"{folder}:{self.office.environment(OWNER)['PATH']}"}

    def is_written_down(self, what: str, wanted: str) -> None:
        """Show the bridge and the reason of the last refusal."""
        asked = (
            "SELECT bridge || ' ' || reason FROM head_office.refusal ORDER BY refusal DESC LIMIT 1"
        )
        self.same(what, wanted, self.office.reads(asked))

    def fails(self, what: str, found: Ended) -> None:
        self.holds(what, found[0], found)

    def help_and_words(self, script: str, *wrong: str) -> None:
        self.ends(f"{script} --help is the usage", 0, "^Usage: ", self.office.run(script, "--help"))
        self.ends(f"{script} with other words has status 2", 2, "", self.office.run(script, *wrong))

    def test_load(self) -> None:
        office, load = self.office, self.loads
        self.help_and_words("load", "one")
        book = self.book("NORTH")
        for number in range(3):
            book.add("single", "A-1", 9_000 + 20 * number)
        path = office.fresh(book)
        load("a first load", "NORTH", path, "^NORTH: records 3, added 3, findings 0, new 0$")
        book.change(2, gross=9_000)
        load("a load with a finding has status 1", "NORTH", book, "^unsound 2: ", 1)
        load("  and with a known one status 0", "NORTH", path, "findings 1, new 0$")
        book.change(2, gross=9_020)
        self.book("SOUTH")
        refused = "^SOUTH: refused: serial NORTH1 is registered for"
        load("a refused load has status 2", "SOUTH", book, refused, 2)
        self.is_written_down("  and is written down", "SOUTH serial")
        load("so has one of an unknown bridge", "X", path, "refused: no bridge X", 2)

        text = text_of(path)
        cut, is_cut = self.file("cut.csv", text[:-1]), "refused: the export is cut off$"
        load("an export that is cut off is refused", "NORTH", cut, is_cut, 2)
        self.is_written_down("  and is written down", "NORTH cut")
        load("so is an empty one", "NORTH", self.file("empty.csv", ""), is_cut, 2)
        load("so is one that isn't there", "NORTH", f"{cut}.none", "refused: no file ", 2)
        self.is_written_down("  which is written down", "NORTH unreachable")
        other = self.file("other.csv", text.replace("\n", ",x\n"))
        load("so is one with another column", "NORTH", other, "^NORTH: refused: ", 2)
        self.is_written_down("  because of its form", "NORTH form")
        load("without a server the status is 2", "NORTH", path, "", 2, **NOWHERE)
        fails = self.with_programs(psql="exit 2")
        load("  even if psql says nothing", "NORTH", path, "", 2, PGHOST="", **fails)

        # a text that a terminal obeys, and the end of a copy within quotes
        book.add("single", "A-1", 9_100)
        lines = [book.line(number) for number in range(1, 5)]
        lines[3] = lines[3].replace(book.rows[3]["digest"], '"\x1b[2J\xff\n\\.\n"')
        bytes_of_any = (HEADER + "".join(f"{it}\n" for it in lines)).encode("latin-1")
        hostile = self.file("hostile.csv", bytes_of_any)
        load("a digest of any bytes is a finding", "NORTH", hostile, "^unsound 4: .*\\?\\[2J", 1)

        os.utime(path, (0, time.time() - 10 * DAY))
        load("the moment of a file is its last change", "NORTH", path, "was loaded before$", 2)
        given = ("--fetched", "2050-01-01T00:00:00Z")
        load("  or is given", "NORTH", path, "refused: fetched at 2050-01-01", 2, *given)

        show = ("idle_in_transaction_session_timeout", "client_connection_check_interval")
        words = ["psql", "-X", "-q", "-A", "-t", "-v", "bridge=NORTH", "-f", f"{PARTS}/load.sql"]
        words += [it for name in show for it in ("-c", f"SHOW {name}")]
        found = office.exec(words, LOADER, given=text.encode())
        what = "a session that idles for a minute ends, and a client that went away within 2 s"
        self.same(what, ["1min", "2s"], found[1].split()[-2:])

    def test_load_from_an_address(self) -> None:
        office, me = self.office, getpass.getuser()
        book = self.book("WEB")
        for number in range(6):
            book.add("single", "A-1", 9_000 + 20 * number)
        office.fresh(book)

        def load(what: str, status: int, pattern: str, *words: str, **more: str) -> None:
            self.loads(what, "WEB", address, pattern, status, *words, **more)

        def weigh(what: str, count: int, gross: int, status: int, pattern: str) -> None:
            """Add entries, and load the newest two."""
            for _ in range(count):
                book.add("single", "A-1", gross, moment=int(time.time()))
            office.fresh(book)
            load(what, status, pattern, "--newest", HEAD_OFFICE_NEWEST="2")

        with served(office.folder) as address:
            stranger = "nobody" if me != "nobody" else "daemon"
            what = "another user who listens at the port is refused"
            load(what, 2, f"refused: {me} listens on port", HEAD_OFFICE_LISTENER=stranger)
            self.is_written_down("  which is written down", "WEB listener")
            what, wanted = "so is a user whom the machine doesn't have", "this machine has no user"
            load(what, 2, f"refused: {wanted}", HEAD_OFFICE_LISTENER="no-such-user")
            wanted = "^WEB: records 6, added 6, findings 0"
            load("the first load is of the whole export", 0, wanted, "--newest")
            wanted = "^WEB: records 2, added 1, findings 0"
            weigh("the next one is of the newest entries", 1, 9_200, 0, wanted)
            what = "if they don't reach what is stored, the whole export is loaded"
            weigh(what, 3, 9_000, 0, "^WEB: records 10, added 3")
            what = "after a finding the whole export is loaded, and the status is 1"
            weigh(what, 1, 9_010, 1, "^WEB: records 11, added 0")
        load("if nobody listens, the load is refused", 2, "refused: no export came from")
        self.is_written_down("  which is written down", "WEB unreachable")

    def test_watch(self) -> None:
        office = self.office
        self.help_and_words("watch")
        book = self.book("QUIET").add("single", "A-1", 9_000)
        office.load("QUIET", book)
        office.told(
            "UPDATE head_office.bridge SET load_within = '100 years' WHERE bridge = 'QUIET'"
        )
        state = f"{office.folder}/seen"

        def watch(**more: str) -> Ended:
            return office.run("watch", state, **more)

        watch()
        self.same("nothing new has status 0, and no line", (0, ""), watch())
        office.load("QUIET", book.change(1, gross=9_020))
        self.ends("without a server the status is 2", 2, "", watch(**NOWHERE))
        found = watch()
        self.ends("a finding has status 1", 1, r"^QUIET: finding \d+, unsound 1: ", found)
        self.same("  and one line", 1, found[1].count("\n"))
        self.same("  once", (0, ""), watch())
        self.same("  and not again an hour later", (0, ""), watch())
        office.register("FRESH")
        never = "^FRESH: fallen silent, last loaded never$"
        self.ends("a bridge that was never loaded", 1, never, watch())
        office.told(
            "UPDATE head_office.bridge SET load_within = '1 microsecond', whole_within = '1 microsecond' WHERE bridge = 'QUIET'"
        )
        found = watch()
        self.ends("a bridge that fell silent", 1, "^QUIET: fallen silent, last loaded 2", found)
        overdue = "^QUIET: the whole export is overdue"
        self.ends("  and whose whole export is overdue", 1, overdue, found)
        office.load("QUIET", self.file("cut.csv", HEADER[:-1]))
        refused = f"^QUIET: refused a load of {LOADER}: the export is cut"
        self.ends("a load that was refused", 1, refused, watch())
        office.acknowledge("QUIET", "FRESH")
        watch()
        seen = text_of(state)
        self.holds("the file has what was seen last, and no more", "finding" not in seen, seen)

    def test_compare(self) -> None:
        office = self.office
        self.help_and_words("compare", "COMPARED")
        book, start = self.book("COMPARED"), moment_of(2025, 3, 10, 8)
        book.add("first", "A-1", 12_000, moment=start)
        book.add("second", "A-1", 31_220, moment=start + 60)
        book.add("single", "B-2", 18_340, moment=start + 120)
        office.load("COMPARED", book)
        head = "ticket,kind,plate,first,at,gross_kg,tare_kg,net_kg\n"
        pair = "2,pair,A-1,1,2025-03-10 08:01:00,31220,12000,19220\n"
        preset = "3,preset,B-2,,2025-03-10 08:02:00,18340,5000,13340\n"

        def compare(*lines: str, name: str = "COMPARED", **more: str) -> Ended:
            path = self.file("tickets.csv", head + "".join(lines))
            return office.run("compare", name, path, **more)

        self.same("tickets that are the same have status 0", (0, ""), compare(pair, preset))
        self.same("  even if older ones were purged", (0, ""), compare(preset))
        found = compare(pair.replace("19220", "19200"), preset)
        self.ends("a net that was changed has status 1", 1, "^> 2,pair,.*,19200$", found)
        self.ends("  and is shown with what is computed", 1, "^< 2,pair,.*,19220$", found)
        self.ends("a ticket that was left out has status 1", 1, "^< 3,preset,", compare(pair))
        found = compare(pair, preset, name="X")
        self.ends("an unknown bridge has status 2", 2, "no such bridge", found)
        self.ends("without a server it is 2", 2, "", compare(pair, preset, **NOWHERE))
        fails = self.with_programs(psql="case $* in *first=*) exit 3;; esac; echo 1")
        self.ends("  even if the second question fails", 2, "", compare(pair, preset, **fails))

    def test_haulier(self) -> None:
        office, name = self.office, "Sand & Kies"
        self.help_and_words("haulier", name, "2025-13")
        book = self.book("HAUL", "Europe/Berlin")
        for plate, *moment in (
            ("H-1", 2025, 1, 31, 22, 59, 59),  # 1, of January in Berlin
            ("H-1", 2025, 1, 31, 23, 0, 0),  # 2, the first second of February
            ("H-2", 2025, 2, 10, 8, 0, 0),  # 3
            ("H-9", 2025, 2, 10, 9, 0, 0),  # 4, of nobody
            ("H-1", 2025, 2, 28, 22, 59, 59),  # 5, the last second of February
            ("H-1", 2025, 2, 28, 23, 0, 0),  # 6, of March
        ):
            book.add("single", str(plate), 18_000, moment=moment_of(*map(int, moment)))
        office.load("HAUL", book)
        office.told(f"INSERT INTO head_office.haulier VALUES ('{name}', 'H-1'), ('{name}', 'H-2')")
        head = "bridge,ticket,kind,plate,first,at,gross_kg,tare_kg,net_kg\n"
        tickets = "".join(
            f"HAUL,{ticket},preset,{plate},,{at},18000,5000,13000\n"
            for ticket, plate, at in (
                (2, "H-1", "2025-02-01 00:00:00"),
                (3, "H-2", "2025-02-10 09:00:00"),
                (5, "H-1", "2025-02-28 23:59:59"),
            )
        )
        found = office.run("haulier", name, "2025-02")
        self.same("a month has its tickets, by the zone of the bridge", (0, head + tickets), found)
        found = office.run("haulier", name, "2025-04")
        self.same("a month without tickets has status 0", (0, head), found)
        found = office.run("haulier", "X", "2025-02")
        self.ends("an unknown haulier has status 2", 2, "no plate is registered", found)
        found = office.run("haulier", name, "2025-02", **NOWHERE)
        self.ends("without a server it is 2", 2, "", found)

    def test_report(self) -> None:
        office = self.office
        self.help_and_words("report", "2025-02-30")
        book = self.book("PAGE", "America/New_York")
        noon, evening = moment_of(2025, 6, 30, 16), moment_of(2025, 7, 1, 3, 59, 59)
        for back in (30, 29, 1, 0):
            book.add("single", "R-1", 18_000, moment=noon - back * DAY)
        book.add("single", "R-1", 18_000, moment=evening)  # still the 30th of June in New York
        book.add("single", "R-1", 18_000, moment=evening + 1)  # the 1st of July
        book.add("first", "R-2", 18_000, moment=evening + 2)
        office.load("PAGE", book)
        status, page = office.run("report", "2025-06-30")
        self.same("a page is written", 0, status)
        cells = "".join(rf"<td class=\"n\">{it}</td>" for it in ("2", "36,000", "26,000"))
        row = f"<tr><td>PAGE</td>{cells}"
        self.holds("  with the totals of the day", re.search(row, page), page[-3000:])
        bars = [it for it in re.findall(r'<path d="([^"]*)"', page) if it.count("M") == 3]
        what = "  and the nets of thirty days, the first and the last among them"
        self.holds(what, bars and bars[0].startswith("M0 ") and "M145 " in bars[0], bars)
        row = r"<td>PAGE</td><td>R-2</td><td class=\"n\">7</td>"
        self.holds("  and the vehicle on site", re.search(row, page))
        self.holds("  and an end", page.endswith("</html>\n"))
        yesterday = (datetime.date.today() - datetime.timedelta(days=1)).isoformat()
        page = office.page()
        heading = f"<h1>Weighings of {yesterday}</h1>"
        self.holds("without a day it is yesterday's", heading in page, page[:300])
        book.rows[0]["digest"] = "<b>" + book.rows[0]["digest"]
        office.load("PAGE", book)
        page = office.page()
        found = re.search("<td[^>]*>unsound</td><td>1</td>", page)
        self.holds("a finding is on the page", found, page[2500:5000])
        is_text = "&lt;b&gt;" in page and "<b>" not in page
        self.holds("  and what came can't be a tag", is_text)
        self.ends("without a server the status isn't 0", 2, "", office.run("report", **NOWHERE))

    def test_backup(self) -> None:
        office = self.office
        self.help_and_words("backup", f"{office.folder}/none")
        last_year = time.gmtime().tm_year - 1
        book = self.book("SAVED").add("single", "A-1", 9_000, moment=moment_of(last_year, 6, 1))
        office.load("SAVED", book.add("single", "A-1", moment=int(time.time()) - 60))
        kept, log = f"{office.folder}/kept", f"{office.folder}/log"
        os.makedirs(kept)

        def backup(*words: str, **more: str) -> Ended:
            time.sleep(1.1)  # lists are named by their second
            return office.run("backup", kept, *words, user=OWNER, **more)

        def list_of(said: str) -> str:
            return said.strip().split("\n")[-1]

        def named_in(path: str) -> set[str]:
            return {line.split("  ")[1].strip() for line in lines_of(path)}

        def kept_now(end: str) -> set[str]:
            return {it for it in os.listdir(kept) if it.endswith(end)}

        status, said = backup(**self.with_programs(**logging(log, "sync", "mv")))
        first = list_of(said)
        made = status == 0 and os.path.exists(first)
        self.holds("a copy is made, and its list named", made, (status, said))
        calls = [it for it in calls_in(log) if it[0] in ("sync", "mv")]
        moved = [at for at, it in enumerate(calls) if it[0] == "mv"]
        unsafe = [calls[at] for at in moved if ["sync", calls[at][1]] not in calls[:at]]
        self.same("  each file is on the disk before it has its name", [], unsafe)
        unsafe = [calls[at] for at in moved if ["sync", "."] not in calls[at + 1 : at + 2]]
        self.same("  and its name is, before the next one", [], unsafe)
        is_last = calls[moved[-1]][2].endswith(".list") and len(moved) >= 5
        self.holds("  and the list comes last", is_last, calls)
        named = named_in(first)
        self.same("  which names each file", kept_now("") - kept_now(".list"), named)
        over = next(it for it in named if it.startswith(f"entries-{last_year}-"))
        before = os.stat(f"{kept}/{over}")
        status, said = backup()
        second = list_of(said)
        self.holds("a second copy has a list of its own", status == 0 and second != first, said)
        what = "  and leaves the file of a year that is over as it is"
        self.same(what, before, os.stat(f"{kept}/{over}"))
        self.holds("  which it names", over in named_in(second))

        lists = kept_now(".list")
        self.fails("without a server the status isn't 0", backup(**NOWHERE))
        for program in ("pg_dump", "pg_dumpall", "sync", "gzip", "sha256sum"):
            status, said = backup(**self.with_programs(**{program: "exit 1"}))
            new = kept_now(".list") - lists
            what = f"if {program} fails, the status isn't 0 and there is no list"
            self.holds(what, status != 0 and not new, (status, said[-300:], new))
            self.same("  and no part of a file is left", set(), kept_now(".part"))

        self.file("kept/entries-1999-1-1.csv.gz", "of no list")
        self.file("kept/notes.txt", "of somebody else")
        for it in kept_now("") - {os.path.basename(second)}:
            os.utime(f"{kept}/{it}", (time.time() - 40 * DAY,) * 2)
        backup("30")
        left = kept_now("")
        is_gone = os.path.basename(first) not in left
        self.holds("a list that is older than thirty days goes", is_gone, left)
        self.holds("  and a file that no list names", "entries-1999-1-1.csv.gz" not in left, left)
        self.holds("  but not one that a list names, however old it is", over in left, left)
        self.holds("  and nothing else", "notes.txt" in left, left)
        all_named = set().union(*(named_in(f"{kept}/{it}") for it in kept_now(".list")))
        self.same("  so that each list has its files", set(), all_named - left)
        for it in kept_now(".list"):
            os.remove(f"{kept}/{it}")
        named = named_in(list_of(backup()[1]))
        self.holds("a file of a past year that no list names is named again", over in named, named)

        # twice one entry of last year is set aside, and the other one counts
        book = self.book("CORRECTED")
        for number in range(3):
            moment = moment_of(last_year, 6, 1) + number
            book.add("single", "A-1", 9_000, moment=moment)
        office.load("CORRECTED", book)
        set_aside = "SELECT head_office.set_aside(journal, {0}, {0}, 'false') FROM head_office.journal WHERE bridge = 'CORRECTED'"
        office.told(set_aside.format(1))
        former = {it for it in named_in(list_of(backup()[1])) if f"-{last_year}-" in it}
        office.told(
            "SELECT head_office.take_back(max(correction), 'right') FROM head_office.correction"
        )
        office.told(set_aside.format(2))
        latter = {it for it in named_in(list_of(backup()[1])) if f"-{last_year}-" in it}
        what = "a year of which other entries are set aside is copied again"
        self.holds(what, former and latter and not former & latter, (former, latter))

    def test_restore(self) -> None:
        office = self.office
        self.help_and_words("restore", f"{office.folder}/none")
        book = self.book("BACK")
        book.moment = moment_of(time.gmtime().tm_year - 1, 6, 1)  # each year has a file
        book.add("first", "A-1", 9_000).add("second", "A-1", 20_000)
        book.add("single", "B-2", 18_000, moment=int(time.time()) - 60)
        office.load("BACK", book)
        kept = f"{office.folder}/copies"
        os.makedirs(kept)
        path = office.run("backup", kept, user=OWNER)[1].strip().split("\n")[-1]
        again, changed = (self.empty_database(f"{office.database}_{it}") for it in ("again", "new"))

        def restore(what: str, pattern: str, *database: str, status: int = 1, **more: str) -> None:
            found = office.run("restore", path, *database, user=OWNER, **more)
            self.ends(what, status, pattern, found)

        wanted = "^restored 3 entries, 0 of them unsound; 0 sums that differ$"
        restore("a copy is restored", wanted, again.database, status=0)
        asked = "SELECT sum(net_kg) FROM head_office.day_total WHERE bridge = 'BACK'"
        self.same("  with its sums", "24000", again.owner(asked))
        what = "a database that has a head office is refused"
        restore(what, "name an empty one", again.database)
        restore("  and so is its own name, which is there", "there is a database")
        restore("  and one that isn't there", "isn't there", "nowhere")
        for name in sorted(it for it in os.listdir(kept) if not it.endswith(".list")):
            with open(f"{kept}/{name}", "rb") as it:
                whole = it.read()
            self.file(f"copies/{name}", whole[:-1] + bytes([whole[-1] ^ 1]))
            what = f"a copy whose {name.split('-')[0]} was changed is refused"
            restore(what, "isn't as it was copied", changed.database)
            os.remove(f"{kept}/{name}")
            restore("  or is missing", "a file is missing", changed.database)
            self.file(f"copies/{name}", whole)
        schemas = "SELECT count(*) FROM pg_namespace WHERE nspname = 'head_office'"
        self.same("  and nothing of it is restored", "0", changed.owner(schemas))
        fails = self.with_programs(gzip="exit 1")
        found = office.run("restore", path, changed.database, user=OWNER, **fails)
        is_so = found[0] and "is not whole" in found[1]
        self.holds("a copy that can't be unpacked is refused", is_so, found)

    def test_archive(self) -> None:
        office = self.office
        log, archive = f"{office.folder}/calls", f"{office.folder}/archive"
        source, target = self.file("pg_wal/0001", "of the log"), f"{archive}/0001"
        os.makedirs(archive)
        found = office.run("archive", source)
        self.ends("archive with other words has status 2", 2, "^Usage: ", found)
        programs = self.with_programs(**logging(log, "cp", "sync", "mv"))
        found = office.run("archive", source, target, **programs)
        self.same("a file of the log is copied", (0, ""), found)
        part = f"{target}.part"
        what = "  is on the disk before it has its name, and its name is on the disk"
        wanted = [f"cp {source} {part}", f"sync {part}", f"mv {part} {target}", f"sync {archive}"]
        self.same(what, [it.split() for it in wanted], calls_in(log))
        found = office.run("archive", source, target)
        self.same("the same file again is archived already", (0, ""), found)
        found = office.run("archive", self.file("pg_wal/other", "of another log"), target)
        self.ends("another one of its name is refused", 1, "is there already", found)
        self.same("  and the first one stays", "of the log", text_of(target))
        fails = self.with_programs(sync="exit 1")
        found = office.run("archive", source, f"{archive}/0002", **fails)
        self.fails("if it isn't on the disk, the status isn't 0", found)
        self.holds("  and it has no name", not os.path.exists(f"{archive}/0002"))
        found = office.run("archive", f"{source}.none", f"{archive}/0003")
        self.fails("a file that isn't there has no status 0", found)

    def test_alarm(self) -> None:
        office, mail = self.office, f"{self.office.folder}/mail"
        self.help_and_words("alarm")
        sendmail = self.file("sendmail", f'#!/bin/sh\necho "$*" >{mail}\ncat >>{mail}\n', 0o755)
        said = 'case $* in *"-u one.service"*) echo "what it said";; esac'
        more = {**self.with_programs(journalctl=said), "SENDMAIL": sendmail}
        status, _ = office.run("alarm", "one.service", HEAD_OFFICE_MAIL="ada@example.org", **more)
        text = text_of(mail)
        head = "-t -oi\nTo: ada@example.org\nSubject: one.service on "
        self.holds("a mail is sent", status == 0 and text.startswith(head), text)
        self.holds("  with what the unit said", "\n\nwhat it said\n\n" in text, text)
        office.run("alarm", "one.service", **more)
        self.holds("without a name it goes to root", "\nTo: root\n" in text_of(mail))
        more["SENDMAIL"] = self.file("sendmail", "#!/bin/sh\nexit 75\n", 0o755)
        found = office.run("alarm", "one.service", **more)
        self.fails("if it can't be sent, the status isn't 0", found)

    def test_upgrade(self) -> None:
        office = self.office
        self.help_and_words("upgrade", "one")
        wanted = r"\Athe schema is of version \d+$"
        self.ends("an office of this version is left as it is", 0, wanted, office.upgrade())
        found = office.run("upgrade", user=READER, **NOWHERE)
        self.fails("without a server the status isn't 0", found)
        copy = f"{office.folder}/other/head_office"
        shutil.copytree(PARTS, copy)
        with open(f"{copy}/deploy/version_9.sql", "a", encoding="utf-8") as it:
            it.write("-- another file\n")
        what = "a change that isn't the one that ran is refused"
        wanted = "another file than the one that was run here: version_9"
        self.ends(what, 3, wanted, office.upgrade(parts=copy))
        shutil.copy(f"{PARTS}/deploy/version_9.sql", f"{copy}/deploy/version_9.sql")
        with open(f"{copy}/functions/advice.sql", "a", encoding="utf-8") as it:
            it.write("create table head_office.half (a integer); select no_such_function();\n")
        found = office.upgrade(parts=copy)
        self.ends("functions that fail change nothing", 3, "no_such_function", found)
        half = "SELECT to_regclass('head_office.half') IS NULL"
        self.same("  at all", "t", office.owner(half))
        asked = "SELECT pg_get_userbyid(proowner) FROM pg_proc WHERE proname = 'take_in'"
        what = "  and take_in runs as the role that stores"
        self.same(what, "head_office_storer", office.owner(asked))
