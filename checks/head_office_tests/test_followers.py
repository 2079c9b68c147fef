"""Journals that were migrated to version 2, unchanged and changed: the follower of a journal has each of its entries with another digest."""

import re
import sqlite3
import subprocess
import time

from checks.lib import program
from checks.lib.books import HEADER
from checks.lib.case import PROGRAM
from checks.lib.head_office import DAY, REGISTRAR, at_last_entry, lines_of, written
from checks.lib.head_office_journals import (
    COLUMNS,
    COUNT,
    JournalCheck,
    end_service,
    exported,
    start_service,
    weigh,
)
from checks.lib.journal import OLD_TABLES, digest_of, make_journal
from checks.lib.tampering import KINDS, File

HEADER_1 = HEADER.replace(",previous", "")
# Each field, changed while the journal was migrated, and the number of the entry
CHANGES = {
    1: "request_key = 'other'",
    5: "plate = 'OTHER'",
    17: "gross_kg = gross_kg + 20",
    23: "preset_kg = preset_kg + 20",
    29: "interval_kg = 10",
    35: "max_kg = 50000",
    41: "serial = 'FIELDS2'",
    47: "kind = 1, preset_kg = NULL",
    60: "moment = moment + 1",
}


def of_version_1(source: File, path: str) -> File:
    """Make a file of version 1 with the entries of one of version 2, as an older program weighed them."""
    rows = []
    for row in source.do(f"SELECT {COLUMNS} FROM journal ORDER BY number"):
        number, key, kind, plate, moment, gross, preset, interval, most, serial = row
        texts = ("-" if it is None else it for it in (gross, preset))
        parts = (number, key, KINDS[kind - 1], plate, moment, *texts, most, serial)
        rows.append((*row, digest_of(*parts, None, interval)))
    connection = sqlite3.connect(path)
    connection.executescript(OLD_TABLES)
    connection.executemany(f"INSERT INTO journal VALUES ({','.join('?' * 11)})", rows)
    connection.commit()
    connection.close()
    return File(path)


def exported_1(old: File) -> str:
    """Write the export of a file of version 1, as an older program writes it."""
    lines = [HEADER_1]
    for number, key, kind, plate, moment, *more in old.do(
        f"SELECT {COLUMNS}, digest FROM journal ORDER BY number"
    ):
        at = time.strftime("%Y-%m-%d %H:%M:%S", time.gmtime(moment))
        fields = [number, key, KINDS[kind - 1], plate, at, *more]
        lines.append(",".join("" if it is None else str(it) for it in fields) + "\n")
    return written(f"{old.path}.csv", lines)


class Followers(JournalCheck):
    """Journals that the program weighed, made journals of version 1, and migrated by the program."""

    needs = (PROGRAM, "PostgreSQL", "sqitch")
    seconds = 20

    def former(self, name: str) -> File:
        """Register a bridge, and return its journal of version 1 with sixty entries. It isn't loaded yet."""
        return of_version_1(self.journal(name), f"{self.office.folder}/{name}.old.db")

    def migrated(self, old: File, count: int = COUNT) -> File:
        """Return the file into which the program migrates one of version 1."""
        new = old.path.replace(".old.db", ".new.db")
        words = [program.compiled(), "migrate", "--file", old.path, "--to", new]
        said = subprocess.run(words, capture_output=True, text=True)
        what = f"{new} is migrated by the program"
        self.same(what, f"MIGRATED {count}\n", said.stdout + said.stderr)
        return File(new)

    def found(self, name: str) -> list[str]:
        columns = "what, first, last"
        return sorted(
            self.office.findings(name, columns),
            key=lambda it: (it.split("|")[0], int(it.split("|")[1])),
        )

    def differs(self) -> str:
        return self.office.reads("SELECT count(*) FROM head_office.follower_difference")

    def known(self, what: str, name: str, path: str, records: int = COUNT, added: int = 0) -> None:
        wanted = f"^{name}: records {records}, added {added}, findings 0"
        self.loads(what, name, path, wanted)

    def test_unchanged(self) -> None:
        office, name = self.office, "MOVED"
        office.register("NORTH")
        old = self.former(name)
        old_export = exported_1(old)
        self.known("a journal of version 1", name, old_export, added=60)
        asked = (
            "SELECT * FROM head_office.day_total ORDER BY day",
            "SELECT * FROM head_office.on_site ORDER BY number",
            "SELECT ticket, plate, at, net_kg FROM head_office.ticket ORDER BY ticket",
        )
        before = [office.reads(it) for it in asked]
        new = self.migrated(old)
        export = exported(new.path)
        what = "migrated, before that is registered"
        wanted = "refused: a journal of MOVED that is not registered"
        self.loads(what, name, export, wanted, 2)
        self.refused_followers()
        what = "registered: nothing is missing, nothing was used again, nothing falls"
        wanted = "^MOVED: records 60, added 60, findings 0, new 0$"
        self.loads(what, name, export, wanted)
        self.same("and nothing differs", "0", self.differs())
        both = "SELECT count(*), count(*) FILTER (WHERE n.digest <> o.digest AND n.previous IS NOT NULL AND o.previous IS NULL) FROM head_office.follower f JOIN head_office.entry n ON n.journal = f.journal JOIN head_office.entry o ON o.journal = f.former AND o.number = n.number"
        self.same("but the digests of all", "60|60", office.reads(both))
        what = "totals, vehicles on site and tickets are what they were"
        self.same(what, before, [office.reads(it) for it in asked])
        self.known("again", name, export)
        self.known("the former one again", name, old_export)
        tickets = exported(new.path, "tickets")
        what = "the tickets are the bridge's own, line by line"
        self.same(what, (0, ""), office.run("compare", name, tickets))
        self.both_versions(lines_of(export), lines_of(old_export))
        self.continued(new, lines_of(old_export))

    def refused_followers(self) -> None:
        """Register the follower, and then others that aren't any."""
        office = self.office
        office.follow("MOVED")
        office.told("INSERT INTO head_office.journal (bridge, note) VALUES ('MOVED', 'by mistake')")
        other, first, follower, newest = office.rows(
            "SELECT journal FROM head_office.journal ORDER BY journal"
        )
        unique = "duplicate key value violates unique constraint"
        for what, bridge, its, former, words in (
            ("registered twice", "MOVED", follower, first, f'{unique} "follower_pkey"'),
            (
                "next to another one of the same journal",
                "MOVED",
                newest,
                first,
                f'{unique} "follower_former_key"',
            ),
            (
                "of another bridge's journal",
                "MOVED",
                newest,
                other,
                'violates foreign key constraint "follower_former_bridge_fkey"',
            ),
            ("for another bridge", "NORTH", newest, follower, "violates foreign key constraint"),
            ("of a journal that was registered after it", "MOVED", first, newest, "comes_after"),
            ("of itself", "MOVED", newest, newest, "comes_after"),
        ):
            insert = f"INSERT INTO head_office.follower VALUES ('{bridge}', {its}, {former})"
            self.refuses(f"a follower {what} is refused", words, insert, REGISTRAR)
        office.told(
            f"INSERT INTO head_office.follower VALUES ('MOVED', {newest}, {follower})",
            "DELETE FROM head_office.journal WHERE note = 'by mistake'",
        )
        count = office.reads("SELECT count(*) FROM head_office.follower")
        what = "one that was registered by mistake is taken back with its journal"
        self.same(what, "1", count)

    def both_versions(self, lines: list[str], old_lines: list[str]) -> None:
        """Load records of both versions in one export."""
        path = f"{self.office.folder}/mixed.csv"
        mixed = [*lines[:5], old_lines[5].replace("\n", ",\n"), *lines[6:]]
        wanted = f"^unsound 5: 5,.*\n  stored here: {re.escape(lines[5].strip())}$"
        what = "a record of version 1 among those of version 2"
        self.loads(what, "MOVED", written(path, mixed), wanted, 1)
        cut = [it.rsplit(",", 1)[0] + "\n" for it in lines]
        wanted = "refused: the column previous is missing"
        what = "records of version 2 without their previous digest"
        self.loads(what, "MOVED", written(path, cut), wanted, 2)

    def continued(self, new: File, old_lines: list[str]) -> None:
        """Weigh in the new file, and then in the old one too."""
        office, path = self.office, f"{self.office.folder}/continued.csv"
        service = start_service(new.path, "MOVED1")
        weigh(service, 61, "V-29")
        weigh(service, 64)
        end_service(service)
        lines = lines_of(exported(new.path))
        newest = written(path, [lines[0], *lines[-5:]])
        what = "weighed on in the new file, only the newest entries"
        wanted = "^MOVED: records 5, added 2, findings 0"
        self.loads(what, "MOVED", newest, wanted, 0, "--newest")
        last = "SELECT ticket, first FROM head_office.ticket WHERE ticket > 60 ORDER BY ticket"
        what = "is counted once, even with a First that is in both"
        self.same(what, ["61|60", "62|"], office.rows(last))
        self.same("and differs from nothing", "0", self.differs())
        moment = int(time.time())
        parts = (61, "OLD61", "first", "OLD-61", moment, 20000, "-")
        digest = digest_of(*parts, serial="MOVED1", previous=None)
        at = time.strftime("%Y-%m-%d %H:%M:%S", time.gmtime(moment))
        record = f"61,OLD61,first,OLD-61,{at},20000,,20,60000,MOVED1,{digest}\n"
        both = written(path, [*old_lines, record])
        self.known("weighed on in the old file too", "MOVED", both, 61, 1)
        newer, older = (re.escape(it.strip()) for it in (lines[61], record))
        wanted = f"^altered 61: {newer}\n  in the former journal: {older}$"
        self.loads("  is found next to the new one", "MOVED", exported(new.path), wanted, 1)
        new.take_out("number = 30")
        what = "an entry removed of the new file after it was loaded"
        wanted = "^missing 30: 1 of them stored then"
        self.loads(what, "MOVED", exported(new.path), wanted, 1)

    def test_each_field(self) -> None:
        office, old = self.office, self.former("FIELDS")
        old_lines = lines_of(exported_1(old))
        office.load("FIELDS", exported_1(old))
        new = self.migrated(old)
        office.told("INSERT INTO head_office.instrument VALUES ('FIELDS2', 'FIELDS')")
        for number, change in CHANGES.items():
            new.change(number, change)
        new.relink(1)
        words = [program.compiled(), "check", "--file", new.path]
        said = subprocess.run(words, capture_output=True, text=True).stdout.strip()
        self.same("changed while it was migrated, and sound at the bridge", "SOUND 60", said)
        export = exported(new.path)
        lines = lines_of(export)
        office.follow("FIELDS")
        status, said = office.load("FIELDS", export)
        wanted = "FIELDS: records 60, added 60, findings 16, new 16\n"
        what = "each field that was changed is found"
        self.holds(what, status == 1 and said.startswith(wanted), said)
        for number, change in CHANGES.items():
            former = old_lines[number].strip()
            wanted = f"altered {number}: {lines[number].strip()}\n  in the former journal: {former}\n  stop the bridge"
            self.holds(f"  {change}", wanted in said, said)
        each = [f"altered|{number}|{number}" for number in CHANGES] + ["open twice|48|48"]
        each += [f"setup|{number}|{number}" for number in (29, 30, 35, 36, 41, 42)]
        self.same("  and nothing else", each, self.found("FIELDS"))
        wanted = "^FIELDS: records 60, added 0, findings 9, new 0$"
        self.loads("  written once", "FIELDS", export, wanted)
        self.same("  and seen in the view", "9", self.differs())

    def test_left_out(self) -> None:
        office, old = self.office, self.former("LEFT")
        old_lines = lines_of(exported_1(old))
        office.load("LEFT", exported_1(old))
        new = self.migrated(old)
        office.follow("LEFT")
        empty = written(f"{office.folder}/empty.csv", [HEADER])
        wanted = "^LEFT: refused: the export has no record, and entries up to 60 had to be kept"
        self.loads("a follower without an entry", "LEFT", empty, wanted, 2)
        new.take_out("number IN (1, 2, 5, 11, 12, 59, 60)")
        new.relink(1)
        wanted = f"^left out 11-12: 2 of them stored of the former journal\n  in the former journal: {re.escape(old_lines[11].strip())}$"
        what = "entries that were left out are found"
        self.loads(what, "LEFT", exported(new.path), wanted, 1)
        each = [f"left out|{it}" for it in ("1|2", "5|5", "11|12", "59|60")]
        each += ["refused|0|REFUSAL", "unchained|6|6", "unchained|13|13"]
        found = [re.sub(r"(refused\|0\|)\d+", r"\1REFUSAL", it) for it in self.found("LEFT")]
        self.same("  a row of them at a time, and where the chain is broken", each, found)
        wanted = "^LEFT: records 53, added 0, findings 4, new 0$"
        self.loads("  written once", "LEFT", exported(new.path), wanted)

    def test_put_in(self) -> None:
        """Put an entry in while a journal is migrated, and load the former export late."""
        office, old = self.office, self.former("PUT")
        late = exported_1(old)
        lines = lines_of(late)
        part = written(f"{office.folder}/part.csv", lines[:29] + lines[30:41])
        what = "a journal of version 1 without an entry"
        self.loads(what, "PUT", at_last_entry(part), "^unseen 29: ", 1)
        new = self.migrated(old)
        new.change(53, "plate = 'OTHER'")
        new.relink(53)
        office.follow("PUT")
        wanted = r"^put in 29: 29,.*\n  stop the bridge"
        self.loads("migrated with it", "PUT", exported(new.path), wanted, 1)
        what = "  what the former journal hasn't yet can't differ"
        self.same(what, ["put in|29|29", "unseen|29|29"], self.found("PUT"))
        self.known("the former's last export, loaded late", "PUT", late, added=21)
        what = "  shows what differs at the next load"
        wanted = "^PUT: records 60, added 0, findings 1, new 1\naltered 53: 53,"
        self.loads(what, "PUT", exported(new.path), wanted, 1)

    def test_purged(self) -> None:
        """Purge a journal before it is migrated."""
        office, path = self.office, f"{self.office.folder}/purged.db"
        make_journal(path, 300, 20 * DAY, "AGED1")
        File(path).do("UPDATE journal SET moment = moment - ? WHERE number <= 200", 40 * DAY)
        old = of_version_1(File(path), f"{office.folder}/AGED.old.db")
        office.register("AGED")
        self.known("a journal of version 1 with old entries", "AGED", exported_1(old), 300, 300)
        old.do("INSERT INTO spent SELECT request_key, number FROM journal WHERE number <= 200")
        old.do("DELETE FROM journal WHERE number <= 200")
        new = self.migrated(old, 100)
        office.follow("AGED")
        what = "purged and migrated: nothing is missing"
        self.known(what, "AGED", exported(new.path), 100, 100)
        self.same("and nothing differs", "0", self.differs())
        tickets = office.reads("SELECT sum(tickets) FROM head_office.day_total")
        self.same("each ticket is counted once", "300", tickets)
