"""Head offices of versions 1, 2 and 4 with entries, which are upgraded and loaded on. Exports of both versions of a journal come, by former loads and by this one."""

import glob
import hashlib
import os
import shutil
import time
from collections.abc import Collection

from checks.lib import former_office
from checks.lib.books import Book
from checks.lib.head_office import (
    DAY,
    LAST,
    LOADER,
    OWNER,
    PARTS,
    VERSION,
    ClusterCheck,
    Office,
    lines_of,
    written,
)
from checks.lib.journal import ZEROS, digest_of

UNSOUND = "SELECT count(*) FROM head_office.unsound_entry"
DIFFERENCES = "SELECT * FROM head_office.sum_difference"
ADVISORY = "SELECT pg_advisory_lock(hashtext('head_office upgrade'));"
BOTH_TABLES = "SELECT md5(string_agg(e::text, '|' ORDER BY journal, number)), count(DISTINCT tableoid) FROM head_office.entry e"


def steps_from(version: int) -> str:
    """Return what an upgrade from this version prints."""
    return "".join(f"version {it}\n" for it in range(version + 1, VERSION + 1)) + LAST


def export_of(
    office: Office, serial: str, count: int, first: int = 1, age: int = 600, previous: str = ZEROS
) -> str:
    """Write an export of this many Singles from a number on, a second apart, chained to an entry with this digest."""
    book = Book(serial, age=age + first + count, step=1)
    for number in range(1, first + count):
        more = {"own_previous": previous} if number == first else {}
        book.add("single", f"P-{number}", 18_340, **more)
    return office.export(book, without=range(1, first))


def export_of_version_1(office: Office, serial: str, numbers: Collection[int], age: int) -> str:
    """Write an export of Singles of version 1, which don't name the entry before."""
    book = Book(serial, age=age + max(numbers), step=1)
    for number in range(1, max(numbers) + 1):
        its = book.add("single", f"P-{number}", 18_340).rows[-1]
        parts = (number, its["key"], "single", its["plate"], its["moment"], 18_340, 5_000)
        its["digest"] = digest_of(*parts, serial=serial, previous=None)
    path = office.export(book, without=[it for it in range(max(numbers)) if it not in numbers])
    lines, moment = lines_of(path), os.stat(path).st_mtime
    written(path, [line.rsplit(",", 1)[0] + "\n" for line in lines])
    os.utime(path, (moment, moment))
    return path


def sum_of(path: str, what: str = "sha256") -> str:
    with open(path, "rb") as it:
        return hashlib.file_digest(it, what).hexdigest()


class VersionCheck(ClusterCheck):
    """A check of an office of a former version."""

    def former(self, version: int, *bridges: str) -> Office:
        """Make an office of a version, with bridges and a loader of all of them."""
        office = self.empty_database(f"version_{version}")
        former_office.make(self.cluster, office.folder, version, office.database)
        office.register(*bridges, user=OWNER)
        office.owner(f"INSERT INTO head_office.loader VALUES ('{LOADER}', NULL)")
        return office

    def former_load(self, office: Office, name: str, path: str, is_chained: bool = True) -> str:
        """Return what a load says as bridges of versions 1 to 4 make it."""
        former = former_office.load
        return former(self.cluster, name, path, LOADER, office.database, is_chained)[1]

    def load(
        self,
        office: Office,
        what: str,
        name: str,
        path: str,
        wanted: str,
        status: int = 0,
        *words: str,
    ) -> None:
        self.ends(what, status, wanted, office.load(name, path, *words))


class FirstVersions(VersionCheck):
    """Offices of versions 1 and 2."""

    needs = ("PostgreSQL", "sqitch")
    seconds = 15

    def test_version_1(self) -> None:
        office, name = self.former(1, "OLD", "PURGED"), "OLD"
        version = office.owner("SELECT max(version) FROM head_office.version")
        self.same("a schema of version 1", "1", version)
        old = export_of_version_1(office, "OLD1", range(1, 31), 600)
        kept = shutil.copy2(old, f"{office.folder}/old.csv")
        said = self.former_load(office, name, kept, False)
        wanted = f"{name}: records 30, added 30, findings 0"
        self.holds("an export of version 1 into it", said.startswith(wanted), said)
        self.same("upgraded to the newest version", (0, steps_from(1)), office.upgrade())
        self.same("each entry fits its digest", "0", office.owner(UNSOUND))
        wanted = "^OLD: records {}, added {}, findings 0"
        self.load(office, "the same export", name, kept, wanted.format(30, 0))
        chained = export_of(office, "OLD1", 20, age=500)
        what = "an export of version 2 of another file, before that is registered"
        refused = "refused: a journal of OLD that is not registered"
        self.load(office, what, name, chained, refused, 2)
        office.owner(
            "INSERT INTO head_office.journal (bridge, note) VALUES ('OLD', 'of version 2')"
        )
        self.load(office, "once it is registered", name, chained, wanted.format(20, 20))
        behind = export_of_version_1(office, "OLD1", range(21, 26), 400)
        unchained = "^unchained 21: previous none, after "
        self.load(office, "records of version 1 behind it", name, behind, unchained, 1)
        self.purged(office)
        registered = "INSERT INTO head_office.follower SELECT bridge, max(journal), min(journal) FROM head_office.journal WHERE bridge = 'OLD' GROUP BY bridge"
        what = "a journal that was registered before is made a follower"
        self.same(what, "", office.owner(registered))
        asked = (
            "SELECT what, count(*) FROM head_office.follower_difference GROUP BY what ORDER BY what"
        )
        what = "and differs in each entry, which are others"
        self.same(what, "altered|25\nleft out|5", office.owner(asked))
        asked = "SELECT bridge, number FROM head_office.unchained_entry WHERE bridge = 'PURGED' ORDER BY number"
        what = "what is stored there unchained"
        self.same(what, "PURGED|9\nPURGED|12", office.owner(asked))

    def purged(self, office: Office) -> None:
        """Load a journal that was purged to its end. It continues with zeros, if all of it was past retention."""
        known = "^PURGED: records {0}, added {0}, findings 0"
        zeros = "^unchained 9: previous 0{64}, after [0-9a-f]{64}$"
        for what, count, first, age, wanted, status in (
            ("an old journal", 5, 1, 40 * DAY, known.format(5), 0),
            ("purged, and begun again", 3, 6, 600, known.format(3), 0),
            ("begun again before it was past retention", 3, 9, 600, zeros, 1),
        ):
            path = export_of(office, "PURGED1", count, first, age)
            self.load(office, what, "PURGED", path, wanted, status)
        asked = "SELECT encode(digest, 'hex') FROM head_office.entry WHERE serial = 'PURGED1' ORDER BY number DESC LIMIT 1"
        wanted = f"^unchained 12: previous f{{64}}, after {office.owner(asked)}$"
        path = export_of(office, "PURGED1", 1, 12, previous="f" * 64)
        what = "another digest than the one that is stored"
        self.load(office, what, "PURGED", path, wanted, 1)

    def test_version_2(self) -> None:
        office = self.former(2, "OLD")
        chained = export_of(office, "OLD1", 20, age=500)
        said = self.former_load(office, "OLD", chained)
        wanted = "OLD: records 20, added 20, findings 0"
        self.holds("a load into a schema of version 2", said.startswith(wanted), said)
        self.same("upgraded to the newest version too", (0, steps_from(2)), office.upgrade())
        what = "and loaded again, only the newest entries"
        wanted = "^OLD: records 20, added 0, findings 0"
        self.load(office, what, "OLD", chained, wanted, 0, "--newest")


class VersionFour(VersionCheck):
    """An office of version 4 with data in it, which two upgrades at once find."""

    needs = ("PostgreSQL", "sqitch")
    seconds = 25

    def test_version_4(self) -> None:
        office = self.former(4, "ONE", "TWO", "TARE", "GAP")
        books = {
            it: Book(f"{it}1", age=20 * DAY, step=5_000).fill(count)
            for it, count in (("ONE", 301), ("TWO", 301), ("GAP", 60))
        }
        # version 4 showed a net below zero without its sign
        books["TARE"] = Book("TARE1").add("single", "T-1", 20_000, preset=26_000)
        for name, book in books.items():
            gaps = (29, 30) if name == "GAP" else ()
            self.former_load(office, name, office.export(book, without=gaps))
        files = "SELECT pg_relation_filenode('head_office.{0}'), pg_relation_filenode('head_office.{0}_pkey'), (SELECT count(*) FROM head_office.{0})"
        stands = office.owner(files.format("entry"))
        books["TWO"].change(50, gross=9_000)
        self.former_load(office, "TWO", office.export(books["TWO"]))
        asked = (
            "SELECT bridge, day, tickets, gross_kg, net_kg, brought_kg, taken_kg, preset_kg FROM head_office.day_total WHERE bridge <> 'TARE' ORDER BY 1, 2",
            "SELECT bridge, plate, number, gross_kg FROM head_office.on_site ORDER BY 1, 2",
            "SELECT what, first FROM head_office.finding",
        )
        before = office.owner(*asked)
        both = [office.start(f"{PARTS}/upgrade", user=OWNER) for _ in range(2)]
        said = sorted(it.communicate(timeout=300)[0] for it in both)
        what = "two upgrades of version 4 at once: one makes it, the other waits"
        found = (said, [it.returncode for it in both])
        self.same(what, ([LAST, steps_from(4)], [0, 0]), found)
        what = "  totals, vehicles on site and findings are what they were"
        self.same(what, before, office.owner(*asked))
        self.same("  and what the entries say", "", office.owner(DIFFERENCES))
        constraints = "SELECT count(*) FROM pg_constraint WHERE NOT convalidated"
        what = "  and each constraint was held against all entries"
        self.same(what, "0", office.owner(constraints))
        what = "  the table of the entries wasn't written again"
        self.same(what, stands, office.owner(files.format("entry_before")))
        indexes = (
            "SELECT count(*) FROM pg_index WHERE indrelid = 'head_office.entry_before'::regclass"
        )
        self.same("  nor has it an index twice", "4", office.owner(indexes))
        for added in (2, 0):
            what = f"  of a Second and a Single that come late among them {added} are stored"
            wanted = f"records 60, added {added}, findings 0"
            self.load(office, what, "GAP", office.fresh(books["GAP"]), wanted)
        what = "  in the table of its year, and nowhere else"
        self.same(what, stands, office.owner(files.format("entry_before")))
        books["ONE"].fill(6)
        for name, wanted in (
            ("TWO", "added 0, findings 1, new 0"),
            ("ONE", "added 6, findings 0"),
        ):
            what = f"  {name} is loaded on, and nothing is found twice"
            path = office.fresh(books[name])
            self.load(office, what, name, path, wanted)
        said_then = self.former_load(office, "ONE", path)
        what = "  even by a bridge that wasn't upgraded to this version yet"
        self.holds(what, "records 307, added 0, findings 0" in said_then, said_then)
        what = "  what is kept of them is what the entries say"
        self.same(what, "", office.owner(DIFFERENCES))
        self.copies(office)
        self.changed_files(office)

    def copies(self, office: Office) -> None:
        """Make two copies of an office that had entries before there were tables of years, and restore one."""
        kept, files = self.folder(), []
        for _ in range(2):
            status, said = office.run("backup", kept, user=OWNER)
            before = glob.glob(f"{kept}/entries-before-*.csv.gz")
            files.append([(it, os.stat(it).st_mtime_ns) for it in before])
            time.sleep(1.1)
        is_once = status == 0 and len(files[0]) == 1 and files[0] == files[1]
        what = "  what was stored before there were tables of years is copied once"
        self.holds(what, is_once, (said, files))
        again = self.empty_database("version_4_again")
        found = office.run("restore", said.strip(), again.database, user=OWNER)
        self.ends("  and restored", 0, " 0 of them unsound; 0 sums that differ", found)
        same = (office.owner(BOTH_TABLES), again.owner(BOTH_TABLES))
        self.same("  with the same entries in the same tables", *same)
        status, said = again.ask("DELETE FROM head_office.entry_before")
        is_refused = status and "entry_before is never changed" in said
        self.holds("  which is read-only there too", is_refused, said)

    def changed_files(self, office: Office) -> None:
        """Upgrade with functions and a change that differ, and while another upgrade runs."""
        recorded = office.owner("SELECT change, script_hash FROM head_office_sqitch.changes")
        what = "  the change is recorded with the checksum of its file"
        wanted = f"version_9|{sum_of(f'{PARTS}/deploy/version_9.sql', 'sha1')}"
        self.same(what, wanted, recorded)
        copy = f"{office.folder}/changed"
        shutil.copytree(PARTS, copy)
        with open(f"{copy}/functions/texts.sql", "a", encoding="utf-8") as it:
            it.write("-- one more line\n")
        what = "functions that changed are run again, and recorded"
        self.same(what, (0, LAST), office.upgrade(parts=copy))
        files = sorted(os.listdir(f"{copy}/functions"))
        sums = "".join(f"{sum_of(f'{copy}/functions/{it}')}  {it}\n" for it in files)
        asked = "SELECT sha256 FROM head_office.applied_file WHERE name = 'functions'"
        checksum = hashlib.sha256(sums.encode()).hexdigest()
        self.same("  by their checksum", checksum, office.owner(asked))
        with open(f"{copy}/deploy/version_9.sql", "a", encoding="utf-8") as it:
            it.write("-- one more line\n")
        what = "a change that isn't the one that was run is refused"
        wanted = "another file than the one that was run here: version_9"
        self.ends(what, 3, wanted, office.upgrade(parts=copy))
        with office.session(OWNER, ADVISORY):
            what = "an upgrade that waits for too long names who holds it up"
            wanted = "another upgrade is running: process [0-9]+ of keeper"
            self.ends(what, 3, wanted, office.upgrade())

    def test_owner_who_is_no_superuser(self) -> None:
        self.role("dba", "CREATEROLE")
        office = self.empty_database("managed", "dba")
        found = office.upgrade(user="dba")
        what = "the owner of a database who is no superuser makes the schema, and reads what a superuser has to do"
        wanted = "REVOKE EXECUTE ON FUNCTION lo_creat"
        self.holds(what, found[0] == 0 and LAST in found[1] and wanted in found[1], found)
        self.same("  and again", 0, office.upgrade(user="dba")[0])
        office.register("M", user="dba")
        office.told(f"INSERT INTO head_office.loader VALUES ('{LOADER}')", user="dba")
        path = office.export(Book("M1").fill(6))
        wanted = r"\AM: records 6, added 6, findings 0, new 0\n\Z"
        self.load(office, "  and it is loaded", "M", path, wanted)
