"""Copies that are restored, a base backup with the archived log, a replica, and a disk that becomes full in a load."""

import gzip
import hashlib
import os
import re
import shutil
import subprocess
import tempfile
import time

from checks.lib.books import Book
from checks.lib.case import Check
from checks.lib.cluster import BIN, Cluster, as_server
from checks.lib.head_office import (
    DAY,
    LOADER,
    OWNER,
    PARTS,
    Office,
    OfficeCheck,
    lines_of,
    written,
)
from checks.lib.waiting import wait_until

NOW = time.gmtime().tm_year
ENTRIES = "SELECT md5(string_agg(e::text, '|' ORDER BY journal, number)) FROM head_office.entry e"
OF_YEAR = r"entries-(\d{4})-\d+-\d+\.csv\.gz"
RESTORED = r"^restored \d+ entries, 0 of them unsound; 0 sums that differ$"


def book_of_year(serial: str, year: int) -> Book:
    book = Book(serial)
    book.moment = int(time.mktime((year, 6, 1, 0, 0, 0, 0, 0, 0)))
    return book.fill(6)


def copied(cluster: Cluster, folder: str, *words: str) -> Cluster:
    """Make a base backup of a cluster in a new folder."""
    os.mkdir(folder)
    if os.getuid() == 0:
        shutil.chown(folder, "postgres")
    backup = f"{BIN}/pg_basebackup -h {cluster.folder} -U {OWNER} -D {folder}/data -c fast"
    as_server([*backup.split(), *words])
    return Cluster(folder, make=False)


class Copies(OfficeCheck):
    """Copies of an office with entries of several years."""

    needs = ("PostgreSQL", "sqitch")
    slow = True
    seconds = 80
    settings = (
        "fsync = off",
        "archive_mode = on",
        "archive_command = 'mkdir -p ../archive && ../archive_log %p ../archive/%f'",
        "wal_level = replica",
    )

    def setUp(self) -> None:
        super().setUp()
        office = self.office
        self.kept = f"{office.folder}/kept"
        os.mkdir(self.kept)
        self.north = office.export(office.book("NORTH", 60), name="north")
        office.load("NORTH", self.north)
        turns = {}
        for name, year in (("SEALED", NOW - 3), ("TURN", NOW - 2), ("TURNS", NOW - 2)):
            office.register(name, days=3650)
            turns[name] = office.export(book_of_year(f"{name}1", year), name=name)
        office.load("SEALED", turns["SEALED"])
        # the second of two loads that need a new table does without it
        with office.held_load("TURN", turns["TURN"]):
            office.load("TURNS", turns["TURNS"])

    def backup(self) -> list[str]:
        """Return the files of a copy that is made now, as its list names them. Lists are named by their second."""
        time.sleep(1.1)
        status, said = self.office.run("backup", self.kept, user=OWNER)
        self.assertEqual(0, status, said)
        return [line.split()[1] for line in lines_of(said.strip())]

    def newest_list(self) -> str:
        return max(it for it in os.listdir(self.kept) if it.endswith(".list"))

    def restore(self, what: str, status: int, wanted: str, *database: str) -> None:
        path = f"{self.kept}/{self.newest_list()}"
        found = self.office.run("restore", path, *database, user=OWNER)
        self.ends(what, status, wanted, found)

    def test_restored(self) -> None:
        office, listed = self.office, self.backup()
        over = {it[1]: it[0] for name in listed if (it := re.match(OF_YEAR, name))}
        wanted = rf"entries-\S*Z.csv.gz {' '.join(over.values())} entries-before-6-\d+.csv.gz head_office-\S*Z.dump roles-\S*Z.sql"
        ordered = sorted(listed, key=lambda it: (not it.endswith("Z.csv.gz"), it))
        is_so = [*over] == [str(NOW - 3), str(NOW - 2)]
        is_so = is_so and bool(re.fullmatch(wanted, " ".join(ordered)))
        what = (
            "a copy is the roles, the database, and the entries, a file for the table of each year"
        )
        self.holds(what, is_so, listed)
        restored = self.empty_database(f"{office.database}_restored")
        self.restore("it is restored", 0, RESTORED, restored.database)
        self.same("with the same entries", office.owner(ENTRIES), restored.owner(ENTRIES))
        undropped = r"\A(?!(?s:.*)drop it)(?s:.*)"
        wanted = f"{undropped}{restored.database} has a head office already"
        self.restore("  over another one it isn't", 1, wanted, restored.database)
        wanted = f"{undropped}there is a database {office.database} already"
        self.restore("  nor by a name that the cluster has", 1, wanted)

    def test_restored_on_a_fresh_cluster(self) -> None:
        self.role("stranger", "")
        listed = self.backup()
        cluster = Cluster(settings=["fsync = off"])
        self.addCleanup(cluster.end)
        cluster.start()
        roles = next(it for it in listed if it.startswith("roles-"))
        words = ["psql", "-X", "-q", "-f", f"{self.kept}/{roles}"]
        cluster.run(words, database="postgres")
        before = self.office.owner(ENTRIES)
        other = Office(cluster, self.open_folder(), self.office.database)
        words = [f"{PARTS}/restore", f"{self.kept}/{self.newest_list()}"]
        found = cluster.run(words, database="postgres")
        wanted = " 0 of them unsound; 0 sums"
        self.ends("on a fresh cluster, roles first", 0, wanted, found)
        self.same("with the same entries there", before, other.reads(ENTRIES))
        known = "^NORTH: records 60, added 0, findings 0"
        found = other.load("NORTH", self.north)
        self.ends("and its rights: it continues", 0, known, found)
        status, said = other.ask("SELECT 1", user="stranger")
        what = "a login without a role may not connect there either"
        self.holds(what, status and "permission denied for database" in said, said)

    def test_years_are_copied_once(self) -> None:
        office, listed = self.office, self.backup()
        over = {it[1]: it[0] for name in listed if (it := re.match(OF_YEAR, name))}
        first, late, other = self.newest_list(), over[str(NOW - 3)], over[str(NOW - 2)]
        office.register("PAST")
        office.load("PAST", book_of_year("PAST1", NOW - 3))

        def stamp() -> tuple[int, int]:
            its = os.stat(f"{self.kept}/{other}")
            return its.st_ino, its.st_mtime_ns

        before, listed = stamp(), self.backup()
        is_kept = other in listed and before == stamp()
        self.holds("a year that is over is copied once", is_kept, listed)
        again = [it for it in listed if it.startswith(f"entries-{NOW - 3}-")]
        what = "  and again if an entry of it came since"
        self.holds(what, late not in listed and again, listed)
        for name in os.listdir(self.kept):
            if name == first or name.startswith("entries-2"):
                os.utime(f"{self.kept}/{name}", (time.time() - 40 * DAY,) * 2)
        self.backup()
        left = os.listdir(self.kept)
        what = "an old list goes, with the files that no other one names"
        self.holds(what, first not in left and late not in left, left)
        gone = [it for it in listed if it not in left]
        self.holds("  and with no other", other in left and not gone, left)

    def test_changed_copies(self) -> None:
        year = next(it for it in self.backup() if it.startswith(f"entries-{NOW - 2}-"))
        path, listed = f"{self.kept}/{year}", f"{self.kept}/{self.newest_list()}"
        with gzip.open(path, "rt", encoding="utf-8") as it:
            lines = it.read().split("\n")
        fields, gross = lines[1].split(","), lines[0].split(",").index("gross_kg")
        fields[gross] = str(int(fields[gross]) + 20)
        with gzip.open(path, "wt", encoding="utf-8") as it:
            it.write("\n".join([lines[0], ",".join(fields), *lines[2:]]))
        changed = self.empty_database(f"{self.office.database}_changed")
        # what sha256sum says of it is in the language of the machine
        what = "a copy in which a weight was changed isn't restored"
        wanted = f"{year}: (?s:.*)isn't as it was copied"
        self.restore(what, 1, wanted, changed.database)
        schemas = "SELECT nspname FROM pg_namespace WHERE nspname = 'head_office'"
        self.same("  and nothing is made of it", "", changed.owner(schemas))
        with open(path, "rb") as file:
            digest = hashlib.file_digest(file, "sha256").hexdigest()
        fitting = re.compile(rf"^.*  {re.escape(year)}$", re.M)
        text = fitting.sub(f"{digest}  {year}", "".join(lines_of(listed)))
        written(listed, [text])
        wanted = f"digest_fits(?s:.*){changed.database}, which this began to make, is not whole"
        self.restore("  nor if its list was made to fit", 1, wanted, changed.database)

    def test_base_backup(self) -> None:
        office, cluster = self.office, self.cluster
        shutil.rmtree(f"{cluster.folder}/archive", ignore_errors=True)
        backup = copied(cluster, f"{self.open_folder()}/backup")
        self.addCleanup(backup.end)
        office.load("AFTER", office.book("AFTER", 12))
        segment = cluster.told("SELECT pg_walfile_name(pg_switch_wal())", database="postgres")
        fetch = f"restore_command = 'cp {cluster.folder}/archive/%f %p'"
        backup.set([fetch, "archive_mode = off"])
        open(f"{backup.data}/recovery.signal", "w", encoding="utf-8").close()
        archived = f"{cluster.folder}/archive/{segment}"
        self.soon("the log is archived", lambda: os.path.exists(archived))
        backup.start()
        restored = Office(backup, "", office.database)
        recovering = "SELECT pg_is_in_recovery()"
        self.soon("it is restored", lambda: restored.ask(recovering)[1] == "f")
        what = "a base backup with the archived log has what was loaded after it"
        self.same(what, office.owner(ENTRIES), restored.owner(ENTRIES))
        self.same("and each entry fits its digest there", "0", restored.unsound())

    def test_replica(self) -> None:
        office, cluster = self.office, self.cluster
        replica = copied(cluster, f"{self.open_folder()}/replica", "-R")
        self.addCleanup(replica.end)
        replica.start()
        office.load("AFTER", office.book("AFTER", 12))
        position, other = office.owner("SELECT pg_current_wal_lsn()"), Office(
            replica, "", office.database
        )
        reached = f"SELECT pg_last_wal_replay_lsn() >= '{position}'"
        self.soon("the replica has it", lambda: other.owner(reached) == "t")
        loads = "SELECT max(load) FROM head_office.load"
        what = "a replica has what was loaded after it was made"
        self.same(what, office.owner(loads), other.owner(loads))
        day = office.reads("SELECT max(day) FROM head_office.day_total")
        found = other.run("report", day)
        self.ends("and writes the day's page", 0, "<svg", found)
        found = other.run("load", "NORTH", self.north, user=LOADER)
        self.same("and takes nothing in", 2, found[0])


class FullDisk(Check):
    """A head office on a disk of its own, which becomes full in a load."""

    needs = ("PostgreSQL", "sqitch", "root", "mount")
    slow = True
    seconds = 60

    @staticmethod
    def begin_again(cluster: Cluster) -> bool:
        """Start a server that a full disk ended, if it doesn't come back automatically. Return whether it answers."""
        if cluster.ask("SELECT 1")[0] == 0:
            return True
        try:
            cluster.start()
        except subprocess.CalledProcessError:
            pass
        return False

    def test_full_disk(self) -> None:
        disk, folder = tempfile.mkdtemp(prefix="full-"), self.folder()
        self.addCleanup(os.rmdir, disk)
        mount = ["mount", "-t", "tmpfs", "-o", "size=96M", "head_office", disk]
        if subprocess.run(mount, capture_output=True).returncode:
            self.skipTest("no disk can be mounted here")
        self.addCleanup(lambda: subprocess.run(["umount", disk], check=True))
        settings = ["min_wal_size = 32MB", "max_wal_size = 32MB", "wal_keep_size = 0"]
        cluster = Cluster(disk, settings)
        self.addCleanup(cluster.end)
        cluster.start()
        cluster.told("CREATE DATABASE head_office", database="postgres")
        office = Office(cluster, folder, "head_office")
        office.upgrade()
        office.owner(f"CREATE ROLE {LOADER} LOGIN IN ROLE head_office_loader")
        office.register("FULL", days=3650, user=OWNER)
        office.owner(f"INSERT INTO head_office.loader VALUES ('{LOADER}')")
        export = office.export(Book("FULL1", age=97_060, step=1).fill(97_000))
        what = "a load that finds the disk full is refused"
        wanted = "No space left|could not extend|server closed|recovery"
        status, said = office.load("FULL", export)
        self.holds(what, status == 2 and re.search(wanted, said), said)
        subprocess.run(["mount", "-o", "remount,size=1G", disk], check=True)
        wait_until("the server answers", lambda: self.begin_again(cluster), seconds=60)
        count = office.owner("SELECT count(*) FROM head_office.entry")
        self.same("and changed nothing", "0", count)
        status, said = office.load("FULL", export)
        is_loaded = said.startswith("FULL: records 97000, added 97000, findings 0,")
        self.holds("with more space it is taken in", status == 0 and is_loaded, said)
