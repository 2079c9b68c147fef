"""Shows that an upgrade of the head office harms no load, and that one that is broken off can be run again.

- Offices: offices as former packages made them, empty and with entries, have the catalogue of a new one afterwards. Others are packages that are older than the
  office, changes that sqitch couldn't record, tables that somebody changed, a revert, and an owner who is no superuser.
- BesideOthers: upgrades next to loads, pages, a registrar and each other. One that doesn't get its locks gives up, and says who has them.
- Killed: a process of an upgrade is killed, or the server.
"""

import copy
import glob
import os
import re
import shutil
import signal
import subprocess
import threading
import time
from collections.abc import Callable
from contextlib import AbstractContextManager, ExitStack
from typing import ClassVar

from checks.lib import former_office
from checks.lib.books import Book
from checks.lib.head_office import (
    DAY,
    LAST,
    MADE,
    OWNER,
    PARTS,
    READER,
    REGISTRAR,
    VERSION,
    ClusterCheck,
    Ended,
    Office,
    differing,
)

THIS = 0  # stands for this package in place of a version
BRIDGES = ("NORTH", "SOUTH", "EAST", "WEST")
ADVISORY = "head_office upgrade"
OTHER_RUNS = "another upgrade is running: process [0-9]+ of keeper"
OTHER_FILE = "1.sql is not the file that was run here"
# A line for each thing that an upgrade could make again or change
STATE = """WITH its AS (SELECT oid, relname, xmin FROM pg_class WHERE relnamespace = 'head_office'::regnamespace)
    SELECT 'function ' || oid::regprocedure || ' ' || xmin FROM pg_proc
    UNION ALL SELECT 'relation ' || relname || ' ' || xmin FROM its
    UNION ALL SELECT 'trigger ' || tgname || ' of ' || relname || ' ' || t.xmin FROM pg_trigger t JOIN its ON its.oid = tgrelid
    UNION ALL SELECT 'view ' || relname || ' ' || r.xmin FROM pg_rewrite r JOIN its ON its.oid = ev_class
    UNION ALL SELECT 'role ' || rolname || ' ' || xmin FROM pg_authid
    UNION ALL SELECT 'member ' || roleid || ' ' || member || ' ' || xmin FROM pg_auth_members
    UNION ALL SELECT 'setting ' || setdatabase || ' ' || setrole || ' ' || xmin FROM pg_db_role_setting
    UNION ALL SELECT 'database ' || datname || ' ' || xmin FROM pg_database WHERE datname = current_database()
    UNION ALL SELECT 'file ' || name || ' ' || xmin FROM head_office.applied_file
    UNION ALL SELECT 'version ' || version || ' ' || xmin FROM head_office.version
    UNION ALL SELECT 'advice ' || what || ' ' || xmin FROM head_office.advice ORDER BY 1"""
REGISTRY = """SELECT c::text || xmin FROM head_office_sqitch.changes c UNION ALL SELECT t::text || xmin FROM head_office_sqitch.tags t
    UNION ALL SELECT e::text || xmin FROM head_office_sqitch.events e ORDER BY 1"""
FILES = "SELECT string_agg(f::text, E'\\n' ORDER BY name) FROM head_office.applied_file f"
ENTRIES = "SELECT count(*), md5(string_agg(concat_ws(',', journal, number, key, kind, plate, moment, gross_kg, preset_kg, digest, previous, received_at), E'\\n' ORDER BY journal, number)) FROM head_office.entry"
# Another session holds this while an upgrade is killed: the first lock, or a row that the upgrade changes after all others.
HELD = {
    "before its first change": "LOCK TABLE head_office.handed IN ACCESS SHARE MODE",
    "in its last change": "SELECT FROM head_office.advice FOR UPDATE",
    "in the functions": "LOCK TABLE head_office.handed IN ROW EXCLUSIVE MODE",
}


def login_of(bridge: str) -> str:
    return f"loads_{bridge.lower()}"


def processes_of(group: int, name: str) -> list[int]:
    """Return the processes of a session whose command has this name. That of sqitch is a script of Perl."""
    names = ("sqitch", "perl") if name == "sqitch" else (name,)
    found = []
    for path in glob.glob("/proc/[0-9]*/stat"):
        try:
            with open(path, encoding="utf-8", errors="replace") as it:
                before, _, after = it.read().rpartition(")")
        except OSError:
            continue
        number, _, command = before.partition(" (")
        if int(after.split()[3]) == group and command in names:
            found.append(int(number))
    return found


def add_line(path: str, line: str) -> None:
    with open(path, "a", encoding="utf-8") as it:
        it.write(f"{line}\n")


def planned(what: str) -> str:
    """Return a line of sqitch's plan."""
    return f"{what} 2027-01-01T00:00:00Z Wellumak <weighbridge@wellumak.example> # A later release"


class Filled(Office):
    """A head office whose bridges have a login and a book each."""

    books: dict[str, Book]

    def register_all(self) -> None:
        self.books = {it: Book(it, age=20 * DAY, step=10).fill(60) for it in BRIDGES}
        for it in BRIDGES:
            self.register(it, serial=it, days=300, zone="UTC", user=OWNER)
            self.owner(f"INSERT INTO head_office.loader VALUES ('{login_of(it)}', '{it}')")

    def load_own(self, bridge: str, parts: str = PARTS) -> Ended:
        """Load the book of a bridge, as its own login does. Without `parts` the load is that of versions 2 to 4."""
        path, login = self.fresh(self.books[bridge], name=bridge), login_of(bridge)
        if not parts:
            return former_office.load(self.cluster, bridge, path, login, self.database)
        return self.exec([f"{parts}/load", bridge, path], login)

    def weigh(self, bridge: str, count: int) -> None:
        """Add entries of the present to a bridge's book."""
        book = self.books[bridge]
        book.step = 1
        book.moment = max(book.moment, int(time.time()) - count - 1)
        book.fill(count)

    def start_upgrade(self, *words: str, parts: str = PARTS) -> subprocess.Popen[str]:
        """Start an upgrade in a session of its own."""
        return self.start(f"{parts}/upgrade", *words, user=OWNER, start_new_session=True)

    def hold(self, *statements: str, user: str = OWNER) -> AbstractContextManager[object]:
        """Run statements in a session that stays open."""
        return self.session(user, *(f"{it};" for it in statements))

    def waits(self, event: str = "wait_event_type = 'Lock'") -> bool:
        """Return whether one connection waits for a lock, or for another event."""
        asked = (
            f"SELECT count(*) FROM pg_stat_activity WHERE datname = '{self.database}' AND {event}"
        )
        return self.cluster.told(asked, database="postgres") == "1"

    def made(self) -> str:
        return self.owner(STATE, REGISTRY)

    def entries(self) -> str:
        return self.owner(ENTRIES)

    def catalogue(self) -> str:
        """Return all that the database has of the head office except rows, with its rights and settings."""
        status, said = self.exec(["pg_dump", "-s", "-n", "head_office", self.database], OWNER)
        if status:
            raise RuntimeError(said)
        settings = "SELECT unnest(setconfig) FROM pg_db_role_setting s JOIN pg_database d ON d.oid = setdatabase WHERE datname = current_database() ORDER BY 1"
        access = "SELECT a.* FROM pg_database d CROSS JOIN aclexplode(datacl) a WHERE datname = current_database() ORDER BY 1, 2, 3"
        text = re.sub(r"(?m)^\\(un)?restrict .*\n", "", said)
        # logins differ in number only
        by_login = r"(?ms)^-- Name: (\S+ )?handed_by_.*?(?=^-- Name: (?!\S* ?handed_by_))"
        return re.sub(by_login, "", text) + self.owner(settings, access)

    def faults(self) -> str:
        """Return the rows that don't fit their digest or their sums."""
        return self.owner(
            "SELECT bridge, number FROM head_office.unsound_entry",
            "SELECT bridge, what FROM head_office.sum_difference",
        )


class UpgradeCheck(ClusterCheck):
    """A check that makes offices by this package and by former ones."""

    settings: ClassVar[tuple[str, ...]] = ("fsync = off", "deadlock_timeout = '1s'")
    kept: ClassVar[dict[int, Filled]] = {}
    packages: ClassVar[str]

    @classmethod
    def setUpClass(cls) -> None:
        super().setUpClass()
        if not cls.kept:
            for it in BRIDGES:
                cls.cluster.told(f"CREATE ROLE {login_of(it)} LOGIN IN ROLE head_office_loader")
            cls.kept[THIS] = cls.new_filled(THIS)
        cls.packages = former_office.unpack(cls.cluster.folder)

    @classmethod
    def former(cls, version: int) -> str:
        """Return the folder of a former package, or nothing for a version that has none."""
        packages = former_office.unpack(cls.cluster.folder)
        package = former_office.PACKAGES.get(version)
        return f"{packages}/{package}" if package else ""

    @classmethod
    def new_filled(cls, version: int) -> Filled:
        """Make an office by this package, or by the former one of a version, whose bridges have loaded their entries."""
        office = Filled(cls.cluster, cls.cluster.folder, f"kept_{version}")
        cls.cluster.told(f"CREATE DATABASE {office.database}", database="postgres")
        if version == THIS:
            office.upgrade()
        else:
            former_office.make(cls.cluster, cls.cluster.folder, version, office.database)
        office.register_all()
        for it in BRIDGES:
            status, said = office.load_own(it, cls.former(version) if version else PARTS)
            if status:
                raise RuntimeError(f"{version}: {said}")
        return office

    def filled(self, name: str, version: int = THIS) -> Filled:
        """Return a copy of the office of a version. A copy of before is dropped. It has no settings of its own yet."""
        if version not in self.kept:
            self.kept[version] = self.new_filled(version)
        kept = self.kept[version]
        self.cluster.told(
            f"DROP DATABASE IF EXISTS {name} WITH (FORCE)",
            f"CREATE DATABASE {name} TEMPLATE {kept.database}",
            database="postgres",
        )
        self.databases.append(name)
        office = Filled(self.cluster, self.open_folder(), name)
        office.books = copy.deepcopy(kept.books)
        return office

    def empty(self, name: str, owner: str = OWNER) -> Filled:
        self.empty_database(name, owner)
        return Filled(self.cluster, self.open_folder(), name)

    def changed_copy(self) -> str:
        """Return a copy of head_office whose functions differ in a comment."""
        parts = f"{self.open_folder()}/head_office"
        shutil.copytree(PARTS, parts)
        add_line(f"{parts}/functions/texts.sql", "-- one more line")
        return parts

    def unchanged(self, what: str, office: Filled, before: str) -> None:
        """Show that nothing was made again in an office since it had this state."""
        found = office.made()
        self.holds(what, found == before, differing(before, found))


class Offices(UpgradeCheck):
    """Offices of former packages, and those that an upgrade refuses."""

    needs = ("PostgreSQL", "sqitch")
    seconds = 150

    def test_versions(self) -> None:
        made = self.empty("made")
        self.same("a new office is made", (0, MADE), made.upgrade())
        wanted = made.catalogue()
        self.holds(
            "  with more than a hundred functions and views", wanted.count("\nCREATE ") > 100
        )
        version = "SELECT string_agg(version::text, ' ') FROM head_office.version"
        self.same("  by one step", str(VERSION), made.owner(version))
        for number in range(1, VERSION + 1):
            office = self.empty(f"from_{number}")
            former_office.make(self.cluster, office.folder, number, office.database)
            steps = "".join(f"version {it}\n" for it in range(number + 1, VERSION + 1))
            self.same(
                f"an office of version {number} is upgraded", (0, steps + LAST), office.upgrade()
            )
            found = office.catalogue()
            what = "  and then has the catalogue of a new one"
            self.holds(what, found == wanted, differing(wanted, found))

    def test_filled(self) -> None:
        for number in (4, 8, 9):
            office = self.filled(f"filled_{number}", number)
            before = office.entries()
            what = f"an office of version {number} with entries"
            self.holds(what, before.startswith("240|"), before)
            self.same("  is upgraded", 0, office.upgrade()[0])
            self.same("  its entries are the same", before, office.entries())
            self.same("  and sound, as the sums are", "", office.faults())
            for bridge, parts, what in (
                ("NORTH", self.former(number), "  a bridge with its former package loads on"),
                ("SOUTH", PARTS, "  and one with this package"),
            ):
                office.weigh(bridge, 6)
                self.ends(what, 0, "added 6, findings 0", office.load_own(bridge, parts))

    def test_unrecorded(self) -> None:
        office = self.filled("unrecorded", 8)
        # sqitch runs a script like this, and records it then; here all are killed in between
        words = ["psql", "-X", "-q", "-v", "ON_ERROR_STOP=1", "-v", "newest=version_9"]
        words += ["-v", "sum=" + "0" * 64, "-f", f"{PARTS}/deploy/version_9.sql"]
        self.same("a change that was made, and not recorded", 0, office.exec(words, OWNER)[0])
        office.weigh("NORTH", 3)
        self.ends("  loads continue with its functions", 0, "added [1-9]", office.load_own("NORTH"))
        before = office.entries()
        self.same("  it is recorded the next time", (0, LAST), office.upgrade())
        self.same("  and nothing is left to do", (0, LAST), office.upgrade())
        self.same("  each entry is there", before, office.entries())

    def test_unrecorded_and_reverted(self) -> None:
        made = self.empty("registry")
        made.upgrade()
        words = ["pg_dump", "-n", "head_office_sqitch"]
        for it in ("changes", "dependencies", "events", "tags"):
            words.append(f"--exclude-table-data=head_office_sqitch.{it}")
        registry = made.exec(words, OWNER)[1]
        office = self.filled("unrecorded", 8)
        before = office.entries()
        office.exec(["psql", "-X", "-q"], OWNER, given=registry.encode())
        office.owner(
            "CREATE FUNCTION public.refuse() RETURNS trigger LANGUAGE plpgsql AS $$ BEGIN RAISE 'the disk is full'; END $$",
            "CREATE TRIGGER refused BEFORE INSERT ON head_office_sqitch.changes FOR EACH ROW EXECUTE FUNCTION public.refuse()",
        )
        what = "a change that sqitch can't record is reverted, which the office refuses"
        self.ends(what, 3, "the head office stays", office.upgrade())
        self.same("  no entry is lost by that", before, office.entries())
        office.owner("DROP TRIGGER refused ON head_office_sqitch.changes")
        self.same("  and it is recorded the next time", (0, LAST), office.upgrade())
        self.same("  with all entries", before, office.entries())

    def test_older(self) -> None:
        office, newer = self.filled("older", 9), f"{self.open_folder()}/head_office"
        shutil.copytree(PARTS, newer)
        add_line(f"{newer}/sqitch.plan", planned("@99.1.0"))
        what = "an office that a later release upgraded"
        self.same(what, (0, LAST), office.upgrade(parts=newer))
        before = office.made()
        refused = r"because a newer package upgraded this database \(@99.1.0\)"
        self.ends("  refuses this one", 3, refused, office.upgrade())
        what = "  even if its functions should be made again"
        self.ends(what, 3, "a newer package", office.upgrade("--again"))
        self.unchanged("  which changes nothing", office, before)
        add_line(f"{newer}/sqitch.plan", planned("version_99"))
        for folder in ("deploy", "revert", "verify"):
            add_line(f"{newer}/{folder}/version_99.sql", "SELECT 1 \\g /dev/null")
        office.upgrade(parts=newer)
        before = office.made()
        self.ends("  a later change, too", 3, r"\(@99.1.0, version_99\)", office.upgrade())
        self.unchanged("  which changes nothing", office, before)
        made = self.empty("made")
        made.upgrade()
        for it in (office, made):
            before = it.made()
            for former in former_office.PACKAGES.values():
                what = f"the former package {former} refuses {it.database}"
                self.ends(what, 3, OTHER_FILE, it.upgrade(parts=f"{self.packages}/{former}"))
            self.unchanged("  and changes nothing", it, before)

    def test_owner(self) -> None:
        self.role("dba", "CREATEROLE")
        self.role("second", "CREATEROLE IN ROLE dba")
        owned = self.empty("owned", "dba")
        found = owned.upgrade(user="dba")
        self.ends("the owner who is no superuser makes an office", 0, f"^{LAST}", found)
        to_do = "REVOKE EXECUTE ON FUNCTION lo_creat"
        self.ends("  and reads what a superuser has to do", 0, to_do, found)
        self.same("  again", 0, owned.upgrade(user="dba")[0])
        self.same("  again with all functions", 0, owned.upgrade("--again", user="dba")[0])
        asked = "SELECT string_agg(DISTINCT pg_get_userbyid(relowner), ' ') FROM pg_class WHERE relnamespace = 'head_office_sqitch'::regnamespace AND relkind = 'r'"
        self.same("the registry is the schema owner's", "head_office", owned.owner(asked))
        members = "SELECT count(*) FROM pg_auth_members WHERE roleid IN ('head_office_storer'::regrole, 'head_office_guard'::regrole)"
        what = "nobody is a member of the roles that store and guard"
        self.same(what, "0", owned.owner(members))
        newer = f"{self.open_folder()}/head_office"
        shutil.copytree(PARTS, newer)
        add_line(f"{newer}/sqitch.plan", planned("@99.2.0"))
        self.same("another login upgrades it", 0, owned.upgrade(user="second", parts=newer)[0])
        tags = "SELECT string_agg(tag, ' ' ORDER BY tag) FROM head_office_sqitch.tags"
        self.same("  and that is recorded", "@2.1.1 @99.2.0", owned.owner(tags))
        office = self.filled("bequeathed", 9)
        self.cluster.told("ALTER DATABASE bequeathed OWNER TO dba", database="postgres")
        before, what = office.entries(), "the owner upgrades an office that a superuser made"
        self.same(what, 0, office.upgrade(user="dba")[0])
        self.same("  with all entries", before, office.entries())
        office = self.filled("served", 8)
        service = f"{office.folder}/service.conf"
        its = {"host": self.cluster.folder, "port": self.cluster.port, "dbname": "served"}
        for line in ("[office]", *(f"{name}={it}" for name, it in its.items()), f"user={OWNER}"):
            add_line(service, line)
        more = {"PGSERVICEFILE": service, "PGSERVICE": "office"}
        more |= {"SQITCH_USERNAME": "nobody", "SQITCH_TARGET": "db:pg:nowhere"}
        words = "env -u PGHOST -u PGPORT -u PGDATABASE -u PGUSER".split()
        found = office.exec([*words, f"{PARTS}/upgrade"], "dba", **more)
        what = "a service names the connection, and settings of sqitch don't"
        self.ends(what, 0, f"^{MADE}", found)

    def test_tables(self) -> None:
        for what, statement, lacked in (
            (
                "an index",
                "DROP INDEX head_office.finding_once",
                "indexes of finding lacks finding_once unique",
            ),
            (
                "a constraint",
                "ALTER TABLE head_office.entry DROP CONSTRAINT digest_fits",
                "constraints of entry lacks digest_fits c",
            ),
            (
                "a column",
                "ALTER TABLE head_office.haulier RENAME COLUMN plate TO plates",
                "table haulier lacks plate text C not null",
            ),
        ):
            office = self.filled("changed", 9)
            office.owner(statement)
            was = office.catalogue() + office.owner(FILES)
            wanted = f"the tables aren't those of version 9: .*{lacked}"
            self.ends(f"an office that lacks {what} is refused", 3, wanted, office.upgrade())
            found = office.catalogue() + office.owner(FILES)
            self.holds("  and not changed", found == was, differing(was, found))

    def test_tables_reverted(self) -> None:
        office, sqitch = self.filled("reverted"), ["sqitch", "--chdir", PARTS]
        before = office.entries()
        found = office.exec([*sqitch, "revert", "-y"], OWNER)
        self.ends("an office with bridges isn't reverted", 2, "the head office stays", found)
        self.same("  and keeps its entries", before, office.entries())
        found = office.exec([*sqitch, "verify"], OWNER)
        self.ends("  it is verified", 0, "Verify successful", found)
        empty = self.empty("emptied")
        empty.upgrade()
        self.same("an empty one is", 0, empty.exec([*sqitch, "revert", "-y"], OWNER)[0])
        gone = "SELECT to_regnamespace('head_office') IS NULL"
        self.same("  it is gone", "t", empty.owner(gone))
        self.same("  and made again", (0, MADE), empty.upgrade())


class BesideOthers(UpgradeCheck):
    """Upgrades while others use the office."""

    needs = ("PostgreSQL", "sqitch")
    seconds = 150

    def test_nothing(self) -> None:
        office = self.filled("nothing")
        office.upgrade()
        before = office.made()
        tables = ("handed", "entry", "standing", "journal", "bridge", "refusal")
        locked = ", ".join(f"head_office.{it}" for it in tables)
        with office.hold("BEGIN", f"LOCK TABLE {locked}"):
            what = "an office that is up to date takes no lock that a load needs"
            self.same(what, (0, LAST), office.upgrade("--wait", "1"))
        stop, loads = threading.Event(), list[Ended]()

        def continue_loading() -> None:
            while not stop.is_set():
                office.weigh("EAST", 3)
                loads.append(office.load_own("EAST"))

        beside = threading.Thread(target=continue_loading)
        beside.start()
        statuses = {office.upgrade()[0] for _ in range(50)}
        stop.set()
        beside.join()
        self.same("fifty upgrades in a loop", {0}, statuses)
        what = "  a load next to them is taken each time"
        self.same(what, [], [it for it in loads if it[0]][:1])
        what = "  no function, trigger, view, right, setting or row was made again"
        self.unchanged(what, office, before)
        self.same("made again by --again", (0, LAST), office.upgrade("--again"))
        self.holds("  which this check would see", before != office.made())
        office.owner("DROP FUNCTION head_office.utc(timestamptz)")
        office.upgrade("--again")
        is_there = "SELECT to_regprocedure('head_office.utc(timestamptz)') IS NOT NULL"
        self.same("  it restores a function", "t", office.owner(is_there))

    def test_next(self) -> None:
        office = self.filled("next", 8)
        log = os.path.join(self.cluster.data, "log")
        before, former = os.path.getsize(log), self.former(8)
        stop, is_upgraded = threading.Event(), threading.Event()
        ran: list[tuple[str, int, str, float]] = []

        def repeat(what: str, run: Callable[[], Ended]) -> None:
            while not stop.is_set():
                began = time.monotonic()
                status, said = run()
                ran.append((what, status, said, time.monotonic() - began))

        def load(bridge: str) -> Ended:
            office.weigh(bridge, 3)
            # a bridge gets the package after the head office
            is_new = bridge == "SOUTH" and is_upgraded.is_set()
            return office.load_own(bridge, PARTS if is_new else former)

        views = ("open_finding", "on_site", "heard", "day_total", "last_load", "ticket_line")
        statements = [f"SELECT count(*) FROM head_office.{it}" for it in views]

        def page() -> Ended:
            """Read views in the order opposite to that in which they are made. Once they are there, write the page of the day too."""
            found = office.ask("BEGIN", *statements, "COMMIT", user=READER)
            if found[0] or not is_upgraded.is_set():
                return found
            return office.run("report")

        cut = f"{office.folder}/cut.csv"
        add_line(cut, "number,key")
        os.truncate(cut, len("number,key"))
        change = "UPDATE head_office.bridge SET zone = CASE zone WHEN 'UTC' THEN 'Europe/Berlin' ELSE 'UTC' END WHERE bridge = 'WEST'"
        tasks: list[tuple[str, Callable[[], Ended]]] = [
            ("load", lambda: load("NORTH")),
            ("load", lambda: load("SOUTH")),
            ("load", lambda: load("EAST")),
            ("refused", lambda: office.load("WEST", cut, user=login_of("WEST"))),
            ("page", page),
            ("page", page),
            ("registrar", lambda: office.ask(change, user=REGISTRAR)),
        ]
        threads = [threading.Thread(target=repeat, args=it) for it in tasks]
        for thread in threads:
            thread.start()
        time.sleep(1)
        upgrades = [office.upgrade()]
        is_upgraded.set()
        upgrades += [office.upgrade("--again") for _ in range(4)]
        stop.set()
        for thread in threads:
            thread.join()
        what = "an upgrade from version 8, and four that make all functions again"
        self.same(what, [], [it for it in upgrades if it[0]])
        for what in ("load", "page", "registrar"):
            mine = [it for it in ran if it[0] == what]
            bad = [it for it in mine if it[1]]
            self.holds(f"  a {what} next to them isn't broken off", mine and not bad, bad[:1])
        mine = [it for it in ran if it[0] == "refused"]
        is_cut = mine and all("the export is cut off" in it[2] for it in mine)
        self.holds("  a cut export is refused for its own reason", is_cut, mine[:2])
        with open(log, encoding="utf-8", errors="replace") as it:
            it.seek(before)
            text = it.read()
        at = text.find("deadlock detected")
        self.holds("  the server saw no deadlock", at < 0, text[at : at + 900])
        longest = max(it[3] for it in ran if it[0] == "load")
        self.holds("  no load waited for a minute", longest < 60, longest)
        wanted = sum(len(office.books[it].rows) for it in BRIDGES)
        stored = office.owner("SELECT count(*) FROM head_office.entry")
        self.same("  each entry was stored once", str(wanted), stored)
        self.same("  and is sound, as the sums are", "", office.faults())

    def test_stopped(self) -> None:
        office = self.filled("stopped")
        office.upgrade()
        before = office.made()
        columns = "number, key, kind, plate, moment, interval_kg, max_kg, serial, digest"
        insert = f"INSERT INTO head_office.handed ({columns}) VALUES (1, 'K', 'void', 'X', now(), 20, 60000, 'NORTH', '')"
        reading = "SELECT count(*) FROM head_office.on_site"
        for what, user, statement, table in (
            ("a load that is left open", login_of("NORTH"), insert, "handed"),
            ("a page that takes long", READER, reading, "on_site"),
            (
                "a registrar's open change",
                REGISTRAR,
                "UPDATE head_office.bridge SET places = 1000",
                "bridge",
            ),
        ):
            with office.hold("BEGIN", statement, user=user):
                stopped = office.start_upgrade("--again", "--wait", "8")
                time.sleep(1)
                began = time.monotonic()
                load = office.load_own("SOUTH")
                took = time.monotonic() - began
                said = stopped.communicate(timeout=300)[0]
                wanted = f"stopped: nothing was changed, because others used head_office.{table} for [0-9]+ seconds: .*process [0-9]+ of {user}[,;].* run upgrade again"
                what = f"behind {what} an upgrade gives up, and says who has what"
                self.ends(what, 3, wanted, (stopped.returncode, said))
                what = "  a load of another bridge is taken meanwhile"
                self.holds(what, load[0] == 0 and took < 30, (load, took))
                self.unchanged("  nothing is changed", office, before)
        self.same("  and then it runs through", (0, LAST), office.upgrade("--again"))
        with office.hold("BEGIN", insert, user=login_of("NORTH")):
            waits = office.start_upgrade("--again", "--wait", "60")
            self.soon("an upgrade waits", office.waits)
        found = (waits.communicate(timeout=120)[0], waits.returncode)
        self.same("one that waits gets the locks once they are free", (LAST, 0), found)

    def test_two(self) -> None:
        office = self.filled("two", 8)

        def both(parts: str) -> tuple[list[str], list[int]]:
            """Return what two upgrades at once print, and their statuses."""
            them = [office.start_upgrade(parts=parts) for _ in range(2)]
            said = sorted(it.communicate(timeout=300)[0] for it in them)
            return said, [it.returncode for it in them]

        what = "of two at once one makes it, and the other waits"
        self.same(what, ([LAST, MADE], [0, 0]), both(PARTS))
        self.same("  also of functions", ([LAST, LAST], [0, 0]), both(self.changed_copy()))
        files = "SELECT count(*) FROM head_office.applied_file WHERE name = 'functions'"
        self.same("  which are recorded once", "1", office.owner(files))
        before = office.made()
        with office.hold(f"SELECT pg_advisory_lock(hashtext('{ADVISORY}'))"):
            what = "one that waits for too long says which other is running"
            self.ends(what, 3, OTHER_RUNS, office.upgrade())
        self.unchanged("  and changes nothing", office, before)
        office = self.filled("two", 8)
        with office.hold("SELECT pg_advisory_lock(75474063)"):
            what = "even if that one is a sqitch"
            self.ends(what, 3, OTHER_RUNS, office.upgrade("--wait", "1"))
        self.same("  and then it runs", (0, MADE), office.upgrade())

    def test_two_of_which_one_lost_its_sqitch(self) -> None:
        office = self.filled("two", 8)
        before = office.entries()
        with office.hold("BEGIN", HELD["in its last change"]):
            first = office.start_upgrade()
            self.soon("the first waits", office.waits)
            psql = processes_of(first.pid, "psql")
            self.assertTrue(psql)
            for pid in psql:
                os.kill(pid, signal.SIGSTOP)
            for pid in processes_of(first.pid, "sqitch"):
                os.kill(pid, signal.SIGKILL)
        second = office.start_upgrade()
        self.soon("the second waits", lambda: office.waits("wait_event = 'PgSleep'"))
        for pid in psql:
            os.kill(pid, signal.SIGCONT)
        found = second.communicate(timeout=300)[0], second.returncode
        what = "one whose sqitch is killed continues, and the other finds that it did"
        self.same(what, (LAST, 0), found)
        self.same("  each entry is there", before, office.entries())
        first.communicate()


class Killed(UpgradeCheck):
    """Upgrades of which a process or the server is killed, and that run again."""

    needs = ("PostgreSQL", "sqitch")
    seconds = 120
    settings = ("deadlock_timeout = '1s'",)  # with fsync, because the server is killed
    kept = {}

    def kill(self, what: str, office: Filled, running: subprocess.Popen[str]) -> None:
        if what == "server":
            self.cluster.stop("immediate")
        elif what == "connections":
            asked = f"SELECT pg_terminate_backend(pid) FROM pg_stat_activity WHERE datname = '{office.database}'"
            self.cluster.told(asked, database="postgres")
            said = running.communicate(timeout=100)[0]
            what = "an upgrade that loses its connections says so"
            self.ends(what, 3, "run upgrade again", (running.returncode, said))
        elif what == "all":
            os.killpg(running.pid, signal.SIGKILL)
        elif what == "upgrade":
            running.kill()
        else:
            for pid in processes_of(running.pid, what):
                os.kill(pid, signal.SIGKILL)

    def test_killed(self) -> None:
        wanted = ""
        for what, where in (
            ("upgrade", "at its start"),
            ("sqitch", "before its first change"),
            ("psql", "in its last change"),
            ("upgrade", "in its last change"),
            ("all", "in its last change"),
            ("server", "in its last change"),
            ("connections", "in its last change"),
            ("all", "in the functions"),
        ):
            office, parts = self.filled("killed", 8), PARTS
            before = office.entries()
            if where == "in the functions":
                office.upgrade()
                parts = self.changed_copy()
            with ExitStack() as held:
                if where in HELD:
                    held.enter_context(office.hold("BEGIN", HELD[where]))
                running = office.start_upgrade("--wait", "100", parts=parts)
                if where in HELD:
                    self.soon("the upgrade waits", office.waits)
                else:
                    time.sleep(0.3)
                self.kill(what, office, running)
            if what == "server":
                self.cluster.start()
            found = office.upgrade()
            self.ends(f"{what} killed {where}: run again it ends well", 0, f"{LAST}\\Z", found)
            self.same("  each entry is there", before, office.entries())
            catalogue = office.catalogue()
            wanted = wanted or catalogue
            what = "  the catalogue is the same"
            self.holds(what, catalogue == wanted, differing(wanted, catalogue))
            recorded = office.owner("SELECT change FROM head_office_sqitch.changes")
            self.same("  it is recorded once", "version_9", recorded)
            self.same("  and nothing is left to do", (0, LAST), office.upgrade())
