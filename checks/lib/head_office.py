"""A head office on a PostgreSQL cluster of its own: its logins, its scripts, the loads of journals, and what is read of it."""

import calendar
import getpass
import os
import re
import shutil
import subprocess
import tempfile
import time
from collections.abc import Callable, Collection, Iterator
from contextlib import contextmanager
from typing import Any, ClassVar

from checks import TOP
from checks.lib import case, leftovers
from checks.lib.books import Book
from checks.lib.case import Check
from checks.lib.cluster import BIN, Cluster, has_extension
from checks.lib.cluster import OWNER as OWNER
from checks.lib.waiting import wait_until

PARTS = str(TOP / "head_office")
LOADER, READER, REGISTRAR = "loads", "reads", "registers"
LOGINS = {LOADER: "loader", READER: "reader", REGISTRAR: "registrar"}
TEMPLATE = "head_office"
DAY = 86_400
VERSION = 9
LAST = f"the schema is of version {VERSION}\n"
MADE = f"version {VERSION}\n{LAST}"
NOWHERE = {"PGHOST": "/nowhere"}
Ended = tuple[int, str]  # the status of a program, and what it printed


def has_german() -> bool:
    return "de_DE.utf8" in subprocess.run(["locale", "-a"], capture_output=True, text=True).stdout


case.OTHERS.update(
    {
        "the locale de_DE": ("the locale de_DE.UTF-8 is not installed", has_german),
        "PostgreSQL": ("PostgreSQL is not installed", lambda: os.path.exists(f"{BIN}/initdb")),
        "pgTAP": ("pgTAP is not installed", lambda: has_extension("pgtap")),
        "plpgsql_check": ("plpgsql_check is not installed", lambda: has_extension("plpgsql_check")),
    }
)


def rows_of(text: str) -> list[list[str]]:
    """Return the rows of a table, whose columns are parted by ` | `."""
    return [[it.strip() for it in line.split(" | ")] for line in text.strip().split("\n")]


def lines_of(path: str) -> list[str]:
    with open(path, encoding="utf-8") as it:
        return it.read().splitlines(keepends=True)


def written(path: str, lines: Collection[str]) -> str:
    """Write lines into a file, and return its path."""
    with open(path, "w", newline="", encoding="utf-8") as it:
        it.writelines(lines)
    return path


def at_last_entry(path: str) -> str:
    """Set an export's file to the moment when its last entry was the newest. Return its path."""
    at = time.strptime(lines_of(path)[-1].split(",")[4], "%Y-%m-%d %H:%M:%S")
    os.utime(path, (calendar.timegm(at),) * 2)
    return path


def differing(wanted: str, found: str) -> str:
    """Return the first lines that only one of two texts has."""
    one, other = wanted.split("\n"), found.split("\n")
    left = [f"- {it}" for it in one if it not in other][:5]
    return "\n".join([*left, *[f"+ {it}" for it in other if it not in one][:5]])


class Office:
    """A head office in a database of a cluster, and a folder for its exports."""

    def __init__(self, cluster: Cluster, folder: str, database: str) -> None:
        self.cluster, self.folder, self.database = cluster, folder, database

    def ask(self, *statements: str, user: str = OWNER) -> Ended:
        return self.cluster.ask(*statements, user=user, database=self.database)

    def owner(self, *statements: str) -> str:
        """Return the rows of statements of the cluster's owner, a superuser."""
        return self.cluster.told(*statements, database=self.database)

    def told(self, *statements: str, user: str = REGISTRAR) -> str:
        return self.cluster.told(*statements, user=user, database=self.database)

    def reads(self, query: str) -> str:
        return self.told(query, user=READER)

    def rows(self, query: str) -> list[str]:
        return [it for it in self.reads(query).split("\n") if it]

    def exec(self, words: list[str], user: str = READER, **more: Any) -> Ended:
        """Run a program that connects to the database."""
        return self.cluster.run(words, user, self.database, **more)

    def run(self, script: str, *words: str, user: str = READER, **more: Any) -> Ended:
        return self.exec([f"{PARTS}/{script}", *words], user, **more)

    def upgrade(self, *words: str, parts: str = PARTS, user: str = OWNER, **more: Any) -> Ended:
        return self.exec([f"{parts}/upgrade", *words], user, **more)

    def start(self, *words: str, user: str = LOADER, **more: Any) -> subprocess.Popen[str]:
        """Start a program that connects to the database. All that it prints can be read."""
        return subprocess.Popen(
            words,
            env=self.environment(user),
            stdout=subprocess.PIPE,
            stderr=subprocess.STDOUT,
            text=True,
            **more,
        )

    def environment(self, user: str) -> dict[str, str]:
        return self.cluster.environment(user, self.database)

    def register(
        self,
        *names: str,
        serial: str = "",
        days: int = 30,
        zone: str = "Europe/Berlin",
        user: str = REGISTRAR,
    ) -> None:
        """Register bridges, each with an instrument and a first journal."""
        for name in names:
            self.told(
                f"INSERT INTO head_office.bridge (bridge, zone, retention_days) VALUES ('{name}', '{zone}', {days})",
                f"INSERT INTO head_office.instrument VALUES ('{serial or name + '1'}', '{name}')",
                f"INSERT INTO head_office.journal (bridge) VALUES ('{name}')",
                user=user,
            )

    def book(self, name: str, count: int = 0, days: int = 30, **more: int) -> Book:
        """Register a bridge, and return a book of it with this many entries."""
        self.register(name, days=days)
        return Book(f"{name}1", **more).fill(count)

    def follow(self, name: str) -> None:
        """Register a journal of a bridge as the follower of its newest one."""
        newest = f"(SELECT max(journal) FROM head_office.journal WHERE bridge = '{name}')"
        self.told(
            f"INSERT INTO head_office.journal (bridge, note) VALUES ('{name}', 'migrated')",
            f"INSERT INTO head_office.follower SELECT '{name}', {newest}, max(journal) FROM head_office.journal WHERE bridge = '{name}' AND journal < {newest}",
        )

    def export(self, book: Book, last: int | None = None, name: str = "export", **more: Any) -> str:
        """Write an export of a book as it was when its last entry was the newest."""
        return book.write(f"{self.folder}/{name}.csv", last, **more)

    def fresh(self, book: Book, last: int | None = None, **more: Any) -> str:
        """Write an export that is fetched now."""
        return self.export(book, last, fetched=time.time(), **more)

    def load(
        self, name: str, source: str | Book, *words: str, user: str = LOADER, **more: str
    ) -> Ended:
        """Load an export, or a book as it is now."""
        path = self.fresh(source) if isinstance(source, Book) else source
        more = {"HEAD_OFFICE_LISTENER": getpass.getuser(), **more}
        return self.run("load", *words, name, path, user=user, **more)

    def findings(self, name: str, columns: str = "what, first, last") -> list[str]:
        return self.rows(
            f"SELECT {columns} FROM head_office.finding JOIN head_office.journal USING (journal) WHERE bridge = '{name}' ORDER BY finding"
        )

    def refusals(self, name: str) -> list[str]:
        return self.rows(
            f"SELECT reason, by FROM head_office.refusal WHERE bridge = '{name}' ORDER BY refusal"
        )

    def passing(self, name: str) -> list[str]:
        """Return whether each finding `not loaded` of a bridge is open or made up for. None of the latter is an open finding."""
        found = self.rows(
            f"SELECT CASE WHEN is_made_up THEN 'made up' ELSE 'open' END FROM head_office.finding_beside_stored WHERE bridge = '{name}' AND what = 'not loaded' ORDER BY finding"
        )
        shown = self.reads(
            f"SELECT count(*) FROM head_office.open_finding WHERE bridge = '{name}' AND what = 'not loaded'"
        )
        return found if found.count("open") == int(shown) else [*found, f"{shown} are shown"]

    def acknowledge(self, *names: str) -> None:
        listed = ", ".join(f"'{it}'" for it in names)
        self.told(
            f"INSERT INTO head_office.acknowledgement (finding, note) SELECT finding, 'of a test' FROM head_office.open_finding WHERE bridge IN ({listed})"
        )

    def page(self, *day: str) -> str:
        """Return the day's page."""
        return self.run("report", *day)[1]

    def differences(self) -> str:
        """Return the kept sums that aren't what the entries say."""
        return self.reads("SELECT bridge, what FROM head_office.sum_difference ORDER BY 1, 2")

    def unsound(self) -> str:
        return self.owner("SELECT count(*) FROM head_office.unsound_entry")

    def stored(self, name: str) -> int:
        """Return how many entries of a bridge are stored."""
        return int(
            self.reads(
                f"SELECT count(*) FROM head_office.entry JOIN head_office.journal USING (journal) WHERE bridge = '{name}'"
            )
        )

    def state(self) -> str:
        """Return what is stored and found as one text. Refused loads aren't in it."""
        return self.owner(
            "SELECT md5(coalesce(string_agg(e::text, '|' ORDER BY journal, number), '')) FROM head_office.entry e",
            "SELECT md5(coalesce(string_agg(f::text, '|' ORDER BY finding), '')) FROM head_office.finding f WHERE what NOT IN ('refused', 'replaced', 'not loaded')",
        )

    @contextmanager
    def session(
        self, user: str, *statements: str, waiting: str = ""
    ) -> Iterator[subprocess.Popen[str]]:
        """Run a client that keeps its connection after these statements. Don't wait for the end of the last one, `waiting`."""
        with subprocess.Popen(
            ["psql", "-X", "-q", "-A", "-t"],
            env=self.environment(user),
            stdin=subprocess.PIPE,
            stdout=subprocess.PIPE,
            stderr=subprocess.STDOUT,
            text=True,
        ) as client:
            assert client.stdin and client.stdout
            client.stdin.write("\n".join((*statements, "\\echo ready", waiting, "")))
            client.stdin.flush()
            while client.stdout.readline() not in ("ready\n", ""):
                pass
            try:
                yield client
            finally:
                client.kill()
                client.wait()

    @contextmanager
    def held_load(self, name: str, export: str) -> Iterator[subprocess.Popen[str]]:
        """Start a load that has loaded everything, and waits before its commit until the block ends."""
        taken, continues = f"{self.folder}/taken", f"{self.folder}/continues"
        for it in (taken, continues):
            if os.path.exists(it):
                os.remove(it)
        waits = f"\\! touch {taken}; until [ -e {continues} ]; do sleep 0.05; done\ncommit;"
        script = "".join(lines_of(f"{PARTS}/load.sql")).replace("commit;", waits)
        fetched = time.strftime("%Y-%m-%dT%H:%M:%SZ", time.gmtime(os.stat(export).st_mtime))
        words = ["psql", "-X", "-v", "ON_ERROR_STOP=1", "-v", f"bridge={name}"]
        words += ["-v", f"fetched={fetched}", "-f", written(f"{self.folder}/held.sql", [script])]
        with open(export, "rb") as given:
            process = self.start(*words, stdin=given)
        try:
            wait_until("a load waits before its commit", lambda: os.path.exists(taken), seconds=60)
            yield process
        finally:
            written(continues, [])
            process.communicate(timeout=60)


class OfficeCluster:
    """A cluster with a head office as a template, and logins of its roles. A test has a copy of it."""

    def __init__(self, settings: tuple[str, ...]) -> None:
        folder = tempfile.mkdtemp(prefix="head_office.")
        leftovers.until_the_end.callback(shutil.rmtree, folder, ignore_errors=True)
        it = self.cluster = Cluster(folder, settings)
        leftovers.until_the_end.callback(it.end)
        self.count = 0
        # the server's user may not read this repository
        shutil.copy(f"{PARTS}/archive", f"{folder}/archive_log")
        it.start()
        it.told(f"CREATE DATABASE {TEMPLATE}", database="postgres")
        status, said = it.run([f"{PARTS}/upgrade"], database=TEMPLATE)
        if (status, said) != (0, MADE):
            raise RuntimeError(f"upgrade ended with status {status}: {said}")
        for login, role in LOGINS.items():
            it.told(f"CREATE ROLE {login} LOGIN CONNECTION LIMIT 9 IN ROLE head_office_{role}")

    def copy(self, database: str, template: str = TEMPLATE) -> str:
        """Make a database as a copy of another one, with its settings and rights."""
        both = f"pg_database new, pg_database old WHERE new.datname = '{database}' AND old.datname = '{template}'"
        self.cluster.told(
            f"DROP DATABASE IF EXISTS {database} WITH (FORCE)",
            f"CREATE DATABASE {database} TEMPLATE {template}",
            f"INSERT INTO pg_db_role_setting SELECT new.oid, s.setrole, s.setconfig FROM pg_db_role_setting s, {both} AND s.setdatabase = old.oid",
            f"UPDATE pg_database d SET datacl = old.datacl FROM {both} AND d.oid = new.oid",
            database="postgres",
        )
        return database


shared: dict[tuple[str, ...], OfficeCluster] = {}


def cluster_with(settings: tuple[str, ...]) -> OfficeCluster:
    """Return the cluster with these settings that the classes of a process share. It ends with the process."""
    if settings not in shared:
        shared[settings] = OfficeCluster(settings)
    return shared[settings]


class ClusterCheck(Check):
    """A check on a cluster. Its databases and logins go with the test that made them."""

    needs: ClassVar[tuple[str, ...]] = ("PostgreSQL", "sqitch")
    settings: ClassVar[tuple[str, ...]] = ("fsync = off", "timezone = 'Asia/Tokyo'")
    offices: ClassVar[OfficeCluster]
    cluster: ClassVar[Cluster]

    @classmethod
    def setUpClass(cls) -> None:
        super().setUpClass()
        cls.offices = cluster_with(cls.settings)
        cls.cluster = cls.offices.cluster

    def setUp(self) -> None:
        super().setUp()
        self.databases: list[str] = []
        self.roles: list[str] = []
        self.addCleanup(self.drop_all)

    def drop_all(self) -> None:
        for it in self.databases:
            self.cluster.ask(f"DROP DATABASE IF EXISTS {it} WITH (FORCE)", database="postgres")
        for it in reversed(self.roles):
            self.cluster.ask(f"DROP OWNED BY {it}", f"DROP ROLE {it}", database="postgres")

    def open_folder(self) -> str:
        """Return a folder of the test that every user reads."""
        folder = self.folder()
        os.chmod(folder, 0o755)
        return folder

    def new_office(self, name: str = "") -> Office:
        """Return a new head office, with a loader of all bridges."""
        self.offices.count += 1
        database = self.offices.copy(name or f"office_{self.offices.count}")
        self.databases.append(database)
        office = Office(self.cluster, self.open_folder(), database)
        office.told(f"INSERT INTO head_office.loader VALUES ('{LOADER}', NULL)")
        return office

    def empty_database(self, name: str, owner: str = OWNER) -> Office:
        """Return a database without a head office."""
        self.databases.append(name)
        self.cluster.told(f"CREATE DATABASE {name} OWNER {owner}", database="postgres")
        return Office(self.cluster, self.open_folder(), name)

    def role(self, name: str, words: str = "CONNECTION LIMIT 3 IN ROLE head_office_loader") -> str:
        """Make a login."""
        self.cluster.told(f"CREATE ROLE {name} LOGIN {words}", database="postgres")
        self.roles.append(name)
        return name

    def ends(self, what: str, status: int, pattern: str, found: Ended) -> None:
        """Show that a program ended with this status, and printed a line of this form."""
        self.holds(what, found[0] == status and re.search(pattern, found[1], re.M), found)

    def soon(self, what: str, is_so: Callable[[], object], seconds: float = 240) -> None:
        """Wait for a thing that the test can't do without."""
        wait_until(what, is_so, seconds=seconds, pause=0.05)


class OfficeCheck(ClusterCheck):
    """A check whose tests have a head office each."""

    def setUp(self) -> None:
        super().setUp()
        self.office = self.new_office()

    def tearDown(self) -> None:
        """Show what holds after whatever was loaded."""
        differences, unsound = self.office.differences(), self.office.unsound()
        self.same("the sums that the loads kept are what the entries say", "", differences)
        self.same("each stored entry fits its digest", "0", unsound)
        super().tearDown()

    def login(self, name: str, *bridges: str) -> str:
        """Make a login that loads these bridges, which are registered for it."""
        self.role(name)
        self.office.register(*bridges)
        for it in bridges:
            self.office.told(f"INSERT INTO head_office.loader VALUES ('{name}', '{it}')")
        return name

    def refuses(self, what: str, pattern: str, statement: str, user: str = OWNER) -> None:
        """Show that a statement fails with a line of this form."""
        status, said = self.office.ask(statement, user=user)
        self.holds(what, status and re.search(pattern, said), said)

    def loads(
        self,
        what: str,
        name: str,
        source: str | Book,
        pattern: str,
        status: int = 0,
        *words: str,
        **more: str,
    ) -> None:
        """Load an export of a bridge. Show that the load ends with this status, and says a line of this form."""
        self.ends(what, status, pattern, self.office.load(name, source, *words, **more))
