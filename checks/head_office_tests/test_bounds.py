"""A bridge's login can do nothing to the other bridges. Records are bounded in length and number while they come, findings by bridge and day, temporary files by
login. A login that keeps a transaction open is ended by the server's side, and a load that it stopped says so."""

import copy
import os
import re
import time
from contextlib import AbstractContextManager

from checks.lib.books import HEADER, Book
from checks.lib.head_office import (
    DAY,
    LOADER,
    OWNER,
    PARTS,
    READER,
    REGISTRAR,
    OfficeCheck,
    written,
)

MEGABYTE = 1_000_000
COLUMNS = "number, key, kind, plate, moment, interval_kg, max_kg, serial, digest"
TIME_OUTS = (
    "statement_timeout",
    "lock_timeout",
    "idle_in_transaction_session_timeout",
    "idle_session_timeout",
    "client_connection_check_interval",
)
MOMENT = "[0-9-]{10} [0-9:]{8} UTC"
IDLES = f"whose transaction is open since {MOMENT} and idles"


class Records(OfficeCheck):
    """Records and findings of one login that are too long or too many."""

    needs = ("PostgreSQL", "sqitch")
    seconds = 35

    def landing_bytes(self, login: str) -> int:
        """Return the bytes on the disk of the tables into which a login hands records in."""
        asked = f"SELECT coalesce(sum(pg_total_relation_size(oid)), 0) FROM pg_class WHERE relname IN ('handed', 'handed_by_{login}') AND relkind = 'r'"
        return int(self.office.owner(asked))

    def stays_below(self, what: str, megabytes: int, login: str, before: int = 0) -> None:
        grown = (self.landing_bytes(login) - before) / MEGABYTE
        self.holds(f"{what}: no more than {megabytes} MB on the disk", grown < megabytes, grown)
        print(f"{what}: {grown:.1f} MB", flush=True)

    def test_lengths(self) -> None:
        office, login = self.office, self.login("long", "LONG")
        book = Book("LONG1", age=7_200).fill(20)
        office.load("LONG", office.export(book), user=login)
        before = office.state()
        most = {"key": 64, "kind": 64, "plate": 64, "serial": 64, "digest": 200, "previous": 200}
        for column, count in most.items():
            other = copy.deepcopy(book).change(7, **{column: "X" * (count + 1)})
            what = f"a {column} of {count + 1} bytes is refused by name"
            wanted = f"^LONG: refused: the {column} of record 7 has {count + 1} bytes, and at most {count} are accepted$"
            self.loads(what, "LONG", other, wanted, 2, user=login)
            self.same("  and changes nothing", before, office.state())
        self.same("  each is a finding", ["refused"] * 6, office.findings("LONG", "what"))
        huge = copy.deepcopy(book).change(7, digest="0" * 60 * MEGABYTE)
        status, said = office.load("LONG", huge, user=login)
        wanted = "the digest of record 7 has 60000000 bytes"
        is_short = status == 2 and wanted in said and len(said) < 500
        self.holds("a digest of 60 MB is refused in a short line", is_short, said[:500])
        longest = "SELECT coalesce(max(length(record)), 0) < 2000 FROM head_office.finding"
        self.same("  and is in no finding", "t", office.reads(longest))
        book.change(7, key="K" * 64, digest="X" * 200, previous="Y" * 200)
        what = "a digest of 200 bytes and a key of 64 are a finding as others are"
        wanted = "^LONG: records 20, added 0, findings [12], new [12]\nunsound 7: 7,K{64},"
        self.loads(what, "LONG", book, wanted, 1, user=login)

    def test_count(self) -> None:
        office = self.office
        login, other = self.login("counted", "COUNTED"), self.login("beside", "BESIDE")
        insert = f"INSERT INTO head_office.handed ({COLUMNS}) SELECT g, 'K', 'void', 'X', now(), 20, 60000, 'COUNTED1', repeat('X', 200) FROM generate_series(1, {{}}) g"
        too_many = "more records than a journal has places"
        before, what = self.landing_bytes(login), "600,000 records in one statement are refused"
        self.refuses(what, too_many, insert.format(600_000), login)
        self.stays_below("  while they come", 80, login, before)
        fields = f",K,void,X,2026-01-01 00:00:00,,,20,60000,COUNTED1,{'X' * 64},{'Y' * 64}\n"
        rows = (f"{number}{fields}" for number in range(1, 250_001))
        path = written(f"{office.folder}/many.csv", [HEADER, *rows])
        what = "250,000 in one COPY too, which a load says"
        self.loads(what, "COUNTED", path, f"COUNTED: refused: {too_many}", 2, user=login)
        for _ in range(8):
            office.ask(insert.format(110_000), user=login)
        self.stays_below("ten times", 160, login)
        nested = f"SAVEPOINT a; {insert.format(110_000)}; ROLLBACK TO a;"
        words = [it for line in ("BEGIN", *[nested] * 4, "ROLLBACK") for it in ("-c", line)]
        office.exec(["psql", "-X", "-q", *words], login)
        self.stays_below("  nor four times within one transaction", 240, login)
        size = office.owner("SELECT pg_relation_size('head_office.handed_by_beside')")
        self.same("  and none of that is in the table of another login", "0", size)
        for name, its, what in (
            ("BESIDE", other, "  whose load is taken in"),
            ("COUNTED", login, "  and the login's own, once it is sound"),
        ):
            wanted = f"^{name}: records 30, added 30, findings 0"
            self.loads(what, name, Book(f"{name}1").fill(30), wanted, user=its)
        nobodys = self.role("unregistered", "IN ROLE head_office_loader")
        what = "a login that nobody registered hands no record in"
        self.refuses(what, "unregistered hands nothing in", insert.format(10), nobodys)
        insert = "INSERT INTO head_office.handed_by_beside (number) VALUES (1)"
        self.refuses("nor one into another's table", "permission denied", insert, login)

    def test_findings_of_a_day(self) -> None:
        office, login = self.office, self.login("daily", "DAILY", "CALM")
        sound = Book("DAILY1", age=DAY * 2, step=10).fill(150)
        office.load("DAILY", office.export(sound), user=login)
        flood = copy.deepcopy(sound)
        for turn in range(8):
            for row in flood.rows[1:]:
                row["digest"] = f"{turn:x}" * 64
            office.load("DAILY", flood, user=login)
        count = len(office.findings("DAILY"))
        what = "eight loads with 149 unsound records each are at most 520 findings"
        self.holds(what, 450 <= count <= 520, count)
        past = "past 500 findings of a bridge in 24 hours, the first ten of each kind are written"

        def lines_of_more() -> int:
            return sum(past in it for it in office.findings("DAILY", "record"))

        self.same("  and one line that more were found", 1, lines_of_more())
        lacking = office.fresh(sound, without=(70, 71))
        wanted = "\nmissing 70-71: "
        self.loads("another kind is said by a load", "DAILY", lacking, wanted, 1, user=login)
        found = office.findings("DAILY", "what")
        self.holds("  and found", "missing" in found, found[-3:])
        calm = Book("CALM1", age=7_200).fill(20).change(5, gross=8_000)
        what, wanted = "another bridge has its own", "findings 1, new 1\n"
        self.loads(what, "CALM", calm, wanted, 1, user=login)
        for turn in range(30):
            office.load("DAILY", Book(f"S{turn}", age=7_200).fill(1), user=login)
        refused = office.findings("DAILY", "what").count("refused")
        self.same("thirty refused loads are ten findings then", 10, refused)
        self.same("  and still one line that more were found", 1, lines_of_more())
        what = "  all of them are in the table of refusals"
        self.same(what, 30, len(office.refusals("DAILY")))
        office.owner(
            "ALTER TABLE head_office.finding DISABLE TRIGGER never_changed",
            "UPDATE head_office.finding SET at = at - interval '1 day'",
            "ALTER TABLE head_office.finding ENABLE TRIGGER never_changed",
        )
        for row in flood.rows[1:]:
            row["digest"] = "e" * 64
        what, wanted = "a day later findings are written again", "findings 149, new 100\n"
        self.loads(what, "DAILY", flood, wanted, 1, user=login)

    def test_temporary_files(self) -> None:
        office, login = self.office, self.login("temporary", "TEMP")
        office.register("TEMP2", "TEMP3")
        insert = f"INSERT INTO head_office.loader VALUES ('{login}', '{{}}')"
        said = office.told(insert.format("TEMP2"))
        wanted = f"login {login} may fill the disk with temporary files: ALTER ROLE {login} SET temp_file_limit = '256MB'"
        self.holds("registering a login without a bound says so", wanted in said, said)
        asked = (
            f"SELECT DISTINCT temp_file_limit FROM head_office.loader_login WHERE login = '{login}'"
        )
        self.same("  and a reader sees it", "", office.reads(asked))
        office.upgrade()
        self.same("an upgrade by a superuser bounds it", "256MB", office.reads(asked))
        large = "SET work_mem = '64kB'; SELECT count(*) FROM generate_series(1, 25000000)"
        self.refuses("  its query is broken off", "temporary file size exceeds", large, login)
        lifted = "SET temp_file_limit = -1"
        self.refuses("  and it can't lift the bound", "permission denied", lifted, login)
        office.owner(f"ALTER ROLE {login} SET temp_file_limit = '1GB'")
        office.upgrade()
        self.same("an upgrade leaves what a superuser set", "1GB", office.reads(asked))
        said = office.told(insert.format("TEMP3"))
        self.holds("  and registering it warns no more", "temporary files" not in said, said)


class OpenTransactions(OfficeCheck):
    """Connections that stop others, although their clients have lifted all time-outs."""

    needs = ("PostgreSQL", "sqitch")
    seconds = 45

    def client(
        self, login: str, *statements: str, waiting: str = ""
    ) -> AbstractContextManager[object]:
        lifted = [f"SET {it} = 0;" for it in TIME_OUTS]
        return self.office.session(login, *lifted, *statements, waiting=waiting)

    def guarded(self) -> str:
        status, said = self.office.run("guard")
        return said if status == 0 else f"{status}: {said}"

    def is_connected(self, login: str) -> bool:
        asked = f"SELECT count(*) FROM pg_stat_activity WHERE usename = '{login}'"
        return self.office.owner(asked) != "0"

    def ends_one(self, what: str, wanted: str) -> None:
        said = self.guarded()
        self.holds(what, re.search(wanted, said, re.M), said)

    def test_guard(self) -> None:
        office, login = self.office, self.login("stuck", "STUCK")
        asked = (
            "SELECT array_to_string(proconfig, ' ') FROM pg_proc WHERE proname = 'end_stuck_loads'"
        )
        bounds = {
            "idle_in_transaction_session_timeout": "60s",
            "lock_timeout": "90s",
            "statement_timeout": "10min",
        }
        found = office.owner(asked)
        what = "the guard's bounds: a minute of idling, 90 seconds of waiting, 10 minutes in all"
        self.holds(what, all(f"{name}={it}" in found for name, it in bounds.items()), found)

        def bound(name: str, value: str = "") -> None:
            """Set a bound of the guard, or set it back."""
            value = value or bounds[name]
            office.owner(f"ALTER FUNCTION head_office.end_stuck_loads() SET {name} = '{value}'")

        insert = f"INSERT INTO head_office.handed ({COLUMNS}) VALUES (1, 'K', 'void', 'X', now(), 20, 60000, 'STUCK1', '');"
        idling = "idle_in_transaction_session_timeout"
        with self.client(login, "BEGIN;", insert):
            time.sleep(1.5)
            what = "a transaction that idles within the bound is left"
            self.same(what, "", self.guarded())
            bound(idling, "1s")
            what = "one that idles for longer is ended, and named"
            wanted = "^stuck: process [0-9]+ was ended: it idled in a transaction for longer than a minute$"
            self.ends_one(what, wanted)
            self.becomes("  its connection is gone", False, lambda: self.is_connected(login))
        with self.client(login, "BEGIN;", insert, "SELECT 1/0;"):
            time.sleep(1.5)
            self.ends_one("one that failed and idles too", "idled in a transaction")
        bound(idling)
        bound("lock_timeout", "1s")
        with (
            self.client(OWNER, "BEGIN;", "LOCK TABLE head_office.handed;"),
            self.client(login, "BEGIN;", waiting=insert),
        ):
            time.sleep(1.5)
            said = self.guarded()
            wanted = "it waited for a lock for longer than 90 seconds"
            self.holds("one that waits for a lock", wanted in said, said)
            is_one = self.is_connected(OWNER) and said.count("\n") == 1
            self.holds("  nobody else is ended", is_one, said)
        bound("lock_timeout")
        bound("statement_timeout", "1s")
        with self.client(login, "BEGIN;", waiting="SELECT pg_sleep(600);"):
            time.sleep(1.5)
            wanted = "its transaction took longer than 10 minutes"
            self.ends_one("one that runs too long", wanted)
        bound("statement_timeout")
        with self.client(login, "SELECT pg_advisory_lock(hashtext('head_office upgrade'));"):
            what = "one that holds an advisory lock, which no load needs"
            self.ends_one(what, "advisory lock")
        with self.client(login, "SELECT 1;"):
            self.same("a connection that does nothing is left", "", self.guarded())
            office.owner(f"ALTER ROLE {login} NOLOGIN")
            self.ends_one("  and ended once its login is locked out", "its login is locked out")
        for it in (LOADER, REGISTRAR):
            called = "SELECT * FROM head_office.end_stuck_loads()"
            self.refuses(f"{it} ends none", "permission denied", called, it)
        with self.client(READER, "BEGIN;", "SELECT count(*) FROM head_office.entry;"):
            bound(idling, "1ms")
            time.sleep(0.2)
            self.same("a reader's transaction is left", "", self.guarded())
        rows = "SELECT login, count(*) > 4, bool_and(at > now() - interval '5 minutes') FROM head_office.ended_connection GROUP BY 1"
        self.same("each is written down", "stuck|t|t", office.reads(rows))
        said = office.run("watch", f"{office.folder}/ended")[1]
        wanted = "^stuck: connections were ended: it idled in a transaction"
        is_once = len(re.findall(wanted, said, re.M)) == 1
        self.holds("  and the watch says it once", is_once, said[-500:])
        rights = "SELECT string_agg(r.rolname, ' ' ORDER BY r.rolname) FROM pg_auth_members m JOIN pg_roles r ON r.oid = m.roleid WHERE m.member = 'head_office_guard'::regrole"
        wanted = "head_office pg_read_all_stats pg_signal_backend"
        self.same("the role that ends them has these rights", wanted, office.owner(rights))
        members = "SELECT count(*) FROM pg_auth_members WHERE roleid = 'head_office_guard'::regrole"
        self.same("  and no member", "0", office.owner(members))

    def test_reasons(self) -> None:
        """Stop loads, and see whether they say by whom, since when, and what that one waits for."""
        office = self.office
        opens, waiting = self.login("opens", "OPENS", "SEALED"), self.login("waits", "WAITS")
        export = office.export(Book("WAITS1").fill(12))
        office.told("UPDATE head_office.bridge SET plate_years = 2")
        for function in ("take_in(text, boolean, timestamptz)", "begin_load(text, timestamptz)"):
            office.owner(f"ALTER FUNCTION head_office.{function} SET lock_timeout = '1s'")

        def is_stopped(what: str, by: str) -> None:
            self.loads(what, "WAITS", export, f"^WAITS: refused: {by}$", 2, user=waiting)

        # an upgrade gives up its place for a while after 5 and 10 seconds, and then waits for 15
        asked = "SELECT waitstart FROM pg_locks WHERE NOT granted AND relation = 'head_office.handed'::regclass"
        starts: set[str] = set()

        def has_waited() -> bool:
            starts.update(it for it in office.owner(asked).split("\n") if it)
            return len(starts) > 2

        def is_waiting() -> bool:
            of_lock = f"SELECT count(*) FROM pg_stat_activity WHERE usename = '{REGISTRAR}' AND wait_event_type = 'Lock'"
            return office.owner(of_lock) == "1"

        is_upgrade = "pid IN (SELECT pid FROM pg_locks WHERE objid = hashtext('head_office upgrade')::bit(32)::bigint::oid)"
        seal = ["psql", "-X", "-c", "SELECT head_office.seal('{}', 2001)"]
        begun = (
            "SELECT head_office.begin_load('OPENS');",
            "SELECT * FROM head_office.take_in('OPENS');",
        )
        with self.client(opens, "BEGIN;", *begun):
            for what, words, user, kind in (
                ("an upgrade", [f"{PARTS}/upgrade", "--again"], OWNER, "an upgrade"),
                ("a seal", [*seal[:-1], seal[-1].format("SEALED")], REGISTRAR, "a seal"),
                (
                    "a seal of its own bridge",
                    [*seal[:-1], seal[-1].format("WAITS")],
                    REGISTRAR,
                    "a seal",
                ),
            ):
                with office.start(*words, user=user) as stopped:
                    self.comes(
                        f"{what} waits for it", has_waited if user == OWNER else is_waiting, 90
                    )
                    holder = f"stopped by {kind} by login {user} since {MOMENT}"
                    opened = f"which waits for login {opens}, {IDLES}"
                    is_stopped(f"a load behind {what} says so", f"{holder}, {opened}")
                    reason = (
                        "SELECT DISTINCT reason FROM head_office.refusal WHERE bridge = 'WAITS'"
                    )
                    what = "  as what the next load makes up for"
                    self.same(what, "waited", office.reads(reason))
                    ended = f"usename = '{user}' AND (wait_event_type = 'Lock' OR {is_upgrade})"
                    office.owner(
                        f"SELECT pg_terminate_backend(pid) FROM pg_stat_activity WHERE {ended}"
                    )
                    stopped.communicate(timeout=60)
        by = f"stopped by login {OWNER}, {IDLES}"
        share = "LOCK TABLE {} IN SHARE MODE;"
        for what, statement in (
            (
                "one behind another login's open transaction",
                share.format("head_office.entry"),
            ),
            ("even if it couldn't send its records", share.format("head_office.handed")),
            (
                "or if the refusal can't be written down",
                share.format("head_office.entry, head_office.refusal"),
            ),
            (
                "or one that has the row of its bridge",
                "SELECT FROM head_office.standing FOR UPDATE;",
            ),
        ):
            with self.client(OWNER, "BEGIN;", statement):
                is_stopped(what, by)
        office.upgrade("--again")
        what = "once they are gone the load is taken in"
        wanted = "^WAITS: records 12, added 12, findings 0"
        self.loads(what, "WAITS", export, wanted, user=waiting)


class OneStopsAll(OfficeCheck):
    """A login of a bridge that tries to stop the others."""

    needs = ("PostgreSQL", "sqitch")
    seconds = 20

    def setUp(self) -> None:
        super().setUp()
        self.role("crowd", "CONNECTION LIMIT 2 IN ROLE head_office_loader")
        self.office.register("CROWD", "QUIET")
        self.office.told("INSERT INTO head_office.loader VALUES ('crowd', 'CROWD')")

    def connections(self) -> str:
        return self.office.owner("SELECT count(*) FROM pg_stat_activity WHERE usename = 'crowd'")

    def test_locks_and_connections(self) -> None:
        office = self.office
        export = office.export(Book("QUIET1").fill(30))
        locks = "SELECT pg_advisory_lock(hashtext('head_office'), hashtext(bridge)), pg_advisory_lock(hashtext(bridge)) FROM (VALUES ('QUIET'), ('CROWD')) v (bridge);"
        sleeps = "SELECT pg_sleep(60);"
        with office.session("crowd", locks, waiting=sleeps):
            began = time.monotonic()
            what = "a login that holds advisory locks of another bridge doesn't hold up its load"
            self.loads(what, "QUIET", export, "^QUIET: records 30, added 30")
            took = time.monotonic() - began
            self.holds("  which takes as long as ever", took < 20, took)
            with office.session("crowd", waiting=sleeps):
                self.soon("two connections", lambda: self.connections() == "2")
                what = "a login opens as many connections as its limit"
                self.refuses(what, "too many connections for role", "SELECT 1", "crowd")
                what = "  and another one still loads"
                self.loads(what, "QUIET", export, "^QUIET: records 30, added 0")

    def test_registering(self) -> None:
        self.role("boundless", "IN ROLE head_office_loader")
        limit = "CONNECTION LIMIT 3"
        for login, wanted in {
            "boundless": f"login boundless may open all connections: ALTER ROLE boundless {limit}",
            "nobodys": f"there is no login nobodys: CREATE ROLE nobodys LOGIN {limit}",
        }.items():
            insert = f"INSERT INTO head_office.loader VALUES ('{login}', 'CROWD')"
            said = self.office.told(insert)
            self.holds(f"registering {login} as a loader says what is wrong", wanted in said, said)

    def test_rights(self) -> None:
        office = self.office
        for name, statement in {
            "no row that is the lock of a bridge": "SELECT FROM head_office.standing FOR UPDATE",
            "no table": "LOCK TABLE head_office.handed IN ACCESS EXCLUSIVE MODE",
            "nothing by a lock on entries": "LOCK TABLE head_office.entry IN ROW EXCLUSIVE MODE",
        }.items():
            what = f"a loader locks {name}"
            self.refuses(what, "permission denied", f"BEGIN; {statement}", "crowd")
        for statement in (
            "SELECT lo_create(0)",
            "SELECT lo_creat(-1)",
            "SELECT lo_from_bytea(0, 'x')",
            "CREATE TEMPORARY TABLE t (a int)",
            "CREATE TABLE public.t (a int)",
            "CREATE SCHEMA t",
            "COPY (SELECT 1) TO '/tmp/head_office'",
            "COPY (SELECT 1) TO PROGRAM 'true'",
            "SELECT pg_read_file('PG_VERSION')",
        ):
            words = "permission denied|must be superuser"
            self.refuses(f"a loader may not: {statement}", words, statement, "crowd")
        rights = "SELECT string_agg(relname, ' ' ORDER BY relname) FROM pg_class WHERE relnamespace = 'head_office'::regnamespace AND relkind IN ('r', 'p', 'v', 'S') AND "
        writes = "(has_any_column_privilege('crowd', oid, 'INSERT') OR has_any_column_privilege('crowd', oid, 'UPDATE') OR has_table_privilege('crowd', oid, 'DELETE'))"
        self.same("a loader writes into the one table", "handed", office.owner(rights + writes))
        reads = "relkind <> 'S' AND has_any_column_privilege('crowd', oid, 'SELECT')"
        self.same("  reads none", "", office.owner(rights + reads))
        calls = "SELECT string_agg(proname, ' ' ORDER BY proname) FROM pg_proc WHERE pronamespace = 'head_office'::regnamespace AND has_function_privilege('crowd', oid, 'EXECUTE')"
        wanted = "begin_load note_refusal receipt_of_load refuse_receipt take_in wants_whole"
        self.same("  and calls six functions", wanted, office.owner(calls))

    def test_false_records(self) -> None:
        office = self.office
        insert = f"INSERT INTO head_office.handed ({COLUMNS}) SELECT g, 'K', 'void', 'X', now(), 20, 60000, 'CROWD1', '' FROM generate_series(1, {{}}) g"
        for count in (500, 1):
            office.told(insert.format(count), user="crowd")
        asked = "SELECT count(*) FROM head_office.handed WHERE login = 'crowd'"
        what = "the records of an earlier transaction are gone with the next"
        self.same(what, "1", office.owner(asked))
        what, words = (
            "a loader sends no more records than a journal has places",
            "more records than",
        )
        self.refuses(what, f"{words} a journal has places", insert.format(100_001), "crowd")
        book = Book("CROWD1", age=DAY * 10, step=1).fill(20_000)
        for row in book.rows:
            row["digest"] = "f" * 64
        path = office.export(book)
        status, said = office.load("CROWD", path, user="crowd")
        count = len(office.findings("CROWD"))
        is_bounded = status == 1 and "findings 20000, new 101\n" in said and count == 101
        what = "20,000 false records are a hundred findings and how many more"
        self.holds(what, is_bounded, said[:200])
        more = [it for it in office.findings("CROWD", "record") if "more findings" in it]
        wanted = ["19900 more findings: unsound 19900"]
        self.same("  said with their number", wanted, more)
        self.loads("  and once", "CROWD", path, "findings 20000, new 0$", user="crowd")
        size = len(office.page())
        self.holds("  the page stays below 200 kB", size < 200_000, size)
        book = Book("CROWD1", age=DAY * 10, step=1).fill(2)
        book.rows[0]["digest"] = os.urandom(100).hex()
        what = "a digest of 200 characters is a finding as others are"
        self.loads(what, "CROWD", book, "unsound 1: ", 1, user="crowd")


class Costs(OfficeCheck):
    """Plans that stay linear: what a load, a question or a change reads of other bridges."""

    needs = ("PostgreSQL", "sqitch")
    alone = True
    slow = True
    seconds = 35

    def reading(self, statements: str, tables: str) -> int:
        """Return how many rows of these tables the statements read, by PostgreSQL's own count."""
        asked = f"SELECT sum(seq_tup_read + coalesce(idx_tup_fetch, 0)) FROM pg_stat_user_tables WHERE schemaname = 'head_office' AND relname ~ '{tables}'"
        before = int(self.office.owner(asked))
        self.office.owner(statements)
        self.soon("the count rises", lambda: int(self.office.owner(asked)) > before, 20)
        return int(self.office.owner(asked)) - before

    def test_plans(self) -> None:
        office, login = self.office, self.login("plans", "PLANS", "ZONED")
        many = Book("PLANS1", age=DAY * 20, step=10).fill(3_000, 500)
        office.load("PLANS", office.export(many), user=login)
        office.load("ZONED", office.export(Book("ZONED1").fill(30)), user=login)
        time.sleep(1.5)
        # in a large office the planner chooses no scan of a whole table
        change = "SET enable_seqscan = off; UPDATE head_office.bridge SET zone = 'Pacific/Auckland' WHERE bridge = 'ZONED'"
        read = self.reading(change, "^entry_")
        what = "a change of one zone doesn't read the entries of all bridges"
        self.holds(what, read < 2_000, read)
        asked = "BEGIN; INSERT INTO head_office.bridge (bridge, retention_days) SELECT 'P' || g, 30 FROM generate_series(1, 1500) g; INSERT INTO head_office.journal (bridge) SELECT 'P' || g FROM generate_series(1, 1500) g; ANALYZE head_office.journal, head_office.bridge; SELECT count(*) FROM head_office.heard; ROLLBACK"
        read = self.reading(asked, "^journal$")
        what = "a question about 1,500 bridges doesn't read all journals for each"
        self.holds(what, read < 15_000, read)

    def test_growth(self) -> None:
        office = self.office

        def seconds(name: str, count: int) -> float:
            book = office.book(name, age=DAY * 20, step=10).fill(count, 500)
            path = office.export(book)
            began = time.monotonic()
            self.assertEqual(0, office.load(name, path)[0])
            took = time.monotonic() - began
            office.owner("ANALYZE")
            return took

        seconds("G0", 8_000)
        for turn in range(3):
            once, twice = seconds(f"A{turn}", 8_000), seconds(f"B{turn}", 16_000)
            if twice <= 2.5 * once:
                break
        what = "a first load of twice the entries takes at most 2.5 times as long, after ANALYZE"
        self.holds(what, twice <= 2.5 * once, (once, twice))
        self.reads_few_of_the_newest()
        # plates that stand one behind the other, with others before them
        office.told(
            "INSERT INTO head_office.haulier SELECT 'five', 'P-' || g FROM generate_series(105, 109) g"
        )
        office.owner("ANALYZE")
        asked = "SELECT sum(idx_tup_read) FROM pg_stat_user_indexes JOIN pg_inherits ON inhrelid = indexrelid WHERE inhparent = 'head_office.entry_by_plate'::regclass"
        before = int(office.owner(asked))
        tickets = "SELECT count(*) FROM head_office.haulier_ticket WHERE haulier = 'five'"
        count = int(office.reads(tickets))
        self.soon("the count rises", lambda: int(office.owner(asked)) > before, 20)
        read = int(office.owner(asked)) - before
        what = "and a haulier's tickets only the entries of his plates"
        self.holds(what, count > 100 and 0 < read < 3 * count, (count, read))

    def reads_few_of_the_newest(self) -> None:
        """Load ten new entries behind 16,000, and count by PostgreSQL what that reads."""
        office = self.office
        book = office.book("N", age=DAY * 20, step=10).fill(16_010, 500)
        office.load("N", office.export(book, 16_000))
        newest = [book.line(number) + "\n" for number in range(15_900, 16_011)]
        path = written(f"{office.folder}/newest.csv", [HEADER, *newest])
        asked = "SELECT sum(seq_tup_read + idx_tup_fetch) FROM pg_stat_user_tables WHERE relname IN ('finding', 'load', 'refusal') OR relname LIKE 'entry\\_%'"
        time.sleep(1)
        before = int(office.owner(asked))
        status, said = office.load("N", path, "--newest")
        time.sleep(1)
        read = int(office.owner(asked)) - before
        is_so = status == 0 and "added 10," in said and read < 5_000
        self.holds("and a load of the newest few reads few of what is stored", is_so, (said, read))

    def test_stopped_load(self) -> None:
        """Kill a client while its load waits, and let a load wait for too long."""
        office = self.office
        export = office.export(office.book("STOP", 30))
        words = ["psql", "-X", "-v", "ON_ERROR_STOP=1", "-v", "bridge=STOP", "-f"]
        waits = f"SELECT count(*) FROM pg_stat_activity WHERE usename = '{LOADER}' AND wait_event_type = 'Lock'"
        with office.held_load("STOP", export) as held:
            with open(export, "rb") as given:
                waiting = office.start(*words, f"{PARTS}/load.sql", stdin=given)
            what = "a second load of the bridge waits"
            self.becomes(what, "1", lambda: office.owner(waits), 30)
            waiting.kill()
            waiting.communicate()
            what = "killed, its statement ends within seconds, while it still would wait"
            self.becomes(what, "0", lambda: office.owner(waits), 10)
            self.assertIsNone(held.poll())
            take_in = "head_office.take_in(text, boolean, timestamptz)"
            office.owner(f"ALTER FUNCTION {take_in} SET lock_timeout = '300ms'")
            what = "a load that waits longer than its lock_timeout is refused"
            wanted = f"^STOP: refused: another load of this bridge was not done within a minute: login {LOADER}, {IDLES}$"
            self.loads(what, "STOP", export, wanted, 2)
            self.same("  and is an open finding", ["open"], office.passing("STOP"))
        office.upgrade("--again")
        limit = "SELECT array_to_string(proconfig, ' ') ~ 'lock_timeout=60s' FROM pg_proc WHERE proname = 'take_in'"
        self.same("which is a minute", "t", office.owner(limit))
        wanted = "^STOP: records 30, added 0, findings 0"
        self.loads("and then it is taken", "STOP", export, wanted)
        what = "  which makes up for the one that waited"
        self.same(what, ["made up"], office.passing("STOP"))
