"""No role does more than it may, and the owner doesn't either. A loader of one bridge loads no other, and a connection needs the certificate of its login."""

import os
import shutil
import subprocess

from checks.lib.head_office import (
    LOADER,
    OWNER,
    READER,
    REGISTRAR,
    ClusterCheck,
    OfficeCheck,
    rows_of,
    written,
)
from checks.lib.ports import free_port

FOLLOW = "INSERT INTO head_office.follower SELECT 'MOVED', max(journal), min(journal) FROM head_office.journal WHERE bridge = 'MOVED'"
INSERT = "INSERT INTO head_office.entry SELECT journal, number + 1000, key, kind, plate, moment, gross_kg, preset_kg, interval_kg, max_kg, serial, digest, now(), previous, year FROM head_office.entry LIMIT 1"
UNLOCKED = "ALTER TABLE head_office.entry DISABLE TRIGGER stored_by_a_load"
REFUSED = f"""
{LOADER} | changes no entry | permission denied | UPDATE head_office.entry SET gross_kg = 20
{LOADER} | deletes none | permission denied | DELETE FROM head_office.entry
{LOADER} | empties no table | permission denied | TRUNCATE head_office.entry
{LOADER} | drops none | must be owner | DROP TABLE head_office.entry
{LOADER} | inserts no entry past `take_in` | permission denied | {INSERT}
{LOADER} | writes no finding | permission denied | INSERT INTO head_office.finding (journal) VALUES (1)
{LOADER} | writes no load | permission denied | INSERT INTO head_office.load (journal) VALUES (1)
{LOADER} | disables no trigger | must be owner | ALTER TABLE head_office.entry DISABLE TRIGGER never_changed
{LOADER} | reads no entry | permission denied | SELECT * FROM head_office.entry
{LOADER} | reads no handed record | permission denied | SELECT * FROM head_office.handed
{LOADER} | hands nothing in under another login | permission denied | INSERT INTO head_office.handed (number, login) VALUES (1, 'one')
{LOADER} | registers no serial | permission denied | INSERT INTO head_office.instrument VALUES ('X', 'NORTH')
{LOADER} | allows itself no bridge | permission denied | INSERT INTO head_office.loader VALUES ('one', 'EAST')
{LOADER} | makes no table in the schema | permission denied | CREATE TABLE head_office.judged (a int)
{LOADER} | makes no temporary table that `take_in` would read | permission denied | CREATE TEMPORARY TABLE judged (a int)
{READER} | adds nothing | permission denied | {INSERT}
{READER} | takes nothing in | permission denied | SELECT head_office.take_in('NORTH')
{READER} | registers no bridge | permission denied | INSERT INTO head_office.bridge VALUES ('X')
{READER} | deletes no finding | permission denied | DELETE FROM head_office.finding
{READER} | registers no follower | permission denied | {FOLLOW}
{LOADER} | registers no follower | permission denied | {FOLLOW}
{LOADER} | reads no follower | permission denied | SELECT * FROM head_office.follower_difference
{REGISTRAR} | deletes no bridge | permission denied | DELETE FROM head_office.bridge
{REGISTRAR} | gives no two bridges one name | duplicate key | UPDATE head_office.bridge SET bridge = 'X'
{LOADER} | renames no bridge | permission denied | UPDATE head_office.bridge SET bridge = 'X' WHERE bridge = 'NORTH'
{LOADER} | sets no entry aside | permission denied | SELECT head_office.set_aside(1, 1, 1, 'false')
{READER} | takes no correction back | permission denied | SELECT head_office.take_back(1, 'right')
{REGISTRAR} | moves no serial to another | permission denied | UPDATE head_office.instrument SET bridge = 'EAST'
{REGISTRAR} | registers no serial twice | serial NORTH1 is registered for NORTH | INSERT INTO head_office.instrument VALUES ('NORTH1', 'EAST')
{REGISTRAR} | registers no follower twice | duplicate key | {FOLLOW}
{REGISTRAR} | changes no follower | permission denied | UPDATE head_office.follower SET former = 1
{REGISTRAR} | deletes no follower | permission denied | DELETE FROM head_office.follower
{OWNER} | changes no follower by mistake | follower is never changed | UPDATE head_office.follower SET former = 1
{REGISTRAR} | moves no journal | permission denied | UPDATE head_office.journal SET bridge = 'EAST'
{REGISTRAR} | writes no entry | permission denied | {INSERT}
{OWNER} | changes no entry by mistake | entry is never changed | UPDATE head_office.entry SET gross_kg = 20 WHERE false
{OWNER} | deletes no finding | finding is never changed | DELETE FROM head_office.finding
{OWNER} | empties no table | never changed|foreign key | TRUNCATE head_office.entry
{OWNER} | stores no entry | entry is stored by a load | {INSERT}
{OWNER} | stores none that doesn't fit its digest, with that trigger off | digest_fits | {UNLOCKED}; {INSERT}
"""


class Rights(OfficeCheck):
    """Logins of each role, in an office with entries."""

    needs = ("PostgreSQL", "sqitch")
    seconds = 15

    def setUp(self) -> None:
        super().setUp()
        office = self.office
        self.role("one", "IN ROLE head_office_loader")
        self.role("other", "IN ROLE head_office_loader")
        self.role("stranger", "")
        self.export = office.export(office.book("NORTH", 60))
        office.load("NORTH", self.export)
        office.register("EAST", "MOVED")
        office.follow("MOVED")
        office.told("INSERT INTO head_office.loader VALUES ('one', 'NORTH')")

    def test_refused(self) -> None:
        for login, what, words, statement in rows_of(REFUSED):
            self.refuses(f"{login} {what}", words, statement, login)

    def test_strangers(self) -> None:
        what = "a login without a role may not even connect"
        entries = "SELECT * FROM head_office.entry"
        self.refuses(what, "permission denied for database", entries, "stranger")

    def test_one_bridge(self) -> None:
        office, export, known = self.office, self.export, "^NORTH: records 60, added 0"
        for what, name, login in (
            ("a loader of one bridge hands nothing in for another", "EAST", "one"),
            ("a loader of no bridge hands nothing in", "NORTH", "other"),
        ):
            wanted = f"^{name}: refused: {login} hands nothing in for {name}$"
            self.loads(what, name, export, wanted, 2, user=login)
        what = "a loader of one bridge hands its export in"
        self.loads(what, "NORTH", export, known, user="one")
        # a record that was left by an earlier transaction is nobody's
        left = "INSERT INTO head_office.handed (number, key, kind, plate, moment, interval_kg, max_kg, serial, digest) VALUES (61, 'K', 'void', 'X', now(), 20, 60000, 'NORTH1', '')"
        office.told(left, user="one")
        what = "what an earlier transaction sent isn't used"
        self.loads(what, "NORTH", export, f"{known}, findings 0", user="one")


class Certificates(ClusterCheck):
    """Connections over TLS with certificates on both sides, to a server of their own."""

    needs = ("PostgreSQL", "sqitch", "openssl")
    seconds = 15
    settings = ("fsync = off", "log_connections = on")

    def certify(self, secrets: str) -> None:
        """Write an authority's certificate, and those of the server and of a login."""

        def openssl(words: str) -> None:
            subprocess.run(
                ["openssl", *words.split()], check=True, cwd=secrets, capture_output=True
            )

        key = "-newkey rsa:2048 -nodes -keyout"
        openssl(f"req -x509 {key} ca.key -days 2 -subj /CN=authority -out ca.crt")
        for name in ("localhost", "one"):
            openssl(f"req {key} {name}.key -subj /CN={name} -out {name}.csr")
            signed = "-CA ca.crt -CAkey ca.key -CAcreateserial -days 2"
            openssl(f"x509 -req -in {name}.csr {signed} -out {name}.crt")
            os.chmod(f"{secrets}/{name}.key", 0o600)

    def serve_over_tls(self, secrets: str) -> None:
        cluster = self.cluster
        for it in ("localhost.key", "localhost.crt", "ca.crt"):
            shutil.copy(f"{secrets}/{it}", cluster.data)
            if os.getuid() == 0:
                shutil.chown(f"{cluster.data}/{it}", "postgres")
        os.chmod(f"{cluster.data}/localhost.key", 0o600)
        port = free_port()
        cluster.stop()
        names = {"cert": "localhost.crt", "key": "localhost.key", "ca": "ca.crt"}
        files = [f"ssl_{name}_file = '{it}'" for name, it in names.items()]
        cluster.set([f"port = {port}", "listen_addresses = '127.0.0.1'", "ssl = on", *files])
        lines = ["local all all trust\n", "hostssl all one 127.0.0.1/32 cert\n"]
        written(f"{cluster.data}/pg_hba.conf", lines)
        cluster.port = port
        cluster.start()

    def test_certificates(self) -> None:
        office, secrets = self.new_office(), self.folder()
        self.role("one", "IN ROLE head_office_loader")
        export = office.export(office.book("NORTH", 60))
        office.told("INSERT INTO head_office.loader VALUES ('one', 'NORTH')")
        self.certify(secrets)
        self.serve_over_tls(secrets)
        given = {
            "PGHOST": "localhost",
            "PGHOSTADDR": "127.0.0.1",
            "PGSSLMODE": "verify-full",
            "PGSSLROOTCERT": f"{secrets}/ca.crt",
            "PGSSLCERT": f"{secrets}/one.crt",
            "PGSSLKEY": f"{secrets}/one.key",
        }
        none = {"PGSSLCERT": "/nowhere", "PGSSLKEY": "/nowhere"}
        plain = {"PGSSLMODE": "disable"}
        no_entry = "no pg_hba.conf entry"
        rows: list[tuple[str, int, str, str, dict[str, str]]] = [
            ("over TLS with a certificate", 0, "^NORTH: records 60, added 60", "one", {}),
            (
                "under another login than the certificate's",
                2,
                f"{no_entry}|certificate authentication failed",
                LOADER,
                {},
            ),
            ("without a certificate", 2, "certificate", "one", none),
            ("without TLS", 2, f"{no_entry}|no encryption", "one", plain),
        ]
        for what, status, wanted, login, more in rows:
            found = office.load("NORTH", export, user=login, **{**given, **more})
            self.ends(what, status, wanted, found)


class German(ClusterCheck):
    """A server and clients that speak German. The schema is made twice, a load is taken in or refused, and nobody stores past a load."""

    needs = ("PostgreSQL", "sqitch", "the locale de_DE")
    seconds = 15
    settings = ("fsync = off", "lc_messages = 'de_DE.UTF-8'")

    def test_german(self) -> None:
        office = self.new_office("german")
        german = {"LC_ALL": "de_DE.UTF-8"}
        book = office.book("GERMAN", 41, days=1_000)
        wanted = "^GERMAN: records 30, added 30"
        found = office.load("GERMAN", office.export(book, 30), **german)
        self.ends("in German a load is taken in", 0, wanted, found)
        wanted = "^GERMAN: records 40, added 10"
        found = office.load("GERMAN", office.export(book, 40), "--newest", **german)
        self.ends("  and one of the newest entries", 0, wanted, found)
        with open(office.export(book, 39), "a", encoding="utf-8") as it:
            it.write("41,K41\n")
        found = office.load("GERMAN", it.name, **german)
        what = "  one that isn't of the form is refused, for the server's own reason"
        reason = "(fehlende Daten|missing data)"
        self.ends(what, 2, f"GERMAN: refused: {reason}", found)
        noted = office.reads("SELECT reason || ': ' || why FROM head_office.refusal")
        self.ends("  which is written down", 0, f"^form: {reason}", (0, noted))
        self.role("deputy", "IN ROLE head_office")
        for who, role in (
            ("the owner of the cluster", ""),
            ("the owner of the schema", "SET ROLE head_office; "),
            ("a login that may do all with the schema", "SET ROLE deputy; "),
        ):
            status, said = office.ask(role + INSERT)
            is_refused = status and "entry is stored by a load" in said
            self.holds(f"  {who} stores no entry", is_refused, said)
        status, said = office.ask("SET ROLE head_office; SET ROLE head_office_storer", user=LOADER)
        what = "  a loader doesn't get the role that stores"
        self.holds(what, status and "head_office" in said, said)
        members = (
            "SELECT count(*) FROM pg_auth_members WHERE roleid = 'head_office_storer'::regrole"
        )
        self.same("  which has no member", "0", office.owner(members))
        found = office.upgrade("--again", **german)
        wanted_line = "the schema is of version 9\n"
        self.same("  the schema is made again", (0, wanted_line), found)
        self.same("  and it still has none", "0", office.owner(members))
        found_now = (office.stored("GERMAN"), office.unsound())
        self.same("  each load's entries fit their digests", (40, "0"), found_now)
