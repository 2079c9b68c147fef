"""Shows that each function, view, trigger and right of the head office's SQL does what its page says, one subject after the other.

Each file `checks/head_office_tests/SUBJECT.sql` is a test of pgTAP, and `-k test_SUBJECT` runs it. A case is a line such as `SELECT is(..)`, and counts in the
file's `plan(N)`. The expected values were computed by hand, or by Python.
"""

import re
from collections.abc import Callable
from pathlib import Path
from typing import ClassVar

from checks.lib.case import skip_without
from checks.lib.head_office import OWNER, Office, ClusterCheck

HERE = Path(__file__).parent
# Logins that the files name. They have the rights of a role each.
NAMED = {"ada": "registrar", "bridge_north": "loader", "bridge_south": "loader", "office": "reader"}
# A line of pgTAP about a case, with the lines behind it that say what was found
CASE = re.compile(r"^(not )?ok (\d+)(?: - (.*))?\n((?:#.*\n)*)", re.M)


class Functions(ClusterCheck):
    """Files of SQL with pgTAP, each within a transaction that is rolled back."""

    needs = ("PostgreSQL", "sqitch", "pgTAP")
    seconds = 25
    office_of_all: ClassVar[Office]

    @classmethod
    def setUpClass(cls) -> None:
        super().setUpClass()
        cls.office_of_all = Office(cls.cluster, "", cls.offices.copy("functions"))
        cls.addClassCleanup(cls.drop_roles)
        for login, role in NAMED.items():
            cls.office_of_all.owner(
                f"CREATE ROLE {login} LOGIN CONNECTION LIMIT 3 IN ROLE head_office_{role}"
            )
        cls.run_file("helpers.psql")

    @classmethod
    def drop_roles(cls) -> None:
        words = [f"DROP ROLE IF EXISTS {it}" for it in NAMED]
        cls.cluster.told("DROP DATABASE functions WITH (FORCE)", *words, database="postgres")

    @classmethod
    def run_file(cls, name: str) -> str:
        """Return what a file of SQL prints."""
        words = "-X -q -A -t -P pager=off -v ON_ERROR_ROLLBACK=1 -v ON_ERROR_STOP=1 -f"
        status, said = cls.office_of_all.exec(
            ["psql", *words.split(), str(HERE / name)],
            OWNER,
            PGOPTIONS="-c client_min_messages=warning",
        )
        if status:
            raise AssertionError(f"{name}: {said}")
        return said

    def proves(self, subject: str) -> None:
        """Show each case of a file, and that there are as many as its plan says."""
        said = self.run_file(f"{subject}.sql")
        cases = CASE.findall(said)
        for fails, _, what, found in cases:
            self.holds(what, not fails, found)
        planned = re.findall(r"^1\.\.(\d+)$", said, re.M)
        what = f"{subject}.sql: the number of its plan, and of the cases that ran"
        self.same(what, ([str(len(cases))], len(cases)), (planned, int(cases[-1][1])))

    @skip_without("plpgsql_check")
    def test_code(self) -> None:
        self.proves("code")


def test_of(subject: str) -> Callable[[Functions], None]:
    return lambda it: it.proves(subject)


for path in HERE.glob("*.sql"):
    if path.stem != "code":
        setattr(Functions, f"test_{path.stem}", test_of(path.stem))
