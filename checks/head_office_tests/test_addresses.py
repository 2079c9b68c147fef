"""Loads from an address. A program that holds the office's port and isn't the service is refused, and the whole export follows the newest entries where it has to."""

import getpass
import os
import re
import subprocess
import sys
import time
from collections.abc import Iterator
from contextlib import contextmanager

from checks.lib.bridge import is_listening
from checks.lib.head_office import DAY, LOADER, OfficeCheck
from checks.lib.ports import free_port
from checks.lib.waiting import wait_until

IS_ROOT = os.getuid() == 0
NOBODYS = "http://127.0.0.1:1/journal.csv"


@contextmanager
def serving(folder: str, *before: str) -> Iterator[int]:
    """Serve a folder by a program of its own, and yield the port."""
    port = free_port()
    words = "-m http.server --bind 127.0.0.1 --directory".split()
    python = "/usr/bin/python3" if before else sys.executable
    with subprocess.Popen(
        [*before, python, *words, folder, str(port)],
        stdout=subprocess.DEVNULL,
        stderr=subprocess.DEVNULL,
        cwd="/",
    ) as server:
        try:
            wait_until("the folder is served", lambda: is_listening(port), seconds=60)
            yield port
        finally:
            server.kill()


class Addresses(OfficeCheck):
    """Exports that are fetched from a port of this machine."""

    needs = ("PostgreSQL", "sqitch", "curl")
    seconds = 15

    def served_folder(self) -> str:
        path = f"{self.office.folder}/served"
        os.mkdir(path)
        os.chmod(path, 0o755)
        return path

    def test_another_listener(self) -> None:
        """Another user holds the office's port. Run by root, that is `nobody`."""
        office, folder = self.office, self.served_folder()
        office.book("PORT", 9).write(f"{folder}/journal.csv")
        before = "setpriv --reuid=nobody --regid=nogroup --clear-groups".split() if IS_ROOT else []
        stranger, owner = ("nobody", "root") if IS_ROOT else (getpass.getuser(), "nobody")
        with serving(folder, *before) as port:
            address = f"http://127.0.0.1:{port}/journal.csv"

            def refused(what: str, wanted: str, address: str = address, **more: str) -> None:
                self.loads(what, "PORT", address, wanted, 2, **more)

            what = "a forged journal of another user that took the port is refused"
            wanted = f"^PORT: refused: {stranger} listens on port {port}, not {owner}: look who took the port$"
            refused(what, wanted, HEAD_OFFICE_LISTENER=owner)
            self.same("  and nothing of it is stored", 0, office.stored("PORT"))
            found = (office.refusals("PORT"), office.findings("PORT", "what"))
            wanted_rows = ([f"listener|{LOADER}"], ["refused"])
            self.same("  but the refusal and a finding", wanted_rows, found)
            wanted = "this machine has no user nowhere"
            refused("a user that there isn't is reported", wanted, HEAD_OFFICE_LISTENER="nowhere")
            other = "http://192.0.2.1:880/journal.csv"
            what = "another machine is no service of this one"
            refused(what, "192.0.2.1 is another machine", other)
            for _ in range(3):
                refused("a port on which nobody listens", "nobody listens there", NOBODYS)
            self.same("  three times are one open finding", ["open"], office.passing("PORT"))
            what = "the user that is named: the load says whom it asked"
            wanted = f"^PORT: asked {address} of user {stranger}\nPORT: records 9, added 9"
            self.loads(what, "PORT", address, wanted, HEAD_OFFICE_LISTENER=stranger)
            what = "  which makes up for the export that didn't come"
            self.same(what, ["made up"], office.passing("PORT"))
            refused("and the next one that doesn't come", "nobody listens there", NOBODYS)
            self.same("  is a finding again", ["made up", "open"], office.passing("PORT"))
            findings = office.page().split("<h3>Loads that were refused")[0]
            rows = re.findall('<td>PORT</td><td title="[^"]*">not loaded</td>', findings)
            self.same("  which the page shows, and none that was made up for", 1, len(rows))

    def test_newest_entries(self) -> None:
        """Load the newest entries. The whole export follows where the head office wants it, or where these don't reach or have findings."""
        office, folder = self.office, self.served_folder()
        book = office.book("SELF", 40, age=3 * DAY)
        with serving(folder) as port:

            def load(what: str, last: int, wanted: str, status: int = 0) -> None:
                """Weigh up to this number, and load the newest 20 entries."""
                book.moment, book.step = int(time.time()), 0
                book.fill(last - len(book.rows)).write(f"{folder}/journal.csv")
                address = f"http://127.0.0.1:{port}/journal.csv"
                more = {"HEAD_OFFICE_NEWEST": "20"}
                self.loads(what, "SELF", address, wanted, status, "--newest", **more)

            what = "the first load of a journal is a whole one of its own"
            load(what, 40, "^SELF: records 40, added 40")
            what = "the next one has only the newest entries"
            load(what, 50, "^SELF: records 20, added 10")
            what = "the whole export follows where they don't reach"
            wanted = "^SELF: refused: the newest entries begin at 71.*\nSELF: records 90, added 40"
            load(what, 90, wanted)
            what = "  which is a refusal, and a finding that the whole export made up for"
            found = (office.refusals("SELF"), office.passing("SELF"))
            self.same(what, ([f"newest|{LOADER}"], ["made up"]), found)
            office.owner("UPDATE head_office.standing SET whole_at = whole_at - interval '8 days'")
            what = "and where the last whole one is a week old"
            load(what, 90, "^SELF: records 90, added 0")
            book.change(85, gross=8_000).chain(85)
            what = "and where something was found, which says where that begins"
            wanted = "^SELF: records 20, added 0, findings 1, new 1\n(.*\n)*SELF: records 90, added 0, findings 1, new 0$"
            load(what, 90, wanted, 1)
