"""Shows that a night copies the journal of a running service with each entry that was answered, and that a night that is
killed at any call does no harm.

- The tests in night/tests play the clock, the office and a host. They kill a night at each call that changes a disk, and
  run the rule which copies stay over eleven years of nights.
- Over the built program: nights copy the journal while a client weighs. Each copy is sound, has what was answered before,
  and gives the exports that the program gives of it. The office answers the purge. After a kill of the service, a night
  changes no byte next to the journal.
"""

import os
import threading
import time
from datetime import datetime, timezone
from pathlib import Path

from weighbridge_night import night
from weighbridge_night.files import digest_of
from weighbridge_night.keep import copies_of
from weighbridge_night.last import Step
from weighbridge_night.office import RealOffice
from weighbridge_night.programs import RealPrograms
from weighbridge_night.setup import GB, Place, Setup

from checks import TOP
from checks.lib import bridge
from checks.lib.case import PROGRAM, Check
from checks.lib.program import PROGRAM as BUILT
from checks.lib.program import printed
from checks.lib.waiting import wait_until

NIGHTS = 5


class Weigher(threading.Thread):
    """Weighs vehicles in and out, and counts the entries that were answered."""

    def __init__(self, service: bridge.Service) -> None:
        super().__init__(daemon=True)
        self.service, self.answered, self.ended = service, 0, threading.Event()

    def run(self) -> None:
        while not self.ended.is_set():
            number = self.answered + 1
            kind = ["second", "first"][number % 2]
            body = f"key=W{number}&kind={kind}&plate=P-{(number + 1) // 2}"
            answer = bridge.post(self.service, "/weighings", body)
            if answer and answer[0] == 201:
                self.answered = number
                time.sleep(2)
            time.sleep(0.1)


def newest(folder: str) -> tuple[str, int]:
    """Return the folder of the newest copy, and the number of its newest entry."""
    it = copies_of(os.listdir(folder))[0]
    return os.path.join(folder, it.name), it.newest


class Parts(Check):
    """The tests of the part."""

    seconds = 30

    def test_tests_of_the_part(self) -> None:
        self.passes_unittest("night")


class Nights(Check):
    """Nights while a service runs, and after it was killed."""

    needs = (PROGRAM,)
    seconds = 40

    def setUp(self) -> None:
        self.box = self.folder()
        for name in ("state", "copies", "bridge"):
            os.mkdir(os.path.join(self.box, name))
        self.journal = os.path.join(self.box, "bridge", "journal.db")
        self.state, self.kept = f"{self.box}/state", f"{self.box}/copies/WB01"
        night.WEIGHBRIDGE, night.VERIFY = BUILT, str(TOP / "inspect" / "verify.py")
        converter = bridge.Converter(50.0, lambda number: number // 40 % 2 * 9_170)
        self.service = self.enterContext(
            bridge.Service(BUILT, self.journal, converter, "--pace", "50", "--window", "10")
        )

    def pass_night(self, is_purging: bool) -> None:
        """Run a night."""
        places = [Place("folder", GB, path=os.path.join(self.box, "copies"))]
        office = f"{bridge.HOST}:{self.service.office}"
        setup = Setup("WB01", is_purging, places, self.journal, office)
        steps: dict[str, Step] = {}
        world = night.World(
            lambda: datetime.now(timezone.utc),
            time.sleep,
            RealPrograms(os.path.join(self.state, "work", "tmp")),
            RealOffice(setup.office),
            lambda it: steps.update({it.step: it}),
        )
        is_well = night.Night(setup, self.state, world).run()
        late = [it for it in steps.values() if it.since]
        self.same("the night ends well", (True, []), (is_well, late))

    def beside(self) -> dict[str, str]:
        """Return the digests of the files next to the journal."""
        folder = os.path.dirname(self.journal)
        return {it: digest_of(os.path.join(folder, it)) for it in os.listdir(folder)}

    def test_copies(self) -> None:
        weigher = Weigher(self.service)
        weigher.start()
        self.addCleanup(weigher.ended.set)
        wait_until("two vehicles are weighed", lambda: weigher.answered, lambda it: it >= 2)
        for _ in range(NIGHTS):
            before = weigher.answered
            self.pass_night(True)
            folder, number = newest(self.kept)
            self.holds("the copy has what was answered before", number >= before, number)
            copy = os.path.join(folder, "journal.db")
            self.same("and is sound", f"SOUND {number}\n", printed("check", "--file", copy)[1])
            for what in ("journal", "tickets"):
                exported = printed("export", "--file", copy, "--what", what)[1]
                text = Path(folder, f"{what}.csv").read_text(encoding="utf-8")
                self.same(f"and has its {what}", exported, text)
            time.sleep(1.1)  # each copy has a second of its own
        weigher.ended.set()
        weigher.join()
        self.service.kill()
        digests = self.beside()
        self.pass_night(False)
        # the last request may have been stored and not answered
        possible = (weigher.answered, weigher.answered + 1)
        self.assertIn(newest(self.kept)[1], possible, "after a kill a copy has the newest entry")
        self.same("and nothing next to the journal is changed", digests, self.beside())
