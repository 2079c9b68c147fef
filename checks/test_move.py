"""Shows that a move of a lost bridge gives no number twice, and that the same command finishes a move that was killed.

- The tests in move/tests play a spare machine, its programs and a disk with copies. They kill a move at each call that
  changes a disk, and make archives and copies that do harm.
- A rehearsal over the built program: a bridge weighs, a night copies it, and its machine is lost. The copy continues on a
  second machine with the next number. A journal begins on a third one, under a new serial, with the number 1. Each half of
  a journal that a kill leaves in place is refused by the program, or has every entry.
"""

import os
import shutil
import time
from datetime import datetime, timezone
from pathlib import Path

from weighbridge_move import copied
from weighbridge_night import night
from weighbridge_night.keep import copies_of
from weighbridge_night.office import RealOffice
from weighbridge_night.programs import RealPrograms
from weighbridge_night.setup import GB, Place, Setup

from checks import TOP
from checks.lib import bridge
from checks.lib.case import PROGRAM, Check
from checks.lib.machines import Machine, archive, moved
from checks.lib.program import PROGRAM as BUILT
from checks.lib.program import printed

MORE = ("--pace", "50", "--window", "10")


def weigh(service: bridge.Service, key: str, kind: str, plate: str) -> str:
    """Weigh a vehicle, and return the text that was answered."""
    return bridge.weigh(service, f"key={key}&kind={kind}&plate={plate}", 30, 0.1)[1]


class Parts(Check):
    """The tests of the part."""

    needs = ("root",)

    def test_tests_of_the_part(self) -> None:
        self.passes_unittest("move")


class Rehearsal(Check):
    """A bridge is lost, and moved to a second machine and to a third one."""

    needs = (PROGRAM, "root")
    seconds = 30

    def setUp(self) -> None:
        self.box = self.folder()
        for name in ("state", "disk", "lost"):
            os.mkdir(os.path.join(self.box, name))
        night.WEIGHBRIDGE = copied.WEIGHBRIDGE = BUILT
        night.VERIFY = str(TOP / "inspect" / "verify.py")
        self.disk = os.path.join(self.box, "disk")

    def served(self, journal: str, *more: str) -> bridge.Service:
        """Start a service, whose bridge is empty and has a vehicle on it by turns."""
        converter = bridge.Converter(50.0, lambda number: number // 40 % 2 * 9_170)
        return self.enterContext(bridge.Service(BUILT, journal, converter, *MORE, *more))

    def lose(self) -> str:
        """Weigh, copy, weigh again and lose the machine. Return the copy's folder."""
        journal, state = f"{self.box}/lost/journal.db", f"{self.box}/state"
        service = self.served(journal)
        weigh(service, "K1", "first", "AB-12")
        weigh(service, "K2", "first", "XY-7")
        weigh(service, "K3", "second", "AB-12")
        setup = Setup("WB01", False, [Place("folder", GB, path=self.disk)], journal)
        world = night.World(
            lambda: datetime.now(timezone.utc),
            time.sleep,
            RealPrograms(os.path.join(state, "work", "tmp")),
            RealOffice(setup.office),
            lambda it: None,
        )
        self.same("a night copies the bridge", True, night.Night(setup, state, world).run())
        later = weigh(service, "K4", "second", "XY-7")
        self.assertIn("4", later.splitlines()[0], "a ticket after the copy has the number 4")
        service.kill()
        archive(os.path.join(self.disk, "settings-2026-11-20-lost.tar"))
        copies = os.path.join(self.disk, "WB01")
        return os.path.join(copies, copies_of(os.listdir(copies))[0].name)

    def compare_halves(self, copy: str) -> None:
        """Show what the program says of each half of a journal that a kill leaves in place."""
        names = [f"{copied.JOURNAL}{it}" for it in copied.ENDINGS]
        names = [it for it in names if os.path.lexists(os.path.join(copy, it))]
        whole = printed("check", "--file", os.path.join(copy, copied.JOURNAL))
        for count in range(1, len(names)):
            folder = os.path.join(self.box, f"half{count}")
            os.mkdir(folder)
            for it in names[:count]:
                shutil.copy(os.path.join(copy, it), folder)
            found = printed("check", "--file", os.path.join(folder, copied.JOURNAL))
            is_safe = found[0] != 0 or found == whole
            self.holds(f"with only {', '.join(names[:count])}: refused or whole", is_safe, found)

    def test_move(self) -> None:
        copy = self.lose()
        self.compare_halves(copy)

        second = Machine(os.path.join(self.box, "second"))
        self.same("a look finds nothing wrong", 0, moved(second, "look", self.disk)[0])
        status, said = moved(second, "continue", self.disk, "--last", "4", "--nothing-later")
        what = "with ticket 4 on paper the copy doesn't continue"
        self.same(what, (1, True), (status, "4 (1 number)" in said))
        self.same("and nothing is in place", [], os.listdir(os.path.dirname(second.journal)))
        found = moved(second, "continue", self.disk, "--last", "3", "--nothing-later")
        self.same("without it the copy continues", (0, ""), found)
        service = self.served(second.journal)
        slip = weigh(service, "K5", "second", "XY-7")
        self.assertIn("4", slip.splitlines()[0], "with the next number")
        service.kill()
        sound = printed("check", "--file", second.journal)[:2]
        self.same("and the journal is sound", (0, "SOUND 4\n"), sound)

        third = Machine(os.path.join(self.box, "third"))
        found = moved(third, "begin", self.disk, "--serial", "WB01B", "--last", "4")
        self.same("a journal begins under a new serial", (0, ""), found)
        setup = Path(third.root, "etc/weighbridge.conf").read_text(encoding="utf-8")
        self.holds("which the setup has", "--serial WB01B " in setup)
        service = self.served(third.journal, "--serial", "WB01B")
        slip = weigh(service, "K6", "first", "XY-7")
        for it in ("SERIAL WB01B", "FIRST NO 1"):
            self.holds(f"its first slip has {it}", it in slip, slip)
        kept = os.path.join(third.root, "srv/kept")
        names = sorted(os.listdir(kept))
        self.same("the evidence and the report are kept", [os.path.basename(copy)], names[:1])
        report = Path(kept, names[1]).read_text(encoding="utf-8")
        for it in ("missing: 4 (1 number)", "First 2  XY-7", "new serial: WB01B"):
            self.holds(f"the report has `{it}`", it in report, report)
