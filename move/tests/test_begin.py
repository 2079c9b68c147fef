"""Shows that a new journal begins only under a serial that was never used, and what is kept of the old one."""

import os
import tomllib
import unittest
from unittest import mock

from tests.played import MoveCase

COMMAND = "begin DISK --serial WB01B --last 131"


class BeginTest(MoveCase):
    def report(self, serial: str = "WB01B") -> str:
        return self.read(f"srv/kept/move-{serial}-{os.path.basename(self.copy)}.txt")

    def test_an_empty_journal_under_the_new_serial(self) -> None:
        self.assertEqual(self.move(COMMAND), 0, self.faults)
        self.assertEqual(
            self.read("etc/weighbridge.conf"),
            self.settings["etc/weighbridge.conf"].replace("--serial WB01 ", "--serial WB01B "),
        )
        self.assertEqual(len(self.read("var/lib/weighbridge/journal.db").splitlines()), 1)
        self.assertEqual(self.programs.starts, 1)
        self.assertEqual(self.owner("etc/weighbridge.conf"), (0, 0, "644"))

    def test_the_setups_have_the_new_serial(self) -> None:
        self.assertEqual(self.move(COMMAND), 0, self.faults)
        night = self.read("etc/weighbridge-night.toml")
        self.assertEqual(tomllib.loads(night)["bridge"], "WB01B")
        self.assertIn('# bridge = "WB01"\n', night)
        self.assertEqual(tomllib.loads(self.read("etc/weighbridge-alarm.toml"))["bridge"], "WB01B")
        paper = tomllib.loads(self.read("etc/weighbridge-paper.toml"))
        self.assertEqual(paper["spool"], "/var/lib/weighbridge-counter/papers-WB01B")
        self.assertEqual(paper["printer"], [{"name": "yard"}])
        self.assertEqual(
            self.read("etc/weighbridge-counter.toml"), self.settings["etc/weighbridge-counter.toml"]
        )

    def test_names_that_are_no_serial(self) -> None:
        self.settings["etc/weighbridge-night.toml"] = 'bridge = "NORTH"\npurge = false\n'
        self.settings["etc/weighbridge-alarm.toml"] = 'bridge = "NORTH"\n'
        self.settings["etc/weighbridge-counter.toml"] = 'serial = "WB01"\n'
        self.make_archive()
        self.assertEqual(self.move(COMMAND), 0, self.faults)
        # no night may remove the old copies
        self.assertIn('bridge = "WB01B"', self.read("etc/weighbridge-night.toml"))
        self.assertIn('bridge = "NORTH"', self.read("etc/weighbridge-alarm.toml"))
        self.assertIn('serial = "WB01B"', self.read("etc/weighbridge-counter.toml"))

    def test_the_evidence(self) -> None:
        self.assertEqual(self.move(COMMAND), 0, self.faults)
        kept = self.at(f"srv/kept/{os.path.basename(self.copy)}")
        self.assertEqual(sorted(os.listdir(kept)), sorted(os.listdir(self.copy)))
        for name in os.listdir(kept):
            with open(os.path.join(kept, name), "rb") as one:
                with open(os.path.join(self.copy, name), "rb") as other:
                    self.assertEqual(one.read(), other.read())
        self.assertEqual(os.stat(self.at("srv/kept")).st_mode & 0o777, 0o700)

    def test_the_report(self) -> None:
        self.assertEqual(self.move(COMMAND), 0, self.faults)
        for words in (
            "new serial: WB01B\n",
            "old serial: WB01\n",
            "numbers of WB01 that are known to be missing: 125 to 131 (7 numbers)\n",
            "moment of the copy: 2026-11-30 02:35:12 UTC\n",
            "newest entry: 124, first Z-9, 2026-11-29 16:04:00 UTC\n",
            "on site when the copy was made: 2 vehicles\n"
            "  First 119  XY-7  2026-11-29 16:59:00 UTC  18340 kg\n"
            "  First 124  Z-9  2026-11-29 16:04:00 UTC  18340 kg\n",
            "Give this report to the inspector",
            "Register the new serial at the head office",
        ):
            self.assertIn(words, self.report())
            self.assertIn(words, f"{self.said}\n")
        self.assertNotIn("AB-12", self.report())
        self.assertNotIn("V-1", self.report())

    def test_the_report_is_there_before_anything_weighs(self) -> None:
        self.programs.broken = {"weighbridge"}
        self.assertEqual(self.move(COMMAND), 1)
        self.assertIn("First 119  XY-7", self.report())
        self.assertTrue(os.path.isdir(self.at(f"srv/kept/{os.path.basename(self.copy)}")))

    def test_no_number_is_known(self) -> None:
        self.assertEqual(self.move("begin DISK --serial WB01B"), 0, self.faults)
        self.assertIn("known to be missing: none is known", self.report())

    def test_a_doubtful_copy_names_a_number(self) -> None:
        self.make_copy(self.later(2), "doubtful", newest=127)
        self.assertEqual(self.move("begin DISK --serial WB01B"), 0, self.faults)
        self.assertIn("known to be missing: 125 to 127 (3 numbers)", self.report())

    def test_a_smaller_number_than_the_copy_shows(self) -> None:
        self.refused("begin DISK --serial WB01B --last 12", "show number 124 already")

    def test_serials_that_were_used(self) -> None:
        self.entries[0] = (118, "first", "AB-12", "WB00")
        os.rename(self.copy, self.box + "/away")
        self.copy = self.make_copy()
        os.mkdir(os.path.join(self.disk, "WB01C"))
        self.settings["etc/weighbridge-alarm.toml"] = 'bridge = "GATE"\n'
        self.make_archive()
        for serial in ("WB01", "WB00", "WB01C", "GATE", "DEMO"):
            self.refused(f"begin DISK --serial {serial}", f"--serial {serial}: it was used before")
        self.assertIn("such as WB01B", self.faults)

    def test_a_serial_of_the_setup_alone(self) -> None:
        conf = self.settings["etc/weighbridge.conf"]
        self.settings["etc/weighbridge.conf"] = conf.replace("--serial WB01", "--serial WB09")
        self.make_archive()
        self.refused("begin DISK --serial WB09 --accept instrument", "it was used before")

    def test_serials_of_another_form(self) -> None:
        for serial in ("wb01b", "WB-1", "W" * 17, "WB01B;reboot"):
            self.refused(f"begin DISK --serial {serial}", "a serial has 1 to 16 characters")
        self.refused("begin DISK", "a serial has 1 to 16 characters")

    def test_a_setup_that_cannot_be_changed(self) -> None:
        for path, text, words in (
            ("etc/weighbridge.conf", "WEIGHBRIDGE_SETUP=\n", "doesn't have --interval"),
            ("etc/weighbridge-night.toml", "bridge = \n", "it is no TOML"),
            ("etc/weighbridge-paper.toml", 'spool = """x"""\n', "spool can't be replaced"),
        ):
            before = self.settings[path]
            self.settings[path] = text
            self.make_archive()
            self.refused(COMMAND, words)
            self.settings[path] = before

    def test_the_counters_list_is_not_put_back(self) -> None:
        self.settings["var/lib/weighbridge-counter/journal.json"] = "{}"
        self.make_archive()
        self.assertEqual(self.move(COMMAND), 0, self.faults)
        self.assertEqual(sorted(os.listdir(self.at("var/lib/weighbridge-counter"))), ["tares.json"])

    def test_evidence_elsewhere(self) -> None:
        self.assertEqual(self.move(f"{COMMAND} --keep /srv/evidence/2026"), 0, self.faults)
        self.assertIn(os.path.basename(self.copy), os.listdir(self.at("srv/evidence/2026")))
        self.refused_words(f"{COMMAND} --keep here")
        self.refused_words(f"{COMMAND} --keep /srv/../etc")

    def refused_words(self, line: str) -> None:
        self.assertEqual(self.move(line), 2)
        self.assertIn("give a path from / on", self.faults)

    def test_evidence_that_is_there_with_other_bytes(self) -> None:
        kept = self.at(f"srv/kept/{os.path.basename(self.copy)}")
        os.makedirs(kept)
        self.write(os.path.join(kept, "journal.db"), b"other")
        self.assertEqual(self.move(COMMAND), 1)
        self.assertIn("it has other files than the copy", self.faults)
        with open(os.path.join(kept, "journal.db"), "rb") as file:
            self.assertEqual(file.read(), b"other")
        self.assertEqual(self.programs.starts, 0)

    def test_a_disk_that_loses_bytes(self) -> None:
        def lose(old: str, new: str) -> None:
            self.write(new, b"lost")

        with mock.patch("weighbridge_move.moving.copy_synced", lose):
            self.assertEqual(self.move(COMMAND), 1)
            self.assertIn("it doesn't fit its checksum", self.faults)
            self.assertEqual(self.programs.starts, 0)
        self.assertNotIn(os.path.basename(self.copy), os.listdir(self.at("srv/kept")))
        self.assertEqual(self.move(COMMAND), 0, self.faults)

    def test_setups_of_this_machine_keep_their_modes(self) -> None:
        os.unlink(os.path.join(self.disk, "settings-2026-11-20-bridge.tar"))
        for path, mode in (("etc/weighbridge.conf", 0o600), ("etc/weighbridge-night.toml", 0o640)):
            self.write(self.at(path), self.settings[path].encode())
            os.chmod(self.at(path), mode)
        self.assertEqual(self.move(f"{COMMAND} --no-settings"), 0, self.faults)
        self.assertEqual(self.owner("etc/weighbridge.conf"), (0, 0, "600"))
        self.assertEqual(self.owner("etc/weighbridge-night.toml"), (0, 0, "640"))
        self.assertIn("--serial WB01B ", self.read("etc/weighbridge.conf"))
        self.assertIn('bridge = "WB01B"', self.read("etc/weighbridge-night.toml"))
        self.assertIn(
            "--serial WB01 ", self.read("var/lib/weighbridge-move/before/etc/weighbridge.conf")
        )

    def test_a_second_move_needs_another_serial(self) -> None:
        self.assertEqual(self.move(COMMAND), 0, self.faults)
        self.programs.active.clear()
        for it in os.listdir(self.at("var/lib/weighbridge")):
            os.unlink(self.at(f"var/lib/weighbridge/{it}"))
        self.assertEqual(self.move("begin DISK --serial WB01B --last 140"), 1)
        self.assertIn("a move used it on", self.faults)
        self.assertEqual(self.move("begin DISK --serial WB01C --last 140"), 0, self.faults)

    def test_the_journal_of_this_machine_is_never_touched(self) -> None:
        self.write(self.at("var/lib/weighbridge/journal.db"), b"x")
        self.refused(COMMAND, "it has journal.db already; this program changes no journal")


if __name__ == "__main__":
    unittest.main()
