"""Shows that a copy continues only if nothing can have been stored after it, and what is then in place."""

import os
import unittest
from collections.abc import Sequence
from unittest import mock

from tests.played import NOW, MoveCase
from weighbridge_night.programs import Ran

COMMAND = "continue DISK --last 124 --nothing-later"


class ContinueTest(MoveCase):
    def test_the_copy_serves(self) -> None:
        self.assertEqual(self.move(COMMAND), 0, self.faults)
        for ending in ("", "-wal", "-newest"):
            path = f"var/lib/weighbridge/journal.db{ending}"
            with open(os.path.join(self.copy, f"journal.db{ending}"), encoding="utf-8") as file:
                self.assertEqual(self.read(path), file.read())
            self.assertEqual(self.owner(path), (901, 901, "600"))
        self.assertEqual(len(os.listdir(self.at("var/lib/weighbridge"))), 3)
        self.assertEqual(
            self.programs.active, {"weighbridge", "weighbridge-converter", "weighbridge-counter"}
        )
        self.assertEqual(self.programs.enabled, self.programs.active)
        self.assertEqual(self.read("etc/weighbridge.conf"), self.settings["etc/weighbridge.conf"])
        self.assertIn("set the zero", self.said)
        self.assertIn("Give the night a new disk", self.said)
        self.assertIn("Print no slip or ticket again", self.said)
        report = self.read(f"srv/kept/move-WB01-{os.path.basename(self.copy)}.txt")
        self.assertIn("newest entry: 124, first Z-9, 2026-11-29 16:04:00 UTC", report)
        self.assertIn(report, self.said + "\n")

    def test_owners_and_modes(self) -> None:
        self.assertEqual(self.move(COMMAND), 0, self.faults)
        for path, wanted in (
            ("etc/weighbridge.conf", (0, 0, "644")),
            ("etc/weighbridge-alarm.toml", (0, 907, "640")),
            ("etc/msmtprc", (0, 907, "640")),
            ("etc/weighbridge-head-office/bridge.key", (0, 0, "600")),
            ("etc/nginx/weighbridge/passwords", (0, 33, "640")),
            ("var/lib/weighbridge-night/ssh/key", (906, 906, "600")),
            ("var/lib/weighbridge-converter/calibration", (905, 905, "600")),
            ("var/lib/weighbridge-counter/tares.json", (902, 902, "600")),
        ):
            self.assertEqual(self.owner(path), wanted, path)
            self.assertEqual(self.read(path), self.settings[path])
        self.assertEqual(self.owner("etc/weighbridge-head-office")[2], "700")
        self.assertEqual(self.owner("var/lib/weighbridge-counter"), (902, 902, "700"))
        self.assertEqual(self.owner("var/lib/weighbridge-converter"), (905, 905, "700"))
        self.assertEqual(self.owner("var/lib/weighbridge-night/ssh"), (906, 906, "700"))
        self.assertEqual(self.owner("etc/nginx/weighbridge"), (0, 0, "755"))
        self.assertFalse(os.path.exists(self.at("var/backups/weighbridge/version.txt")))
        self.assertEqual(
            self.read("var/lib/weighbridge-move/before/etc/weighbridge.conf"),
            "# as the package has it\n",
        )

    def test_the_journal_is_the_last_thing_before_the_start(self) -> None:
        self.assertEqual(self.move(COMMAND), 0, self.faults)
        ran = [it for it in self.programs.ran if "runuser" in it or "systemctl" in it]
        self.assertRegex(ran[-6], "daemon-reload$")
        self.assertRegex(ran[-5], "is-active weighbridge$")
        self.assertRegex(ran[-4], "^/usr/sbin/runuser -u weighbridge -- /usr/bin/weighbridge check")
        self.assertRegex(ran[-3], "enable --now weighbridge-converter weighbridge$")

    def test_the_note_of_the_zero(self) -> None:
        os.rename(self.copy, self.box + "/away")
        self.copy = self.make_copy(more={"journal.db-zero": b"      12\n", "audit.jsonl": b"{}\n"})
        self.assertEqual(self.move(COMMAND), 0, self.faults)
        self.assertEqual(self.read("var/lib/weighbridge/journal.db-zero"), "      12\n")

    def test_a_greater_number_is_known(self) -> None:
        self.refused(
            "continue DISK --last 131 --nothing-later",
            "the copy ends with 124, so these are missing: 125 to 131 (7 numbers)",
            "use `weighbridge-move begin`",
        )
        self.refused("continue DISK --last 125 --nothing-later", "are missing: 125 (1 number)")

    def test_a_smaller_number_than_the_copy_shows(self) -> None:
        self.refused("continue DISK --last 123 --nothing-later", "show number 124 already")

    def test_nothing_is_taken_for_granted(self) -> None:
        self.refused(
            "continue DISK",
            "--last: it is missing",
            "--nothing-later: it is missing; give it only if it is certain that nothing was stored after"
            " 2026-11-30 02:35:12 UTC",
        )
        self.refused("continue DISK --last 124", "--nothing-later: it is missing")
        self.refused("continue DISK --nothing-later", "--last: it is missing")

    def test_a_purged_journal_has_the_number_of_its_witness(self) -> None:
        os.rename(self.copy, self.box + "/away")
        self.entries = []
        self.copy = self.make_copy(witness=124)
        self.refused("continue DISK --last 0 --nothing-later", "show number 124 already")
        self.assertEqual(self.move(COMMAND), 0, self.faults)

    def test_a_bridge_that_never_weighed(self) -> None:
        os.rename(self.copy, self.box + "/away")
        self.entries = []
        self.copy = self.make_copy()
        self.assertEqual(self.move("continue DISK --last 0 --nothing-later"), 0, self.faults)

    def test_a_newer_doubtful_copy_shows_entries(self) -> None:
        self.make_copy(self.later(2), "doubtful", newest=126)
        self.refused(COMMAND, "this copy shows that 126 was stored", "show number 126 already")

    def test_a_newer_copy_whose_newest_entry_is_unknown(self) -> None:
        self.make_copy(self.later(2), "doubtful", newest=0)
        self.refused(COMMAND, "this copy shows that an unknown number was stored")

    def test_a_newer_doubtful_copy_with_the_same_entries(self) -> None:
        self.make_copy(self.later(2), "doubtful")
        self.assertEqual(self.move(COMMAND), 0, self.faults)

    def test_an_older_copy_was_given(self) -> None:
        self.entries.append((125, "first", "N-1", "WB01"))
        self.make_copy(self.later(1))
        self.refused("continue COPY --last 124 --nothing-later", "shows that 125 was stored")

    def test_the_newest_sound_copy_is_taken(self) -> None:
        self.entries.append((125, "first", "N-1", "WB01"))
        self.copy = self.make_copy(self.later(1))
        self.assertEqual(self.move("continue DISK --last 125 --nothing-later"), 0, self.faults)
        self.assertIn("\n125,", self.read("var/lib/weighbridge/journal.db"))

    def test_every_mistake_at_once(self) -> None:
        self.world.root_user = False
        self.world.moment = NOW.replace(year=2020)
        self.programs.versions = "weighbridge\t2.1.0\n"
        self.programs.active.add("weighbridge")
        self.write(self.at("var/lib/weighbridge/journal.db"), b"x")
        self.refused(
            "continue DISK --last 131",
            "run the command as root",
            "the clock: it shows 2020-11-30 07:04:00 UTC",
            "the lost machine had 2.1.1, and this one has 2.1.0; install 2.1.1",
            "weighbridge-counter: the lost machine had 2.1.1, and this one has none",
            "weighbridge: it runs on this machine",
            "/var/lib/weighbridge: it has journal.db already",
            "these are missing: 125 to 131",
            "--nothing-later: it is missing",
            "mistakes: 8; nothing was changed",
        )

    def test_a_journal_that_is_here_already(self) -> None:
        self.write(self.at("var/lib/weighbridge/journal.db-newest"), b"x")
        self.refused(COMMAND, "it has journal.db-newest already")

    def test_a_unit_that_runs(self) -> None:
        for unit in ("weighbridge", "weighbridge-converter", "weighbridge-counter"):
            self.programs.active = {unit}
            self.refused(COMMAND, f"{unit}: it runs on this machine")

    def test_units_that_could_not_start_before_the_setup(self) -> None:
        self.programs.stopped = "failed"
        self.assertEqual(self.move(COMMAND), 0, self.faults)
        self.assertEqual(self.programs.starts, 1)

    def test_a_unit_that_is_not_installed(self) -> None:
        self.programs.stopped = "unknown"
        self.assertEqual(self.move(COMMAND), 0, self.faults)

    def test_a_unit_that_begins(self) -> None:
        self.programs.stopped = "activating"
        self.refused(COMMAND, "weighbridge: it runs on this machine")

    def test_versions_that_differ_only_if_told(self) -> None:
        self.programs.versions = "weighbridge\t2.1.2\nweighbridge-counter\t2.1.1\n"
        self.refused(COMMAND, "weighbridge: the lost machine had 2.1.1, and this one has 2.1.2")
        self.assertEqual(self.move(f"{COMMAND} --accept versions"), 0, self.faults)

    def test_an_archive_without_versions(self) -> None:
        del self.settings["var/backups/weighbridge/version.txt"]
        self.make_archive()
        self.refused(COMMAND, "version.txt: the archive has none")

    def test_settings_of_another_bridge(self) -> None:
        conf = self.settings["etc/weighbridge.conf"]
        for old, new, words in (
            ("--serial WB01", "--serial WB02", "--serial: the setup has WB02"),
            ("--interval 20", "--interval 10", "--interval: the setup has 10"),
            ("--max 60000", "--max 50000", "--max: the setup has 50000"),
        ):
            self.settings["etc/weighbridge.conf"] = conf.replace(old, new)
            self.make_archive()
            self.refused(COMMAND, words, "they are of two bridges")
            if "serial" in words:
                self.refused(f"{COMMAND} --accept instrument", "numbers could be given twice")
        self.assertEqual(self.move(f"{COMMAND} --accept instrument"), 0, self.faults)

    def test_a_missing_user(self) -> None:
        del self.world.users["weighbridge-counter"]
        self.refused(COMMAND, "install the package weighbridge-counter")

    def test_a_check_in_place_that_counts_otherwise(self) -> None:
        real = self.programs.run

        def run(words: Sequence[str], seconds: float) -> Ran:
            return Ran(0, "SOUND 6\n", "") if "runuser" in words[0] else real(words, seconds)

        with mock.patch.object(self.programs, "run", run):
            self.assertEqual(self.move(COMMAND), 1)
        self.assertIn("it has 6 entries, and the copy 7", self.faults)
        self.assertEqual(self.programs.starts, 0)

    def test_a_disk_that_loses_bytes(self) -> None:
        def lose(old: str, new: str) -> None:
            self.write(new, b"lost")

        with mock.patch("weighbridge_move.moving.copy_synced", lose):
            self.assertEqual(self.move(COMMAND), 1)
        self.assertIn("it doesn't fit its checksum", self.faults)
        names = os.listdir(self.at("var/lib/weighbridge"))
        self.assertEqual([it for it in names if not it.startswith(".move-")], [])
        self.assertEqual(self.programs.starts, 0)
        self.assertEqual(self.move(COMMAND), 0, self.faults)

    def test_a_service_that_does_not_start(self) -> None:
        self.programs.broken = {"weighbridge"}
        self.assertEqual(self.move(COMMAND), 1)
        self.assertIn(
            "start: systemctl enable --now weighbridge-converter weighbridge", self.faults
        )
        self.assertIn("then run the same command again", self.faults)
        self.programs.broken.clear()
        self.assertEqual(self.move(COMMAND), 0, self.faults)
        self.assertEqual(self.programs.starts, 1)

    def test_a_counter_that_does_not_start_stops_no_weighing(self) -> None:
        self.programs.broken = {"weighbridge-counter"}
        self.assertEqual(self.move(COMMAND), 0, self.faults)
        self.assertIn("The counter doesn't run", self.said)

    def test_a_bridge_with_a_converter_of_its_own(self) -> None:
        conf = self.settings["etc/weighbridge.conf"]
        self.settings["etc/weighbridge.conf"] = conf.replace(
            "/run/weighbridge/converter", "tcp:127.0.0.1:885"
        )
        del self.settings["etc/weighbridge-counter.toml"]
        self.make_archive()
        self.assertEqual(self.move(COMMAND), 0, self.faults)
        self.assertEqual(self.programs.active, {"weighbridge"})

    def test_the_same_command_again_does_nothing(self) -> None:
        self.assertEqual(self.move(COMMAND), 0, self.faults)
        before = self.everything()
        self.assertEqual(self.move(COMMAND), 0, self.faults)
        self.assertIn("this move was done on 2026-11-30T07:04:00Z", self.said)
        self.assertEqual(self.everything(), before)
        self.assertEqual(self.programs.starts, 1)

    def test_a_copy_continues_once(self) -> None:
        self.assertEqual(self.move(COMMAND), 0, self.faults)
        self.programs.active.clear()
        for it in os.listdir(self.at("var/lib/weighbridge")):
            os.unlink(self.at(f"var/lib/weighbridge/{it}"))
        self.assertEqual(self.move(COMMAND), 1)
        self.assertIn("a move ended here on 2026-11-30T07:04:00Z", self.faults)
        self.assertEqual(os.listdir(self.at("var/lib/weighbridge")), [])

    def test_a_greater_number_turns_up_later(self) -> None:
        self.assertEqual(self.move(COMMAND), 0, self.faults)
        line = "begin DISK --serial WB01B --last 125"
        self.assertEqual(self.move(line), 1)
        self.assertIn("run `systemctl disable --now weighbridge`", self.faults)
        self.assertIn("move these files into another folder", self.faults)
        self.programs.active.clear()
        os.rename(self.at("var/lib/weighbridge"), self.at("srv/away"))
        os.mkdir(self.at("var/lib/weighbridge"))
        self.assertEqual(self.move("begin DISK --serial WB01 --last 125"), 1)
        self.assertIn("--serial WB01: it was used before", self.faults)
        self.assertEqual(self.move(line), 0, self.faults)
        self.assertIn("known to be missing: 125 (1 number)", self.said)

    def test_no_room(self) -> None:
        little = mock.Mock(f_bavail=16_000, f_frsize=4096)
        with mock.patch("os.statvfs", return_value=little):
            self.refused(COMMAND, "/var/lib/weighbridge: 65536000 bytes are free", "/srv/kept:")

    def test_without_an_archive(self) -> None:
        os.unlink(os.path.join(self.disk, "settings-2026-11-20-bridge.tar"))
        self.refused(COMMAND, "no settings-DATE-HOST.tar is next to the copies")
        self.refused(f"{COMMAND} --no-settings", "it has 0 lines with WEIGHBRIDGE_SETUP")
        self.write(self.at("etc/weighbridge.conf"), self.settings["etc/weighbridge.conf"].encode())
        self.assertEqual(self.move(f"{COMMAND} --no-settings"), 0, self.faults)
        self.assertEqual(self.programs.starts, 1)


if __name__ == "__main__":
    unittest.main()
