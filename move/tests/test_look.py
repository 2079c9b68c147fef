"""Shows what `look` says, which copy and archive are found, and that a copy with any fault is refused."""

import os
import shutil
import tarfile
import time
import unittest
from unittest import mock

from tests.played import ENTRIES, NIGHT, MoveCase, digest, export_of, witness_of
from weighbridge_move import copied, finding
from weighbridge_move.entries import MOST_ENTRIES, NoExport, journal_of, witnessed

COMMAND = "begin DISK --serial WB01B"


class LookTest(MoveCase):
    def test_it_says_what_is_there_and_what_it_would_do(self) -> None:
        self.world.root_user = False
        before = self.everything()
        self.assertEqual(self.move("look DISK"), 0, self.said)
        for words in (
            f"copy: {self.copy}\n",
            "moment of the copy: 2026-11-30 02:35:12 UTC\n",
            "entries in the copy: 7, and the check says that they are sound\n",
            "newest entry: 124, first Z-9, 2026-11-29 16:04:00 UTC\n",
            "serial of the entries: WB01\n",
            "on site when the copy was made: 2 vehicles\n  First 119  XY-7 ",
            "settings-2026-11-20-bridge.tar, 13 files\n",
            "versions of the lost machine: weighbridge 2.1.1, weighbridge-counter 2.1.1\n",
            "setup: serial WB01, e 20 kg, Max 60000 kg\nonly root can see whether",
            f"  weighbridge-move continue {self.disk} --last 124 --nothing-later\n",
            f"  weighbridge-move begin {self.disk} --serial WB01B --last NUMBER",
        ):
            self.assertIn(words, self.said)
        self.assertEqual(self.everything(), before)
        self.assertFalse(os.path.lexists(self.at("var/lib/weighbridge-move")))

    def test_many_vehicles_on_site(self) -> None:
        shutil.rmtree(self.copy)
        self.entries = [(it, "first", f"P-{it}", "WB01") for it in range(1, 1_003)]
        self.copy = self.make_copy()
        self.assertEqual(self.move("look DISK"), 0, self.said)
        self.assertEqual(self.said.count("  First "), 200)
        self.assertIn("  and 802 more; they are in journal.csv of the copy", self.said)

    def test_the_commands_that_it_prints_work(self) -> None:
        self.move("look DISK")
        line = next(it for it in self.said.splitlines() if " continue " in it)
        self.assertEqual(self.move(line.split(None, 1)[1]), 0, self.faults)

    def test_it_names_all_that_stops_a_move(self) -> None:
        self.programs.active = {"weighbridge"}
        self.programs.versions = ""
        self.assertEqual(self.move("look DISK"), 1)
        self.assertIn("Nothing can be moved yet:\n- ", self.said)
        self.assertIn("this one has none", self.said)
        self.assertIn("weighbridge: it runs on this machine", self.said)
        self.assertNotIn("weighbridge-move continue", self.said)

    def test_a_copy_that_failed_is_called_sound_nowhere(self) -> None:
        self.programs.check = "DAMAGED 2"
        self.assertEqual(self.move("look DISK"), 1)
        self.assertIn("weighbridge check printed DAMAGED 2", self.said)
        self.assertNotIn("the check says", self.said)
        self.assertNotIn("newest entry:", self.said)

    def test_the_copies_that_are_there(self) -> None:
        for hours in range(1, 25):
            self.make_copy(self.later(-24 * hours))
        doubtful = os.path.basename(self.make_copy(self.later(2), "doubtful"))
        self.assertEqual(self.move("look DISK"), 0, self.said)
        name = os.path.basename(self.copy)
        self.assertIn(
            f"copies in {self.bridge}: 26, the newest first\n"
            f"  {doubtful}  newest entry 124, 2 hours old\n"
            f"  {name}  newest entry 124, 4 hours old, the newest sound one\n"
            f"  {name.replace('-30T', '-29T')}  newest entry 124, 28 hours old\n"
            f"  {name.replace('-30T', '-28T')}  newest entry 124, 2 days old\n",
            self.said,
        )
        self.assertEqual(self.said.count(" old"), 20)
        self.assertIn("\n  and 6 more\n", self.said)

    def test_the_copy_that_was_given(self) -> None:
        older = self.make_copy(self.later(-24))
        self.move(f"look {older}")
        self.assertIn("28 hours old, the one that was given\n", self.said)
        self.assertIn("4 hours old\n", self.said)

    def test_the_local_time(self) -> None:
        zone = os.environ.get("TZ")
        try:
            os.environ["TZ"] = "Europe/Berlin"
            time.tzset()
            self.move("look DISK")
            self.assertIn(
                "after 2026-11-30 02:35:12 UTC (03:35:12 on the clock of this machine), run",
                self.said,
            )
            self.world.said.clear()
            os.environ["TZ"] = "UTC"
            time.tzset()
            self.move("look DISK")
            self.assertIn("after 2026-11-30 02:35:12 UTC, run", self.said)
        finally:
            os.environ.pop("TZ")
            if zone is not None:
                os.environ["TZ"] = zone
            time.tzset()

    def test_a_serial_that_is_free(self) -> None:
        os.mkdir(os.path.join(self.disk, "WB01B"))
        self.move("look DISK")
        self.assertIn("--serial WB01C", self.said)

    def test_a_copy_that_contradicts(self) -> None:
        name = os.path.basename(self.make_copy(self.later(2), "doubtful", newest=126))
        self.assertEqual(self.move("look DISK"), 0)
        self.assertIn(f"{name} shows entries that the chosen copy doesn't have", self.said)

    def test_the_folder_of_a_disk_a_bridge_or_a_copy(self) -> None:
        self.make_copy(self.later(-24))
        for folder in (self.disk, self.bridge, self.copy, f"{self.disk}/."):
            self.world.said.clear()
            self.assertEqual(self.move(f"look {folder}"), 0, self.said)
            self.assertIn(f"copy: {self.copy}\n", self.said)
            self.assertIn("settings-2026-11-20-bridge.tar", self.said)

    def test_two_bridges_on_a_disk(self) -> None:
        shutil.copytree(self.bridge, os.path.join(self.disk, "WB02"))
        self.assertEqual(self.move("look DISK"), 1)
        self.assertIn("it has the copies of 2 bridges: ", self.faults)
        self.assertEqual(self.move(f"look {self.bridge}"), 0, self.said)

    def test_archives_of_two_machines(self) -> None:
        other = self.make_archive("settings-2026-11-25-other.tar")
        self.assertEqual(self.move("look DISK"), 1)
        self.assertIn("there are archives of 2 machines", self.said)
        self.assertEqual(self.move(f"look DISK --settings {other}"), 0, self.said)

    def test_the_newest_archive(self) -> None:
        self.make_archive("settings-2026-11-25-bridge.tar")
        with tarfile.open(os.path.join(self.disk, "settings-2026-11-19-bridge.tar"), "w"):
            pass
        self.assertEqual(self.move("look DISK"), 0, self.said)
        self.assertIn("settings-2026-11-25-bridge.tar", self.said)

    def test_folders_without_copies(self) -> None:
        os.mkdir(os.path.join(self.box, "empty"))
        for folder in (
            f"{self.box}/none",
            f"{self.box}/empty",
            self.box,
            f"{self.copy}/journal.db",
        ):
            self.assertEqual(self.move(f"look {folder}"), 1)
            self.assertIn("see whether the disk is plugged in", self.faults)

    def test_only_doubtful_copies(self) -> None:
        shutil.rmtree(self.copy)
        folder = self.make_copy(verdict="doubtful")
        self.assertEqual(self.move("look DISK"), 1)
        self.assertIn("none of its 1 copies is sound", self.faults)
        self.assertEqual(self.move(f"look {folder}"), 1)
        self.assertIn("the night called this copy doubtful", self.said)

    def test_many_names(self) -> None:
        with mock.patch.object(finding, "MOST_NAMES", 1):
            self.assertEqual(self.move("look DISK"), 1)
        self.assertIn("it has more than 1 names", self.faults)


class CopyTest(MoveCase):
    def replace(self, name: str, data: bytes) -> None:
        """Change a file of the copy, with a checksum that fits, and as many bytes."""
        path = os.path.join(self.copy, name)
        with open(path, "rb") as file:
            old = file.read()
        sums = os.path.join(self.copy, "SHA256SUMS")
        with open(sums, "rb") as file:
            text = file.read().replace(digest(old).encode(), digest(data).encode())
        self.write(path, data)
        self.write(sums, text)
        self.rename()

    def rename(self) -> None:
        size = sum(os.path.getsize(os.path.join(self.copy, it)) for it in os.listdir(self.copy))
        new = os.path.join(self.bridge, f"2026-11-30T023512Z_sound_124_{size}")
        os.rename(self.copy, new)
        self.copy = new

    def test_a_flipped_bit(self) -> None:
        for name in sorted(set(os.listdir(self.copy)) - {"SHA256SUMS"}):
            path = os.path.join(self.copy, name)
            with open(path, "rb") as file:
                data = file.read()
            self.write(path, bytes([data[0] ^ 1]) + data[1:])
            self.refused(COMMAND, f"{name}: it doesn't fit its checksum")
            self.write(path, data)
        self.assertEqual(self.move(COMMAND), 0, self.faults)

    def test_a_file_that_is_missing_or_cut(self) -> None:
        for name in sorted(os.listdir(self.copy)):
            path = os.path.join(self.copy, name)
            os.rename(path, self.box + "/away")
            self.refused(COMMAND, "its name says")
            os.rename(self.box + "/away", path)

    def test_files_that_the_checksums_do_not_name(self) -> None:
        self.write(os.path.join(self.copy, "more"), b"x")
        self.rename()
        self.refused(COMMAND, "it doesn't name the files that are there")

    def test_a_file_that_is_none_of_a_copy(self) -> None:
        shutil.rmtree(self.copy)
        self.copy = self.make_copy(more={"run.sh": b"x"})
        self.refused(COMMAND, "run.sh: it is missing, or is no file of a copy")

    def test_a_copy_without_a_witness(self) -> None:
        os.unlink(os.path.join(self.copy, "journal.db-newest"))
        path = os.path.join(self.copy, "SHA256SUMS")
        with open(path, encoding="ascii") as file:
            lines = [it for it in file if "-newest" not in it]
        self.write(path, "".join(lines).encode())
        self.rename()
        self.refused(COMMAND, "journal.db-newest: it is missing")

    def test_a_witness_that_names_nothing(self) -> None:
        self.replace("journal.db-newest", b"x" * 296)
        self.refused(COMMAND, "journal.db-newest: it names no entry")

    def test_a_link_or_folder_in_a_copy(self) -> None:
        path = os.path.join(self.copy, "journal.csv")
        os.rename(path, self.box + "/away")
        os.symlink(self.box + "/away", path)
        self.refused(COMMAND, "journal.csv: it is no file")
        os.unlink(path)
        os.mkdir(path)
        self.refused(COMMAND, "journal.csv: it is no file")

    def test_a_link_in_place_of_a_copy(self) -> None:
        os.rename(self.copy, self.box + "/away")
        os.symlink(self.box + "/away", self.copy)
        self.refused(COMMAND, "no copy of the night is there")

    def test_a_journal_that_is_not_sound(self) -> None:
        for said in ("DAMAGED 2", "store 2 disk", "SOUND", "SOUND 7 or so", " ", "x\nSOUND 7"):
            self.programs.check = said
            last = said.strip().splitlines()[-1] if said.strip() else "nothing"
            self.refused(COMMAND, f"weighbridge check printed {last};")
        self.programs.check = "SOUND 6"
        self.refused(COMMAND, "the check counted 6 entries, and the export has 7")

    def test_a_name_that_says_another_number(self) -> None:
        os.rename(self.copy, self.copy.replace("_124_", "_125_"))
        self.refused(COMMAND, "its name says that the newest entry is 125")

    def test_many_files_in_a_copy(self) -> None:
        for it in range(30):
            self.write(os.path.join(self.copy, f"f{it}"), b"")
        self.refused(COMMAND, "it has more than 20 files")

    def test_a_huge_copy(self) -> None:
        with mock.patch.object(copied, "MOST_BYTES", 100):
            self.refused(COMMAND, "and 100 are allowed")

    def test_a_copy_of_the_future(self) -> None:
        self.world.moment = NIGHT.replace(hour=1)
        self.refused(COMMAND, "which is before 2026-11-30 02:35:12 UTC of the copy")

    def test_a_clock_before_the_newest_entry(self) -> None:
        shutil.rmtree(self.copy)
        self.copy = self.make_copy(NIGHT.replace(day=1))
        self.world.moment = NIGHT.replace(day=2)
        self.refused(COMMAND, "which is before 2026-11-29 16:04:00 UTC of the copy")


class EntriesTest(unittest.TestCase):
    def test_what_is_no_export(self) -> None:
        whole = export_of(ENTRIES)
        for text in (
            whole + "125,K\n",
            whole.replace("2026-11-29", "29.11.2026"),
            whole.replace("\n119,", "\n118,"),
            whole.replace("number,", "no,"),
            whole.replace(",20,60000", ",x,60000"),
        ):
            with self.assertRaises(NoExport):
                journal_of(text)
        self.assertEqual(journal_of(whole).count, len(ENTRIES))
        self.assertGreaterEqual(MOST_ENTRIES, 100_000)

    def test_a_plate_that_was_weighed_in_again(self) -> None:
        it = journal_of(
            export_of(
                [
                    (1, "first", "A", "WB01"),
                    (2, "void", "A", "WB01"),
                    (3, "first", "A", "WB01"),
                    (4, "single", "A", "WB01"),
                ]
            )
        )
        self.assertEqual([one.number for one in it.open], [3])

    def test_the_witness(self) -> None:
        one, other = witness_of(124)[:148], witness_of(125)[:148]
        for data, wanted in (
            (one + other, 125),
            (other + one, 125),
            (one + b"x" * 148, 124),
            (b"x" * 148 + one, 124),
            (one, 124),
            (b"", None),
            (b"x" + one + one, None),
        ):
            self.assertEqual(witnessed(data), wanted)


if __name__ == "__main__":
    unittest.main()
