"""Shows that nothing is lost, and nothing is called well, under clocks, disks, hosts and users that do harm."""

import errno
import os
import unittest
from collections.abc import Sequence
from datetime import datetime, timedelta, timezone
from unittest import mock

from tests.played import NightCase
from weighbridge_night import __main__ as command
from weighbridge_night.folder import Folder
from weighbridge_night.keep import Copy, copy_of
from weighbridge_night.programs import Ran
from weighbridge_night.setup import GB, Place, Refused, setup_of

FORGED = "2999-12-31T000000Z_sound_1_999999999999999"


class HostileCase(NightCase):
    def setUp(self) -> None:
        super().setUp()
        self.places = self.places[:1]

    def newest_in_folder(self) -> int:
        """Return the greatest newest entry of the copies that are in the folder."""
        found = [copy_of(it) for it in self.in_folder()]
        return max(it.newest for it in found if it is not None)

    def only_failure(self) -> str:
        """Return the words of the step that failed. All others did not."""
        failed = [it for it in self.steps if it.state == "failed"]
        self.assertEqual(len(failed), 1, failed)
        return f"{failed[0].step}: {failed[0].words}"


class ClockTest(HostileCase):
    def test_a_clock_that_goes_back(self) -> None:
        for _ in range(40):
            self.assertTrue(self.night())
        self.clock.now -= timedelta(days=16)
        for entries in (97, 98, 99):
            self.programs.entries = entries
            self.assertFalse(self.night())
            self.assertIn("is dated after this night; see whether the clock", self.words(self.thin))
        kept = [it.newest for it in map(copy_of, self.in_folder()) if it is not None]
        self.assertTrue({97, 98, 99} <= {*kept}, kept)

    def test_a_clock_that_was_ahead_for_one_night(self) -> None:
        self.assertTrue(self.night())
        found = copy_of(self.in_folder()[0])
        assert found is not None
        self.places = [Place("folder", found.size * 3 // 2, path=self.copies)]
        now = self.clock.now
        self.clock.now = datetime(2099, 1, 1, tzinfo=timezone.utc)
        self.assertTrue(self.night())
        self.clock.now = now
        for entries in (50, 51):
            self.programs.entries = entries
            self.assertFalse(self.night())
            self.assertEqual(self.newest_in_folder(), entries)

    @property
    def thin(self) -> str:
        return f"thin folder {self.copies}"


class DiskTest(HostileCase):
    def test_a_name_that_somebody_made_is_no_copy(self) -> None:
        for _ in range(9):
            self.assertTrue(self.night())
        before = self.in_folder()
        os.mkdir(os.path.join(self.copies, "WB01", FORGED))
        os.symlink("/", os.path.join(self.copies, "WB01", "2999-12-30T000000Z_sound_1_1"))
        self.assertTrue(self.night())
        after = self.in_folder()
        self.assertIn(FORGED, after)
        self.assertLessEqual(len({*before} - {*after}), 1)

    def test_a_doubtful_copy_at_a_full_place_stays(self) -> None:
        self.assertTrue(self.night())
        found = copy_of(self.in_folder()[0])
        assert found is not None
        self.places = [Place("folder", found.size * 7 // 2, path=self.copies)]
        for _ in range(4):
            self.assertTrue(self.night())
        self.programs.check, self.programs.check_status = "DAMAGED 2\n", 1
        self.assertFalse(self.night())
        self.assertTrue(any("_doubtful_" in it for it in self.in_folder()), self.in_folder())

    def test_a_link_in_place_of_the_bridges_folder(self) -> None:
        self.assertTrue(self.night())
        other = os.path.join(self.box, "other")
        os.mkdir(other)
        os.symlink(os.path.join(self.copies, "WB01"), os.path.join(other, "WB01"))
        self.places.append(Place("folder", 1, path=other))
        before = self.in_folder()
        self.assertFalse(self.night())
        self.assertIn("it is no folder of this disk", self.only_failure())
        self.assertTrue({*before} <= {*self.in_folder()})

    def test_a_leftover_that_cannot_be_removed_stops_no_copy(self) -> None:
        self.assertTrue(self.night())
        left = f".new-{self.in_folder()[0]}"
        os.mkdir(os.path.join(self.copies, "WB01", left))
        real = os.rmdir
        error = OSError(errno.EACCES, "Permission denied")

        def remove(path: str) -> None:
            if os.path.basename(path) == left:
                raise error
            real(path)

        with mock.patch("weighbridge_night.folder.remove_folder", remove):
            self.assertFalse(self.night())
        self.assertIn("a killed night left it, and it can't be removed", self.only_failure())
        self.assertEqual(len([it for it in self.in_folder() if copy_of(it)]), 2)

    def test_a_smaller_bound_makes_room_on_a_full_disk(self) -> None:
        for _ in range(5):
            self.assertTrue(self.night())
        found = copy_of(self.in_folder()[0])
        assert found is not None
        self.places = [Place("folder", found.size * 2, path=self.copies)]
        real = Folder.store
        seen: list[int] = []

        def store(place: Folder, folder: str, copy: Copy) -> None:
            seen.append(len(place.copies()))
            real(place, folder, copy)

        with mock.patch.object(Folder, "store", store):
            self.assertTrue(self.night())
        self.assertEqual(seen, [2])

    def test_a_copy_that_is_gone_again_is_no_reason_to_purge(self) -> None:
        real = Folder.store

        def store(place: Folder, folder: str, copy: Copy) -> None:
            real(place, folder, copy)
            place.remove(copy)

        with mock.patch.object(Folder, "store", store):
            self.assertFalse(self.night())
        self.assertIn("this night's copy isn't there any more", self.only_failure())
        self.assertEqual(self.office.asked, [])


class HostTest(HostileCase):
    def setUp(self) -> None:
        super().setUp()
        self.places = [Place("ssh", GB, host="backup", user="bridge", folder="kept")]

    def test_a_host_that_is_full_keeps_nothing_half(self) -> None:
        real = self.programs.command

        def command_of(name: str, words: list[str]) -> list[str]:
            if name == "put" and words[-1].endswith("tickets.csv"):
                raise OSError(errno.ENOSPC, "No space left on device")
            return real(name, words)

        with mock.patch.object(self.programs, "command", command_of):
            self.assertFalse(self.night())
        self.assertEqual(self.on_host(), [])

    def test_many_leftovers_keep_no_night_busy(self) -> None:
        self.assertTrue(self.night())
        name = self.on_host()[0]
        for at in range(60):
            forged = f".new-2020-01-01T0000{at:02}Z_sound_1_1"
            os.mkdir(os.path.join(self.host, "kept", "WB01", forged))
        self.programs.batches.clear()
        self.assertFalse(self.night())
        self.assertIn("a killed night left it", self.only_failure())
        self.assertLess(len(self.programs.batches), 40)
        self.assertIn(name, self.on_host())


class JournalTest(HostileCase):
    def test_a_link_that_the_services_user_made(self) -> None:
        secret = os.path.join(self.box, "secret")
        with open(secret, "w", encoding="ascii") as file:
            file.write("secret")
        for ending in ("-newest", "", "-wal"):
            path = self.journal + ending
            os.rename(path, path + "-before")
            os.symlink(secret, path)
            self.assertFalse(self.night())
            self.assertIn("it is a link; name the file itself", self.words("copy"))
            self.assertEqual(os.listdir(self.copies), [])
            os.unlink(path)
            os.rename(path + "-before", path)

    def test_a_fifo_holds_no_night_up(self) -> None:
        os.unlink(self.journal + "-newest")
        os.mkfifo(self.journal + "-newest")
        self.assertFalse(self.night())
        self.assertIn("it is no file of its folder's owner", self.words("copy"))

    def test_a_file_of_another_user(self) -> None:
        os.chown(self.journal + "-newest", 65534, -1)
        self.assertFalse(self.night())
        self.assertIn("it is no file of its folder's owner", self.words("copy"))

    def test_a_disk_without_room_for_the_work(self) -> None:
        little = mock.Mock(f_bavail=16_385, f_frsize=4096)
        with mock.patch("os.statvfs", return_value=little):
            self.assertFalse(self.night())
        self.assertRegex(self.words("copy"), "67112960 bytes are free on its disk, .* make room")
        self.assertEqual(sorted(os.listdir(self.state)), ["last.json"])

    def test_a_copy_that_fails_leaves_no_work(self) -> None:
        os.unlink(self.journal + "-wal")
        self.assertFalse(self.night())
        self.assertEqual(sorted(os.listdir(self.state)), ["last.json"])


class ExportTest(HostileCase):
    def test_a_short_record_fails_one_step(self) -> None:
        real = self.programs.export

        def export(what: str, to: str | None) -> Ran:
            ran = real(what, to)
            if what == "journal" and to is not None:
                with open(to, "a", encoding="ascii") as file:
                    file.write("4,K4,first\n")
            return ran

        with mock.patch.object(self.programs, "export", export):
            self.assertFalse(self.night())
        self.assertIn("is none of an export", self.only_failure())
        self.assertTrue(any("_doubtful_0_" in it for it in self.in_folder()))
        kept = os.path.join(self.copies, "WB01", self.in_folder()[0])
        self.assertNotIn("journal.csv", os.listdir(kept))
        self.assertEqual(self.office.asked, [])

    def test_a_check_and_an_export_that_count_differently(self) -> None:
        self.programs.check = "SOUND 100\n"
        self.assertFalse(self.night())
        self.assertIn("counted 100 entries, and its export has 3", self.only_failure())
        self.assertEqual(self.office.asked, [])

    def test_a_mistake_of_the_night_fails_one_step(self) -> None:
        with mock.patch("weighbridge_night.night.surplus", side_effect=RuntimeError("odd")):
            self.assertFalse(self.night())
        self.assertIn("a mistake of this program: RuntimeError('odd')", self.only_failure())


class LastTest(HostileCase):
    def test_only_a_night_of_the_last_36_hours_is_well(self) -> None:
        now = datetime(2026, 11, 30, 8, 0, tzinfo=timezone.utc)
        for ended, is_recent in (
            ("2026-11-30T02:31:00Z", True),
            ("2026-11-28T20:00:00Z", True),
            ("2026-11-28T19:59:59Z", False),
            ("2027-01-01T00:00:00Z", False),
            (None, False),
            ("soon", False),
        ):
            self.assertEqual(command.is_recent(ended, now), is_recent, ended)

    def test_a_refused_setup_is_told_in_the_morning(self) -> None:
        self.assertTrue(self.night())
        command.note_refused(self.state, "/etc/weighbridge-night.toml: bridge: it is missing")
        with mock.patch("builtins.print"):
            self.assertEqual(command.show_last(self.state), 1)
        self.assertTrue(self.night())


class SetupTest(unittest.TestCase):
    def refused(self, paths: Sequence[str]) -> str:
        to = "".join(f'[[to]]\nkind="folder"\nmost_gb=1\npath="{it}"\n' for it in paths)
        with self.assertRaises(Refused) as refused:
            setup_of(f'bridge="B"\npurge=false\n{to}')
        return str(refused.exception)

    def test_no_copies_in_the_nights_own_folder_or_the_journals(self) -> None:
        self.assertIn("the night's own folder", self.refused(["/var/lib/weighbridge-night"]))
        self.assertIn("the night's own folder", self.refused(["/var/lib/weighbridge-night/a"]))
        self.assertIn(
            "the journal's folder", self.refused(["/var/lib/weighbridge/../weighbridge/x"])
        )

    def test_one_folder_by_two_paths(self) -> None:
        self.assertIn("is there twice", self.refused(["/srv/x", "/srv/y/../x"]))


class WordsTest(unittest.TestCase):
    def test_what_a_host_says_commands_no_terminal(self) -> None:
        self.assertEqual(Ran(255, "", "\x1b]0;owned\x07 no\n").said(), "?]0;owned? no")


if __name__ == "__main__":
    unittest.main()
