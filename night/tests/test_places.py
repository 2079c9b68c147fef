"""Shows what a place of copies does with each case of a disk and of a host."""

import errno
import os
import shutil
import subprocess
import unittest
from collections.abc import Sequence
from unittest import mock

from tests.played import BEGIN, NightCase
from weighbridge_night.files import Fault
from weighbridge_night.folder import Disk, Folder
from weighbridge_night.keep import Copy
from weighbridge_night.programs import Ran
from weighbridge_night.remote import Remote
from weighbridge_night.setup import GB, Place

COPY = Copy(BEGIN, "sound", 3, 34_000)
SERVERS = (
    os.environ.get("WEIGHBRIDGE_SFTP_SERVER", ""),
    "/usr/lib/openssh/sftp-server",
)


class PlaceCase(NightCase):
    def setUp(self) -> None:
        super().setUp()
        self.source = os.path.join(self.box, "source")
        os.mkdir(self.source)
        for name in ("journal.db", "journal.db-wal", "SHA256SUMS"):
            with open(os.path.join(self.source, name), "w", encoding="ascii") as file:
                file.write(name * 1000)


class FolderTest(PlaceCase):
    def setUp(self) -> None:
        super().setUp()
        self.place = Folder(self.copies, "WB01")
        self.place.open()

    def stored(self) -> None:
        self.place.store(self.source, COPY)

    def test_a_copy_is_whole_and_for_its_owner(self) -> None:
        self.stored()
        kept = os.path.join(self.copies, "WB01", COPY.name)
        self.assertEqual(sorted(os.listdir(kept)), sorted(os.listdir(self.source)))
        self.assertEqual(os.stat(kept).st_mode & 0o777, 0o700)
        self.assertEqual(os.stat(os.path.join(kept, "journal.db")).st_mode & 0o777, 0o600)
        self.assertEqual(self.place.copies(), [COPY])

    def test_no_folder(self) -> None:
        with self.assertRaisesRegex(Fault, "it isn't there, or is no folder; make it"):
            Folder(os.path.join(self.box, "none"), "WB01").open()

    def test_a_full_disk_is_named_and_keeps_what_is_there(self) -> None:
        self.stored()
        full = mock.Mock(f_bavail=1, f_frsize=4096)
        with mock.patch("os.statvfs", return_value=full):
            with self.assertRaisesRegex(Fault, "the disk is full: 4096 bytes are free"):
                self.place.store(self.source, Copy(BEGIN, "sound", 4, 30))
        self.assertEqual(self.in_folder(), [COPY.name])

    def test_a_disk_that_fills_while_it_is_written_keeps_nothing_half(self) -> None:
        for name in ("mkdir", "fsync", "rename"):
            error = OSError(errno.ENOSPC, "No space left on device")
            with mock.patch(f"os.{name}", side_effect=error):
                with self.assertRaisesRegex(Fault, "No space left on device; see whether"):
                    self.stored()
            self.assertEqual(self.in_folder(), [])

    def test_a_disk_that_is_pulled_out_while_it_is_written(self) -> None:
        def pulled(handle: int) -> None:
            shutil.rmtree(self.copies)
            raise OSError(errno.EIO, "Input/output error")

        with mock.patch("os.fsync", pulled), self.assertRaisesRegex(Fault, "Input/output error"):
            self.stored()

    def test_a_disk_that_returns_other_bytes(self) -> None:
        with mock.patch("weighbridge_night.folder.digest_on_disk", return_value="0"):
            with self.assertRaisesRegex(Fault, "the disk returns other bytes"):
                self.stored()
        self.assertNotIn(COPY.name, self.in_folder())
        self.place.open()
        self.assertEqual(self.in_folder(), [])

    def test_a_name_that_exists_is_never_overwritten(self) -> None:
        self.stored()
        self.stored()  # the same copy
        with open(os.path.join(self.source, "journal.db"), "a", encoding="ascii") as file:
            file.write("more")
        with self.assertRaisesRegex(Fault, "the name exists with other contents"):
            self.stored()

    def test_what_is_anothers_stays(self) -> None:
        own = os.path.join(self.copies, "WB01")
        for name in ("holiday", ".new-holiday", "2026-11-27"):
            os.mkdir(os.path.join(own, name))
        for name in (f".new-{COPY.name}", f".old-{COPY.name}"):
            os.mkdir(os.path.join(own, name))
            with open(os.path.join(own, name, "journal.db"), "w", encoding="ascii"):
                pass
        self.place.open()
        self.assertEqual(self.in_folder(), [".new-holiday", "2026-11-27", "holiday"])
        self.assertEqual(self.place.copies(), [])

    def test_a_removed_copy_loses_its_name_first(self) -> None:
        self.stored()
        with mock.patch("shutil.rmtree", side_effect=OSError(errno.EIO, "Input/output error")):
            with self.assertRaisesRegex(Fault, "remove it by hand"):
                self.place.remove(COPY)
        self.assertEqual(self.in_folder(), [f".old-{COPY.name}"])
        self.place.open()
        self.assertEqual(self.in_folder(), [])


class DiskTest(PlaceCase):
    def disk(self) -> Disk:
        return Disk(self.copies, "WB01", "BRIDGE", os.path.join(self.box, "by-label"))

    def number(self, value: int) -> object:
        return mock.patch.object(Disk, "number_of_device", return_value=value)

    def test_no_disk_with_the_label(self) -> None:
        with self.assertRaisesRegex(Fault, "by-label/BRIDGE: No such file .*plug in a disk"):
            self.disk().open()
        self.assertEqual(os.listdir(self.copies), [])

    def test_a_folder_that_was_never_made(self) -> None:
        os.rmdir(self.copies)
        with self.assertRaisesRegex(Fault, "copies: it isn't there; make it by `install -d /"):
            self.disk().open()

    def test_a_label_of_no_disk(self) -> None:
        os.makedirs(os.path.join(self.box, "by-label", "BRIDGE"))
        with self.assertRaisesRegex(Fault, "it is no disk"):
            self.disk().open()

    def test_the_folder_below_the_mount_is_never_written(self) -> None:
        with mock.patch.object(Disk, "number_of_device", return_value=1):
            with self.assertRaisesRegex(Fault, "the disk BRIDGE isn't mounted there"):
                self.disk().open()
        self.assertEqual(os.listdir(self.copies), [])

    def test_a_mount_that_answers_with_a_fault(self) -> None:
        error = OSError(errno.ENODEV, "No such device")
        with mock.patch("os.listdir", side_effect=error):
            with self.assertRaisesRegex(Fault, "No such device; plug in the disk BRIDGE"):
                self.disk().open()

    def test_the_right_disk(self) -> None:
        here = os.stat(self.copies).st_dev
        with mock.patch.object(Disk, "number_of_device", return_value=here):
            it = self.disk()
            it.open()
            it.store(self.source, COPY)
            self.assertEqual(it.copies(), [COPY])

    def test_a_disk_that_is_changed_while_it_is_written(self) -> None:
        here = os.stat(self.copies).st_dev
        with mock.patch.object(Disk, "number_of_device", return_value=here):
            it = self.disk()
            it.open()
        with mock.patch.object(Disk, "number_of_device", return_value=1):
            with self.assertRaisesRegex(Fault, "isn't mounted there"):
                it.store(self.source, COPY)
        self.assertNotIn(COPY.name, self.in_folder())


class RemoteTest(PlaceCase):
    def setUp(self) -> None:
        super().setUp()
        self.at = Place("ssh", GB, host="backup", user="bridge", folder="kept")
        self.place = Remote(self.at, "WB01", self.programs)

    def test_a_copy_is_whole(self) -> None:
        self.place.open()
        self.place.store(self.source, COPY)
        self.assertEqual(self.on_host(), [COPY.name])
        self.assertEqual(self.place.copies(), [COPY])
        self.place.remove(COPY)
        self.assertEqual(self.on_host(), [])

    def test_nobody_is_asked_and_the_host_is_known(self) -> None:
        self.place.open()
        for it in ("BatchMode=yes", "StrictHostKeyChecking=yes", "ConnectTimeout=30", "-b -"):
            self.assertIn(it, self.programs.ran[0])
        self.assertIn("ServerAliveInterval=15", self.programs.ran[0])

    def test_what_a_kill_left_is_removed(self) -> None:
        self.place.open()
        for name in (f".new-{COPY.name}", f".old-{COPY.name}", "holiday"):
            os.mkdir(os.path.join(self.host, "kept", "WB01", name))
        self.place.open()
        self.assertEqual(self.on_host(), ["holiday"])

    def test_a_key_that_is_not_known(self) -> None:
        self.programs.sftp_fault = "Host key verification failed."
        with self.assertRaisesRegex(Fault, "ssh bridge@backup:kept: Host key verification failed"):
            self.place.open()

    def test_a_host_that_hangs(self) -> None:
        self.programs.hangs = True
        with self.assertRaisesRegex(Fault, "didn't end within 180 seconds"):
            self.place.open()

    def test_a_host_that_loses_bytes(self) -> None:
        self.place.open()
        self.programs.loses = True
        with self.assertRaisesRegex(Fault, "the host has other sizes than were sent"):
            self.place.store(self.source, COPY)
        self.assertEqual(self.on_host(), [f".new-{COPY.name}"])
        self.place.open()
        self.assertEqual(self.on_host(), [])

    def test_a_name_that_exists(self) -> None:
        self.place.open()
        self.place.store(self.source, COPY)
        with self.assertRaisesRegex(Fault, "the name exists, so nothing was overwritten"):
            self.place.store(self.source, COPY)


class RealSftp:
    """Runs the distribution's sftp over a server of this machine, without ssh."""

    def __init__(self, server: str, folder: str) -> None:
        self.server, self.folder = server, folder

    def run(
        self, words: Sequence[str], seconds: float, given: str = "", to: str | None = None
    ) -> Ran:
        it = subprocess.run(
            ["sftp", "-D", self.server, "-b", "-"],
            input=given,
            capture_output=True,
            text=True,
            cwd=self.folder,
        )
        return Ran(it.returncode, it.stdout, it.stderr)


class RealSftpTest(RemoteTest):
    """The same over the distribution's own sftp."""

    def setUp(self) -> None:
        super().setUp()
        server = next((it for it in SERVERS if os.path.exists(it)), None)
        if server is None or shutil.which("sftp") is None:
            self.skipTest("sftp or sftp-server isn't installed")
        played = self.programs

        class Both(RealSftp):
            def run(
                self, words: Sequence[str], seconds: float, given: str = "", to: str | None = None
            ) -> Ran:
                played.ran.append(" ".join(words))
                if played.sftp_fault is not None or played.hangs:
                    return played.sftp(given)
                ran = super().run(words, seconds, given, to)
                if played.loses and "put" in given:
                    for folder, _, names in os.walk(self.folder):
                        for name in names:
                            os.truncate(os.path.join(folder, name), 1)
                return ran

        self.place = Remote(self.at, "WB01", Both(server, self.host))


if __name__ == "__main__":
    unittest.main()
