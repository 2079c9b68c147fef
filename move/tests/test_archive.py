"""Shows that only the listed settings of an archive are put back, and that nothing else in it can harm."""

import io
import os
import random
import tarfile
import unittest
import unittest.mock

from tests.played import SETTINGS, MoveCase
from weighbridge_move import archive

COMMAND = "continue DISK --last 124 --nothing-later"
DROP_IN = "etc/systemd/system/weighbridge.service.d/override.conf"


class ArchiveTest(MoveCase):
    def refuse(self, name: str, words: str, data: bytes = b"x\n", **more: object) -> None:
        """Fail unless an archive with this member is refused."""
        with tarfile.open(self.make_archive(), "a") as tar:
            self.add(tar, name, data, **more)
        self.refused(COMMAND, words)

    def test_paths_outside_the_list(self) -> None:
        for name, words in (
            ("/etc/weighbridge-x.conf", "/etc/weighbridge-x.conf: it is no plain path"),
            ("etc/../etc/shadow", "it is no plain path"),
            ("../etc/shadow", "it is no plain path"),
            ("etc//weighbridge-x.conf", "it is no plain path"),
            ("etc/shadow", "etc/shadow: it isn't in the list of settings"),
            ("etc/cron.d/weighbridge", "it isn't in the list"),
            ("etc/weighbridge.conf/x", "it isn't in the list"),
            ("etc/weighbridge-x.sh", "it isn't in the list"),
            ("etc/nginx/nginx.conf", "it isn't in the list"),
            ("etc/systemd/system/weighbridge.service", "it isn't in the list"),
            ("etc/systemd/system/ssh.service.d/x.conf", "it isn't in the list"),
            ("var/lib/weighbridge/journal.db", "it isn't in the list"),
            ("var/lib/weighbridge-converter/calibration.points", "it isn't in the list"),
            ("usr/bin/weighbridge", "it isn't in the list"),
            ("etc/weighbridge-\x1b[2J.conf", "it isn't in the list"),
        ):
            self.refuse(name, words)
        self.assertNotIn("\x1b", self.faults)

    def test_what_is_no_file(self) -> None:
        for kind in (
            tarfile.SYMTYPE,
            tarfile.LNKTYPE,
            tarfile.FIFOTYPE,
            tarfile.CHRTYPE,
            tarfile.BLKTYPE,
            tarfile.GNUTYPE_SPARSE,
            tarfile.CONTTYPE,
        ):
            self.refuse(
                "etc/weighbridge-x.conf", "", b"", type=kind, linkname="etc/weighbridge.conf"
            )
            self.assertRegex(self.faults, "it is a link or device|it can't be read as a tar")

    def test_a_folder_outside_the_list(self) -> None:
        self.refuse("etc/cron.d", "this folder isn't in the list", b"", type=tarfile.DIRTYPE)

    def test_folders_of_the_list(self) -> None:
        with tarfile.open(self.make_archive(), "a") as tar:
            for it in (
                "etc/weighbridge-head-office",
                "etc/nginx/weighbridge",
                "etc/systemd/system/weighbridge-night.timer.d",
                "var/lib/weighbridge-night/ssh",
            ):
                self.add(tar, it, b"", type=tarfile.DIRTYPE, mode=0o777)
        self.assertEqual(self.move(COMMAND), 0, self.faults)
        self.assertEqual(self.owner("etc/weighbridge-head-office")[2], "700")

    def test_modes_that_give_rights(self) -> None:
        for mode in (0o4755, 0o2755, 0o1644):
            self.refuse("etc/weighbridge-x.conf", "which would give rights", mode=mode)

    def test_the_archives_owners_and_modes_count_for_nothing(self) -> None:
        del self.settings["etc/weighbridge.conf"]
        data = SETTINGS["etc/weighbridge.conf"].encode()
        with tarfile.open(self.make_archive(), "a") as tar:
            self.add(tar, "etc/weighbridge.conf", data, uid=901, gid=901, mode=0o666)
        self.assertEqual(self.move(COMMAND), 0, self.faults)
        self.assertEqual(self.owner("etc/weighbridge.conf"), (0, 0, "644"))

    def test_a_file_that_only_root_could_read_stays_so(self) -> None:
        names = {0o600: "etc/weighbridge-a.conf", 0o640: "etc/weighbridge-b.conf"}
        with tarfile.open(self.make_archive(), "a") as tar:
            for mode, name in names.items():
                self.add(tar, name, b"PGPASSWORD=x\n", mode=mode)
            self.add(tar, "etc/weighbridge-c.conf", b"x\n", mode=0)
            self.add(tar, "etc/weighbridge-d.toml", b"", mode=0o600)
        self.assertEqual(self.move(COMMAND), 0, self.faults)
        for mode, name in names.items():
            self.assertEqual(self.owner(name), (0, 0, f"{mode:o}"))
        self.assertEqual(self.owner("etc/weighbridge-c.conf"), (0, 0, "600"))
        # the user of a program reads this one
        self.assertEqual(self.owner("etc/weighbridge-d.toml"), (0, 0, "644"))

    def test_a_path_that_is_there_twice(self) -> None:
        self.refuse("etc/weighbridge.conf", "etc/weighbridge.conf: it is there twice")

    def test_a_drop_in_that_starts_a_program(self) -> None:
        for text in (
            "[Service]\nExecStartPre=+/bin/sh x\n",
            "[Service]\nUser=root\n",
            "[Service]\nEnvironment=LD_PRELOAD=/tmp/x.so\n",
            "[Service]\nDeviceAllow=char-ttyS0\\\nExecStart=/bin/sh\n",
            "[Service]\nDeviceAllow=a\\\nDeviceAllow=b\n",
            "[Install]\n",
            "[Service]\nPrivateDevices\n",
        ):
            self.settings[DROP_IN] = text
            self.make_archive()
            self.refused(COMMAND, f"{DROP_IN}: it has `", "which the list of settings doesn't have")

    def test_a_drop_in_of_the_pages(self) -> None:
        with open(
            os.path.join(os.path.dirname(__file__), "../../packaging/weighbridge/serial.conf"),
            encoding="utf-8",
        ) as file:
            self.settings[DROP_IN] = file.read()
        self.make_archive()
        self.assertEqual(self.move(COMMAND), 0, self.faults)
        self.assertEqual(self.read(DROP_IN), self.settings[DROP_IN])

    def test_a_path_can_be_left_out(self) -> None:
        self.settings["etc/shadow"] = "x"
        self.settings[DROP_IN] = "[Service]\nUser=root\n"
        self.make_archive()
        without = f"--without etc/shadow --without {DROP_IN}"
        self.assertEqual(self.move(f"{COMMAND} {without}"), 0, self.faults)
        self.assertFalse(os.path.lexists(self.at("etc/shadow")))
        self.assertFalse(os.path.lexists(self.at(DROP_IN)))

    def test_a_path_to_leave_out_that_is_not_there(self) -> None:
        self.refused(f"{COMMAND} --without etc/x", "--without etc/x: the archive has no such path")

    def test_a_link_in_the_place_of_a_folder(self) -> None:
        os.makedirs(self.at("var/lib/elsewhere"))
        os.symlink(self.at("var/lib/elsewhere"), self.at("var/lib/weighbridge-counter"))
        os.lchown(self.at("var/lib/weighbridge-counter"), 902, 902)
        self.assertEqual(self.move(COMMAND), 1)
        self.assertIn("weighbridge-counter: it is no folder", self.faults)
        self.assertEqual(os.listdir(self.at("var/lib/elsewhere")), [])

    def test_a_link_of_root_in_the_place_of_a_folder(self) -> None:
        os.rmdir(self.at("srv"))
        os.mkdir(self.at("data"))
        os.symlink("data", self.at("srv"))
        self.assertEqual(self.move(COMMAND), 0, self.faults)
        self.assertEqual(os.listdir(self.at("data")), ["kept"])

    def test_a_link_in_the_place_of_a_file(self) -> None:
        self.write(self.at("etc/passwd"), b"x")
        os.unlink(self.at("etc/weighbridge.conf"))
        os.symlink("passwd", self.at("etc/weighbridge.conf"))
        self.assertEqual(self.move(COMMAND), 1)
        self.assertIn("/etc/weighbridge.conf: it is no file", self.faults)
        self.assertEqual(self.read("etc/passwd"), "x")

    def test_sizes(self) -> None:
        self.settings["etc/weighbridge-x.conf"] = "x" * 2_000
        self.make_archive()
        for name, most, words in (
            ("MOST_FILE", 1_999, "it has 2000 bytes, and 1999 are allowed"),
            ("MOST_MEMBERS", 5, "it has more than 5 members"),
            ("MOST_BYTES", 9_999, "it has more than 9999 bytes"),
        ):
            with unittest.mock.patch.object(archive, name, most):
                self.refused(COMMAND, words)

    def test_what_is_no_archive(self) -> None:
        path = os.path.join(self.disk, "settings-2026-11-20-bridge.tar")
        with open(path, "rb") as file:
            whole = file.read()
        packed = io.BytesIO()
        with tarfile.open(fileobj=packed, mode="w:gz") as tar:
            self.add(tar, "etc/weighbridge.conf", b"x")
        for data in (b"", b"x" * 2_000, packed.getvalue(), whole[:700]):
            self.write(path, data)
            self.refused(COMMAND, path)

    def test_bytes_at_random(self) -> None:
        path = os.path.join(self.disk, "settings-2026-11-20-bridge.tar")
        with open(path, "rb") as file:
            whole = file.read()
        chance = random.Random(7)
        for _ in range(1_500):
            data = bytearray(whole)
            for _ in range(chance.randint(1, 4)):
                # most in a header, whose fields are in the first bytes of a block
                at = chance.randrange(len(data) // 512) * 512 + chance.randrange(160)
                data[at] = chance.choice([0, 0x2F, 0x2E, 0x35, 0x80, 0xFF, chance.randrange(256)])
            found, _ = archive.archive_of(bytes(data), frozenset())
            for it in found.members.values():
                self.assertIsNotNone(archive.rule_of(it.path), it.path)

    def test_headers_in_headers(self) -> None:
        path = self.make_archive()
        long = tarfile.TarInfo("././@LongLink")
        long.type, long.size = tarfile.GNUTYPE_LONGNAME, 0
        self.write(path, long.tobuf(tarfile.GNU_FORMAT) * 5_000)
        self.refused(COMMAND, "it can't be read as a tar")

    def test_a_fifo_in_place_of_the_archive(self) -> None:
        path = os.path.join(self.disk, "settings-2026-11-20-bridge.tar")
        os.unlink(path)
        os.mkfifo(path)
        self.refused(COMMAND, path)


if __name__ == "__main__":
    unittest.main()
