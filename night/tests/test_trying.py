"""Shows that a check of the setup names each thing that a night would miss, and says what it can't see."""

import contextlib
import io
import os
import unittest
from collections.abc import Iterator
from unittest import mock

from tests.played import NightCase
from weighbridge_night import __main__ as command
from weighbridge_night import night, trying
from weighbridge_night.files import Fault
from weighbridge_night.setup import GB, Place, Setup


class TryingCase(NightCase):
    def setUp(self) -> None:
        super().setUp()
        self.programs_there = os.path.join(self.box, "programs")
        os.mkdir(self.programs_there)
        self.key = os.path.join(self.box, "key")
        for name in ("weighbridge", "verify.py", "python3", "setpriv", "sftp", "../key"):
            path = os.path.join(self.programs_there, name)
            with open(path, "w", encoding="ascii"):
                pass
            os.chmod(path, 0o755)
        self.places[1] = Place(
            "ssh",
            GB,
            host="backup",
            user="bridge",
            folder="kept",
            key=self.key,
            known_hosts=self.key,
        )
        self.programs.writable = f"-/srv/weighbridge-copies {self.copies}"

    @contextlib.contextmanager
    def there(self) -> Iterator[None]:
        """Let the programs be those of this test."""
        with contextlib.ExitStack() as stack:
            for module, name, file in (
                (night, "WEIGHBRIDGE", "weighbridge"),
                (night, "VERIFY", "verify.py"),
                (trying, "PYTHON", "python3"),
                (trying, "SETPRIV", "setpriv"),
                (trying, "SFTP", "sftp"),
            ):
                path = os.path.join(self.programs_there, file)
                stack.enter_context(mock.patch.object(module, name, path))
            yield

    def tried(self) -> tuple[list[str], list[str]]:
        """Return what was found, and the mistakes."""
        with self.there():
            found = [*trying.tried(self.setup, self.state, self.world)]
        return [it.words for it in found if not it.is_fault], [
            it.words for it in found if it.is_fault
        ]

    def fault(self) -> str:
        """Return the only mistake."""
        _, faults = self.tried()
        self.assertEqual(len(faults), 1, faults)
        return faults[0]


class TryingTest(TryingCase):
    def test_all_is_there(self) -> None:
        self.assertEqual(
            self.tried(),
            (
                [
                    "programs: all are there",
                    f"journal {self.journal}: it is there",
                    f"folder {self.copies}: copies can be kept there",
                    "ssh bridge@backup:kept: copies can be kept there",
                    "purge: each night, of entries past --retention; the office answers",
                ],
                [],
            ),
        )
        self.assertEqual(self.office.asked, ["GET /indication"])

    def test_each_program_that_is_not_there(self) -> None:
        for name, package in (
            ("weighbridge", "weighbridge"),
            ("verify.py", "weighbridge"),
            ("python3", "python3"),
            ("setpriv", "util-linux"),
            ("sftp", "openssh-client"),
        ):
            path = os.path.join(self.programs_there, name)
            os.rename(path, path + "x")
            self.assertIn(f"/{name}: it isn't there, or this user may not use it", self.fault())
            self.assertTrue(self.fault().endswith(f"install the package {package}"))
            os.rename(path + "x", path)

    def test_sftp_is_needed_only_for_a_host(self) -> None:
        del self.places[1]
        os.unlink(os.path.join(self.programs_there, "sftp"))
        self.assertEqual(self.tried()[1], [])

    def test_mistakes_hide_none(self) -> None:
        os.unlink(os.path.join(self.programs_there, "weighbridge"))
        os.unlink(os.path.join(self.programs_there, "verify.py"))
        os.unlink(self.journal + "-wal")
        os.unlink(self.key)
        os.rmdir(self.copies)
        wanted = [
            "weighbridge",
            "verify.py",
            "-wal",
            "copies: it isn't there",
            "/key: it isn't there",
        ]
        _, faults = self.tried()
        self.assertEqual(len(faults), len(wanted), faults)
        for what, line in zip(wanted, faults):
            self.assertIn(what, line)

    def test_no_journal(self) -> None:
        for ending in ("", "-wal"):
            os.rename(self.journal + ending, self.journal + "x")
            self.assertRegex(self.fault(), f"journal.db{ending}: No such file .*ever started")
            os.rename(self.journal + "x", self.journal + ending)
        self.journal = os.path.join(self.box, "none", "journal.db")
        self.assertRegex(self.fault(), "/none: No such file .*; see whether `journal`")

    def test_a_link_and_a_folder_in_place_of_the_journal(self) -> None:
        os.rename(self.journal, self.journal + "x")
        os.symlink(self.journal + "x", self.journal)
        self.assertIn("it is a link; name the file itself", self.fault())
        os.unlink(self.journal)
        os.mkdir(self.journal)
        self.assertIn("it is no file of its folder's owner", self.fault())

    def test_a_journal_that_only_its_owner_sees(self) -> None:
        with mock.patch("os.lstat", side_effect=PermissionError(13, "Permission denied", "x")):
            said = trying.try_journal(self.journal)
        self.assertIn("not tried, because this user may not look into its folder", said)

    def test_a_folder_that_the_unit_keeps_from_the_night(self) -> None:
        self.programs.writable = f"-/srv/weighbridge-copies {self.copies}x"
        self.assertRegex(self.fault(), "the unit keeps the night .*copies in ReadWritePaths=")
        self.programs.writable = f"-{os.path.dirname(self.copies)}"
        self.assertEqual(self.tried()[1], [])

    def test_without_systemctl_it_is_a_warning(self) -> None:
        error = Fault("/usr/bin/systemctl: No such file or directory")
        with mock.patch.object(self.programs, "run", side_effect=error):
            self.assertIn("warning: nothing shows", trying.try_unit(self.places[0], self.world))

    def test_the_folders_of_the_unit_need_no_answer(self) -> None:
        for path in ("/srv/weighbridge-copies", "/mnt/weighbridge-night/disk"):
            self.assertEqual(trying.try_unit(Place("disk", GB, path=path), self.world), "")
        self.assertEqual(self.programs.ran, [])
        with self.assertRaisesRegex(Fault, "the unit keeps"):
            trying.try_unit(Place("folder", GB, path="/srv/weighbridge-copies2"), self.world)

    def test_an_office_that_does_not_answer(self) -> None:
        error = Fault("office 127.0.0.1:880: GET /indication: refused")
        with mock.patch.object(self.office, "ask", side_effect=error):
            self.assertIn("GET /indication", self.fault())
            self.purge = False
            self.assertEqual(self.tried()[1], [])

    def test_a_folder_of_the_nights_own_that_another_user_has(self) -> None:
        with mock.patch("os.access", lambda path, _: path != self.state):
            self.assertIn("runuser -u weighbridge-night", self.fault())

    def test_the_command(self) -> None:
        out, err = io.StringIO(), io.StringIO()
        with self.there(), contextlib.redirect_stdout(out), contextlib.redirect_stderr(err):
            with mock.patch.object(command, "world_of", lambda *_: self.world):
                self.assertEqual(command.check(self.setup, self.state), 0)
                self.assertTrue(out.getvalue().endswith("\nno mistake was found\n"))
                self.assertEqual(err.getvalue(), "")
                os.unlink(self.journal)
                self.assertEqual(command.check(self.setup, self.state), 1)
        self.assertTrue(out.getvalue().endswith("\nit can't work yet\n"))
        self.assertEqual(err.getvalue().count("weighbridge-night: "), 1)

    def test_another_setup(self) -> None:
        it = Setup("WB01", False, [], self.journal)
        with self.there():
            found = [*trying.tried(it, self.state, self.world)]
        self.assertIn("never, because the setup has purge = false", found[-1].words)


if __name__ == "__main__":
    unittest.main()
