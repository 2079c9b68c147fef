"""Shows that a copy has bytes that all files had at one moment."""

import os
import unittest
from collections.abc import Callable
from unittest import mock

from tests.played import NightCase
from weighbridge_night import copying
from weighbridge_night.copying import Seen, copy_journal
from weighbridge_night.files import Fault


class CopyingTest(NightCase):
    def setUp(self) -> None:
        super().setUp()
        self.to = os.path.join(self.box, "to")
        os.mkdir(self.to)
        self.real = copying.read_one

    def copied(self) -> int:
        return copy_journal(self.journal, self.to, self.clock.sleep)

    def read(self, folder: str, ending: str) -> bytes:
        with open(os.path.join(folder, f"journal.db{ending}"), "rb") as file:
            return file.read()

    def write(self, ending: str, data: bytes) -> None:
        with open(self.journal + ending, "ab") as file:
            file.write(data)

    def acting(self, acts: dict[int, Callable[[], object]]) -> object:
        """Act before the readings of these numbers. A try has six."""
        count = [0]

        def read_one(path: str, to: str | None) -> Seen | None:
            count[0] += 1
            acts.get(count[0], lambda: None)()
            return self.real(path, to)

        return mock.patch.object(copying, "read_one", read_one)

    def test_the_same_bytes(self) -> None:
        self.assertEqual(self.copied(), 1)
        for ending in ("", "-wal", "-newest"):
            self.assertEqual(
                self.read(self.to, ending), self.read(os.path.dirname(self.journal), ending)
            )
        self.assertEqual(self.clock.slept, [])

    def test_the_journals_folder_is_not_written(self) -> None:
        folder = os.path.dirname(self.journal)
        before = {it: os.stat(os.path.join(folder, it)).st_mtime_ns for it in os.listdir(folder)}
        self.copied()
        self.assertEqual(
            before,
            {it: os.stat(os.path.join(folder, it)).st_mtime_ns for it in os.listdir(folder)},
        )

    def test_the_witness_is_read_first(self) -> None:
        seen: list[str] = []

        def read_one(path: str, to: str | None) -> Seen | None:
            seen.append(os.path.basename(path))
            return self.real(path, to)

        with mock.patch.object(copying, "read_one", read_one):
            self.copied()
        self.assertEqual(seen, ["journal.db-newest", "journal.db", "journal.db-wal"] * 2)

    def test_a_change_at_any_point_is_read_again(self) -> None:
        for at in range(2, 7):
            for ending in ("", "-wal", "-newest"):
                before = {
                    it: self.read(os.path.dirname(self.journal), it)
                    for it in ("", "-wal", "-newest")
                }
                with self.acting({at: lambda: self.write(ending, b"more")}):  # type: ignore[attr-defined]
                    tries = self.copied()
                after = {it: self.read(os.path.dirname(self.journal), it) for it in before}
                found = {it: self.read(self.to, it) for it in before}
                self.assertIn(found, (before, after), (at, ending))
                if tries == 1:
                    self.assertIn(at, (2, 3, 5, 6))

    def test_a_file_that_is_replaced_is_read_again(self) -> None:
        def replaced() -> None:
            data = self.read(os.path.dirname(self.journal), "")
            os.unlink(self.journal)
            with open(os.path.join(self.box, "hold"), "wb"):
                pass
            with open(self.journal, "wb") as file:
                file.write(data + b"x")

        with self.acting({4: replaced}):  # type: ignore[attr-defined]
            self.assertEqual(self.copied(), 2)

    def test_a_journal_that_always_changes(self) -> None:
        count = [0]

        def read_one(path: str, to: str | None) -> Seen | None:
            count[0] += 1
            self.write("-wal", b"x")
            return self.real(path, to)

        with mock.patch.object(copying, "read_one", read_one):
            with self.assertRaisesRegex(Fault, "it changed during each of 40 readings"):
                self.copied()
        self.assertEqual(self.clock.slept, [3.0] * 39)

    def test_without_its_log_there_is_no_copy(self) -> None:
        os.unlink(self.journal + "-wal")
        with self.assertRaisesRegex(
            Fault, "journal.db-wal: it isn't there.* `journal` in the setup"
        ):
            self.copied()

    def test_no_journal(self) -> None:
        os.unlink(self.journal)
        with self.assertRaisesRegex(Fault, "journal.db: it isn't there"):
            self.copied()

    def test_without_its_witness_there_is_one(self) -> None:
        os.unlink(self.journal + "-newest")
        self.copied()
        self.assertEqual(sorted(os.listdir(self.to)), ["journal.db", "journal.db-wal"])

    def test_a_file_that_cannot_be_read(self) -> None:
        error = PermissionError(13, "Permission denied", self.journal)
        with mock.patch("os.open", side_effect=error):
            with self.assertRaisesRegex(Fault, "Permission denied; the night's user must be able"):
                self.copied()


if __name__ == "__main__":
    unittest.main()
