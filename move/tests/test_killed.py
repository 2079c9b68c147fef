"""Shows that a move that is killed at any call that changes a disk, or asks another program, does no harm, and that the same command finishes it."""

import fcntl
import os
import signal
import unittest
import unittest.mock
from typing import Any

from tests.played import MoveCase, export_of

CALLS = ("mkdir", "rename", "unlink", "rmdir", "fsync", "open", "fchown", "chown")
JOURNAL = "var/lib/weighbridge/journal.db"


class KilledTest(MoveCase):
    def killed_at(self, line: str, number: int) -> bool:
        """Run a command in a process of its own, and kill it before this call. Return False if it has fewer calls."""
        child = os.fork()
        if child == 0:
            count = [0]

            def counted(real: Any) -> Any:
                def call(*words: Any, **more: Any) -> Any:
                    count[0] += 1
                    if count[0] == number:
                        os.kill(os.getpid(), signal.SIGKILL)
                    return real(*words, **more)

                return call

            for name in CALLS:
                setattr(os, name, counted(getattr(os, name)))
            real = self.programs.run
            setattr(self.programs, "run", counted(real))
            try:
                status = self.move(line)
            except BaseException:
                os._exit(3)
            os._exit(status)
        _, status = os.waitpid(child, 0)
        if os.WIFSIGNALED(status):
            return True
        self.assertEqual(os.WEXITSTATUS(status), 0)
        return False

    def is_whole(self) -> bool:
        """Return True if the journal in place has all files of the copy. A start refuses each half."""
        there = {it for it in ("", "-wal", "-newest") if os.path.lexists(self.at(JOURNAL + it))}
        if there:
            # the file that makes a start refuse a half is there first
            self.assertIn("-newest", there)
        for it in there:
            with open(self.at(JOURNAL + it), "rb") as one:
                with open(os.path.join(self.copy, f"journal.db{it}"), "rb") as other:
                    self.assertEqual(one.read(), other.read())
        return len(there) == 3

    def each_kill(self, line: str) -> int:
        """Kill a command at each of its calls, and finish it. Return how often it was killed."""
        number = 0
        while True:
            number += 1
            self.make_machine()
            was_killed = self.killed_at(line, number)
            if not was_killed:
                return number - 1
            self.programs.load()
            self.after_a_kill()
            self.assertEqual(self.move(line), 0, (number, self.faults))
            self.after_the_end()

    def after_a_kill(self) -> None:
        self.is_whole()

    def after_the_end(self) -> None:
        self.assertTrue(self.is_whole())
        self.assertEqual(self.programs.starts, 1)
        self.leaves_nothing_half()

    def leaves_nothing_half(self) -> None:
        odd = [it for it in self.everything() if ".move-" in it or it.endswith("-move")]
        self.assertEqual([it for it in odd if "/kept/" not in it or ".move-" in it], [])
        before = self.read("var/lib/weighbridge-move/before/etc/weighbridge.conf")
        self.assertEqual(before, "# as the package has it\n")

    def test_a_copy_that_continues(self) -> None:
        kills = self.each_kill("continue DISK --last 124 --nothing-later")
        self.assertGreater(kills, 150)

    def test_each_file_of_the_journal_has_its_owner_before_its_name(self) -> None:
        real, owners = os.rename, []

        def rename(old: str, new: str) -> None:
            if "/var/lib/weighbridge/" in new:
                owners.append((os.path.basename(new), os.stat(old).st_uid))
            real(old, new)

        with unittest.mock.patch("os.rename", rename):
            self.assertEqual(self.move("continue DISK --last 124 --nothing-later"), 0)
        self.assertEqual(
            owners, [("journal.db-newest", 901), ("journal.db", 901), ("journal.db-wal", 901)]
        )


class BegunTest(KilledTest):
    """Kills of `begin`. No journal is in place until the start."""

    test_a_copy_that_continues = None  # type: ignore[assignment]
    test_each_file_of_the_journal_has_its_owner_before_its_name = None  # type: ignore[assignment]

    def is_started(self) -> bool:
        return os.path.lexists(self.at(JOURNAL))

    def after_a_kill(self) -> None:
        kept = self.at(f"srv/kept/{os.path.basename(self.copy)}")
        if os.path.lexists(kept):
            self.assertEqual(sorted(os.listdir(kept)), sorted(os.listdir(self.copy)))
        if self.is_started():
            # nothing weighs under the old serial, or before the list of vehicles on site is there
            self.assertIn("--serial WB01B ", self.read("etc/weighbridge.conf"))
            self.assertTrue(any(it.endswith(".txt") for it in os.listdir(self.at("srv/kept"))))
            # somebody weighs before the command runs again
            self.write(self.at(JOURNAL), export_of([(1, "first", "N-1", "WB01B")]).encode())

    def after_the_end(self) -> None:
        with open(self.at(JOURNAL), encoding="utf-8") as file:
            self.assertIn(file.read(), (export_of([]), export_of([(1, "first", "N-1", "WB01B")])))
        self.assertIn("--serial WB01B ", self.read("etc/weighbridge.conf"))
        self.assertEqual(self.programs.starts, 1)
        self.leaves_nothing_half()

    def test_a_journal_that_begins(self) -> None:
        kills = self.each_kill("begin DISK --serial WB01B --last 131")
        self.assertGreater(kills, 150)


class MeanwhileTest(MoveCase):
    """Somebody acts between a kill and the next try."""

    def stopped_at(self, line: str, unit: str) -> None:
        self.programs.broken = {unit}
        self.assertEqual(self.move(line), 1)
        self.programs.broken.clear()

    def test_somebody_weighed_on_the_journal_in_place(self) -> None:
        line = "continue DISK --last 124 --nothing-later"
        self.stopped_at(line, "weighbridge-converter")
        used = export_of([*self.entries, (125, "first", "N-1", "WB01")]).encode()
        # the note says that the journal was being put in place when the power went
        path = self.at("var/lib/weighbridge-move/state.json")
        with open(path, encoding="utf-8") as file:
            text = file.read()
        head, _, _ = text.partition('  "journal"')
        self.assertIn('"report",\n', head)
        text = (
            head.rstrip().rstrip(",")
            + '\n ],\n "doing": "journal",\n "notes": [],\n "ended": null\n}\n'
        )
        with open(path, "w", encoding="utf-8") as file:
            file.write(text)
        self.write(self.at(JOURNAL), used)
        self.assertEqual(self.move(line), 1)
        self.assertIn("journal.db: it isn't the copy's, so somebody started", self.faults)
        with open(self.at(JOURNAL), "rb") as file2:
            self.assertEqual(file2.read(), used)

    def test_somebody_started_the_service_before_the_journal_is_in_place(self) -> None:
        line = "continue DISK --last 124 --nothing-later"

        def stop(*words: object) -> None:
            raise OSError(28, "No space left on device")

        with unittest.mock.patch("weighbridge_move.moving.copy_synced", stop):
            self.assertEqual(self.move(line), 1)
        self.programs.active.add("weighbridge")
        self.assertEqual(self.move(line), 1)
        self.assertIn("journal: weighbridge: it runs; run `systemctl disable", self.faults)
        self.programs.active.clear()
        self.assertEqual(self.move(line), 0, self.faults)

    def test_somebody_started_the_service_before_the_new_serial_was_in_place(self) -> None:
        line = "begin DISK --serial WB01B"
        os.mkdir(self.at("etc/weighbridge-night.toml"))
        self.assertEqual(self.move(line), 1)
        self.assertIn("settings: /etc/weighbridge-night.toml: it is no file", self.faults)
        os.rmdir(self.at("etc/weighbridge-night.toml"))
        self.programs.active.add("weighbridge")
        self.programs.started("weighbridge")
        self.assertEqual(self.move(line), 1)
        self.assertIn("weighbridge: it runs on this machine", self.faults)
        self.assertIn("it has journal.db, journal.db-newest, journal.db-wal already", self.faults)

    def test_another_move_than_the_one_that_was_begun(self) -> None:
        self.stopped_at("begin DISK --serial WB01B --last 131", "weighbridge")
        for other in (
            "continue DISK --last 124 --nothing-later",
            "begin DISK --serial WB01C --last 131",
            "begin DISK --serial WB01B --last 132",
        ):
            before = self.everything()
            self.assertEqual(self.move(other), 1, other)
            self.assertIn("a move that differs from this one was begun", self.faults)
            self.assertRegex(
                self.faults,
                "weighbridge-move begin .*/disk --serial WB01B --last 131 --keep /srv/kept",
            )
            self.assertEqual(self.everything(), before)
        self.assertEqual(self.move("begin DISK --serial WB01B --last 131"), 0, self.faults)

    def test_a_note_that_cannot_be_read(self) -> None:
        os.makedirs(self.at("var/lib/weighbridge-move"))
        whole = '{"began": "x", "words": "x", "choice": %s, "done": %s}'
        for text in (
            "",
            "{}",
            '{"began": "x"}',
            "[1]",
            whole % ('"x"', "[]"),
            whole % ("[1]", "[1]"),
        ):
            self.write(self.at("var/lib/weighbridge-move/state.json"), text.encode())
            self.refused("begin DISK --serial WB01B", "it is no note of a move")

    def test_two_moves_at_once(self) -> None:
        with open(self.at("run/weighbridge-move.lock"), "w", encoding="ascii") as file:
            fcntl.flock(file, fcntl.LOCK_EX)
            self.refused("begin DISK --serial WB01B", "another move runs")


if __name__ == "__main__":
    unittest.main()
