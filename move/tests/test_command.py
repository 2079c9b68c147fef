"""Shows the program as a person calls it, with the real world's users and files."""

import contextlib
import io
import os
import subprocess
import sys
import tempfile
import unittest
from unittest import mock

from tests.played import TOP, MoveCase
from weighbridge_move import __main__ as program
from weighbridge_move.archive import RULES, is_parent, rule_of, versions_of
from weighbridge_move.deciding import STEPS, missing, next_step
from weighbridge_move.editing import NoEdit, edited, plate_of, uses_converter, with_value
from weighbridge_move.world import RealWorld, make_folder, put
from weighbridge_night.files import Fault

PROGRAM = os.path.join(TOP, "move", "weighbridge-move")


def called(*words: str) -> tuple[int, str]:
    """Return the status and the output of the program."""
    ran = subprocess.run([PROGRAM, *words], capture_output=True, text=True)
    return ran.returncode, ran.stderr + ran.stdout


class CommandTest(unittest.TestCase):
    def test_words_that_cannot_work(self) -> None:
        uses: list[tuple[list[str], str]] = [
            ([], "command"),
            (["look"], "FOLDER"),
            (["none", "/x"], "invalid choice: 'none'"),
            (["continue", "/x", "--last", "many"], "--last: invalid int value: 'many'"),
            (["continue", "/x", "--last", "-1"], "--last -1: a number is 0 to 4294967295"),
            (["continue", "/x", "--serial", "WB02"], "--serial: only begin has a new serial"),
            (["begin", "/x", "--serial", "A", "--nothing-later"], "only continue needs it"),
            (["begin", "/x"], "a serial has 1 to 16 characters"),
            (["look", "/x", "--settings", "y", "--no-settings"], "they contradict each other"),
            (["look", "/x", "--accept", "all"], "invalid choice: 'all'"),
            # half an option isn't a choice that the operator made
            (["continue", "/x", "--last", "1", "--nothing"], "unrecognized arguments: --nothing"),
        ]
        for words, said in uses:
            status, text = called(*words)
            self.assertEqual(status, 2, (words, text))
            self.assertIn(said, text)
            self.assertNotIn("Traceback", text)

    def test_a_folder_that_is_not_there(self) -> None:
        status, text = called("look", "/none/such")
        self.assertEqual(status, 1)
        self.assertIn(
            "/none/such: No such file or directory; see whether the disk is plugged", text
        )

    def test_a_name_that_commands_a_terminal(self) -> None:
        with tempfile.TemporaryDirectory() as box:
            folder = os.path.join(box, "a\x1b[2J")
            os.mkdir(folder)
            status, text = called("look", folder)
            self.assertEqual(status, 1)
            self.assertNotIn("\x1b", text)
            os.mkdir(os.path.join(folder, "2026-11-30T023512Z_sound_1_1"))
            status, text = called("look", box)
        self.assertEqual(status, 1)
        self.assertIn("Nothing can be moved yet", text)
        self.assertNotIn("\x1b", text)

    def test_ctrl_c(self) -> None:
        stopped = mock.patch("weighbridge_move.__main__.run", side_effect=KeyboardInterrupt)
        words = mock.patch.object(sys, "argv", ["weighbridge-move", "look", "/x"])
        said = io.StringIO()
        with stopped, words, contextlib.redirect_stderr(said):
            self.assertEqual(program.main(), 1)
        self.assertIn("it was stopped; run the same command again", said.getvalue())

    def test_where_programs_keep_what_they_need(self) -> None:
        # a folder of root's own, as libpam-tmpdir makes it, is closed to the service's user
        with mock.patch.dict(os.environ, {"TMPDIR": "/root"}):
            ran = RealWorld().programs.run(["/usr/bin/printenv", "TMPDIR"], 20)
        self.assertEqual(ran.out, "/tmp\n")

    def test_the_help_names_each_command(self) -> None:
        status, text = called("--help")
        self.assertEqual(status, 0)
        for it in ("look", "continue", "begin", "--last", "--nothing-later", "--serial", "--keep"):
            self.assertIn(it, text)


class StepsTest(unittest.TestCase):
    def test_the_order(self) -> None:
        for command, steps in STEPS.items():
            done: list[str] = []
            while (step := next_step(command, done)) is not None:
                done.append(step)
            self.assertEqual(done, steps)
            at = steps.index
            self.assertLess(at("settings"), at("reload"))
            self.assertLess(at("report"), at("start"))
            self.assertLess(at("reload"), at("start"))
        steps = STEPS["continue"]
        self.assertEqual(steps[steps.index("journal") :], ["journal", "check", "start", "counter"])
        self.assertEqual(STEPS["begin"][0], "keep")
        self.assertNotIn("journal", STEPS["begin"])

    def test_missing_numbers(self) -> None:
        self.assertEqual(missing(124, None), "none is known")
        self.assertEqual(missing(124, 124), "none is known")
        self.assertEqual(missing(124, 125), "125 (1 number)")
        self.assertEqual(missing(124, 126), "125 to 126 (2 numbers)")


class EditTest(unittest.TestCase):
    def test_serials_of_a_line(self) -> None:
        for option in ("--serial WB01", "--serial=WB01"):
            text = f"# --serial WB01\nWEIGHBRIDGE_SETUP='--interval=20 {option} --max 60000'\n"
            self.assertEqual(plate_of(text).serial, "WB01")
            new = edited("etc/weighbridge.conf", text, "WB01", "WB01B")
            self.assertEqual(new, text.replace(f"{option} ", f"{option}B "))

    def test_lines_that_are_not_clear(self) -> None:
        line = 'WEIGHBRIDGE_SETUP="--interval 20 --max 60000 --serial WB01"\n'
        for text in (
            "",
            f"#{line}",
            line * 2,
            line.replace("WB01", "WB01 --serial WB02"),
            line.replace("--serial WB01", "--my-serial WB01"),
            line.replace("60000", "many"),
            line.replace("WB01", "wb01"),
        ):
            with self.assertRaises(NoEdit, msg=text):
                plate_of(text)

    def test_a_key_of_a_table_is_none_of_the_file(self) -> None:
        for text in ('[to]\nbridge = "A"\n', 'x = 1\n[[to]]\nbridge = "A"\n'):
            with self.assertRaises(NoEdit):
                with_value(text, "bridge", "B")
        self.assertEqual(with_value("bridge='A' # A\n", "bridge", "B"), 'bridge="B" # A\n')

    def test_who_writes_the_readings(self) -> None:
        self.assertTrue(uses_converter('WEIGHBRIDGE_CONVERTER="/run/weighbridge/converter"\n'))
        self.assertFalse(uses_converter("WEIGHBRIDGE_CONVERTER=tcp:127.0.0.1:885\n"))
        self.assertFalse(uses_converter("#WEIGHBRIDGE_CONVERTER=/run/weighbridge/converter\n"))


class ListTest(unittest.TestCase):
    def test_the_block_of_the_page_makes_only_listed_settings(self) -> None:
        with open(os.path.join(TOP, "docs", "operating.md"), encoding="utf-8") as file:
            block = file.read().partition("ls -d etc/weighbridge*.conf")[2].partition("| tar")[0]
        names = block.replace("\\\n", " ").replace("2> /dev/null", "").split()
        self.assertGreater(len(names), 8)
        for it in names:
            it = it.replace("*.d", "-night.timer.d").replace("*", "-x")
            is_listed = rule_of(it) is not None or it.endswith("version.txt")
            self.assertTrue(is_listed or is_parent(it), it)

    def test_each_user_of_the_list_has_a_package(self) -> None:
        users = {it.user for it in RULES} | {it.group for it in RULES}
        self.assertEqual(
            users - {"root", "www-data"},
            {
                "weighbridge-alarm",
                "weighbridge-night",
                "weighbridge-converter",
                "weighbridge-counter",
            },
        )

    def test_versions(self) -> None:
        self.assertEqual(
            versions_of("weighbridge:amd64\t2.1.1\nweighbridge-doc\t\nno line\nx\t1 2\n"),
            {"weighbridge": "2.1.1"},
        )


class WorldTest(MoveCase):
    def test_users_of_this_machine(self) -> None:
        world = RealWorld()
        self.assertEqual(world.ids("root", "root"), (0, 0))
        self.assertIsNone(world.ids("none-such", "root"))
        self.assertEqual(world.root, "/")
        self.assertEqual(world.is_root(), os.geteuid() == 0)

    def test_a_full_disk_leaves_the_former_file(self) -> None:
        with mock.patch("os.fsync", side_effect=OSError(28, "No space left on device")):
            with self.assertRaises(Fault) as why:
                put(self.world, "etc/weighbridge.conf", b"new", (0, 0), 0o644)
        self.assertIn("No space left on device; see whether the disk is full", str(why.exception))
        self.assertEqual(self.read("etc/weighbridge.conf"), "# as the package has it\n")

    def test_a_leftover_that_is_a_link(self) -> None:
        self.write(self.at("etc/passwd"), b"x")
        os.symlink("passwd", self.at("etc/weighbridge.conf.weighbridge-move"))
        put(self.world, "etc/weighbridge.conf", b"new", (0, 0), 0o600)
        self.assertEqual(self.read("etc/passwd"), "x")
        self.assertEqual(self.read("etc/weighbridge.conf"), "new")
        self.assertEqual(self.owner("etc/weighbridge.conf"), (0, 0, "600"))

    def test_folders(self) -> None:
        make_folder(self.world, "/srv/a/b", 0o700)
        self.assertEqual(self.owner("srv/a/b")[2], "700")
        self.assertEqual(self.owner("srv/a")[2], "755")
        self.write(self.at("srv/file"), b"")
        with self.assertRaises(Fault):
            make_folder(self.world, "/srv/file/b")


if __name__ == "__main__":
    unittest.main()
