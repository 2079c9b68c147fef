"""Shows what a night does step by step, what it leaves out after a failure, and what the morning reads."""

import contextlib
import hashlib
import http.server
import io
import json
import os
import shutil
import threading
import time
import unittest
import unittest.mock
from datetime import timedelta
from typing import Any

from tests.played import TOP, NightCase, PlayedOffice, make_journal
from weighbridge_night import __main__ as command
from weighbridge_night.copying import MOST_OF_A_TRAIL
from weighbridge_night.files import Fault, digest_of
from weighbridge_night.night import Night, locked
from weighbridge_night.office import RealOffice, is_empty, purge
from weighbridge_night.programs import RealPrograms
from weighbridge_night.setup import Place

FOLDER, HOST = "store folder {}", "store ssh bridge@backup:kept"


class StepsTest(NightCase):
    def last(self) -> dict[str, Any]:
        with open(os.path.join(self.state, "last.json"), encoding="utf-8") as file:
            found: dict[str, Any] = json.load(file)
        return found

    def store(self) -> str:
        return FOLDER.format(self.copies)

    def test_a_night(self) -> None:
        self.assertTrue(self.night())
        self.assertEqual(set(self.states().values()), {"done"})
        self.assertEqual(
            [it.step.split()[0] for it in self.steps],
            ["copy", "check", "verify", "export", "store", "thin", "store", "thin", "purge"],
        )
        self.assertEqual(self.in_folder(), self.on_host())
        name = self.in_folder()[0]
        self.assertRegex(name, r"2026-11-30T020314Z_sound_3_\d+")
        kept = os.path.join(self.copies, "WB01", name)
        self.assertEqual(
            sorted(os.listdir(kept)),
            [
                "SHA256SUMS",
                "journal.csv",
                "journal.db",
                "journal.db-newest",
                "journal.db-wal",
                "tickets.csv",
            ],
        )
        with open(os.path.join(kept, "SHA256SUMS"), encoding="ascii") as file:
            for line in file:
                digest, it = line.split()
                self.assertEqual(digest, digest_of(os.path.join(kept, it)))
        size = sum(os.path.getsize(os.path.join(kept, it)) for it in os.listdir(kept))
        self.assertEqual(int(name.split("_")[-1]), size)
        self.assertEqual(
            digest_of(os.path.join(kept, "journal.db-wal")), digest_of(self.journal + "-wal")
        )
        self.assertEqual(self.office.asked, ["GET /indication", "POST /purge"])
        self.assertEqual(self.words("purge"), "2 entries were purged")
        self.assertEqual(sorted(os.listdir(self.state)), ["last.json"])

    def test_the_morning_reads_that_all_is_well(self) -> None:
        self.night()
        found = self.last()
        self.assertTrue(found["is_well"])
        self.assertEqual(
            (found["version"], found["began"], found["failing"]), (1, "2026-11-30T02:03:14Z", {})
        )
        self.assertEqual(found["copy"], self.in_folder()[0])
        self.assertEqual(
            found["places"][f"folder {self.copies}"]["newest_sound"], self.in_folder()[0]
        )
        self.assertEqual(os.stat(os.path.join(self.state, "last.json")).st_mode & 0o777, 0o644)

    def test_a_failure_keeps_the_night_since_which_it_fails(self) -> None:
        self.programs.sftp_fault = "Connection timed out"
        for _ in range(3):
            self.assertFalse(self.night())
        self.assertEqual(self.last()["failing"], {HOST: "2026-11-30T02:03:14Z"})
        self.assertFalse(self.last()["is_well"])
        self.assertEqual(self.states()[self.store()], "done")
        self.assertEqual(self.states()["purge"], "done")
        self.programs.sftp_fault = None
        self.assertTrue(self.night())
        self.assertEqual(self.last()["failing"], {})

    def test_what_is_left_out_still_fails(self) -> None:
        self.programs.sftp_fault = "Connection timed out"
        self.night()
        os.rename(self.journal, self.journal + "x")
        self.assertFalse(self.night())
        self.assertEqual(sorted(self.last()["failing"]), ["copy", HOST])
        self.assertEqual(self.states()[HOST], "left_out")

    def test_a_place_that_the_setup_drops_fails_no_more(self) -> None:
        self.programs.sftp_fault = "Connection timed out"
        self.night()
        del self.places[1]
        self.assertTrue(self.night())

    def test_a_damaged_journal_is_copied_and_nothing_is_purged(self) -> None:
        self.assertTrue(self.night())
        self.programs.check, self.programs.check_status = "DAMAGED 2\n", 1
        self.assertFalse(self.night())
        self.assertRegex(self.words("check"), "DAMAGED 2; let nobody weigh")
        self.assertEqual([it.split("_")[1] for it in self.in_folder()], ["sound", "doubtful"])
        self.assertEqual(self.states()["purge"], "left_out")
        self.assertEqual(self.office.asked.count("POST /purge"), 1)

    def test_the_check_decides_by_its_line_and_its_status(self) -> None:
        for line, status in (("SOUND 3\n", 1), ("DAMAGED 3\n", 0), ("SOUND 3\nmore\n", 0)):
            self.programs.check, self.programs.check_status = line, status
            self.night()
            self.assertEqual(self.states()["check"], "failed", line)

    def test_what_verify_finds_makes_a_copy_doubtful(self) -> None:
        self.programs.verify, self.programs.verify_status = "number 2 doesn't fit its digest\n", 1
        self.assertFalse(self.night())
        self.assertRegex(self.words("verify"), "number 2 doesn't fit its digest; see inspection")
        self.assertRegex(self.in_folder()[0], "_doubtful_3_")

    def test_an_export_that_is_refused(self) -> None:
        self.programs.refused_export = "tickets"
        self.assertFalse(self.night())
        self.assertRegex(self.words("export"), "refused 17 damaged")
        self.assertRegex(self.in_folder()[0], "_doubtful_3_")
        kept = os.path.join(self.copies, "WB01", self.in_folder()[0])
        self.assertNotIn("tickets.csv", os.listdir(kept))

    def test_a_copy_has_no_half_export(self) -> None:
        real = self.programs.export

        def killed(what: str, to: str | None) -> Any:
            real(what, to)
            raise Fault("/usr/bin/weighbridge: it didn't end within 600 seconds and was killed")

        with unittest.mock.patch.object(self.programs, "export", killed):
            self.assertFalse(self.night())
        self.assertRegex(self.in_folder()[0], "_doubtful_0_")
        kept = os.path.join(self.copies, "WB01", self.in_folder()[0])
        names = ["SHA256SUMS", "journal.db", "journal.db-newest", "journal.db-wal"]
        self.assertEqual(sorted(os.listdir(kept)), names)
        said = io.StringIO()
        with contextlib.redirect_stdout(said):
            command.list_copies(self.setup, self.state)
        self.assertIn("doubtful, newest entry unknown, ", said.getvalue())

    def test_nothing_is_purged_unless_a_copy_is_kept(self) -> None:
        shutil.rmtree(self.copies)
        self.programs.sftp_fault = "Connection timed out"
        self.assertFalse(self.night())
        self.assertEqual(self.states()["purge"], "left_out")
        self.assertEqual(self.office.asked, [])

    def test_one_place_is_enough_for_a_purge(self) -> None:
        shutil.rmtree(self.copies)
        self.assertFalse(self.night())
        self.assertEqual(self.states()["purge"], "done")

    def test_a_purge_that_nobody_wants(self) -> None:
        self.purge = False
        self.assertTrue(self.night())
        self.assertEqual(self.office.asked, [])
        said = io.StringIO()
        with contextlib.redirect_stdout(said):
            command.show_last(self.state)
            command.say(self.steps[-1])
        shown = "purge: left out: the setup has purge = false"
        self.assertEqual(said.getvalue().splitlines()[-2:], [shown] * 2)
        self.assertEqual(self.last()["steps"][-1]["state"], "left_out")

    def test_a_purge_that_nobody_wants_any_more_fails_no_more(self) -> None:
        self.office.purged = "refused 17 damaged"
        self.assertFalse(self.night())
        self.purge = False
        self.assertTrue(self.night())

    def test_a_vehicle_on_the_bridge(self) -> None:
        self.office.shown = "STABLE G      18340 kg N      18340 kg"
        self.assertTrue(self.night())
        self.assertEqual(self.office.asked, ["GET /indication"])
        self.assertRegex(self.words("purge"), "not asked for, because the bridge isn't empty")

    def test_an_empty_journal(self) -> None:
        self.programs.entries = 0
        self.assertTrue(self.night())
        said = io.StringIO()
        with contextlib.redirect_stdout(said):
            command.list_copies(self.setup, self.state)
        self.assertIn("sound, no entry, ", said.getvalue())
        self.assertEqual(self.words("purge"), "nothing was purged, because there is no entry")

    def test_a_refused_purge(self) -> None:
        self.office.purged = "refused 17 damaged"
        self.assertFalse(self.night())
        self.assertRegex(self.words("purge"), "the office refused the purge: refused 17 damaged")

    def test_copies_are_thinned_at_each_place(self) -> None:
        for _ in range(40):
            self.assertTrue(self.night())
        self.assertEqual(self.in_folder(), self.on_host())
        self.assertLess(len(self.in_folder()), 16)

    def test_a_bound_in_bytes_leaves_the_newest(self) -> None:
        self.places[0] = Place("folder", 1, path=self.copies)
        for _ in range(3):
            self.assertTrue(self.night())
        self.assertEqual(len(self.in_folder()), 1)
        self.assertEqual(len(self.on_host()), 3)

    def test_a_place_without_this_nights_copy_is_not_thinned(self) -> None:
        for _ in range(9):
            self.night()
        before = self.in_folder()
        self.places[0] = Place("folder", 1, path=self.copies)
        os.mkdir(os.path.join(self.box, "none"))
        self.clock.now = self.clock.now.replace(microsecond=0)
        full = unittest.mock.Mock(f_bavail=0, f_frsize=4096)
        with unittest.mock.patch("os.statvfs", return_value=full):
            self.assertFalse(self.night())
        self.assertEqual(self.in_folder(), before)

    def test_another_disk_is_told(self) -> None:
        self.night()
        shutil.rmtree(os.path.join(self.copies, "WB01"))
        self.assertTrue(self.night())
        self.assertRegex(self.words(self.store()), "it is another disk or folder, with 0 copies")

    def test_a_night_that_was_cut_off_is_told(self) -> None:
        Night(self.setup, self.state, self.world)  # begins, and does nothing
        self.assertTrue(self.night())
        self.assertRegex(
            self.words("copy"), "the night that began at 2026-11-30T02:03:14Z was cut off"
        )

    def test_one_night_at_a_time(self) -> None:
        handle = locked(self.state)
        assert handle is not None
        said = io.StringIO()
        with contextlib.redirect_stderr(said):
            self.assertEqual(command.run(self.setup, self.state), 1)
        self.assertIn("another night runs", said.getvalue())
        os.close(handle)

    def test_the_list_and_the_last_night(self) -> None:
        del self.places[1]
        self.night()
        said = io.StringIO()
        clock = unittest.mock.patch.object(command, "utc", lambda: self.clock.now)
        self.enterContext(clock)
        with contextlib.redirect_stdout(said):
            self.assertEqual(command.list_copies(self.setup, self.state), 0)
            self.assertEqual(command.show_last(self.state), 0)
        self.assertRegex(said.getvalue(), "sound, newest entry 3, [0-9]+ bytes, .* days old")
        self.assertIn("purge: done: 2 entries", said.getvalue())
        self.programs.check_status = 1
        self.night()
        with contextlib.redirect_stdout(said):
            self.assertEqual(command.show_last(self.state), 1)
        self.assertIn("check: failed: ", said.getvalue())

    def test_a_night_too_long_ago_is_told(self) -> None:
        del self.places[1]
        self.night()
        ended = self.clock.now - timedelta(days=1)
        self.enterContext(unittest.mock.patch.object(command, "utc", lambda: self.clock.now))
        for hours, wanted in ((35, 0), (37, 1)):
            self.clock.now = ended + timedelta(hours=hours)
            said = io.StringIO()
            with contextlib.redirect_stdout(io.StringIO()), contextlib.redirect_stderr(said):
                self.assertEqual(command.show_last(self.state), wanted, hours)
            is_told = "no night ended within the last 36 hours" in said.getvalue()
            self.assertEqual(is_told, wanted == 1, hours)

    def test_a_failure_has_its_weight_in_the_systems_journal(self) -> None:
        said = io.StringIO()
        self.programs.check_status = 1
        self.night()
        with contextlib.redirect_stdout(said), unittest.mock.patch.dict(
            os.environ, INVOCATION_ID="1"
        ):
            for it in self.steps:
                command.say(it)
        self.assertEqual(said.getvalue().count("<3>check: failed: "), 1)


class OfficeTest(unittest.TestCase):
    def test_when_a_bridge_is_empty(self) -> None:
        for kg, wanted in ((0, True), (399, True), (400, False), (-399, True), (-400, False)):
            self.assertEqual(is_empty(f"STABLE G {kg:10} kg N {kg:10} kg", 20), wanted, kg)
        for shown in (
            "NO LOAD",
            "OVERLOAD",
            "UNDERLOAD",
            "",
            "MOVING G          0 kg N          0 kg",
        ):
            self.assertFalse(is_empty(shown, 20), shown)
        # a tare doesn't make a loaded bridge empty
        self.assertFalse(is_empty("STABLE G       8000 kg N          0 kg", 20))

    def test_a_purge_is_asked_for_once(self) -> None:
        office = PlayedOffice()
        self.assertEqual(purge(office, 20), "2 entries were purged")
        self.assertEqual(office.asked, ["GET /indication", "POST /purge"])

    def test_an_office_over_http(self) -> None:
        class Handler(http.server.BaseHTTPRequestHandler):
            def answer(self) -> None:
                self.send_response(200)
                self.end_headers()
                self.wfile.write(
                    f"{self.command} {self.path} {self.headers['Content-Length']}\n".encode()
                )

            do_GET = do_POST = answer

            def log_message(self, *_: object) -> None:
                pass

        with http.server.HTTPServer(("127.0.0.1", 0), Handler) as server:
            threading.Thread(target=server.serve_forever, daemon=True).start()
            office = RealOffice(f"127.0.0.1:{server.server_address[1]}")
            self.assertEqual(office.ask("GET", "/indication", 5), "GET /indication None")
            self.assertEqual(office.ask("POST", "/purge", 5), "POST /purge 0")
            server.shutdown()
        with self.assertRaisesRegex(Fault, "office .*: GET /x: .*; see whether the service runs"):
            office.ask("GET", "/x", 1)


class ProgramsTest(NightCase):
    def test_a_program_has_its_time(self) -> None:
        programs = RealPrograms(self.box)
        begun = time.monotonic()
        with self.assertRaisesRegex(Fault, "didn't end within 0 seconds and was killed"):
            programs.run(["/bin/sh", "-c", "sleep 60 & sleep 60"], 0.2)
        self.assertLess(time.monotonic() - begun, 8)

    def test_what_a_program_gets_and_says(self) -> None:
        programs = RealPrograms(self.box)
        ran = programs.run(["/bin/sh", "-c", "cat; echo $TMPDIR; echo no >&2; exit 3"], 20, "in\n")
        self.assertEqual((ran.status, ran.out, ran.said()), (3, f"in\n{self.box}\n", "no"))
        path = os.path.join(self.box, "out")
        programs.run(["/bin/echo", "x"], 20, to=path)
        with open(path, encoding="ascii") as file:
            self.assertEqual(file.read(), "x\n")

    def test_a_program_that_is_not_there(self) -> None:
        with self.assertRaisesRegex(Fault, "/none: No such file or directory; install it"):
            RealPrograms(self.box).run(["/none"], 1)


class VerifyTest(NightCase):
    """Copies a real journal, and lets the real verify.py examine the copy."""

    def test_verify_examines_the_copy(self) -> None:
        import sqlite3
        import sys

        sys.path.insert(0, TOP)
        from checks.lib.journal import make_journal as make_entries

        live = os.path.join(self.box, "live.db")
        make_entries(live, 5)
        connection = sqlite3.connect(live, isolation_level=None)
        connection.execute("PRAGMA journal_mode=WAL")
        connection.execute("UPDATE journal SET number = number")
        for ending in ("", "-wal"):
            shutil.copyfile(live + ending, self.journal + ending)
        digests = connection.execute(
            "SELECT number, digest FROM journal WHERE number > 3"
        ).fetchall()
        connection.close()
        with open(f"{self.journal}-newest", "w", encoding="ascii") as file:
            for number, digest in digests:
                text = f"newest {number:010} {digest}"
                file.write(f"{text} {hashlib.sha256(text.encode()).hexdigest()}\n")
        played = self.programs
        verify = os.path.join(TOP, "inspect", "verify.py")
        real = RealPrograms(self.box)

        class Both(type(played)):  # type: ignore[misc]
            def run(
                self, words: Any, seconds: float, given: str = "", to: str | None = None
            ) -> Any:
                if os.path.basename(words[0]) == "python3":
                    return real.run([*words[:2], verify, *words[3:]], seconds)
                return super().run(words, seconds, given, to)

        self.programs = Both(self.host)
        self.assertTrue(self.night(), self.steps)
        # a copy without its newest entry isn't taken for sound
        with open(f"{self.journal}-newest", "w", encoding="ascii") as file:
            for number in (8, 9):
                text = f"newest {number:010} {digests[0][1]}"
                file.write(f"{text} {hashlib.sha256(text.encode()).hexdigest()}\n")
        self.assertFalse(self.night())
        self.assertRegex(self.words("verify"), "number 9 is the newest that")


class TrailTest(NightCase):
    """The audit trail is copied with the journal, once there is one."""

    def setUp(self) -> None:
        super().setUp()
        self.trail = os.path.join(self.box, "bridge", "trail.jsonl")

    def run_night(self) -> bool:
        world = self.world
        world.trail = self.trail
        self.steps.clear()
        is_well = Night(self.setup, self.state, world).run()
        self.clock.now += timedelta(days=1)
        return is_well

    def copied(self) -> bytes | None:
        newest = max(os.listdir(os.path.join(self.copies, "WB01")))
        path = os.path.join(self.copies, "WB01", newest, "audit.jsonl")
        if not os.path.lexists(path):
            return None
        with open(path, "rb") as file:
            return file.read()

    def test_a_trail_is_copied_with_its_whole_lines(self) -> None:
        with open(self.trail, "wb") as file:
            file.write(b'{"number":1}\n{"number":2}\n{"num')
        self.assertTrue(self.run_night(), self.steps)
        self.assertEqual(self.copied(), b'{"number":1}\n{"number":2}\n')
        words = next(it.words for it in self.steps if it.step == "trail")
        self.assertEqual(words, "2 lines of the audit trail are copied")

    def test_a_bridge_without_a_trail_has_no_such_step(self) -> None:
        self.assertTrue(self.run_night())
        self.assertNotIn("trail", self.states())
        self.assertIsNone(self.copied())

    def test_a_trail_that_cannot_be_copied_fails_and_leaves_the_copy_sound(self) -> None:
        os.symlink("/etc/passwd", self.trail)
        self.assertFalse(self.run_night())
        self.assertEqual(self.states()["trail"], "failed")
        self.assertIsNone(self.copied())
        self.assertIn("_sound_", max(os.listdir(os.path.join(self.copies, "WB01"))))
        os.unlink(self.trail)
        with open(self.trail, "wb") as file:
            file.truncate(MOST_OF_A_TRAIL + 1)
        self.assertFalse(self.run_night())
        self.assertIsNone(self.copied())
        with open(self.trail, "wb") as file:
            file.write(b"{}\n")
        self.assertTrue(self.run_night(), self.steps)


class PlayedJournalTest(NightCase):
    def test_its_entries_are_in_its_log(self) -> None:
        path = os.path.join(self.box, "other.db")
        make_journal(path, 100)
        self.assertGreater(os.path.getsize(path + "-wal"), os.path.getsize(path))


if __name__ == "__main__":
    unittest.main()
