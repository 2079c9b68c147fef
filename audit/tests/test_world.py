"""Tests of what this machine is asked: its files, journalctl and dpkg-query, played by files and programs in a folder."""

import hashlib
import json
import os
import stat
import subprocess
import time
import unittest
from pathlib import Path
from tempfile import TemporaryDirectory
from unittest.mock import patch

from tests.played import DIGEST, OTHER, SERVICE, SETUP, START, TOP
from weighbridge_audit import reading, world
from weighbridge_audit.deciding import Log
from weighbridge_audit.trail import trail_of
from weighbridge_audit.world import RealWorld, lines_of, message_of

SECRETS = ("hunter2", "S3cr3t", "0049170", "AB-12", "K7abc")
ALARM = 'bridge = "WB01"\n[[to]]\nname = "owner"\nkind = "sms"\nnumber = "0049170"\nbody = { key = "S3cr3tKey" }\n'
CONF = f'# a comment\nWEIGHBRIDGE_OFFICE=127.0.0.1:880\nWEIGHBRIDGE_SETUP="{SETUP}"\nPGPASSWORD=hunter2\nWEIGHBRIDGE_KEY=S3cr3t\n'


def entry(cursor: str, text: object, unit: str = SERVICE, **fields: object) -> bytes:
    found = {
        "__CURSOR": cursor,
        "__REALTIME_TIMESTAMP": "1796108400000001",
        "_SYSTEMD_UNIT": unit,
        "MESSAGE": text,
    }
    return json.dumps({**found, **fields}).encode() + b"\n"


def witness(number: int, digest: str) -> bytes:
    text = f"newest {number:010} {digest}".encode()
    return text + b" " + hashlib.sha256(text).hexdigest().encode() + b"\n"


def calibration(number: int, before: bytes = b"") -> bytes:
    text = (
        before
        + f"calibration {number}\nmoment 1741593600\nfilter median 3\npoint 100 0\npoint 90000 9170\n".encode()
    )
    return text + b"digest " + hashlib.sha256(text).hexdigest().encode() + b"\n"


class Machines(unittest.TestCase):
    def setUp(self) -> None:
        folder = TemporaryDirectory()
        self.addCleanup(folder.cleanup)
        self.top = Path(folder.name)
        self.world = RealWorld(folder.name, folder.name)

    def put(self, path: str, data: bytes | str) -> Path:
        it = self.top / path
        it.parent.mkdir(parents=True, exist_ok=True)
        it.write_bytes(data.encode() if isinstance(data, str) else data)
        return it

    def program(self, name: str, text: str) -> None:
        it = self.put(f"bin/{name}", f"#!/bin/sh\n{text}\n")
        it.chmod(0o755)


class FilesTest(Machines):
    def test_a_whole_bridge(self) -> None:
        self.put("etc/weighbridge.conf", CONF)
        self.put("etc/weighbridge-alarm.toml", ALARM)
        self.put(
            "etc/systemd/system/weighbridge-night.service.d/places.conf",
            "[Service]\nReadWritePaths=/srv/x\n",
        )
        self.put("usr/bin/weighbridge", "program")
        self.put("usr/lib/weighbridge/serve", "script")
        digests = [
            (hashlib.sha256(one).hexdigest(), path)
            for one, path in (
                (b"program", "/usr/bin/weighbridge"),
                (b"script", "/usr/lib/weighbridge/serve"),
            )
        ]
        listed = "".join(f"{digest}  {path}\n" for digest, path in digests)
        self.put("usr/lib/weighbridge/SHA256SUMS", listed)
        self.put("var/lib/weighbridge-converter/calibration", calibration(2, calibration(1)))
        self.put("var/lib/weighbridge/journal.db", "PLATE AB-12 key K7abc")
        self.put("var/lib/weighbridge/journal.db-zero", "      12\n")
        self.put(
            "var/lib/weighbridge/journal.db-newest", witness(124, DIGEST) + witness(123, OTHER)
        )
        self.put(
            "var/lib/weighbridge-move/state.json",
            json.dumps(
                {
                    "began": "2026-12-01T06:00:00Z",
                    "words": "weighbridge-move continue",
                    "choice": {"command": "continue", "copy": "c", "last": 124},
                }
            ),
        )
        found = self.world.things()
        conf, programs = found["setup /etc/weighbridge.conf"], found["programs"]
        assert isinstance(conf, dict) and isinstance(programs, dict), (conf, programs)
        self.assertEqual(
            (conf["--interval"], conf["--serial"], conf["WEIGHBRIDGE_OFFICE"]),
            ("20", "WB01", "127.0.0.1:880"),
        )
        self.assertEqual(
            (programs["weighbridge"], programs["list"]),
            (digests[0][0], "each listed file is as listed"),
        )
        self.assertEqual(programs["sha256"], hashlib.sha256(listed.encode()).hexdigest())
        made = found["calibration"]
        assert isinstance(made, dict)
        self.assertEqual(
            (made["number"], made["made"], made["points"], made["fits"]),
            (2, "2025-03-10T08:00:00Z", 2, "yes"),
        )
        zero, journal, move = found["zero"], found["journal"], found["move"]
        assert isinstance(zero, dict) and isinstance(journal, dict) and isinstance(move, dict)
        self.assertEqual(zero["tenths"], 12)
        about = os.stat(self.top / "var/lib/weighbridge/journal.db")
        self.assertEqual(journal, {"file": about.st_ino, "newest": 124, "digest": DIGEST})
        self.assertEqual((move["command"], move["last"]), ("continue", "124"))
        self.assertIn("setup /etc/systemd/system/weighbridge-night.service.d/places.conf", found)
        for secret in SECRETS:
            self.assertNotIn(secret, repr(found))

    def test_a_bridge_that_has_nothing(self) -> None:
        found = self.world.things()
        for what in ("calibration", "zero", "journal", "move"):
            self.assertIsNone(found[what])

    def test_a_secret_that_changes_shows_only_by_its_moment(self) -> None:
        first, second = (
            reading.setup_of("x.toml", one.encode(), 0)
            for one in (ALARM, ALARM.replace("S3cr3tKey", "other"))
        )
        self.assertEqual(first, second)
        self.assertNotEqual(first, reading.setup_of("x.toml", ALARM.encode(), 1))
        conf = reading.setup_of("x.conf", CONF.encode(), 0)
        self.assertEqual(
            conf, reading.setup_of("x.conf", CONF.replace("hunter2", "other").encode(), 0)
        )
        plain = 'WEIGHBRIDGE_OFFICE="127.0.0.1:880"\n'
        self.assertEqual(
            reading.setup_of("x.conf", plain.encode(), 0)["sha256"],
            hashlib.sha256(plain.encode()).hexdigest(),
        )
        self.assertEqual(
            reading.setup_of("x.conf", b"WEIGHBRIDGE_READER=http://anna:hunter2@x\n", 0)[
                "WEIGHBRIDGE_READER"
            ],
            "[hidden]",
        )

    def test_changed_programs_are_counted_and_the_first_is_named(self) -> None:
        listed = f"{'0' * 64}  /usr/bin/weighbridge\n{'1' * 64}  /usr/lib/weighbridge/serve\n"
        found = reading.programs_of({"/usr/bin/weighbridge": "0" * 64}, listed)
        self.assertEqual(
            (found["list"], found["first that differs"]), ("1 differ", "/usr/lib/weighbridge/serve")
        )

    def test_notes_that_are_not_whole(self) -> None:
        for data in (b"", b"      12", b"x" * 9, b"   \xff\xff\xff\xff\xff\n", b"      --\n"):
            it = reading.zero_of(data, 0)
            assert isinstance(it, dict)
            self.assertIn("unknown", str(it["tenths"]))
        self.assertEqual(reading.newest_of(b"")["newest"], 0)
        broken = witness(124, DIGEST).replace(b"newest 0000000124", b"newest 0000000199")
        self.assertEqual(reading.newest_of(broken + witness(123, OTHER))["newest"], 123)
        self.assertEqual(
            reading.newest_of(witness(122, DIGEST) + witness(123, OTHER))["newest"], 123
        )
        whole = calibration(1)
        changed = reading.calibration_of(whole.replace(b"90000", b"90001"))
        assert isinstance(changed, dict)
        self.assertEqual(changed["fits"], "no")
        for data in (b"x", whole[:-5], whole + b"x"):
            self.assertEqual(
                reading.calibration_of(data), {"form": "its last calibration has another form"}
            )
        self.assertEqual(reading.move_of(b"[" * 9000), {"form": "it is no note of a move"})

    def test_a_link_a_fifo_and_a_huge_file_are_not_read(self) -> None:
        shadow = self.put("shadow", "root:hunter2")
        (self.top / "etc").mkdir()
        os.symlink(shadow, self.top / "etc/weighbridge.conf")
        os.mkfifo(self.top / "etc/weighbridge-ports.conf")
        with open(self.put("etc/weighbridge-night.toml", ""), "wb") as out:
            out.truncate(world.MOST_OF_A_FILE + 1)
        found = self.world.things()
        for name in ("weighbridge.conf", "weighbridge-ports.conf", "weighbridge-night.toml"):
            self.assertIsInstance(found[f"setup /etc/{name}"], str)
        self.assertNotIn("hunter2", repr(found))


class JournalctlTest(Machines):
    def log(self, printed: bytes, cursor: str | None = None, after: str = "") -> Log | str:
        self.put("printed", printed)
        self.program(
            "journalctl", f'echo "$@" >"{self.top}/words"; cat "{self.top}/printed"; {after}'
        )
        real = subprocess.Popen

        def played(words: list[str], **more: object) -> object:
            return real([str(self.top / "bin" / words[0]), *words[1:]], **more)  # type: ignore[call-overload]

        with patch.object(subprocess, "Popen", played), patch.object(
            self.world.programs, "before", []
        ):
            return self.world.log(cursor)

    def test_reads_lines_and_asks_for_those_after_the_cursor(self) -> None:
        it = self.log(
            entry("c1", "old") + entry("c2", START) + entry("c3", [83, 255], UNIT="x"), "c1"
        )
        assert isinstance(it, Log)
        self.assertEqual([one.cursor for one in it.messages], ["c2", "c3"])
        self.assertEqual((it.cursor, it.is_joined), ("c3", True))
        self.assertEqual((it.messages[0].unit, it.messages[0].at), (SERVICE, 1796108400))
        words = (self.top / "words").read_text().split()
        self.assertIn("--cursor=c1", words)
        self.assertIn("--unit=weighbridge.service", words)

    def test_a_cursor_that_is_gone(self) -> None:
        it = self.log(entry("c5", "new"), "c1")
        assert isinstance(it, Log)
        self.assertEqual((len(it.messages), it.is_joined), (1, False))
        it = self.log(b"", "c1")
        self.assertEqual(it, Log([], None, is_joined=False))
        self.assertEqual(self.log(b""), Log([], None))
        self.assertNotIn("--cursor", (self.top / "words").read_text())

    def test_a_failure_says_why(self) -> None:
        it = self.log(b"", "c1", "echo 'Failed to seek' >&2; exit 1")
        self.assertEqual(it, "journalctl ended with status 1: Failed to seek")

    def test_no_more_than_its_bound_and_the_rest_by_the_next_look(self) -> None:
        lines = b"".join(entry(f"c{at}", "x") for at in range(50))
        with patch.object(world, "MOST_MESSAGES", 10):
            it = self.log(lines, None, "sleep 60")
        assert isinstance(it, Log)
        self.assertEqual((len(it.messages), it.cursor), (10, "c9"))

    def test_a_program_that_hangs_is_killed(self) -> None:
        with patch.object(world, "SECONDS_OF_A_LOG", 0.3), patch.object(world, "AFTER_A_LOG", 0.1):
            it = self.log(entry("c1", START), None, "sleep 60")
            assert isinstance(it, Log)
            self.assertEqual(len(it.messages), 1)
            # nothing is known of the cursor's line, so nobody says that it is gone
            it = self.log(b"", "c1", "sleep 60")
        self.assertEqual(it, "journalctl said nothing within 0 seconds")

    def test_foreign_lines(self) -> None:
        for line in (
            b"",
            b"x",
            b"[]",
            b"{}",
            b'{"__CURSOR":1}',
            b"[" * 9000,
            b'{"__CURSOR":"c","__REALTIME_TIMESTAMP":"x"}',
        ):
            self.assertIsNone(message_of(line))
        it = message_of(entry("c1", None))
        assert it is not None
        self.assertEqual(it.text, "")
        it = message_of(
            entry("c1", "x", "init.scope", MESSAGE_ID="9" * 32, UNIT=SERVICE, EXIT_STATUS="1")
        )
        assert it is not None
        self.assertEqual((it.unit, it.fields), (SERVICE, {"EXIT_STATUS": "1"}))

    def test_a_line_that_is_too_long_is_left_out(self) -> None:
        data = entry("c0", "a") + entry("c1", "x" * 300_000) + entry("c2", "b")
        path = str(self.put("printed", data))
        with subprocess.Popen(["cat", path], stdout=subprocess.PIPE) as child:
            assert child.stdout is not None
            found = [message_of(one) for one in lines_of(child.stdout, time.monotonic() + 20)]
        self.assertEqual([it.cursor for it in found if it is not None], ["c0", "c2"])


class UnitTest(unittest.TestCase):
    def test_the_unit_can_read_no_plate_and_write_only_its_folder(self) -> None:
        text = (TOP / "packaging/weighbridge/weighbridge-audit.service").read_text(encoding="utf-8")
        lines = text.splitlines()
        hidden = [
            it
            for line in lines
            if line.startswith("InaccessiblePaths=")
            for it in line[18:].split()
        ]
        for path in (
            "/var/lib/weighbridge/journal.db",
            "/var/lib/weighbridge/journal.db-wal",
            "/var/lib/weighbridge-counter",
        ):
            self.assertIn(f"-{path}", hidden)
        for line in (
            "ProtectSystem=strict",
            "IPAddressDeny=any",
            "RestrictAddressFamilies=AF_UNIX",
            "User=weighbridge-audit",
        ):
            self.assertIn(line, lines)
        self.assertNotIn("ReadWritePaths", text)


class ScriptTest(unittest.TestCase):
    def test_two_looks_of_this_machine(self) -> None:
        with TemporaryDirectory() as folder:
            script = str(TOP / "audit" / "weighbridge-audit")
            for _ in range(2):
                ran = subprocess.run(
                    [script, "collect", "--state", folder], capture_output=True, text=True
                )
                self.assertEqual((ran.returncode, ran.stderr), (0, ""))
            path = os.path.join(folder, "trail.jsonl")
            self.assertEqual(stat.S_IMODE(os.stat(path).st_mode), 0o640)
            trail = trail_of(Path(path).read_bytes())
            self.assertEqual(
                (trail.faults, trail.torn, trail.lines[0].events[0]), ([], b"", {"event": "begin"})
            )


if __name__ == "__main__":
    unittest.main()
