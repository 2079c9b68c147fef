"""Tests of the file: kills and power cuts at each byte, changes that an inspector must find, and what is printed."""

import contextlib
import io
import json
import os
import unittest
from tempfile import TemporaryDirectory
from unittest.mock import patch

from tests.played import CONF, DIGEST, START, Killed, Played, hand_checked
from weighbridge_audit import __main__ as program
from weighbridge_audit import looking, showing
from weighbridge_audit import trail as file
from weighbridge_audit.trail import Event, text_of, trail_of


def news(it: Played) -> None:
    """Let something happen of which each part must be noted once."""
    it.later()
    it.say(START)
    it.say("office 127.0.0.1:1: POST /purge: 200 PURGED 2 in 0 ms")
    it.seen["zero"] = {"tenths": 12, "set": "2026-12-01T07:04:00Z"}


def without_torn(events: list[Event]) -> list[Event]:
    """Return the events without what a power cut adds, and without the moments of looks."""
    return [
        {name: value for name, value in it.items() if name != "after_look"}
        for it in events
        if it["event"] not in ("torn", "completed", "unseen", "seen")
    ]


class Trails(unittest.TestCase):
    def setUp(self) -> None:
        folder = TemporaryDirectory()
        self.addCleanup(folder.cleanup)
        self.it = Played(folder.name)

    def grown(self, looks: int = 4) -> bytes:
        """Return a trail of `looks` lines."""
        for at in range(looks):
            self.it.seen["zero"] = {"tenths": at, "set": f"2026-12-01T07:0{at}:00Z"}
            self.it.look()
            self.it.later()
        return self.it.data()


class KillTest(Trails):
    def cut_at(self, count: int, zeros: int = 0) -> list[Event]:
        """Let the power go after `count` bytes of a line, then look again. Return all events."""
        with TemporaryDirectory() as folder:
            it = Played(folder)
            it.look()
            news(it)

            def torn(path: str, data: bytes) -> None:
                self.line = len(data)
                file.append(path, data[:count] + bytes(zeros))
                raise Killed

            with contextlib.suppress(Killed):
                it.look(torn)
            before = it.data()
            it.later(60)
            it.look()
            it.look()
            trail = it.trail()
            self.assertEqual((trail.faults, trail.torn), ([], b""), count)
            self.assertTrue(it.data().startswith(before), "nothing that was written is changed")
            is_torn = any(one["event"] == "torn" for one in it.events())
            noted = without_torn(it.events())
            it.later(60)
            it.seen["zero"] = {"tenths": 13, "set": "2026-12-01T07:06:00Z"}
            self.assertIn("changed", it.kinds())
            self.assertEqual((it.trail().faults, it.trail().torn), ([], b""), count)
            rest = trail_of(before)
            self.assertEqual(is_torn, rest.torn != b"", count)
            return noted

    def test_a_power_cut_at_each_byte_loses_and_doubles_nothing(self) -> None:
        whole = self.cut_at(1 << 20)
        self.assertEqual([one["event"] for one in whole].count("start"), 1)
        # the line's bytes: each of the first and of the last ones, and some between
        for count in {*range(12), *range(12, self.line, 61), *range(self.line - 14, self.line + 1)}:
            self.assertEqual(self.cut_at(count), whole, count)

    def test_zeros_that_a_power_cut_leaves(self) -> None:
        whole = self.cut_at(1 << 20)
        for count, zeros in ((0, 1), (0, 4096), (100, 1), (200, 4096)):
            self.assertEqual(self.cut_at(count, zeros), whole)

    def test_a_kill_between_line_and_hint(self) -> None:
        it = self.it
        it.look()
        news(it)
        with patch.object(looking, "leave_hint", side_effect=Killed), self.assertRaises(Killed):
            it.look()
        it.later()
        self.assertEqual(it.look(), [])
        self.assertEqual([one["event"] for one in it.events()].count("start"), 1)

    def test_a_kill_before_the_line(self) -> None:
        it = self.it
        it.look()
        news(it)
        data = it.data()

        def killed(path: str, line: bytes) -> None:
            raise Killed

        with self.assertRaises(Killed):
            it.look(killed)
        self.assertEqual(it.data(), data)
        self.assertEqual(it.kinds(), ["changed", "start", "purge"])

    def test_a_cut_in_the_very_first_line(self) -> None:
        it = self.it
        file.append(it.path, b'{"number":1,"no')
        self.assertEqual(it.kinds()[:2], ["torn", "begin"])
        self.assertEqual((it.trail().faults, it.trail().torn), ([], b""))
        it.later()
        self.assertEqual(it.look(), [])

    def test_the_line_is_on_the_disk_before_the_hint(self) -> None:
        done = []
        synced = os.fsync

        def noted(handle: int) -> None:
            done.append(os.readlink(f"/proc/self/fd/{handle}"))
            synced(handle)

        with patch.object(os, "fsync", noted):
            self.it.look()
        names = [os.path.basename(one) for one in done]
        self.assertEqual(names[0], "trail.jsonl")
        self.assertIn(os.path.basename(self.it.folder), names[1])
        self.assertIn("last.json.new", names[2:])

    def test_a_write_that_the_disk_takes_in_parts(self) -> None:
        whole = os.write
        with patch.object(os, "write", lambda handle, data: whole(handle, data[:100])):
            self.it.look()
        self.assertEqual((self.it.trail().faults, len(self.it.trail().lines)), ([], 1))


class ChangedTest(Trails):
    def test_a_sound_trail_by_another_hand(self) -> None:
        data = self.grown()
        self.assertEqual(hand_checked(data), [])
        self.assertEqual(trail_of(data).faults, [])

    def test_each_changed_byte_is_found(self) -> None:
        data = self.grown()
        for at in range(0, len(data), 7):
            changed = data[:at] + bytes([data[at] ^ 1]) + data[at + 1 :]
            found = trail_of(changed)
            self.assertTrue(found.faults or found.torn, at)

    def test_a_removed_line_and_two_that_are_exchanged_are_found(self) -> None:
        lines = self.grown().splitlines(keepends=True)
        for found in (
            lines[:1] + lines[2:],
            lines[1:],
            [lines[0], lines[2], lines[1], lines[3]],
            [lines[0], lines[0], *lines[1:]],
        ):
            self.assertTrue(trail_of(b"".join(found)).faults)
            self.assertTrue(hand_checked(b"".join(found)))

    def test_a_line_that_was_computed_again_is_found(self) -> None:
        lines = self.grown().splitlines(keepends=True)
        it = json.loads(lines[1])
        it["events"][0]["after"]["tenths"] = 99
        lines[1] = text_of(
            *[
                it[name]
                for name in ("number", "noted", "up", "boot", "cursor", "events", "previous")
            ]
        )
        self.assertEqual(
            trail_of(b"".join(lines)).faults, ["line 3 isn't chained to the line before it"]
        )

    def test_a_torn_piece_that_was_put_in_is_found(self) -> None:
        lines = self.grown().splitlines(keepends=True)
        found = trail_of(b"".join([*lines[:2], b"{}\n", *lines[2:]]))
        self.assertEqual(
            found.faults, ["3 bytes before line 3 are no line, or a line that was changed"]
        )

    def test_a_cut_end_is_found_by_an_older_copy_and_by_the_next_look(self) -> None:
        data = self.grown()
        lines = data.splitlines(keepends=True)
        short = b"".join(lines[:3])
        self.assertEqual(trail_of(short).faults, [])
        self.assertIsNone(showing.compared(data, short))
        self.assertIsNone(showing.compared(data, data + b'{"number":5'))
        why = showing.compared(short, data)
        self.assertEqual(why, "the trail ends after 3 lines of the copy: its end was cut off")
        other = text_of(4, "2026-12-01T07:15:00Z", 1, "a", None, [], trail_of(short).digest)
        self.assertIn(
            "differs from the copy after 3 lines", str(showing.compared(short + other, data))
        )
        with open(self.it.path, "wb") as out:
            out.write(short)
        events = self.it.look()
        self.assertIn(
            {"event": "broken", "fault": "the last look left 4 lines, and 3 are there"}, events
        )

    def test_a_changed_trail_goes_on_and_says_so_once(self) -> None:
        lines = self.grown().splitlines(keepends=True)
        with open(self.it.path, "wb") as out:
            out.write(b"".join([lines[0], *lines[2:]]))
        (event,) = [one for one in self.it.look() if one["event"] == "broken"]
        self.assertEqual(event["fault"], "the line after number 1 has the number 3, and 2 was due")
        self.it.later()
        self.assertEqual(self.it.look(), [])

    def test_foreign_bytes_end_nothing(self) -> None:
        deep = b'{"number":' + b"[" * 5000 + b"\n"
        for data in (
            b"",
            b"\n\n\n",
            b"\xff\xfe" * 100,
            b"{}\n",
            deep,
            b'{"digest":"' + b"0" * 64 + b'"}\n',
        ):
            found = trail_of(data)
            self.assertEqual((found.lines, found.torn), ([], data))
        odd = text_of(1, "x", 1, "a", None, [], "0" * 64)
        self.assertEqual(trail_of(odd).lines, [])


class ShowTest(Trails):
    def ran(self, *words: str) -> tuple[int, str, str]:
        out, err = io.StringIO(), io.StringIO()
        with patch("sys.argv", ["weighbridge-audit", *words]), contextlib.redirect_stdout(
            out
        ), contextlib.redirect_stderr(err):
            try:
                status = program.main()
            except SystemExit as end:
                status = int(str(end.code))
        return status, out.getvalue(), err.getvalue()

    def test_says_first_whether_the_chain_is_whole(self) -> None:
        news(self.it)
        self.grown()
        status, text, _ = self.ran("show", "--file", self.it.path)
        self.assertEqual(status, 0)
        self.assertIn(
            "The chain is whole: lines 1 to 4, noted from\n2026-12-01 07:05:00 to 2026-12-01 07:20:00 (UTC).",
            text,
        )
        self.assertIn(self.it.trail().digest, text)
        for words in (
            "start: the service started",
            "setup: --interval 20",
            "tenths: 2 -> 3",
            CONF,
            "result: 200 PURGED 2",
            DIGEST,
        ):
            self.assertIn(words, text)
        self.assertLessEqual(max(map(len, text.splitlines()[1:])), 80)
        numbers = [
            int(one.split()[1].rstrip(","))
            for one in text.splitlines()
            if one.startswith("Line ") and ", noted" in one
        ]
        self.assertEqual(numbers, [1, 2, 3, 4])

    def test_each_kind_of_event_has_words(self) -> None:
        kinds = set()
        for name in ("deciding.py", "saying.py"):
            with open(
                os.path.join(os.path.dirname(showing.__file__), name), encoding="utf-8"
            ) as source:
                text = source.read()
            kinds |= {one.split('"')[0] for one in text.split('"event": "')[1:]}
        self.assertEqual(kinds - {*showing.WORDS}, set())

    def test_says_that_it_is_not_whole(self) -> None:
        lines = self.grown().splitlines(keepends=True)
        with open(self.it.path, "wb") as out:
            out.write(b"".join([lines[0], lines[2], lines[1], lines[3]]))
        status, text, _ = self.ran("check", "--file", self.it.path)
        self.assertEqual(status, 1)
        self.assertIn("IS NOT WHOLE", text)
        self.assertIn("FAULT: the line after number 1 has the number 3, and 2 was due", text)
        with open(self.it.path, "wb") as out:
            out.write(b"".join(lines) + b"half")
        status, text, _ = self.ran("check", "--file", self.it.path)
        self.assertEqual(status, 1)
        self.assertIn("FAULT: the last 4 bytes are no line", text)

    def test_compares_with_a_copy(self) -> None:
        data = self.grown()
        copy = f"{self.it.folder}/copy"
        with open(copy, "wb") as out:
            out.write(data[:-100])
        status, text, _ = self.ran("check", "--file", self.it.path, "--against", copy)
        self.assertEqual((status, "begins with each line of this copy" in text), (0, True))
        status, text, _ = self.ran("check", "--file", copy, "--against", self.it.path)
        self.assertEqual((status, "its end was cut off" in text), (1, True))

    def test_says_how_far_a_copy_goes(self) -> None:
        lines = self.grown().splitlines(keepends=True)
        copy = f"{self.it.folder}/copy"
        with open(copy, "wb") as out:
            out.write(lines[0])
        _, text, _ = self.ran("check", "--file", self.it.path, "--against", copy)
        self.assertIn("line 1, noted 2026-12-01 07:00:00. Nothing shows", text)
        for data in (b"", lines[0][:100], b"no line\n"):
            with open(copy, "wb") as out:
                out.write(data)
            status, text, _ = self.ran("check", "--file", self.it.path, "--against", copy)
            self.assertEqual((status, "it has no whole line" in text), (1, True), data)

    def test_says_what_the_lines_note_of_the_trail(self) -> None:
        lines = self.grown().splitlines(keepends=True)
        with open(self.it.path, "wb") as out:
            out.write(b"".join(lines[:2]))
        self.it.look()
        for words in (["check"], ["show"], ["show", "--since", "2027-01-01"]):
            status, text, _ = self.ran(*words, "--file", self.it.path)
            self.assertEqual(
                (status, "The chain is whole" in text, "It notes broken (the trail was" in text),
                (1, True, True),
            )
            self.assertLessEqual(max(map(len, text.splitlines()[1:])), 80)

    def test_what_a_power_cut_left_is_told_and_is_no_fault(self) -> None:
        data = self.grown()
        with open(self.it.path, "wb") as out:
            out.write(data + b"half")
        self.it.look()
        status, text, _ = self.ran("check", "--file", self.it.path)
        self.assertEqual((status, "It notes torn (" in text, text.count("broken")), (0, True, 0))

    def test_since_and_json(self) -> None:
        data = self.grown()
        status, text, _ = self.ran(
            "show", "--file", self.it.path, "--json", "--since", "2026-12-01 07:10"
        )
        self.assertEqual((status, text.encode()), (0, b"".join(data.splitlines(keepends=True)[2:])))
        _, text, _ = self.ran("show", "--file", self.it.path, "--since", "2027-01-01")
        self.assertNotIn("Line 1, noted", text)

    def test_wrong_words_are_refused(self) -> None:
        for words, wanted in (
            (["show", "--since", "yesterday"], "is no moment"),
            (["show", "--since", "2026-13-01"], "is no moment"),
            (["check", "--json"], "takes neither"),
            (["show", "--against", "x"], "takes no --against"),
            (["collect", "--file", "x"], "takes no --file"),
        ):
            status, _, err = self.ran(*words)
            self.assertEqual((status, wanted in err), (2, True), words)
        status, _, err = self.ran("show", "--file", f"{self.it.folder}/none")
        self.assertEqual((status, "it isn't there" in err), (1, True))
        status, _, err = self.ran("collect", "--state", f"{self.it.folder}/none")
        self.assertEqual((status, "No such file or directory" in err), (1, True))

    def test_a_value_commands_no_terminal(self) -> None:
        self.it.seen["packages"] = {"weighbridge\x1b[2J": "2\n\nLine 9, noted"}
        self.it.look()
        _, text, _ = self.ran("show", "--file", self.it.path)
        self.assertNotIn("\x1b", text)
        self.assertNotIn("\nLine 9, noted", text)

    def test_another_look_is_not_waited_for(self) -> None:
        handle = looking.locked(self.it.folder)
        assert handle is not None
        status, _, err = self.ran("collect", "--state", self.it.folder)
        os.close(handle)
        self.assertEqual((status, "another look runs" in err), (1, True))


if __name__ == "__main__":
    unittest.main()
