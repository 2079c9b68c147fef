"""Tests of what a look notes: each thing once, however often and late it is seen."""

import os
import unittest
from tempfile import TemporaryDirectory

from tests.played import (
    BOOT,
    CONF,
    CONVERTER,
    DIGEST,
    NEXT_BOOT,
    OTHER,
    START,
    TOP,
    Played,
)
from weighbridge_audit.deciding import BUSY, DAY, HOUR, JUMP, LATE, MOST_GROUPS, known_of, shown
from weighbridge_audit.saying import RUNNING, Message, event_of


class Looks(unittest.TestCase):
    def setUp(self) -> None:
        self.folder = TemporaryDirectory()
        self.addCleanup(self.folder.cleanup)
        self.it = Played(self.folder.name)

    def begun(self) -> Played:
        """Return a machine whose trail began a moment ago."""
        self.it.look()
        self.it.later()
        return self.it


class ThingsTest(Looks):
    def test_the_first_look_notes_all_that_is_there(self) -> None:
        events = self.it.look()
        self.assertEqual([it["event"] for it in events], ["begin", *["first"] * 6, "day"])
        self.assertEqual(
            [it["what"] for it in events if "what" in it],
            ["programs", "packages", CONF, "calibration", "zero", "journal"],
        )
        self.assertEqual(events[-1]["journal"], {"newest": 124, "digest": DIGEST})

    def test_a_look_without_news_adds_no_line(self) -> None:
        it = self.begun()
        data = it.data()
        for _ in range(5):
            self.assertEqual(it.look(), [])
            it.later()
        self.assertEqual(it.data(), data)

    def test_a_setup_that_changes_has_both_values_once(self) -> None:
        it = self.begun()
        it.seen[CONF] = {
            "changed": "2026-12-01T07:03:00Z",
            "sha256": "4" * 64,
            "--interval": "50",
            "--pace": "10",
        }
        (event,) = it.look()
        self.assertEqual(event["event"], "changed")
        self.assertEqual(event["before"]["--interval"], "20")
        self.assertEqual(
            event["after"],
            {
                "changed": "2026-12-01T07:03:00Z",
                "sha256": "4" * 64,
                "--interval": "50",
                "--pace": "10",
            },
        )
        self.assertEqual(event["after_look"], "2026-12-01T07:00:00Z")
        it.later()
        self.assertEqual(it.look(), [])
        it.seen[CONF] = {"changed": "2026-12-01T07:03:00Z", "sha256": "4" * 64, "--interval": "50"}
        (event,) = it.look()
        self.assertEqual((event["before"], event["after"]), ({"--pace": "10"}, {}))
        it.later()
        self.assertEqual(it.look(), [])

    def test_a_setup_that_is_removed_and_comes_back(self) -> None:
        it = self.begun()
        kept = it.seen.pop(CONF)
        (event,) = it.look()
        self.assertEqual((event["event"], event["what"], event["after"]), ("gone", CONF, None))
        it.later()
        self.assertEqual(it.look(), [])
        it.seen[CONF] = kept
        self.assertEqual(it.kinds(), ["back"])
        it.later()
        self.assertEqual(it.look(), [])

    def test_what_cannot_be_seen_is_said_once_with_its_reason(self) -> None:
        it = self.begun()
        kept = it.seen["calibration"]
        it.seen["calibration"] = "Permission denied"
        self.assertEqual(
            it.look(), [{"event": "unseen", "what": "calibration", "why": "Permission denied"}]
        )
        it.later()
        self.assertEqual(it.look(), [])
        it.seen["calibration"] = kept
        self.assertEqual(it.kinds(), ["seen"])
        it.later()
        it.seen["calibration"] = "Permission denied"
        it.look()
        it.seen["calibration"] = {"number": 4, "digest": "5" * 64}
        it.later()
        self.assertEqual(it.kinds(), ["changed"])
        it.later()
        self.assertEqual(it.look(), [])

    def test_zero_settings_calibrations_programs_and_versions_are_noted(self) -> None:
        it = self.begun()
        for what, now in (
            ("zero", {"tenths": 12, "set": "2026-12-01T07:04:00Z"}),
            ("zero", {"tenths": 12, "set": "2026-12-01T07:09:00Z"}),  # set again to the same load
            ("calibration", {"number": 4, "digest": "5" * 64}),
            ("programs", {"files": 40, "sha256": "6" * 64}),
            ("packages", {"weighbridge": "2.1.2"}),
            ("move", {"command": "continue", "copy": "2026-11-30T023512Z_sound_124_33258"}),
        ):
            it.seen[what] = now  # type: ignore[assignment]
            events = it.look()
            self.assertEqual([one.get("what") for one in events], [what], what)
            it.later()

    def test_things_that_have_no_room_are_noted_by_the_next_look(self) -> None:
        for number in range(40):
            it: dict[str, str | int] = {f"--option-{at}": "x" * 150 for at in range(20)}
            self.it.seen[f"setup /etc/weighbridge-{number}.conf"] = it
        self.it.look()
        for _ in range(30):
            self.it.later(HOUR)
            self.it.look()
        firsts = [one["what"] for one in self.it.events() if one["event"] == "first"]
        self.assertEqual(len(firsts), 46)
        self.assertEqual(len({*firsts}), 46)
        self.assertLess(max(one.size for one in self.it.trail().lines), 65_536)


class JournalTest(Looks):
    def test_weighings_are_no_event(self) -> None:
        it = self.begun()
        for number in range(125, 160):
            it.seen["journal"] = {"file": 7, "newest": number, "digest": f"{number:064x}"}
            self.assertEqual(it.look(), [])
            it.later()

    def test_an_older_journal_is_noted_even_if_the_day_has_no_line_yet(self) -> None:
        it = self.begun()
        it.seen["journal"] = {"file": 7, "newest": 130, "digest": OTHER}
        self.assertEqual(it.look(), [])
        it.later()
        it.seen["journal"] = {"file": 7, "newest": 126, "digest": "7" * 64}
        (event,) = it.look()
        self.assertEqual((event["before"]["newest"], event["after"]["newest"]), (130, 126))
        it.later()
        self.assertEqual(it.look(), [])

    def test_another_file_is_noted(self) -> None:
        it = self.begun()
        it.seen["journal"] = {"file": 8, "newest": 124, "digest": DIGEST}
        (event,) = it.look()
        self.assertEqual((event["before"], event["after"]), ({"file": 7}, {"file": 8}))

    def test_another_entry_under_the_newest_number_is_noted(self) -> None:
        it = self.begun()
        it.seen["journal"] = {"file": 7, "newest": 124, "digest": OTHER}
        (event,) = it.look()
        self.assertEqual(event["before"], {"digest": DIGEST})

    def test_a_start_writes_zeros_and_that_is_no_event(self) -> None:
        it = self.begun()
        it.seen["journal"] = {"file": 7, "newest": 124, "digest": "0" * 64}
        self.assertEqual(it.look(), [])

    def test_the_greatest_number_is_known_from_the_day_if_the_hint_is_lost(self) -> None:
        it = self.begun()
        it.seen["journal"] = {"file": 7, "newest": 300, "digest": OTHER}
        it.later(DAY)
        self.assertIn("day", it.kinds())
        os.unlink(f"{it.folder}/last.json")
        it.later()
        it.seen["journal"] = {"file": 7, "newest": 299, "digest": DIGEST}
        self.assertEqual(it.kinds(), ["changed"])


class ClockTest(Looks):
    def test_a_jump_is_noted_once_with_before_and_after(self) -> None:
        for jump in (JUMP + 1, -JUMP - 1, 3 * DAY, -3 * DAY):
            with self.subTest(jump), TemporaryDirectory() as folder:
                it = Played(folder)
                it.look()
                it.later()
                due = it.wall
                it.wall += jump
                (event,) = [one for one in it.look() if one["event"] == "clock"]
                self.assertEqual(
                    (event["before"], event["after"], event["jump"]),
                    (shown(due), shown(due + jump), jump),
                )
                it.later()
                self.assertNotIn("clock", it.kinds())

    def test_small_jumps_count_together(self) -> None:
        it = self.begun()
        kinds = []
        for _ in range(5):
            it.wall += 25
            kinds += it.kinds()
            it.later()
        self.assertEqual(kinds, ["clock"])

    def test_a_drift_within_a_minute_is_none(self) -> None:
        it = self.begun()
        it.wall += JUMP
        self.assertEqual(it.look(), [])

    def test_a_reboot_is_no_jump(self) -> None:
        it = self.begun()
        it.wall, it.up, it.boot = it.wall + 9 * HOUR, 60, NEXT_BOOT
        (event,) = it.look()
        self.assertEqual(event["event"], "boot")
        self.assertEqual(event["at"], shown(it.wall - 60))
        self.assertEqual(event["last_look"], "2026-12-01T07:00:00Z")
        it.later()
        self.assertEqual(it.look(), [])

    def test_a_clock_that_was_set_back_over_a_reboot_is_said(self) -> None:
        it = self.begun()
        it.wall, it.up, it.boot = it.wall - 400 * DAY, 60, NEXT_BOOT
        kinds = it.kinds()
        self.assertEqual(kinds[:2], ["boot", "clock"])

    def test_a_gap_is_said_with_its_length(self) -> None:
        it = self.begun()
        it.look()
        it.later(LATE + 1)
        (event,) = it.look()
        self.assertEqual((event["event"], event["seconds"]), ("gap", LATE + 1))
        it.later(LATE)
        self.assertEqual(it.look(), [])

    def test_a_gap_after_a_reboot(self) -> None:
        it = self.begun()
        it.wall, it.up, it.boot = it.wall + DAY // 2, LATE + 60, NEXT_BOOT
        self.assertEqual(it.kinds(), ["boot", "gap"])

    def test_a_lost_hint_is_no_gap_within_a_day(self) -> None:
        it = self.begun()
        it.later(DAY // 2)
        with open(f"{it.folder}/last.json", "w") as file:
            file.write("{]")
        self.assertEqual(it.look(), [])

    def test_a_day_has_a_line(self) -> None:
        it = self.begun()
        for _ in range(3 * 24):
            it.look()
            it.later(HOUR)
        days = [one for one in it.events() if one["event"] == "day"]
        self.assertEqual(len(days), 3)

    def test_a_wild_clock_ends_nothing(self) -> None:
        it = self.begun()
        for wall in (-5, 0, 10**12, 253_402_300_800, 1):
            it.wall = wall
            it.look()
            it.up += 300
        self.assertEqual(it.trail().faults, [])


class LogTest(Looks):
    def test_lines_are_read_once_whatever_looks_come_between(self) -> None:
        it = self.begun()
        it.say(START)
        it.say("office 127.0.0.1:40112: POST /purge: 200 PURGED 2 in 0 ms")
        events = it.look()
        self.assertEqual([one["event"] for one in events], ["start", "purge"])
        self.assertEqual(events[1]["result"], "200 PURGED 2")
        self.assertEqual(events[0]["setup"].split()[:2], ["--interval", "20"])
        self.assertEqual((events[0]["newest"], events[0]["digest"]), ("124", DIGEST))
        for _ in range(3):
            it.later()
            it.say("office 127.0.0.1:40112: GET /check: 200 SOUND 5 in 0 ms")
            self.assertEqual(it.look(), [])
        it.later()
        it.say(START)
        self.assertEqual(it.kinds(), ["start"])

    def test_what_was_said_before_the_first_look_is_read(self) -> None:
        self.it.say(START)
        self.assertIn("start", self.it.kinds())

    def test_a_lost_hint_doubles_nothing(self) -> None:
        it = self.begun()
        it.say(START)
        it.look()
        for _ in range(3):
            it.say("office 127.0.0.1:40112: accepted")
            it.look()
        with open(f"{it.folder}/last.json", "w") as file:
            file.write("")
        it.later()
        self.assertEqual(it.look(), [])
        self.assertEqual([one["event"] for one in it.events()].count("start"), 1)

    def test_an_old_hint_doubles_nothing(self) -> None:
        it = self.begun()
        it.look()
        with open(f"{it.folder}/last.json", encoding="utf-8") as file:
            old = file.read()
        it.say(START)
        it.look()
        with open(f"{it.folder}/last.json", "w", encoding="utf-8") as file:
            file.write(old)
        it.later()
        self.assertEqual(it.look(), [])

    def test_a_loop_of_starts_is_one_event_with_its_number(self) -> None:
        it = self.begun()
        for _ in range(500):
            it.say(START)
            it.say("converter fault")
            it.wall += 2
            it.up += 2
        events = it.look()
        self.assertEqual(
            [(one["event"], one["count"]) for one in events], [("start", 500), ("fault", 500)]
        )
        self.assertLess(events[0]["at"], events[0]["last"])

    def test_many_different_events_are_bounded_and_counted(self) -> None:
        it = self.begun()
        for number in range(MOST_GROUPS + 70):
            it.say(f"store {number} disk")
        events = it.look()
        self.assertEqual(len(events), MOST_GROUPS + 1)
        self.assertEqual(events[-1], {"event": "more", "count": 70, "kinds": "fault 70"})

    def test_a_log_that_lost_its_lines_is_said_once(self) -> None:
        it = self.begun()
        it.say(START)
        it.look()
        it.messages.clear()
        it.later()
        self.assertEqual(it.kinds(), ["log-lost"])
        it.later()
        self.assertEqual(it.look(), [])
        it.messages.append(Message(START, "weighbridge.service", it.wall, "c9"))
        it.later()
        self.assertEqual(it.kinds(), ["start"])
        it.later()
        self.assertEqual(it.look(), [])

    def test_a_log_that_cannot_be_read_is_said_and_nothing_is_skipped(self) -> None:
        it = self.begun()
        it.say("converter fault")
        it.look()
        it.later()
        it.no_log = "journalctl: No such file or directory"
        it.say(START)
        self.assertEqual(it.kinds(), ["unseen"])
        it.later()
        self.assertEqual(it.look(), [])
        it.no_log = None
        it.later()
        self.assertEqual(it.kinds(), ["seen", "start"])

    def test_a_flood_makes_the_looks_hourly_and_loses_nothing(self) -> None:
        it = self.begun()
        count = 0
        for number in range(60):
            for at in range(MOST_GROUPS):
                it.say(f"store {number * 100 + at} disk")
                count += 1
            it.look()
            it.later()
        it.later(HOUR - 300)
        it.look()
        lines = it.trail().lines
        self.assertLess(sum(one.size for one in lines), BUSY + 6 * 6_000)
        kinds = [one["event"] for one in it.events()]
        self.assertIn("busy", kinds)
        self.assertNotIn("gap", kinds)
        found = sum(one["count"] for one in it.events() if one["event"] in ("fault", "more"))
        self.assertEqual(found, count)


class GrowthTest(Looks):
    def a_day(self, it: Played, number: int) -> None:
        """Switch the machine on, weigh all day, set the zero three times, and purge."""
        it.wall, it.up, it.boot = it.wall + 12 * HOUR, 60, f"{number:032x}"
        for unit in RUNNING:
            it.say("Started", unit, "39f53479d3a045ac8e11786248231fbf")
        it.say(START)
        it.say(f"calibration 4, {DIGEST}", CONVERTER)
        it.say("office 127.0.0.1:1: POST /purge: 200 PURGED 40 in 3 ms")
        for at in range(3):
            it.seen["zero"] = {"tenths": at + number % 3, "set": shown(it.wall)}
            it.seen["journal"] = {"file": 7, "newest": 124 + number, "digest": f"{number:064x}"}
            it.look()
            it.later(3 * HOUR)
        for unit in RUNNING:
            it.say("Stopped", unit, "9d1aaa27d60140bd96365438aad20286")

    def test_a_year_of_a_bridge(self) -> None:
        self.it.look()
        before = len(self.it.data())
        for number in range(1, 11):
            self.a_day(self.it, number)
        self.assertLess((len(self.it.data()) - before) // 10 * 365, 1_500_000)


class SayingTest(unittest.TestCase):
    def event(
        self, text: str, unit: str = "weighbridge.service", number: str = "", **fields: str
    ) -> object:
        it = event_of(Message(text, unit, 0, "c1", number, fields))
        return it and it["event"]

    def test_each_form_of_the_sources(self) -> None:
        for text, unit, kind in (
            (START, "weighbridge.service", "start"),
            (START.replace(f"newest 124 {DIGEST}", "no entry"), "weighbridge.service", "start"),
            ("office 127.0.0.1:40112: POST /purge: 409 refused 13 not_cleared in 0 ms", "weighbridge.service", "purge"),
            ("office 127.0.0.1:40112: POST /purge: nothing in 12 ms", "weighbridge.service", "purge"),
            (
                "/var/lib/weighbridge/journal.db-zero: before this start zero was 2.4 kg above the calibration's, which is in force again; with the bridge empty, set zero at the terminal",
                "weighbridge.service", "zero-lost",
            ),
            (
                "/var/lib/weighbridge/journal.db-zero: the note of the zero isn't whole, as after a power cut; with the bridge empty, set zero at the terminal",
                "weighbridge.service", "zero-lost",
            ),
            (
                "/var/lib/weighbridge/journal.db: its newest entry is 5, but /var/lib/weighbridge/journal.db-newest recorded that 7 was answered. Entries whose tickets were given are missing. Keep all files: see troubleshooting.md, A journal that is behind",
                "weighbridge.service", "journal-behind",
            ),
            (
                "/var/lib/weighbridge/journal.db: entry 7 differs from the entry 7 that /var/lib/weighbridge/journal.db-newest recorded. It was replaced after its ticket was given. Keep all files: see troubleshooting.md, A journal that is behind",
                "weighbridge.service", "journal-replaced",
            ),
            (
                "/var/lib/weighbridge/journal.db: while it was served, it or its log was removed, replaced, cut or given a second name; nothing more is stored: see troubleshooting.md, Files that were touched",
                "weighbridge.service", "journal-touched",
            ),
            ("store 2 disk", "weighbridge.service", "fault"),
            ("weighbridge isn't started: /etc/weighbridge.conf has no WEIGHBRIDGE_SETUP", "weighbridge.service", "said"),
            (f"calibration 4, {DIGEST}", CONVERTER, "calibration-used"),
            ("calibration 4 isn't as it was made", CONVERTER, "fault"),
            ("check: failed: weighbridge check of this night's copy: DAMAGED 3", "weighbridge-night.service", "check-failed"),
        ):  # fmt: skip
            self.assertEqual(self.event(text, unit), kind, text)

    def test_the_forms_are_those_of_the_sources(self) -> None:
        """Compare the forms with the sources, so that a service with other words fails here and not at a bridge."""
        for path, words in (
            ("crates/weighbridge/src/start.rt", '"weighbridge {VERSION}, sources {SOURCES}, proved by {KIT}; "'),
            ("crates/weighbridge/src/start.rt", '"newest {} {}"'),
            ("crates/weighbridge/src/start.rt", '"; terminal {terminal}, office {office}, converter {converter}"'),
            ("crates/weighbridge/src/start.rt", '"start: {start}"'),
            ("crates/wb_journal_watch/src/zero_note.rt", "before this start zero was {kilograms}.{rest} kg {side} the calibration's, "),
            ("crates/wb_journal_watch/src/zero_note.rt", "the note of the zero isn't whole, "),
            ("crates/wb_file/src/witness.rt", ": its newest entry is {greatest}, but {path}{ENDING} recorded that {number} was answered. "),
            ("crates/wb_file/src/witness.rt", ": entry {number} differs from the entry {number} that {path}{ENDING} recorded. "),
            ("crates/wb_journal_watch/src/guarded.rt", ": while it was served, it or its log was removed, replaced, cut "),
            ("crates/weighbridge_converter/src/serving.rt", '"calibration {}, {}"'),
            ("packaging/weighbridge/serve", "weighbridge isn't started: $1"),
        ):  # fmt: skip
            self.assertIn(words, (TOP / path).read_text(encoding="utf-8"), path)

    def test_systemd_in_any_language(self) -> None:
        started, failed = "39f53479d3a045ac8e11786248231fbf", "d9b373ed55a64feb8242e02dbe79a49c"
        ended = "98e322203f7a4ed290d09fe03c09fe15"
        for text in (
            "Started weighbridge.service.",
            "weighbridge.service wurde gestartet.",
            "",
            "\x1b[2J",
        ):
            self.assertEqual(self.event(text, number=started), "unit-started")
            self.assertEqual(
                self.event(text, number=failed, UNIT_RESULT="exit-code"), "unit-failed"
            )
        self.assertEqual(self.event("x", number=ended, EXIT_STATUS="1"), "process-ended")
        self.assertIsNone(self.event("x", number=ended, EXIT_STATUS="0"))
        self.assertIsNone(self.event("x", "weighbridge-night.service", started))

    def test_no_line_of_a_weighing_gives_an_event(self) -> None:
        for text in (
            "office 127.0.0.1:40112: POST /weighings key K7abc-1: 201 WEIGHING SLIP 124 in 3 ms",
            "office 127.0.0.1:40112: GET /keys/K7abc-1: 404 refused 16 no_ticket in 0 ms",
            "terminal 127.0.0.1:5000: accepted",
            "start: of something else",
            "PLATE AB-12",
            "",
            "x" * 100_000,
        ):
            for unit in (
                "weighbridge.service",
                CONVERTER,
                "weighbridge-night.service",
                "ssh.service",
            ):
                self.assertIsNone(self.event(text, unit), text[:60])

    def test_a_purge_whose_answer_is_of_another_form_keeps_only_its_status(self) -> None:
        it = event_of(
            Message(
                "office 127.0.0.1:1: POST /purge key K9: 200 PLATE AB-12 in 0 ms",
                "weighbridge.service",
                0,
                "c1",
            )
        )
        self.assertEqual(it, {"event": "purge", "result": "200"})

    def test_free_words_lose_plates_keys_and_secrets(self) -> None:
        text = "weighbridge isn't started: plate AB-12 key K7abc password=hunter2 anna@example.com"
        it = event_of(Message(text, "weighbridge.service", 0, "c1"))
        for secret in ("AB-12", "K7abc", "hunter2", "anna"):
            self.assertNotIn(secret, repr(it))


class KnownTest(Looks):
    def test_what_is_known_is_what_the_lines_say(self) -> None:
        it = self.begun()
        it.seen["zero"] = {"tenths": 12, "set": "2026-12-01T07:04:00Z"}
        it.look()
        known = known_of(it.trail())
        self.assertEqual(known.things["zero"], it.seen["zero"])
        self.assertEqual(known.things["packages"], {"weighbridge": "2.1.1"})
        assert known.clock is not None
        self.assertEqual(known.clock.boot, BOOT)


if __name__ == "__main__":
    unittest.main()
