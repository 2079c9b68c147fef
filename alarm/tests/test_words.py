"""Shows the messages as people read them."""

import json
import os
import unittest
from datetime import datetime, timezone
from email import message_from_string
from email.policy import default

from tests.played import BEGIN, TOP, AlarmCase, receiver
from weighbridge_alarm.due import Due
from weighbridge_alarm.handing import Message, mail_of
from weighbridge_alarm.state import Known
from weighbridge_alarm.words import GSM, gsm, hook, mail, sms, subject


def known(name: str, about: str = "", detail: str = "") -> Known:
    return Known(name, about, detail, BEGIN, is_begun=True)


class WordsTest(AlarmCase):
    def test_a_mail(self) -> None:
        self.world.faults = ["terminal", "weight", "office", "papers"]
        self.world.more = {"state": {"link": "down"}}
        self.look(4)
        [it] = self.taken()
        self.assertEqual(it.subject, "WB01: NO VEHICLE CAN BE WEIGHED: Service down (+1 more)")
        lines = it.mail.splitlines()
        self.assertEqual(lines[0], "Weighbridge WB01, Monday 30 November 2026, 10:03")
        self.assertIn("NO VEHICLE CAN BE WEIGHED.", lines)
        self.assertIn("  Since 10:00 today.", lines)
        self.assertIn("  Details: the service doesn't run", lines)
        self.assertTrue(all(len(one) <= 72 for one in lines if "/usr/share" not in one))
        # what the missing service explains isn't named
        self.assertNotIn("The bridge shows no weight", it.mail)
        self.assertEqual(len(it.hook["faults"]), 4)
        self.assertEqual(
            it.sms,
            "WB01: NO WEIGHING. Service down since 10:00: restart the PC, bridge empty. Printer fails since 10:00.",
        )

    def test_the_end(self) -> None:
        self.world.faults = ["weight"]
        self.look(5)
        self.world.faults = []
        self.look(5)
        it = self.taken()[-1]
        self.assertEqual(it.subject, "WB01: Over: No weight")
        self.assertIn("* No weight: from 10:00 today until 10:05 today.", it.mail)
        self.assertIn("Nothing else is wrong.", it.mail)
        self.assertEqual(it.sms, "WB01: Over: No weight, 10:05.")
        [one] = it.hook["faults"]
        self.assertEqual((one["state"], one["until"]), ("ended", "2026-11-30T09:05:00Z"))

    def test_an_unknown_fault_has_its_own_name(self) -> None:
        self.world.faults = ["dust"]
        self.look(4)
        self.assertIn('The counter calls it "dust".', " ".join(self.taken()[0].mail.split()))
        self.assertIn("Unknown fault (dust)", self.taken()[0].sms)

    def test_an_sms_has_160_characters_of_its_alphabet(self) -> None:
        for count in (1, 2, 3, 5, 50):
            for name in ("night_check", "zero", "Ж" * 100, "x" * 120):
                due = Due([known(name, f"{it}", "é" * 300) for it in range(count)])
                due.silent_until = BEGIN if count == 3 else None
                text = sms("WB01", due, BEGIN)
                self.assertLessEqual(len(text), 160, text)
                self.assertTrue({*text} <= GSM, text)
        self.assertTrue(text.endswith("+49 more."), text)

    def test_an_sms_says_how_many_are_left_out(self) -> None:
        text = sms(
            "WB01", Due([known(it) for it in ("papers", "lists", "zero", "room", "clock")]), BEGIN
        )
        self.assertTrue(
            text.startswith("WB01: Printer fails since 10:00: check paper and cable. "), text
        )
        self.assertRegex(text, r"\. \+\d more\.$")

    def test_characters_of_an_sms(self) -> None:
        self.assertEqual(gsm("Äé^{}\n€x\u200b"), "Ae???\n?x?")

    def test_no_header_comes_from_outside(self) -> None:
        due = Due([known("a\r\nBcc: x@y.example", "b\nTo: z", "c\r\n.\r\nQUIT")])
        text = "a\r\n.\r\nBcc: x@y.example\n"
        it = Message("WB01: a\r\nBcc: x@y.example\n\nb", mail("WB01", due, BEGIN) + text, "", {})
        found = message_from_string(mail_of(receiver(), it, BEGIN, "abc"), policy=default)
        self.assertIsNone(found["Bcc"])
        self.assertEqual(found["To"], "owner@example.com")
        self.assertEqual(found["Message-ID"], "<abc@example.com>")
        self.assertEqual(found["Date"], "Mon, 30 Nov 2026 10:00:00 +0100")

    def test_letters_of_other_languages(self) -> None:
        it = Message("WB01: Grüße Ж", "Grüße Ж\n", "", {})
        text = mail_of(receiver(), it, BEGIN, "abc")
        self.assertTrue(text.isascii())
        found = message_from_string(text, policy=default)
        self.assertEqual(found["Subject"], "WB01: Grüße Ж")
        self.assertEqual(found.get_payload(decode=True), "Grüße Ж\n".encode())

    def test_a_webhook(self) -> None:
        it = hook("WB01", Due([known("zero")], [known("weight")]), BEGIN)
        self.assertEqual(
            (it["version"], it["bridge"], it["can_weigh"], it["at"]),
            (1, "WB01", False, "2026-11-30T09:00:00Z"),
        )
        self.assertEqual([one["state"] for one in it["faults"]], ["began", "lasts"])
        json.dumps(it)

    def test_the_page_shows_what_is_sent(self) -> None:
        with open(os.path.join(TOP, "docs", "operating.md"), encoding="utf-8") as file:
            page = file.read()
        new, old = known("weight"), known("papers")
        new.since = datetime(2026, 11, 30, 5, 52, tzinfo=timezone.utc)
        old.since = datetime(2026, 11, 29, 16, 10, tzinfo=timezone.utc)
        due, now = Due([new], [old]), datetime(2026, 11, 30, 5, 55, tzinfo=timezone.utc)
        self.assertIn(f"Subject: {subject('WB01', due)}\n\n{mail('WB01', due, now)}```", page)
        self.assertIn(f"```text\n{sms('WB01', due, now)}\n```", page)

    def test_subjects(self) -> None:
        old = known("papers")
        old.since = BEGIN.replace(year=2025)
        self.assertEqual(
            subject("WB01", Due([known("zero")], [old])), "WB01: Zero isn't set (+1 more)"
        )
        self.assertTrue(sms("WB01", Due([known("zero")], [old]), BEGIN).startswith("WB01: Zero"))
        self.assertIn(": No weight (+1", subject("WB01", Due([old], [known("weight")])))
        self.assertIn("JOURNAL MAY", subject("WB01", Due([old, known("night_check")])))
        self.assertEqual(
            subject("WB01", Due([], [known("zero")])), "WB01: Still wrong: Zero isn't set"
        )
        self.assertEqual(subject("WB01", Due([known("zero")])), "WB01: Zero isn't set")


if __name__ == "__main__":
    unittest.main()
