"""The office's text is taken if it is one, and refused if a letter of it is another; what stands on paper is made of it."""

import datetime
import unittest
import zoneinfo
from collections.abc import Mapping

from weighbridge_paper import catalogue, layout, words
from weighbridge_paper.text import NoText, check_digests, read_text

from .papers import KINDS, LONGEST, USUAL, Sample

BERLIN = zoneinfo.ZoneInfo("Europe/Berlin")
ALL = [*USUAL.values(), *LONGEST.values()]
# The ticket of docs/formats.md.
TICKET = """WEIGHING TICKET 2
PLATE AB-12
FIRST NO 1
AT 2025-03-10 08:00:00
G      18340 kg
E 20 kg MAX 60000 kg SERIAL WB01
DIGEST a982a0aaef75f8622de6a96ef3a1d8ddd9de4bd18d9cda420eeb00dfbfcfa68c
SECOND NO 2
AT 2025-03-10 09:30:00
G       8140 kg
E 20 kg MAX 60000 kg SERIAL WB01
DIGEST b3b5f9b7b253a32759e7f7696c8248ad2d85333673358587ad599ef71b8e7d3e
N      10200 kg
"""


def other(letter: str) -> str:
    return (
        "7"
        if letter == "8"
        else "8"
        if letter.isdigit()
        else "\n"
        if letter == " "
        else "a"
        if letter == "b"
        else "b"
    )


def is_taken(sample: Sample, changed: str) -> bool:
    """Return whether a text is accepted without a word about its digests."""
    try:
        return check_digests(read_text(changed), sample.keys, sample.digests) == []
    except NoText:
        return False


class TheText(unittest.TestCase):
    def test_each_kind_is_read(self) -> None:
        for it in ALL:
            text = read_text(it.text)
            self.assertEqual(
                (it.text, it.plate, it.kind, it.number),
                (text.letters, text.plate, text.own.kind, text.own.number),
            )
            self.assertEqual([], check_digests(text, it.keys, it.digests))
        self.assertEqual(
            [10200, 9999998], [read_text(it["second"].text).net for it in (USUAL, LONGEST)]
        )

    def test_a_pair_that_leaves_loaded_has_its_net_too(self) -> None:
        for first, own, net in ((8140, 18340, 10200), (18340, 8140, 10200), (9000, 9000, 0)):
            self.assertEqual(net, read_text(Sample("second", first=first, own=own).text).net)

    def test_that_of_the_formats_page_by_its_keys_alone(self) -> None:
        self.assertEqual([], check_digests(read_text(TICKET), {1: "K1", 2: "K2"}, {}))

    def test_each_single_letter_that_is_another_one_is_refused(self) -> None:
        count = 0
        for it in ALL:
            for at, letter in enumerate(it.text):
                self.assertFalse(
                    is_taken(it, it.text[:at] + other(letter) + it.text[at + 1 :]),
                    f"{it.kind}: letter {at}",
                )
                count += 1
        self.assertGreater(count, 2000)

    def test_each_single_letter_more_or_less_is_refused(self) -> None:
        for it in ALL:
            for at in range(len(it.text)):
                for changed in (
                    it.text[:at] + it.text[at + 1 :],
                    it.text[:at] + it.text[at] + it.text[at:],
                ):
                    self.assertFalse(is_taken(it, changed), f"{it.kind}: letter {at}")

    def test_a_line_more_or_less_or_elsewhere_is_refused_by_its_form(self) -> None:
        for it in ALL:
            lines = it.text.removesuffix("\n").split("\n")
            for at, line in enumerate(lines):
                for changed in (
                    lines[:at] + lines[at + 1 :],
                    lines[:at] + [line] + lines[at:],
                    lines[:at] + ["PAID"] + lines[at:],
                ):
                    with self.assertRaises(NoText, msg=f"{it.kind}: line {at}"):
                        read_text("\n".join(changed) + "\n")

    def test_what_is_none(self) -> None:
        for changed in (
            "",
            "refused 7 unstable\n",
            TICKET.replace("\n", "\r\n"),
            TICKET[:-1],
            TICKET + "\n",
            TICKET * 2,
            "\ufeff" + TICKET,
            "x" * 600,
        ):
            with self.assertRaises(NoText):
                read_text(changed)

    def test_weights_that_no_service_stores(self) -> None:
        rows = [
            (
                TICKET.replace("8140", "8141").replace("10200", "10199"),
                "no multiple of its interval",
            ),
            (TICKET.replace("N      10200", "N      10220"), "its weights give 10200 kg"),
            (TICKET.replace("FIRST NO 1", "FIRST NO 3"), "its First doesn't stand before it"),
            (
                TICKET.replace("2025-03-10 08:00:00", "2025-03-11 08:00:00"),
                "its First doesn't stand before it",
            ),
            (TICKET.replace("E 20 kg", "E 3 kg"), "interval, Max or moment"),
            (TICKET.replace("MAX 60000", "MAX 600000"), "interval, Max or moment"),
            (TICKET.replace("03-10", "02-30"), "no such moment"),
            (TICKET.replace("N      10200", "N 1     0200"), "no such weight"),
            (TICKET.replace("G       8140", "G           "), "no such weight"),
            (TICKET.replace("TICKET 2", "TICKET 3"), "line 1 is 'WEIGHING TICKET 3'"),
            (
                USUAL["single"].text.replace("18340", " 8140").replace("10200", "    0"),
                "isn't below its gross",
            ),
        ]
        for changed, wanted in rows:
            with self.assertRaises(NoText) as caught:
                read_text(changed)
            self.assertIn(wanted, str(caught.exception))

    def test_where_a_digest_can_not_be_made_again_it_is_said(self) -> None:
        far = Sample("second", number=9)
        rows: list[tuple[Mapping[int, str], Mapping[int, str], list[str]]] = [
            (
                {},
                {},
                ["number 8 can't be made again: its key", "number 9 can't be made again: its key"],
            ),
            ({9: "K2"}, {}, ["number 8 can't be made again: its key"]),
            (far.keys, {}, ["number 8 can't be made again: that of number 7"]),
            (far.keys, far.digests, []),
        ]
        for keys, digests, wanted in rows:
            said = check_digests(read_text(far.text), keys, digests)
            self.assertEqual(len(wanted), len(said))
            for one, part in zip(said, wanted):
                self.assertIn(part, one)

    def test_another_key_or_digest_before_is_refused(self) -> None:
        it = USUAL["second"]
        rows: tuple[tuple[dict[int, str], dict[int, str]], ...] = (
            (it.keys | {2: "K3"}, {}),
            (it.keys, {1: "3" * 64}),
            ({}, {2: "3" * 64}),
        )
        for keys, digests in rows:
            with self.assertRaises(NoText):
                check_digests(read_text(it.text), keys, digests)


class TheLayout(unittest.TestCase):
    def blocks(
        self, sample: Sample, language: str = "en", is_original: bool = True, **given: str
    ) -> list[layout.Block]:
        template = layout.Template(("Kieswerk",), ("Thanks",), language, BERLIN)
        return layout.blocks_of(
            layout.Paper(read_text(sample.text), layout.given_of(given), is_original), template
        )

    def test_what_is_large_is_of_the_legal_text_alone(self) -> None:
        for language in words.LANGUAGES:
            for it in ALL:
                made = self.blocks(it, language, goods="LARGE 9,999 kg", driver="X")
                text = read_text(it.text)
                kind = words.word("ticket" if text.is_ticket else "slip", language)
                shown = text.net if text.net is not None else text.own.gross
                wanted = [f"{kind} {it.number}", it.plate] + (
                    [] if shown is None else [words.kg(shown, language)]
                )
                self.assertEqual(
                    wanted,
                    [
                        it.text
                        for it in made
                        if isinstance(it, layout.Line) and it.look in ("title", "large")
                    ],
                )

    def test_a_further_print_is_marked_at_both_ends_and_an_original_nowhere(self) -> None:
        for kind, mark in (
            ("first", "COPY"),
            ("second", "DUPLICATE"),
            ("single", "DUPLICATE"),
            ("void", "DUPLICATE"),
        ):
            made = self.blocks(USUAL[kind], is_original=False)
            self.assertEqual((layout.Mark(mark), layout.Mark(mark)), (made[0], made[-1]))
            self.assertEqual(
                [], [it for it in self.blocks(USUAL[kind]) if isinstance(it, layout.Mark)]
            )
        self.assertEqual(
            layout.Mark("DUPLIKAT · DUPLICATE"), self.blocks(USUAL["void"], "de", False)[0]
        )

    def test_a_played_paper_says_so_at_both_ends_and_a_true_one_nowhere(self) -> None:
        for serial, is_original in (("DEMO", True), ("DEMO", False), ("WB01", True)):
            made = self.blocks(Sample("single", serial=serial), is_original=is_original)
            half = len(made) // 2
            for blocks in (made[:half], made[half:]):
                self.assertEqual(serial == "DEMO", layout.Mark("DEMO") in blocks, serial)

    def test_the_legal_text_is_wrapped_between_characters_and_put_together_again(self) -> None:
        for it in ALL:
            for columns in range(30, 97):
                lines = layout.wrapped(it.text, columns)
                self.assertEqual(it.text, layout.joined(lines))
                self.assertLessEqual(max(map(len, lines)), columns)

    def test_free_lines_are_one_line_each_and_harmless(self) -> None:
        given = layout.given_of(
            {"goods": "  Kies\n0/16\x1b@ ", "order": "", "driver": "x" * 99, "key": "K1"}
        )
        self.assertEqual((("goods", "Kies 0/16 @"), ("driver", "x" * 60)), given)
        given = layout.given_of({"goods": "N" + "\u0335\u0336" * 29, "driver": "Zu\u0308rich"})
        self.assertEqual((("goods", "N\u0335\u0336"), ("driver", "Zürich")), given)

    def test_numbers_and_moments_as_the_language_writes_them(self) -> None:
        self.assertEqual(
            ["9,999,999 kg", "9.999.999 kg", "9\u202f999\u202f999 kg", "9.999.999 kg"],
            [words.kg(9999999, it) for it in words.LANGUAGES],
        )
        at = datetime.datetime(2025, 10, 26, 0, 30, tzinfo=datetime.timezone.utc)
        self.assertEqual("26 Oct 2025 02:30:00 CEST +02:00", words.local(at, BERLIN, "en"))
        self.assertEqual(
            "26.10.2025 02:30:00 CET +01:00",
            words.local(at + datetime.timedelta(hours=1), BERLIN, "de"),
        )
        self.assertEqual(
            "26/10/2025 06:15:00 +05:45", words.local(at, zoneinfo.ZoneInfo("Asia/Kathmandu"), "fr")
        )
        self.assertEqual("2025-10-26 00:30:00 UTC", words.utc(at))

    def test_each_word_is_in_each_language(self) -> None:
        keys = set(catalogue.read(catalogue.FOLDER / "en.json")) - {"name", "place"}
        self.assertLess({"slip", "ticket", "given_by_clerk", "legal_text", "copy"}, keys)
        for key in keys:
            them = [words.word(key, it) for it in words.LANGUAGES]
            self.assertEqual((4, True), (len(them), all(it.strip() for it in them)), key)


class Kinds(unittest.TestCase):
    def test_the_samples_have_each_kind(self) -> None:
        self.assertEqual(
            ["SLIP", "TICKET", "TICKET", "SLIP"], [USUAL[it].text.split()[1] for it in KINDS]
        )
        self.assertEqual(415, max(len(it.text) for it in ALL))


if __name__ == "__main__":
    unittest.main()
