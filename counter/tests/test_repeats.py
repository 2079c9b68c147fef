"""The counter says that an answer is repeated, or new, only where it knows it."""

import datetime
import unittest

from weighbridge_counter.lists import Lists
from weighbridge_counter.repeats import MOST, Known, Repeats
from weighbridge_paper.text import read_text

from .papers import USUAL
from .test_cursor import ROWS
from .test_journal import BERLIN
from .test_lists import export

TEXT = next(it.text for it in USUAL.values() if "SINGLE" in it.text)
OWN = read_text(TEXT).own
NEXT = Known(None, OWN.number - 1)


class Answers(unittest.TestCase):
    def setUp(self) -> None:
        self.known, self.now = NEXT, OWN.at
        self.repeats = Repeats(lambda key: self.known, lambda: self.now)

    def answered(self, key: str = "K1", letters: str = TEXT) -> bool | None:
        return self.repeats.answered(key, self.repeats.sends(key), letters)

    def test_the_next_entry_is_new(self) -> None:
        self.assertIs(False, self.answered())
        self.now = OWN.at + datetime.timedelta(microseconds=999_999)
        self.assertIs(False, self.answered())

    def test_a_known_entry_was_given(self) -> None:
        self.known = Known(OWN.digest, OWN.number)
        self.assertIs(True, self.answered())
        self.known = Known(OWN.digest, None)
        self.assertIs(True, self.answered())

    def test_an_entry_of_the_key_with_another_digest_is_of_another_journal(self) -> None:
        self.known = Known("0" * 64, OWN.number)
        self.assertIsNone(self.answered())

    def test_any_other_number_is_not_known(self) -> None:
        for newest in (None, OWN.number, OWN.number - 2, OWN.number + 1, 0):
            self.known = Known(None, newest)
            self.assertIsNone(self.answered(), newest)

    def test_an_entry_older_than_the_request_is_not_known(self) -> None:
        self.now = OWN.at + datetime.timedelta(seconds=1)
        self.assertIsNone(self.answered())

    def test_after_a_sending_without_an_answer_nobody_knows(self) -> None:
        self.repeats.sends("K1")
        self.assertIsNone(self.answered())
        self.assertIs(False, self.answered("K2"))
        self.assertIs(False, self.answered(), "its answer came")

    def test_a_refusal_is_new_and_removes_only_its_own_note(self) -> None:
        self.assertIs(False, self.repeats.refused("K1", self.repeats.sends("K1")))
        self.assertIs(False, self.answered())
        self.repeats.sends("K1")
        self.assertIs(False, self.repeats.refused("K1", self.repeats.sends("K1")))
        self.assertIsNone(self.answered())

    def test_what_is_no_text_is_not_known(self) -> None:
        for letters in ("", "WEIGHING SLIP 1\n", TEXT[:-1]):
            self.assertIsNone(self.answered("K1", letters))
        self.assertIsNone(self.answered())

    def test_the_keys_without_an_answer_are_bounded(self) -> None:
        for number in range(MOST):
            self.repeats.sends(f"K{number}")
        self.assertIs(False, self.answered("new"))
        self.repeats.sends("one more")
        self.assertEqual(MOST, len(self.repeats.unanswered))
        self.assertIsNone(self.answered("K0"), "it was dropped")
        self.assertIsNone(self.answered("another"), "it may have been dropped")


class Keys(unittest.TestCase):
    def test_the_number_of_a_key_is_that_of_its_row_or_text(self) -> None:
        lists = Lists.of_export(BERLIN, export(*ROWS))
        for number in range(1, 8):
            self.assertEqual(number, lists.number_of_key(f"K{number}"))
        self.assertIsNone(lists.number_of_key("K8"))
        lists.passed(read_text(TEXT), 1, "passed")
        self.assertEqual(OWN.number, lists.number_of_key("passed"))
        lists.passed(read_text(TEXT), 2, "")
        self.assertIsNone(lists.number_of_key(""))
        other = Lists.of_export(BERLIN, export(*ROWS))
        other.with_texts_of(lists)
        self.assertEqual(5, other.number_of_key("K5"))


if __name__ == "__main__":
    unittest.main()
