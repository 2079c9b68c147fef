"""The catalogues: what the page and the paper ask for, what each language has, and what an operator's own language shows."""

import ast
import contextlib
import datetime
import inspect
import io
import json
import re
import shutil
import tempfile
import unittest
import zoneinfo
from dataclasses import fields
from pathlib import Path
from typing import Any
from unittest import mock

from weighbridge_counter import __main__ as command
from weighbridge_counter import journal
from weighbridge_counter.counter import Counter
from weighbridge_counter.lists import Lists
from weighbridge_counter.papers import SHOWN
from weighbridge_counter.setup import gaps_of, languages
from weighbridge_counter.today import Sums, direction_of
from weighbridge_paper import catalogue, devices, words
from weighbridge_paper.printers import read_papers
from weighbridge_paper.reader import SetupFault

from .papers import KINDS

COUNTER = Path(__file__).resolve().parent.parent
WEB = COUNTER / "web"
ALL = {it: catalogue.read(catalogue.FOLDER / f"{it}.json") for it in words.LANGUAGES}
ENGLISH = ALL["en"]
SCRIPTS = {it.name: it.read_text() for it in sorted(WEB.glob("*.js"))}
PAGE = (WEB / "index.html").read_text()
PAPER = [COUNTER / "weighbridge_paper" / it for it in ("layout.py", "printing.py", "words.py")]
WORDS_AT = {"t": [0], "has": [0], "rows": [0], "tell": [1, 4], "wait": [1, 3], "answerTo": [3]}
OF_THE_FILE = {"name", "place"}  # of the language itself: its name, and how numbers are written
IN_VARIABLES: dict[str, set[str]] = {
    "kind": {"slip", "ticket"},
    "name": set(words.FREE_LINES),
    "key": set(),
}


def expressions_from(text: str, at: int) -> list[str]:
    """Return the expressions of a script from a place to the bracket that closes them, or to the end of the statement."""
    depth, made = 0, [""]
    while depth >= 0 and not (depth == 0 and text[at] in ";\n"):
        depth += (text[at] in "([{") - (text[at] in ")]}")
        if text[at] == "," and depth == 0:
            made.append("")
        elif depth >= 0:
            made[-1] += text[at]
        at += 1
    return [it.strip() for it in made]


def arguments_of(text: str, name: str) -> list[list[str]]:
    """Return the arguments of each call of a function in a script, as text."""
    calls = re.finditer(rf"(?:(?<=\.\.\.)|(?<![\w.])){name}\(", text)
    return [expressions_from(text, it.end()) for it in calls]


def literals_in(argument: str) -> set[str]:
    """Return the texts that an expression may have as its value."""
    return set(
        re.findall(r"'(\w+)'", re.sub(r"[!=]==\s*'[^']*'|(?<=[{,])\s*'[^']*'\s*:", "", argument))
    )


def prefixes_in(argument: str) -> set[str]:
    return set(re.findall(r"`(\w+_)\$\{", argument))


def of_each(pattern: str, text: str | None = None) -> set[str]:
    return set(re.findall(pattern, "\n".join(SCRIPTS.values()) if text is None else text))


def asked_by_the_page() -> tuple[set[str], set[str]]:
    """Return the keys that the scripts and the page name, and the prefixes of those that they compose."""
    keys, prefixes = of_each(r'data-(?:word|label|region)="(\w+)"', PAGE), set()
    for text in SCRIPTS.values():
        found = [
            expressions_from(text, it.end())[0]
            for it in re.finditer(r"\b(?:word|choice)(?::| =) ", text)
        ]
        for name, places in WORDS_AT.items():
            for them in arguments_of(text, name):
                found += [them[at] for at in places if at < len(them)]
        for it in found:
            keys |= literals_in(it)
            prefixes |= prefixes_in(it)
    keys |= of_each(r"\['(?:ok|wait|bad)', '(\w+)'\]")
    for choices in of_each(r"choices: \[([^\]]*)\]"):
        keys |= literals_in(choices)
    return keys, prefixes


def composed() -> dict[str, set[str]]:
    """Return the ends of the keys that are composed, by their prefix, from the code that makes them."""
    acts = (COUNTER / "weighbridge_counter" / "acts.py").read_text()
    routes = (COUNTER / "weighbridge_counter" / "routes.py").read_text()
    refusals = (COUNTER.parent / "clients" / "refusals.txt").read_text()
    known = SCRIPTS["known.js"]
    link = inspect.getsource(Counter.link)
    return {
        "weigh_": of_each(r"kind: '(\w+)'", SCRIPTS["guide.js"]),
        "kind_": set(KINDS),
        "journal_": set(journal.WORDS),
        "trouble_": set(devices.TROUBLES),
        "job_": set(SHOWN),
        "sum_": {it.name for it in fields(Sums) if it.name.startswith("net_")},
        "way_": of_each(r'"(in|out)" if', inspect.getsource(direction_of)),
        "from_": of_each(r'Found\(200, [\w.]+, "(\w+)"\)', routes)
        | of_each(r', "(\w+)"\n', inspect.getsource(Lists.slip_again)),
        "refused_": {
            it for it in of_each(r"(?m)^(\d+) ", refusals) if int(it) < 400 or it == "422"
        },
        "counter_": of_each(r'not_sent\(\d+, "(\w+)"\)', acts + routes),
        "link_": (of_each(r'"(\w+)"', link) | of_each(r"return '(\w+)'", known)) - {"up"},
    }


def asked_by_the_paper() -> tuple[set[str], set[str]]:
    """Return the keys that the paper's code names, and the prefixes of those that it composes."""
    keys: set[str] = set()
    prefixes: set[str] = set()
    for path in PAPER:
        for node in ast.walk(ast.parse(path.read_text())):
            if not isinstance(node, ast.Call):
                continue
            name = getattr(node.func, "attr", getattr(node.func, "id", ""))
            if name not in ("word", "mark") or not node.args:
                continue
            argument = node.args[0]
            if isinstance(argument, ast.Name):
                keys |= IN_VARIABLES[argument.id]
            elif isinstance(argument, ast.JoinedStr):
                prefixes.add(ast.literal_eval(argument.values[0]))
            else:
                of = [argument.body, argument.orelse] if isinstance(argument, ast.IfExp) else None
                keys |= {ast.literal_eval(it) for it in of or [argument]}
    return keys, prefixes


class TheKeys(unittest.TestCase):
    def test_each_key_that_is_asked_for_is_in_english(self) -> None:
        for who, (keys, prefixes) in (
            ("the page", asked_by_the_page()),
            ("the paper", asked_by_the_paper()),
        ):
            self.assertGreater(len(keys), 10, who)
            self.assertEqual(set(), keys - set(ENGLISH), who)
            self.assertEqual(set(), prefixes - set(composed()), f"{who}: prefixes")

    def test_each_key_that_is_composed_is_in_english(self) -> None:
        for prefix, ends in composed().items():
            self.assertEqual(ends, {it.strip() for it in ends if it}, prefix)
            self.assertGreater(len(ends), 1, prefix)
            self.assertEqual(set(), {prefix + it for it in ends} - set(ENGLISH))

    def test_each_key_is_used(self) -> None:
        (of_page, _), (of_paper, _) = asked_by_the_page(), asked_by_the_paper()
        used = of_page | of_paper | OF_THE_FILE
        used |= {prefix + it for prefix, ends in composed().items() for it in ends}
        used |= {f"{it}_more" for it in used}
        self.assertEqual(set(), set(ENGLISH) - used)

    def test_the_page_gives_the_values_that_the_words_name(self) -> None:
        count = 0
        for name, text in SCRIPTS.items():
            for key, *rest in arguments_of(text, "t"):
                names = of_each(r"\{(\w+)\}", catalogue.text_of(ENGLISH.get(key.strip("'"), "")))
                if not re.fullmatch(r"'\w+'", key) or (rest and not rest[0].startswith("{")):
                    continue
                given = ", ".join(rest).strip("{ }")
                while (flat := re.sub(r"\([^()]*\)|\{[^{}]*\}|\? [^,]*", "", given)) != given:
                    given = flat
                there = set(re.findall(r"(?:^|, )(\w+)", given))
                self.assertEqual(names, there, f"{name}: {key}")
                count += 1
        self.assertGreater(count, 40)


class TheLanguages(unittest.TestCase):
    def test_each_has_all_keys_and_no_other(self) -> None:
        self.assertEqual(words.SHIPPED, words.LANGUAGES)
        for language, them in ALL.items():
            self.assertEqual([], catalogue.missing(them, ENGLISH), language)
            self.assertEqual(set(), set(them) - set(ENGLISH), language)

    def test_each_has_the_placeholders_of_english_in_each_form(self) -> None:
        for language, them in ALL.items():
            self.assertEqual([], catalogue.misfits(them, ENGLISH), language)

    def test_what_is_counted_has_one_and_other_in_each(self) -> None:
        counted = {key for key, it in ENGLISH.items() if not isinstance(it, str)}
        self.assertLess({"tickets", "keep_it", "days", "weighings_left", "papers_wait"}, counted)
        for language, them in ALL.items():
            for key, it in them.items():
                forms = set() if isinstance(it, str) else set(it)
                self.assertEqual(
                    {"one", "other"} if key in counted else set(), forms, (language, key)
                )
                if not isinstance(it, str) and language != "de":
                    self.assertNotEqual(it["one"], it["other"], (language, key))

    def test_one_word_names_one_thing(self) -> None:
        """Words that the clerk's page or the paper had for the same thing, or that no clerk says."""
        gone = {
            "en": r"\boffice\b|This is no\b|[Nn]othing waits|over since|\bplayed\b|by itself",
            "de": r"Wiegebeleg|Schalter|Büro|\bSTEHT\b|Null ist|gemerkt|zurückz|Rücknahme|rufen|So drucken",
            "fr": r"[Bb]alance|[Pp]ressez|[Tt]ouchez|guichet|bureau|[Pp]laque|[Rr]etir|non mis|opérateur|'",
            "es": r"[Bb]ajo cero|[Dd]iario|[Vv]entanilla|[Oo]ficina|[Rr]etir|[Ff]ichero|Llame al operador|[Vv]ale\b|Boletín",
        }
        for language, pattern in gone.items():
            for key, it in ALL[language].items():
                for text in catalogue.forms_of(it):
                    self.assertNotRegex(text, pattern, f"{language}: {key}")


class OfAnOperator(unittest.TestCase):
    """A folder with English and a language that an operator adds."""

    def setUp(self) -> None:
        self.top = Path(self.enterContext(tempfile.TemporaryDirectory()))
        self.folder = self.top / "web" / "lang"
        self.folder.mkdir(parents=True)
        shutil.copy(catalogue.FOLDER / "en.json", self.folder)

    def write(self, text: dict[str, Any] | str, name: str = "it") -> None:
        self.path = self.folder / f"{name}.json"
        self.path.write_text(text if isinstance(text, str) else json.dumps(text), encoding="utf-8")
        words.catalogue_of.cache_clear()

    def whole(self, **more: Any) -> dict[str, Any]:
        return {**ENGLISH, "name": "Italiano", "place": "it-IT", **more}

    def word(self, key: str) -> str:
        return words.word(key, "it", self.folder)

    def check(self) -> tuple[int, str]:
        """Run --check over this folder. Return its status, and what it prints on standard error."""
        setup = self.top / "counter.toml"
        setup.write_text(f'state = "{self.top}"\n')
        said = io.StringIO()
        with mock.patch.object(command, "FOLDER", self.top), contextlib.redirect_stderr(said):
            with contextlib.redirect_stdout(io.StringIO()):
                status = command.main(["--check", str(setup)])
        return status, said.getvalue()

    def test_a_language_is_a_file_and_comes_after_those_of_the_package(self) -> None:
        self.write(self.whole())
        self.assertEqual(("en", "it"), words.languages_in(self.folder))

    def test_the_paper_shows_english_for_what_is_missing_empty_or_misfits(self) -> None:
        self.write({"name": "Italiano", "slip": "Bolletta", "ticket": " ", "plate": "Targa {kg}"})
        self.assertEqual(
            ["Bolletta", "Ticket", "Plate", "Driver"],
            [self.word(it) for it in ("slip", "ticket", "plate", "driver")],
        )

    def test_a_paper_has_the_plural_form_for_other(self) -> None:
        self.write(self.whole(driver={"one": "Autista", "other": "Autisti"}))
        self.assertEqual("Autisti", self.word("driver"))

    def test_a_mark_is_in_the_language_and_in_english(self) -> None:
        self.write({"name": "Italiano", "copy": "COPIA"})
        marks = [words.mark(it, "it", self.folder) for it in ("copy", "duplicate")]
        self.assertEqual(["COPIA · COPY", "DUPLICATE"], marks)

    def test_numbers_and_days_that_nobody_misreads(self) -> None:
        at = datetime.datetime(2025, 10, 6, 0, 30, tzinfo=datetime.timezone.utc)
        self.assertEqual("9\u202f000 kg", words.kg(9000, "it"))
        self.assertEqual(
            "2025-10-06 00:30:00 UTC +00:00", words.local(at, zoneinfo.ZoneInfo("UTC"), "it")
        )

    def test_a_whole_one_is_in_order(self) -> None:
        self.write(self.whole())
        self.assertEqual((0, ""), self.check())

    def test_check_names_missing_keys_and_their_count_as_a_warning(self) -> None:
        self.write(
            {key: it for key, it in self.whole(copy="").items() if not key.startswith("job_")}
        )
        self.assertEqual(
            (
                0,
                f"weighbridge-counter: warning: {self.path}: 4 keys are missing (job_waits, job_begun, job_failed, ..), "
                "so English is shown there; translate what en.json has\n",
            ),
            self.check(),
        )
        self.write({key: it for key, it in self.whole().items() if key != "tickets"})
        self.assertIn(": 1 key is missing (tickets), so", self.check()[1])

    def test_check_refuses_other_placeholders(self) -> None:
        for key, it in (
            ("off_zero", "Vuota: {chili}"),
            ("off_zero", "Vuota"),
            ("empty", "Vuota {kg}"),
            ("tickets", {"one": "un biglietto", "other": "{number} biglietti"}),
        ):
            self.write(self.whole(**{key: it}))
            status, said = self.check()
            self.assertEqual(1, status, it)
            self.assertIn(
                f"{self.path}: 1 key has other names in braces than en.json ({key}), so", said
            )

    def test_check_refuses_a_file_that_cannot_be_used(self) -> None:
        rows: tuple[tuple[dict[str, Any] | str, str], ...] = (
            ("{", "Expecting property name"),
            ("[]", "name is missing"),
            ({"place": "it-IT"}, "name is missing"),
            (self.whole(copy=5), "copy is neither a text nor"),
            (self.whole(days={"one": "{number} giorno"}), "days is neither a text nor"),
            (self.whole(days={"otehr": "", "other": ""}), "days is neither a text nor"),
            (self.whole(place="Italy!"), "place is no language tag"),
        )
        for text, why in rows:
            self.write(text)
            status, said = self.check()
            self.assertEqual(2, status, why)
            self.assertIn(
                f"weighbridge-counter: {self.path}: it is no file of words, because ", said
            )
            self.assertIn(why, said)
            self.assertIn("compare it with en.json", said)

    def test_each_file_that_cannot_be_used_is_named(self) -> None:
        self.write("{", "it")
        self.write("{", "pl")
        with self.assertRaises(SetupFault) as caught:
            languages(self.top / "web")
        self.assertEqual(2, len(caught.exception.mistakes))

    def test_without_english_nothing_can_be_compared(self) -> None:
        self.write(self.whole())
        (self.folder / "en.json").unlink()
        with self.assertRaisesRegex(SetupFault, "en.json: it is no file of words"):
            gaps_of(self.top / "web", ["it"])

    def test_a_setup_of_printers_is_refused_with_a_broken_language_or_broken_english(self) -> None:
        for name in ("it", "en"):
            self.write(self.whole())
            self.write("{", name)
            self.refuses_printers(name)

    def refuses_printers(self, name: str) -> None:
        setup = self.top / "paper.toml"
        setup.write_text(
            'spool = "/tmp/x"\nlanguage = "it"\n[[printer]]\nname = "yard"\nto = "usb:/dev/usb/lp0"\n'
        )

        def fault_of(language: str) -> str | None:
            return words.fault_of(language, self.folder)

        with mock.patch("weighbridge_paper.printers.LANGUAGES", ("en", "it")), mock.patch(
            "weighbridge_paper.printers.fault_of", fault_of
        ):
            with self.assertRaises(SetupFault) as caught:
                read_papers(setup)
        fault = f": language: {self.folder}/{name}.json: it is no file of words"
        self.assertEqual([True], [fault in it for it in caught.exception.mistakes])


if __name__ == "__main__":
    unittest.main()
