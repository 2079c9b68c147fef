"""The page's languages: each has every word, with the same values in each form, and the page asks for no other."""

import json
import re

from checks.lib.case import Check

from checks import TOP

WEB = TOP / "counter" / "web"
LANGUAGES = sorted((WEB / "lang").iterdir())


def forms_of(words: str | dict[str, str]) -> list[str]:
    """Return the text, or the text of each plural form."""
    return [words] if isinstance(words, str) else list(words.values())


def values_of(words: str | dict[str, str]) -> set[frozenset[str]]:
    """Return the names of the values that each form shows."""
    return {frozenset(re.findall(r"\{\w+\}", it)) for it in forms_of(words)}


class Languages(Check):
    """The files of words, the page's sources and the names of refusals."""

    seconds = 1

    def setUp(self) -> None:
        self.words = {it.name: json.loads(it.read_text(encoding="utf-8")) for it in LANGUAGES}
        self.first = self.words["en.json"]
        self.page = "".join(
            it.read_text(encoding="utf-8")
            for it in sorted(WEB.iterdir())
            if it.suffix in (".js", ".html")
        )

    def test_words(self) -> None:
        first = self.first
        for name, them in self.words.items():
            missing, others = {*first} - {*them}, {*them} - {*first}
            self.same(f"{name} has the words of en.json", (set(), set()), (missing, others))
            wrong = [it for it in first if values_of(first[it]) != values_of(them.get(it, ""))]
            empty = [it for it in them if not all(form.strip() for form in forms_of(them[it]))]
            self.same(f"{name} has their values, and no empty one", ([], []), (wrong, empty))

    def test_words_of_the_page(self) -> None:
        patterns = (r"\bt\('(\w+)'", r'data-(?:word|label)="(\w+)"', r"word: '(\w+)'")
        asked = {word for it in patterns for word in re.findall(it, self.page)}
        self.same("the page asks for no other word", set(), asked - {*self.first})
        text = self.page + (WEB / "style.css").read_text(encoding="utf-8")
        elsewhere = re.findall(r"https?://(?!www\.w3\.org)\S+", text)
        self.same("nothing of the page is fetched from elsewhere", [], elsewhere)

    def test_refusals(self) -> None:
        lines = (TOP / "clients" / "refusals.txt").read_text(encoding="utf-8").splitlines()
        numbers = {int(it.split()[0]) for it in lines if it[:1].isdigit()}
        named = {f"refused_{it}" for it in numbers if it < 400}
        self.same("there are words for each refusal", set(), named - {*self.first})
        acts = TOP / "counter" / "weighbridge_counter" / "acts.py"
        found = re.findall(r'not_sent\(\d+, f?"(\w+)', acts.read_text(encoding="utf-8"))
        own = {f"counter_{it}" for it in found}
        self.same("and for each of the counter's own", set(), own - {*self.first})
