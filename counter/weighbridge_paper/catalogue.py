"""Catalogues of words: a JSON file for each language, for the clerk's page and for the paper. web/words.js reads the same files by the same rules."""

import json
import re
from collections.abc import Mapping
from pathlib import Path
from typing import Any

FOLDER = Path(__file__).resolve().parent.parent / "web" / "lang"
ENGLISH = "en"
FORMS = ("zero", "one", "two", "few", "many", "other")  # of CLDR, by which a number chooses
OTHER = "other"
NAME = re.compile(r"\{(\w+)\}")
PLACE = re.compile("[A-Za-z]{2,3}(-[A-Za-z0-9]{2,8})*")
MOST_NAMED = 3

Words = str | Mapping[str, str]
Catalogue = Mapping[str, Words]


class NoCatalogue(Exception):
    """Raised for a file that can't be used."""

    def __init__(self, path: Path, why: str) -> None:
        super().__init__(f"{path}: it is no file of words, because {why}; compare it with en.json")


def forms_of(words: Words) -> tuple[str, ...]:
    return (words,) if isinstance(words, str) else tuple(words.values())


def text_of(words: Words) -> str:
    """Return the text, or of plural forms the one for `other`."""
    return words if isinstance(words, str) else words[OTHER]


def is_words(value: Any) -> bool:
    """Return True for a text, and for an object that has a text for `other` and for any other plural form."""
    if isinstance(value, str):
        return True
    return (
        isinstance(value, dict)
        and OTHER in value
        and all(form in FORMS and isinstance(it, str) for form, it in value.items())
    )


def read(path: Path) -> Catalogue:
    """Return what a file has. Raise NoCatalogue if it isn't JSON, or has something other than words."""
    try:
        found = json.loads(path.read_text(encoding="utf-8"))
    except OSError as fault:
        raise NoCatalogue(path, fault.strerror or str(fault)) from None
    except ValueError as fault:
        raise NoCatalogue(path, str(fault)) from None
    if not isinstance(found, dict) or not isinstance(found.get("name"), str):
        raise NoCatalogue(path, "name is missing")
    for key, value in found.items():
        if not is_words(value):
            raise NoCatalogue(path, f"{key} is neither a text nor an object of plural forms")
    if "place" in found and not PLACE.fullmatch(str(found["place"])):
        raise NoCatalogue(path, "place is no language tag, such as en-GB")
    return found


def has(catalogue: Catalogue, key: str) -> bool:
    """Return True if a catalogue has words for a key. An empty text counts as none."""
    return key in catalogue and all(it.strip() for it in forms_of(catalogue[key]))


def fits(words: Words, english: Words) -> bool:
    """Return True if each form has the placeholders of the English."""
    wanted = set(NAME.findall(text_of(english)))
    return all(set(NAME.findall(it)) == wanted for it in forms_of(words))


def missing(catalogue: Catalogue, english: Catalogue) -> list[str]:
    return [key for key in english if not has(catalogue, key)]


def misfits(catalogue: Catalogue, english: Catalogue) -> list[str]:
    """Return the keys whose placeholders are other than the English ones."""
    return [
        key for key in english if has(catalogue, key) and not fits(catalogue[key], english[key])
    ]


def some_of(keys: list[str]) -> str:
    """Return the first keys of a list, and whether there are more."""
    return ", ".join(keys[:MOST_NAMED]) + (", .." if len(keys) > MOST_NAMED else "")
