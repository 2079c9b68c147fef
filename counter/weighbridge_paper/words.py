"""The words around the legal text, and how numbers and moments are written there. The legal text has no language but its own."""

import datetime
import functools
import zoneinfo
from pathlib import Path

from . import catalogue

SHIPPED = (catalogue.ENGLISH, "de", "fr", "es")
FREE_LINES = ("goods", "order", "driver")
MONTHS = ("Jan", "Feb", "Mar", "Apr", "May", "Jun", "Jul", "Aug", "Sep", "Oct", "Nov", "Dec")
NARROW_BLANK = "\u202f"
# Between thousands. Other languages have a narrow blank there, because a dot or a comma could be read as a decimal mark.
GROUPED_BY = {"en": ",", "de": ".", "fr": NARROW_BLANK, "es": "."}


def languages_in(folder: Path) -> tuple[str, ...]:
    """Return the languages that have a file, those of the package first."""
    found = {it.stem for it in folder.glob("??.json")}
    return tuple(it for it in (*SHIPPED, *sorted(found.difference(SHIPPED))) if it in found)


LANGUAGES = languages_in(catalogue.FOLDER)


@functools.cache
def catalogue_of(language: str, folder: Path) -> catalogue.Catalogue:
    return catalogue.read(folder / f"{language}.json")


def fault_of(language: str, folder: Path = catalogue.FOLDER) -> str | None:
    """Return why the file of a language can't be used. Return None if it can."""
    try:
        catalogue_of(language, folder)
    except catalogue.NoCatalogue as fault:
        return str(fault)
    return None


def word(key: str, language: str, folder: Path = catalogue.FOLDER) -> str:
    """Return the words of a key. They are English if the language has none, or has other placeholders.

    A paper counts nothing, so of plural forms it has the one for `other`.
    """
    english = catalogue_of(catalogue.ENGLISH, folder)[key]
    own = catalogue_of(language, folder)
    is_own = catalogue.has(own, key) and catalogue.fits(own[key], english)
    return catalogue.text_of(own[key] if is_own else english)


def mark(key: str, language: str, folder: Path = catalogue.FOLDER) -> str:
    """Return DUPLICATE or COPY in the language, and in English too."""
    there, english = word(key, language, folder), word(key, catalogue.ENGLISH, folder)
    return there if there == english else f"{there} · {english}"


def kg(value: int, language: str) -> str:
    return f"{value:,}".replace(",", GROUPED_BY.get(language, NARROW_BLANK)) + " kg"


def local(at: datetime.datetime, zone: zoneinfo.ZoneInfo, language: str) -> str:
    """Return the moment in its zone, with the zone's name and its distance from UTC."""
    there = at.astimezone(zone)
    day = {
        "en": f"{there.day} {MONTHS[there.month - 1]} {there.year:04}",
        "de": there.strftime("%d.%m.%Y"),
        "fr": there.strftime("%d/%m/%Y"),
        "es": there.strftime("%d/%m/%Y"),
    }.get(language, f"{there:%Y-%m-%d}")
    offset = there.strftime("%z")
    name = there.strftime("%Z")
    far = f"{offset[:3]}:{offset[3:5]}"
    return f"{day} {there:%H:%M:%S} {far if name[0] in '+-' else f'{name} {far}'}"


def utc(at: datetime.datetime) -> str:
    return f"{at:%Y-%m-%d %H:%M:%S} UTC"
