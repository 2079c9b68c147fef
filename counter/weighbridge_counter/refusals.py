"""Refusals, with what a program may do after each. `refusals.txt` is the one catalogue of their words and of when to ask again.

The office's refusals are read here from its answers. A refusal of the counter is a value, which becomes text or JSON.
"""

import functools
import re
from collections.abc import Mapping
from dataclasses import dataclass
from pathlib import Path
from typing import Any

HERE = Path(__file__).resolve().parent.parent
# The package has the catalogue next to its folders, and a checkout has it in the folder of the clients.
INSTALLED, OF_CLIENTS = HERE / "refusals.txt", HERE.parent / "clients" / "refusals.txt"
FILE = INSTALLED if INSTALLED.exists() else OF_CLIENTS
RETRIES = ("never", "later", "after_restart", "with_new_key")
OFFICE = re.compile(r"(?:refused ([1-9]\d?)|fault ([1-9]\d\d)) ([a-z_]{1,40})\n", re.ASCII)


@dataclass(frozen=True)
class Meaning:
    """The meaning of a name. `after` is the number of seconds after which a program may ask again, or None if nobody knows it."""

    words: str | None
    retry: str
    after: int | None


# A name of a later version of the office: nobody knows more than that it was no answer for good.
OF_A_LATER_VERSION = Meaning(None, "later", None)


def catalogue_of(text: str) -> dict[str, Meaning]:
    """Return the meaning of each name of the catalogue. Raises ValueError for a line in another form, and for a name without one of its lines."""
    words, retries = dict[str, str](), dict[str, tuple[str, int | None]]()
    for line in text.splitlines():
        kind, _, rest = line.partition(" ")
        if kind == "retry":
            when, seconds, *names = rest.split()
            if when not in RETRIES or not names or set(names) & set(retries):
                raise ValueError(f"{FILE}: {line}")
            retries |= dict.fromkeys(names, (when, None if seconds == "-" else int(seconds)))
        elif kind != "#":
            name, _, words[name] = rest.partition(" ")
    if words.keys() != retries.keys():
        raise ValueError(f"{FILE}: {', '.join(sorted(words.keys() ^ retries.keys()))}")
    return {name: Meaning(words[name], *retries[name]) for name in words}


@functools.cache
def catalogue() -> Mapping[str, Meaning]:
    """Return the catalogue. Raises OSError or ValueError if it can't be used."""
    return catalogue_of(FILE.read_text(encoding="utf-8"))


@dataclass(frozen=True)
class Refusal:
    """A refusal. `number` is the office's, and None for a fault of a request or for the counter's own. `field` is the one that can't be used."""

    name: str
    number: int | None = None
    field: str | None = None

    def meaning(self) -> Meaning:
        """Return what the catalogue says of the name, for its field if that has words of its own."""
        known = catalogue()
        of_name = known.get(self.name, OF_A_LATER_VERSION)
        return known.get(f"{self.name}.{self.field}", of_name)

    def shown(self) -> dict[str, Any]:
        """Return the refusal as JSON answers have it."""
        meaning = self.meaning()
        return {
            "refused": self.number,
            "name": self.name,
            "field": self.field,
            "retry": meaning.retry,
            "words": meaning.words,
        }

    def fields(self) -> dict[str, str]:
        """Return the fields of the answer's head that say when to ask again."""
        after = self.meaning().after
        return {} if after is None else {"Retry-After": str(after)}


def refusal_in(letters: str) -> Refusal | None:
    """Return the refusal or fault that an answer of the office has, or None if it has none."""
    found = OFFICE.fullmatch(letters)
    return None if found is None else Refusal(found[3], int(found[1]) if found[1] else None)
