"""Goods, order and driver, which clerks give for the paper of a weighing. They are no legal record, and the office doesn't have them.

The papers' database stores them by the entry's digest. This copy in memory is for the pages, and for a Second, which gets what its First has.
"""

from collections.abc import Iterable, Iterator, Mapping
from dataclasses import dataclass

from weighbridge_paper.layout import given_of
from weighbridge_paper.text import Text
from weighbridge_paper.words import FREE_LINES

Lines = Mapping[str, str]  # by the names of FREE_LINES; a line that is missing is empty
NONE: Lines = {}


@dataclass(frozen=True, slots=True)
class OfEntry:
    number: int
    lines: Lines
    words: str  # all lines in small letters, as they are searched


def changed(before: Lines, fields: Mapping[str, str]) -> dict[str, str]:
    """Return the lines after a request. A field that it has replaces a line, and removes it if it is empty."""
    said = dict(given_of(fields))
    after = {it: said.get(it, "") if it in fields else before.get(it, "") for it in FREE_LINES}
    return {name: value for name, value in after.items() if value}


def lines_in(pairs: Iterable[tuple[str, str]]) -> dict[str, str]:
    """Return the lines among what stands with a paper, which may also name the First of a Void."""
    return {name: value for name, value in pairs if name in FREE_LINES}


class Given:
    def __init__(self) -> None:
        self.by_digest: dict[str, OfEntry] = {}

    def of(self, digest: str | None) -> Lines:
        found = self.by_digest.get(digest or "")
        return NONE if found is None else found.lines

    def keep(self, number: int, digest: str, lines: Lines) -> None:
        if lines:
            self.by_digest[digest] = OfEntry(number, lines, "\n".join(lines.values()).casefold())
        else:
            self.by_digest.pop(digest, None)

    def take(self, text: Text, fields: Mapping[str, str]) -> dict[str, str]:
        """Return the lines of a text that the office answered: those that its First or itself had, as the request changes them. A Void has none."""
        own, first = text.own, text.weighings[0]
        if own.kind == "void":
            return {}
        before = self.of(own.digest) if own.digest in self.by_digest else self.of(first.digest)
        lines = changed(before, fields)
        self.keep(own.number, own.digest, lines)
        return lines

    def with_words(self, words: str) -> Iterator[tuple[int, str]]:
        """Return number and digest of each entry that has the words in a line, whether they are written large or small."""
        wanted = words.casefold()
        for digest, it in self.by_digest.items():
            if wanted in it.words:
                yield it.number, digest
