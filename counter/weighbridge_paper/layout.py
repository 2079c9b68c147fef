"""The blocks of a paper in their order, for any printer. Only parts of the legal text are large."""

import textwrap
import unicodedata
import zoneinfo
from collections.abc import Mapping
from dataclasses import dataclass

from . import words
from .text import DEMO, Text, Weighing

LONGEST_GIVEN = 60  # characters of a free line
WITHDRAWS = "withdraws"  # the name under which a Void has the number of its First
ONCE = "once"  # the name under which a First says that no second weighing follows
MOST_MARKS = 2  # accents and the like on one letter
CONTINUES = ">"  # begins a line that continues the one above; no legal text has it


@dataclass(frozen=True)
class Mark:
    """Of each further print and of a demo, at both ends of the paper."""

    text: str


@dataclass(frozen=True)
class Line:
    text: str
    look: str = "plain"  # plain, bold, small; title and large are only for the legal text
    is_centred: bool = False


@dataclass(frozen=True)
class Pair:
    """A word at the left, and what it names at the right."""

    name: str
    value: str
    is_bold: bool = False


@dataclass(frozen=True)
class Legal:
    """The legal text. `wrapped` says what `>` means, and is printed only if a line is wrapped."""

    letters: str
    wrapped: str


@dataclass(frozen=True)
class Code:
    """A QR code."""

    text: str
    name: str


@dataclass(frozen=True)
class Rule:
    """A line across, with a word above what follows."""

    text: str = ""


Block = Mark | Line | Pair | Legal | Code | Rule


@dataclass(frozen=True)
class Template:
    header: tuple[str, ...]
    footer: tuple[str, ...]
    language: str
    zone: zoneinfo.ZoneInfo


@dataclass(frozen=True)
class Paper:
    """A paper to print: a text, what the clerk gave with it, and whether it is the original."""

    text: Text
    # name and value, of words.FREE_LINES; also WITHDRAWS and the number of its First with a Void, and ONCE with a First
    given: tuple[tuple[str, str], ...] = ()
    is_original: bool = True


def code_of(text: Text) -> str:
    """Number and digest, as `inspect/verify.py --known` takes them. A digest is chained, so that of a Second stands for its First too."""
    return f"{text.own.number} {text.own.digest}"


def blocks_of(paper: Paper, template: Template) -> list[Block]:
    text, language = paper.text, template.language
    marks: list[Block] = []
    if text.own.serial == DEMO:
        marks.append(Mark(DEMO))
    if not paper.is_original:
        marks.append(
            Mark(words.mark("copy" if text.own.kind == "first" else "duplicate", language))
        )
    made: list[Block] = [*marks]
    if text.own.serial == DEMO:
        made.append(Line(words.word("demo", language), "bold", True))
    made += [Line(it, "plain" if at else "bold", True) for at, it in enumerate(template.header)]
    made += [Rule(), *headline(text, dict(paper.given), language)]
    for it in text.weighings:
        made += [Rule(), *weighing(it, template)]
    by_clerk = [(name, value) for name, value in paper.given if name in words.FREE_LINES]
    if by_clerk:
        made.append(Rule(words.word("given_by_clerk", language)))
        made += [Pair(words.word(name, language), value) for name, value in by_clerk]
    made += [
        Rule(words.word("legal_text", language)),
        Legal(text.letters, words.word("wrapped_line", language)),
    ]
    made += [Rule(), Code(code_of(text), words.word("number_and_digest", language))]
    made += [Line(it, "plain", True) for it in template.footer]
    return made + marks


def headline(text: Text, given: Mapping[str, str], language: str) -> list[Block]:
    """Return the kind and number, the plate and the net.

    A Void's text doesn't name its First, and that of a First doesn't say that no second weighing follows. So `given` does, if the counter knows it.
    """
    own, kind = text.own, "ticket" if text.is_ticket else "slip"
    withdraws = given.get(WITHDRAWS)
    made: list[Block] = [
        Line(f"{words.word(kind, language)} {own.number}", "title"),
        *([Line(words.word("weighed_once", language), "bold")] if ONCE in given else []),
        Line(words.word("plate", language), "small"),
        Line(text.plate, "large"),
    ]
    if text.net is not None:
        made += [
            Line(words.word("paper_net", language), "small"),
            Line(words.kg(text.net, language), "large"),
        ]
    elif own.gross is not None:
        made += [
            Line(words.word("gross", language), "small"),
            Line(words.kg(own.gross, language), "large"),
        ]
    else:
        made.append(Line(words.word("is_withdrawn", language), "bold"))
        if withdraws is not None:
            made.append(Line(f"{words.word('slip', language)} {withdraws}", "large"))
    return made


def weighing(it: Weighing, template: Template) -> list[Block]:
    language = template.language
    made: list[Block] = [
        Pair(
            words.word(f"kind_{it.kind}", language),
            f"{words.word('number_short', language)} {it.number}",
            True,
        )
    ]
    if it.gross is not None:
        made.append(Pair(words.word("gross", language), words.kg(it.gross, language)))
    if it.preset is not None:
        made.append(Pair(words.word("preset_tare", language), words.kg(it.preset, language)))
    return made + [Pair(words.local(it.at, template.zone, language), words.utc(it.at))]


# ---- in columns


def wrapped(letters: str, columns: int) -> list[str]:
    """Return the lines of a legal text, wrapped between any two characters. A line that continues one begins with the mark."""
    made = []
    for line in letters.removesuffix("\n").split("\n"):
        made.append(line[:columns])
        rest = line[columns:]
        while rest:
            made.append(CONTINUES + rest[: columns - 1])
            rest = rest[columns - 1 :]
    return made


def joined(lines: list[str]) -> str:
    """Return the legal text of its lines on paper, the inverse of `wrapped`."""
    made: list[str] = []
    for line in lines:
        if line.startswith(CONTINUES) and made:
            made[-1] += line[1:]
        else:
            made.append(line)
    return "\n".join(made) + "\n"


def filled(text: str, columns: int) -> list[str]:
    """Words that aren't legal, wrapped between words."""
    return textwrap.wrap(text, columns, break_on_hyphens=False) or [""]


def paired(name: str, value: str, columns: int) -> list[str]:
    """Return a word and its value on one line, or on more if they don't fit."""
    if len(name) + 1 + len(value) <= columns:
        return [name + value.rjust(columns - len(name))]
    return [*filled(name, columns), *(it.rjust(columns) for it in filled(value, columns))]


def with_few_marks(text: str) -> str:
    """Return a text without stacked accents, which a browser would print over the lines above and below."""
    made, marks = "", 0
    for it in unicodedata.normalize("NFC", text):
        marks = marks + 1 if unicodedata.category(it).startswith("M") else 0
        made += it if marks <= MOST_MARKS else ""
    return made


def given_of(fields: Mapping[str, str]) -> tuple[tuple[str, str], ...]:
    """Return the free lines among the fields of a request. Each is one line of characters that can be printed."""
    made = []
    for name in words.FREE_LINES:
        value = " ".join(
            "".join(
                it if it.isprintable() else " " for it in with_few_marks(fields.get(name, ""))
            ).split()
        )[:LONGEST_GIVEN]
        if value:
            made.append((name, value))
    return tuple(made)
