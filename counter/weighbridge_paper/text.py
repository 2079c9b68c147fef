"""The office's text of a slip or ticket: what it says, and whether it is one. docs/formats.md (Slips and tickets) has the form.

A text is read, written again by the form from what was read, and has to be the same letter for letter. So whatever isn't in the form is refused.
"""

import datetime
import hashlib
import re
from collections.abc import Mapping
from dataclasses import dataclass

LONGEST = 512  # bytes
LAST_NUMBER, LAST_MOMENT, MOST_KG, MOST_MAX = 4_294_967_295, 253_402_207_200, 9_999_999, 500_000
INTERVALS = (1, 2, 5, 10, 20, 50)
DEMO = "DEMO"  # the serial of a played instrument
ZEROS = "0" * 64  # the previous digest of an entry before which none stands
TICKETS = ("second", "single")
HEAD = re.compile(r"WEIGHING (SLIP|TICKET) (\d{1,10})\nPLATE ([A-Z0-9-]{1,12})\n")
BLOCK = re.compile(
    r"(FIRST|SECOND|SINGLE|VOID) NO (\d{1,10})\nAT (\d{4}-\d\d-\d\d \d\d:\d\d:\d\d)\n(?:G ([ \d]{10}) kg\n)?(?:PT ([ \d]{10}) kg\n)?"
    r"E (\d{1,2}) kg MAX (\d{1,6}) kg SERIAL ([A-Z0-9]{1,16})\nDIGEST ([0-9a-f]{64})\n"
)
NET = re.compile(r"N ([ \d]{10}) kg\n")


class NoText(Exception):
    """It is no text of the office: why."""


@dataclass(frozen=True, slots=True)
class Weighing:
    """The block of an entry."""

    kind: str  # first, second, single, void
    number: int
    at: datetime.datetime  # in UTC
    gross: int | None
    preset: int | None
    interval: int
    max: int
    serial: str
    digest: str


@dataclass(frozen=True, slots=True)
class Text:
    letters: str  # as the office wrote them
    plate: str
    weighings: tuple[Weighing, ...]  # the partner before its Second
    net: int | None

    @property
    def own(self) -> Weighing:
        """Return the entry for which the text was made."""
        return self.weighings[-1]

    @property
    def is_ticket(self) -> bool:
        return self.own.kind in TICKETS


def read_text(letters: str) -> Text:
    """Return what a text says. Raise NoText if the office can't have written it."""
    if not letters:
        raise NoText("there is none: nothing came on standard input")
    if len(letters.encode("utf-8", "replace")) > LONGEST:
        raise NoText(f"it has more than {LONGEST} bytes")
    head, blocks = HEAD.match(letters), list(BLOCK.finditer(letters))
    if head is None or not blocks:
        raise NoText(
            f"it doesn't have the form of a slip or ticket; it begins with {letters.split(chr(10))[0][:40]!r}"
        )
    net = NET.match(letters, blocks[-1].end())
    found = Text(
        letters, head[3], tuple(weighing_of(it) for it in blocks), kg_of(net[1]) if net else None
    )
    if (wrong := fault_of(found)) is not None:
        raise NoText(wrong)
    if letters != written(found):
        raise NoText(
            f"it doesn't have the office's form: {first_difference(letters, written(found))}"
        )
    return found


def kg_of(text: str) -> int:
    try:
        return int(text)
    except ValueError:
        raise NoText(f"there is no such weight: {text!r}") from None


def weighing_of(block: re.Match[str]) -> Weighing:
    try:
        at = datetime.datetime.strptime(block[3], "%Y-%m-%d %H:%M:%S").replace(
            tzinfo=datetime.timezone.utc
        )
    except ValueError:
        raise NoText(f"there is no such moment: {block[3]}") from None
    gross, preset = (kg_of(block[it]) if block[it] else None for it in (4, 5))
    return Weighing(
        block[1].lower(),
        int(block[2]),
        at,
        gross,
        preset,
        int(block[6]),
        int(block[7]),
        block[8],
        block[9],
    )


def fault_of(text: Text) -> str | None:
    """Return what no service would have stored."""
    own, kinds = text.own, tuple(it.kind for it in text.weighings)
    if kinds not in (("first",), ("void",), ("single",), ("first", "second")):
        return f"no slip and no ticket has these entries: {', '.join(kinds)}"
    for it in text.weighings:
        if (
            not 0 < it.number <= LAST_NUMBER
            or it.interval not in INTERVALS
            or not 0 < it.max <= MOST_MAX
            or it.at.timestamp() > LAST_MOMENT
        ):
            return f"number {it.number} has a number, interval, Max or moment that no entry has"
        if (it.gross is None) != (it.kind == "void") or (it.preset is None) != (
            it.kind != "single"
        ):
            return f"number {it.number} has a weight too many, or one too few"
        if not all(0 < kg <= MOST_KG for kg in (it.gross, it.preset) if kg is not None):
            return f"number {it.number} has a weight that no entry has"
        if any(kg % it.interval for kg in (it.gross, it.preset) if kg is not None):
            return f"number {it.number} has a weight that is no multiple of its interval of {it.interval} kg"
    if len(text.weighings) == 2 and (
        text.weighings[0].number >= own.number or text.weighings[0].at > own.at
    ):
        return "its First doesn't stand before it"
    if text.net != (wanted := net_of(text.weighings)):
        return (
            f"its net is {text.net} kg, but its weights give {wanted} kg"
            if wanted is not None
            else "its net is none of its weights"
        )
    if wanted is not None and own.kind == "single" and wanted <= 0:
        return "its preset tare isn't below its gross"
    return None


def net_of(weighings: tuple[Weighing, ...]) -> int | None:
    own = weighings[-1]
    if own.gross is None:
        return None
    if own.preset is not None:
        return own.gross - own.preset
    first = weighings[0].gross if len(weighings) == 2 else None
    return None if first is None else abs(first - own.gross)


def written(text: Text) -> str:
    """Return the text in the office's form, made again of what was read."""
    blocks = "".join(written_block(it) for it in text.weighings)
    net = "" if text.net is None else f"N {text.net:>10} kg\n"
    return f"WEIGHING {'TICKET' if text.is_ticket else 'SLIP'} {text.own.number}\nPLATE {text.plate}\n{blocks}{net}"


def written_block(it: Weighing) -> str:
    gross = "" if it.gross is None else f"G {it.gross:>10} kg\n"
    preset = "" if it.preset is None else f"PT {it.preset:>10} kg\n"
    return (
        f"{it.kind.upper()} NO {it.number}\nAT {it.at:%Y-%m-%d %H:%M:%S}\n{gross}{preset}"
        f"E {it.interval} kg MAX {it.max} kg SERIAL {it.serial}\nDIGEST {it.digest}\n"
    )


def first_difference(found: str, wanted: str) -> str:
    for number, (one, other) in enumerate(zip(found.split("\n"), wanted.split("\n")), 1):
        if one != other:
            return f"line {number} is {one[:60]!r}, and should be {other[:60]!r}"
    return "it has more lines, or fewer"


# ---- digests


def digest_of(it: Weighing, plate: str, key: str, previous: str) -> str:
    """Return the digest of an entry, computed again from its fields."""
    entry = (
        f"version 2\nnumber {it.number}\nkey {key}\nkind {it.kind}\nplate {plate}\nmoment {int(it.at.timestamp())}\n"
        f"gross {'-' if it.gross is None else it.gross}\npreset {'-' if it.preset is None else it.preset}\n"
        f"interval {it.interval}\nmax {it.max}\nserial {it.serial}\nprevious {previous}\n"
    )
    return hashlib.sha256(entry.encode()).hexdigest()


def check_digests(text: Text, keys: Mapping[int, str], digests: Mapping[int, str]) -> list[str]:
    """Makes each digest again that can be: it is of the entry's key too, and of the digest before it, which no text has.

    `keys` and `digests` are those that are known, by number. Raises NoText if a digest isn't that of its fields. Gives a line for each that can't be made again.
    """
    known = {it.number: it.digest for it in text.weighings} | dict(digests)
    said = []
    for it in text.weighings:
        if digests.get(it.number, it.digest) != it.digest:
            raise NoText(f"number {it.number} has another digest than is known of it")
        previous = known.get(it.number - 1, ZEROS if it.number == 1 else None)
        if it.number not in keys:
            said.append(
                f"the digest of number {it.number} can't be made again: its key isn't known"
            )
        elif previous is None:
            said.append(
                f"the digest of number {it.number} can't be made again: that of number {it.number - 1} isn't known"
            )
        elif digest_of(it, text.plate, keys[it.number], previous) != it.digest:
            raise NoText(
                f"the digest of number {it.number} isn't that of its fields: the text was changed, or its key is another"
            )
    return said
