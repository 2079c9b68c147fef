"""Exports by chance, made of those of a sound journal. It needs python3-hypothesis."""

import datetime
import os
import tempfile
from typing import Any

from checks.lib.books import HEADER, Book
from checks.lib.head_office import DAY

SCRATCH = tempfile.TemporaryDirectory()
os.environ["HYPOTHESIS_STORAGE_DIRECTORY"] = SCRATCH.name
from hypothesis import strategies as some  # noqa: E402

KINDS = ("first", "second", "single", "void")
NEWEST = (["--newest"], ["--fetched", "2026-01-01"], ["--fetched", "soon"])

# Values of single fields that a journal can't have, or that another one has.
TEXTS = some.one_of(
    some.sampled_from(
        ["", "-", "K1", "K2", "P-1", "first", "void", "0", "NULL", "\\N", "\\.", "'", '"', "a,b"]
    ),
    some.text(max_size=40),
    some.text(alphabet="0123456789abcdef", min_size=64, max_size=64),
    some.integers(1, 5_000).map(lambda count: "x" * count),
)
NUMBERS = some.one_of(
    some.sampled_from(
        "0;1;-1;2;20;4294967295;4294967296;2147483647;2147483648;1e3;1.5;0x10; 7;+5;007".split(";")
    ),
    some.integers(-(2**70), 2**70).map(str),
    TEXTS,
)
MOMENTS = some.one_of(
    some.sampled_from(
        (
            "infinity;epoch;now;2026-02-30 00:00:00;0001-01-01 00:00:00;9999-12-31 23:59:59;"
            "20260101T000000;2026-01-01 24:00:00;12/31/2026"
        ).split(";")
    ),
    some.datetimes(datetime.datetime(1900, 1, 1), datetime.datetime(2200, 1, 1)).map(
        lambda it: it.strftime("%Y-%m-%d %H:%M:%S")
    ),
    TEXTS,
)
COLUMNS = HEADER.strip().split(",")
FIELDS = {name: NUMBERS if name.endswith("_kg") or name == "number" else TEXTS for name in COLUMNS}
FIELDS["moment"] = MOMENTS
FIELDS["kind"] = some.one_of(some.sampled_from(KINDS), TEXTS)


@some.composite
def forged(draw: Any, count: int) -> dict[str, Any]:
    """Return a change of an entry that an intruder hides by computing digests again."""
    what = draw(some.sampled_from(["gross", "plate", "kind", "moment", "key", "preset", "serial"]))
    to: Any = {
        "gross": some.integers(1, 3_000).map(lambda it: 20 * it),
        "plate": some.sampled_from(["P-1", "P-2", "OTHER"]),
        "kind": some.sampled_from(["first", "second", "single"]),
        "moment": some.integers(-400 * DAY, 400 * DAY),
        "key": some.sampled_from(["K1", "K2", "NEW"]),
        "preset": some.sampled_from(["-", 20, 5_000]),
        "serial": some.sampled_from(["S2", "SOUTH"]),
    }[what]
    return {
        "number": draw(some.integers(1, count)),
        what: draw(to),
        "is_chained": draw(some.booleans()),
    }


@some.composite
def changed(draw: Any, lines: list[str]) -> bytes:
    """Return the bytes of an export with some changes."""
    lines = list(lines)
    for _ in range(draw(some.integers(0, 3))):
        at = draw(some.integers(0, len(lines) - 1))
        what = draw(
            some.sampled_from(["field", "lose", "double", "swap", "column", "empty", "junk"])
        )
        if what == "field":
            column = draw(some.integers(0, len(COLUMNS) - 1))
            fields = lines[at].split(",")
            if column < len(fields):
                value = draw(FIELDS[COLUMNS[column]])
                quoted = '"' + value.replace('"', '""') + '"' if draw(some.booleans()) else value
                lines[at] = ",".join([*fields[:column], quoted, *fields[column + 1 :]])
        elif what == "lose":
            del lines[at]
        elif what == "double":
            lines.insert(at, lines[at])
        elif what == "swap":
            to = draw(some.integers(0, len(lines) - 1))
            lines[at], lines[to] = lines[to], lines[at]
        elif what == "column":
            lines[at] += "," + draw(TEXTS)
        elif what == "empty":
            lines.insert(at, "")
        else:
            lines.insert(at, draw(TEXTS))
        if not lines:
            break
    end = draw(some.sampled_from(["\n", "\n", "\n", "\r\n"]))
    whole: bytes = (end.join(lines) + draw(some.sampled_from([end, end, ""]))).encode()
    for _ in range(draw(some.integers(0, 2))):
        at = draw(some.integers(0, len(whole)))
        what = draw(some.sampled_from(["cut", "byte", "add", "none", "none"]))
        if what == "cut":
            whole = whole[:at]
        elif what == "byte":
            whole = whole[:at] + bytes([draw(some.integers(0, 255))]) + whole[at + 1 :]
        elif what == "add":
            whole = whole[:at] + draw(some.binary(max_size=20)) + whole[at:]
    return whole


def book_of(serial: str, count: int) -> Book:
    """Return a sound journal: vehicles in and out, single weighings and voids, over some days."""
    book = Book(serial, age=5 * DAY, step=3_600)
    for at in range(count):
        plate = f"P-{at // 4 % 3}"
        book.add(("first", "second", "single", "single")[at % 4], plate, 20 * (500 + at))
    return book


def false_book(book: Book, data: Any) -> Book:
    """Return a copy of a book with some entries forged, and their digests or all digests behind them computed again."""
    false = Book(book.serial)
    false.rows, false.moment = [dict(row) for row in book.rows], book.moment
    forgings = some.lists(forged(len(book.rows)), max_size=2)
    for forging in data.draw(forgings, label="forged"):
        number, is_chained = forging.pop("number"), forging.pop("is_chained")
        row = false.rows[number - 1]
        if "moment" in forging:
            forging["moment"] += row["moment"]
        false.change(number, **forging)
        if not is_chained:
            row["own_previous"] = row["previous"]
        kept = [row["digest"] for row in false.rows]
        false.chain(number)
        if not is_chained:
            for row, digest in list(zip(false.rows, kept))[number:]:
                row["digest"] = digest
    return false


def drawn_export(book: Book, data: Any) -> tuple[bytes, list[str]]:
    """Return an export of a book or of a part of it, with some changes, and options of a load."""
    count = len(book.rows)
    first = data.draw(some.integers(1, count), label="from")
    last = data.draw(some.integers(first, count), label="to")
    lines = [HEADER.strip(), *(book.line(it) for it in range(first, last + 1))]
    export: bytes = data.draw(changed(lines), label="export")
    words: list[str] = data.draw(some.sampled_from([[], *NEWEST]), label="words")
    return export, words
