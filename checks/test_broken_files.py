"""Shows that no program crashes at 2,000 files that were cut, overwritten or changed at random. Each file gives a named fault,
or what its rows say.

The check cuts off, overwrites and changes bit by bit a journal's file and its log, in random ways with a fixed seed.
For each file, `check` and both exports end with a fault by name, or with an answer. The answer is right for the rows in
the tables as Python's sqlite3 reads them. A journal that is reported as sound has that number of entries, each with its
digest and chained to the one before, and lacks no number between them. Of a damaged journal the reported number is at
fault, and none below it is. No run crashes or hangs. A file that is refused stays as it is, byte by byte.
"""

import contextlib
import os
import random
import re
import shutil
import sqlite3
import subprocess
import tempfile
from collections import Counter
from pathlib import Path
from typing import Any

from checks.lib import bridge
from checks.lib.case import PROGRAM, Check, many
from checks.lib.journal import digest_of
from checks.lib.program import compiled
from checks.lib.showing import fail

# The launcher would double the time of thousands of runs.
BUILT = compiled()
# The bytes of a journal's files, by the end of their names.
Files = dict[str, bytes]
# The rows of a journal by number.
Rows = dict[int, tuple[Any, ...]]
Ran = tuple[int, str, str]
PAGE = 4_096
KINDS = {1: "first", 2: "second", 3: "single", 4: "void"}
FAULTS = {"store 2 disk\n", "store 3 size\n", "store 4 foreign\n", "store 6 old_version\n"}
# Where a log is refused before its journal is opened, a line before says so.
LOG_TOLD = re.compile(r"^/\S+-wal: [^\n]+\n(?=store 2 disk\n)")
LOADS = [0] * 8 + [9_170] * 8 + [0] * 8 + [4_070] * 8


def weigh(path: str, numbers: range) -> None:
    """Weigh at a service and kill it at the end, so that only the log has these entries."""
    converter = bridge.Converter(400.0, lambda number: LOADS[number % len(LOADS)])
    with bridge.Service(BUILT, path, converter) as service:
        for number in numbers:
            kind = ["first", "second"][number % 2]
            bridge.weigh(service, f"key=K{number}&kind={kind}&plate=P-{number // 2 % 7}")


def make_journals(path: str) -> list[Files]:
    """Return the files of a journal of 60 entries without a log, and of one with 11 more in the log."""
    weigh(path, range(60))
    with contextlib.closing(sqlite3.connect(path)) as conn:
        conn.execute("PRAGMA wal_checkpoint(TRUNCATE)")
    whole = {"": bytes_of(path) or b""}
    weigh(path, range(60, 71))
    both = {end: bytes_of(path + end) or b"" for end in ("", "-wal")}
    if run("check", "--file", path)[1] != "SOUND 71\n" or not all(both.values()):
        fail("the journal isn't whole before it is broken")
    # the witness would refuse what is behind it, whatever the rows
    os.remove(path + "-newest")
    return [whole, both]


def broken(chance: random.Random, data: bytes) -> bytes:
    """Return the bytes, broken in one way."""
    kind, place = chance.randrange(7), chance.randrange(len(data))
    if kind == 0:
        return data[:place]
    if kind == 1:
        count = chance.choice([1, 4, 40, 400, 5_000])
        other = chance.randbytes(min(count, len(data) - place))
        return data[:place] + other + data[place + count :]
    if kind == 2:
        changed = bytearray(data)
        for _ in range(chance.choice([1, 1, 1, 2, 8, 64])):
            changed[chance.randrange(len(data))] ^= 1 << chance.randrange(8)
        return bytes(changed)
    page = place // PAGE * PAGE
    if kind == 3:
        return data[:page] + bytes(min(PAGE, len(data) - page)) + data[page + PAGE :]
    if kind == 4:
        copied = chance.randrange(len(data)) // PAGE * PAGE
        return data[:page] + data[copied : copied + PAGE] + data[page + PAGE :]
    if kind == 5:
        return data + chance.randbytes(chance.choice([1, PAGE]))
    return data[:place] + data[place + chance.choice([1, 7, PAGE]) :]


def run(*words: str) -> Ran:
    end = subprocess.run([BUILT, *words], stdin=subprocess.DEVNULL, capture_output=True, timeout=60)
    return end.returncode, end.stdout.decode(), end.stderr.decode()


def bytes_of(path: str) -> bytes | None:
    return Path(path).read_bytes() if os.path.exists(path) else None


def rows_of(path: str) -> Rows | None:
    """Return the rows of the journal by number, as sqlite3 reads a copy of the files. It is empty if there is no journal, and None if sqlite3 can't read it."""
    with tempfile.TemporaryDirectory() as folder:
        copy = os.path.join(folder, "copy.db")
        for end in ("", "-wal"):
            if os.path.exists(path + end):
                shutil.copyfile(path + end, copy + end)
        try:
            conn = sqlite3.connect(copy)
            rows = conn.execute("SELECT * FROM journal NOT INDEXED ORDER BY number").fetchall()
            conn.close()
        except sqlite3.OperationalError as fault:
            return {} if str(fault) == "no such table: journal" else None
        except (sqlite3.DatabaseError, UnicodeDecodeError, OverflowError):
            return None
    return {row[0]: row for row in rows}


def is_sound(row: tuple[Any, ...]) -> bool:
    """Return whether a row has the digest of its text."""
    number, key, kind, plate, moment, gross, preset, interval, most, serial, digest, previous = row
    weights = ("-" if it is None else it for it in (gross, preset))
    protected = (number, key, str(KINDS.get(kind)), plate, moment, *weights)
    setup = {"interval": interval, "most": most, "serial": serial, "previous": str(previous)}
    return bool(digest_of(*protected, **setup) == digest)


def judge_check(found: Ran, rows: Rows | None) -> str | None:
    """Return what a check found, in a word, if these rows allow that finding."""
    status, out, err = found
    if status == 1 and out == "" and LOG_TOLD.sub("", err) in FAULTS:
        return LOG_TOLD.sub("", err).split()[2]
    sound = re.fullmatch(r"SOUND (\d+)\n", out)
    if sound and status == 0 and err == "":
        fits = (
            rows is not None
            and len(rows) == int(sound[1])
            and not any(is_faulty(number, rows) for number in numbers_of(rows))
        )
        return "SOUND" if fits else None
    damaged = re.fullmatch(r"DAMAGED (\d+)\n", out)
    if damaged and status == 1 and err == "":
        return "DAMAGED" if rows is not None and is_at_fault(int(damaged[1]), rows) else None
    return None


def numbers_of(rows: Rows) -> range:
    """Return the numbers from the least to the greatest of these rows."""
    return range(min(rows, default=0), max(rows, default=-1) + 1)


def is_faulty(number: int, rows: Rows) -> bool:
    """Return whether no row has this number, or its digest is wrong, or the row one below has another digest than the one that this row holds of it."""
    if number not in rows or not is_sound(rows[number]):
        return True
    return number - 1 in rows and bool(rows[number - 1][10] != rows[number][11])


def is_at_fault(number: int, rows: Rows) -> bool:
    """Return whether no number below is faulty, and this one is, or closes none that is open."""
    if any(is_faulty(other, rows) for other in range(min(rows, default=number), number)):
        return False
    return is_faulty(number, rows) or KINDS.get(rows[number][2]) in ("second", "void")


def judge_exports(word: str, exports: list[Ran], rows: Rows | None) -> bool:
    """Return whether the exports end as they must after what the check found."""
    if word in ("SOUND", "DAMAGED"):
        journal, tickets = exports
        whole = journal[0] == 0 and journal[1].count("\n") == len(rows or {}) + 1
        refused = tickets == (1, "", "refused 17 damaged\n")
        return whole and (refused if word == "DAMAGED" else tickets[0] == 0 and tickets[2] == "")
    fault = (1, "", f"store {number_of(word)} {word}\n")
    return all((status, out, LOG_TOLD.sub("", err)) == fault for status, out, err in exports)


def number_of(word: str) -> int:
    return {"disk": 2, "size": 3, "foreign": 4, "old_version": 6}[word]


def try_one(path: str, chance: random.Random, files: Files) -> str:
    """Break one of the files, and return what the check found, in a word."""
    whole = dict(files)
    end = chance.choice(list(files))
    whole[end] = broken(chance, files[end])
    for name in ("", "-wal"):
        Path(path + name).unlink(missing_ok=True)
    for name, data in whole.items():
        Path(path + name).write_bytes(data)
    rows = rows_of(path)
    found = run("check", "--file", path)
    word = judge_check(found, rows)
    if word is None:
        fail(f"the check ends with {found}, and the rows are {rows and len(rows)}")
    is_kept = word in ("foreign", "old_version") or LOG_TOLD.match(found[2])
    if is_kept and {name: bytes_of(path + name) for name in files} != whole:
        fail(f"a file that is refused as {word} was changed")
    exports = [run("export", "--file", path, "--what", what) for what in ("journal", "tickets")]
    if not judge_exports(word, exports, rows):
        ends = ", ".join(f"{status} {err!r}" for status, _, err in exports)
        fail(f"after {word} the exports end with {ends}")
    return word


class BrokenFiles(Check):
    """Files of a journal that were broken by chance."""

    needs = (PROGRAM,)
    seconds = 200

    def test_ways(self) -> None:
        chance = random.Random(1)
        path = os.path.join(self.folder(), "journal.db")
        journals = make_journals(path)
        words: Counter[str] = Counter()
        for way in range(1, many(2_000) + 1):
            with self.subTest(way=way):
                words[try_one(path, chance, chance.choice(journals))] += 1
        print(", ".join(f"{word} {count}" for word, count in sorted(words.items())))
