"""Shows that the inspectors' reader reports each kind of falsification, by the journal, a printout or an older export.

- The reader finds no fault in sound journals of both versions, after a purge, and if only the log has the last entries.
- It reports rows and tables that no service wrote, and a view without end. It reports entries that were changed, removed or chained again, and
  spent keys that are made up. If the journal doesn't show a change, the digest of a printout or an older export does.
- It reports a log that is cut at any frame or within a frame, and a flipped bit in the header or any part of any frame. It reports a log that is
  gone or is another journal's, and a journal that is behind its witness. It accepts frames that an earlier log left.
- Without a whole witness, for example with only the journal's file, it says that it didn't examine the end.
- It confirms each printout that has the digest of a sound entry. If a digest differs, it names both causes: digests were computed again, or the printout
  is false. If a known number above it fits, and the chain between them is whole, it says that the change was before that number was printed.
- The second verifier, inspect/verify.c, prints the same and ends with the same status. So it does with odd fields and exports, and with some hundred
  files that were changed by chance. It never reads memory that isn't its own. If the program is built, its check agrees with both about
  each journal without a log.
- It finds no entry and no table in a journal that a power cut left while it was made.
- inspect/mend_log.py repairs one bit in each damaged frame and in the header, and says what is still wrong with the copy. It returns status 1 then,
  and if the program refuses the copy.
"""

import atexit
import csv
import functools
import hashlib
import os
import shutil
import sqlite3
import struct
import subprocess
import sys
import tempfile
from collections.abc import Mapping
from pathlib import Path
from typing import NoReturn

from verify import COUNT, Log, checksum

from checks import TOP
from checks.lib.books import HEADER
from checks.lib.case import Check
from checks.lib.journal import (
    ZEROS,
    change,
    digest_of,
    make_journal,
    newest_line,
    rows_of,
    run_script,
    write_newest,
)
from checks.lib.second_verifier import (
    Second,
    agree_with_check,
    said_by_both,
    show_damage_by_chance,
    show_odd_exports,
    show_odd_fields,
    show_odd_numbers,
    write_whole_witness,
)
from checks.lib.showing import fail, ok
from checks.lib.verdict import files_of, write_files

# A name, places, the bytes that are put there (None cuts the log), and the number of the frame that the readers name.
Row = tuple[str, int | tuple[int, ...], bytes | None, int | None]


@functools.cache
def second() -> Second:
    """Compile the second verifier, once."""
    folder = tempfile.TemporaryDirectory()
    atexit.register(folder.cleanup)
    return Second(folder.name)


COLUMNS = HEADER.rstrip().split(",")
ENDLESS = "CREATE VIEW journal AS WITH RECURSIVE r(n) AS (SELECT 1 UNION ALL SELECT n + 1 FROM r) SELECT n AS number FROM r"
HEAVIER = "UPDATE journal SET gross_kg = 18360 WHERE number ="
PURGE = "INSERT INTO spent SELECT request_key, number FROM journal WHERE number < 4; DELETE FROM journal WHERE number < 4"
# Tables that take a text as a number, as no service makes them.
LOOSE = """ALTER TABLE journal RENAME TO strict_journal; DROP TABLE spent; CREATE TABLE spent (request_key TEXT, number INTEGER);
CREATE TABLE journal (number INTEGER, request_key TEXT, kind INTEGER, plate TEXT, moment INTEGER, gross_kg INTEGER, preset_kg INTEGER,
interval_kg INTEGER, max_kg INTEGER, serial TEXT, digest TEXT, previous TEXT); INSERT INTO journal SELECT * FROM strict_journal; DROP TABLE strict_journal"""
# A script that changes a journal of eight entries, and the beginning of what the reader prints. An empty text means that it finds no fault.
FALSIFIED = [
    ("", ""),
    (PURGE, ""),
    (f"{HEAVIER} 3", "number 3 doesn't fit its digest"),
    ("DELETE FROM journal WHERE number = 3", "number 3 is missing"),
    ("DELETE FROM journal WHERE number BETWEEN 3 AND 6", "numbers 3 to 6 are missing"),
    (
        "DELETE FROM journal WHERE number = 3; UPDATE journal SET number = number - 1 WHERE number > 3",
        "number 3 doesn't fit its digest\nnumber 3 isn't chained to number 2\nnumber 4 doesn't fit its digest\n",
    ),
    ("DELETE FROM journal WHERE number < 4", "numbers 1 to 3 are missing"),
    (f"{PURGE}; DELETE FROM spent", "numbers 1 to 3 are missing"),
    ("INSERT INTO spent VALUES ('X1', 9)", "spent number 9 isn't below each stored entry"),
    ("INSERT INTO spent VALUES ('X1', 4294967295)", "spent number 4294967295 isn't below"),
    (
        f"{PURGE}; UPDATE spent SET request_key = 'K8' WHERE number = 1",
        "spent number 1 isn't below each stored entry, or an entry has its key",
    ),
    (
        f"{PURGE}; UPDATE spent SET request_key = 'K 1' WHERE number = 1",
        "spent number 1 is no spent key",
    ),
    ("UPDATE journal SET kind = 5 WHERE number = 2", "number 2 is no entry"),
    (
        "UPDATE journal SET kind = 2, preset_kg = NULL WHERE number = 2",
        "number 2 doesn't fit its digest\nnumber 2 has no First",
    ),
    (
        "UPDATE journal SET moment = moment + 100 WHERE number = 2",
        "number 2 doesn't fit its digest\nnumber 3 is older than the one before",
    ),
    (
        "UPDATE journal SET previous = digest WHERE number = 5",
        "number 5 doesn't fit its digest\nnumber 5 isn't chained to number 4",
    ),
    (
        f"{LOOSE}; UPDATE journal SET moment = 'x' WHERE number = 2",
        "number 2 is no entry: a field isn't within its limits\nentries: 8",
    ),
    (
        f"{LOOSE}; UPDATE journal SET number = char(27) || '[2J' WHERE number = 8",
        "number '\\x1b[2J' is no entry: a field isn't within its limits\nnumber 8 is the newest that ",
    ),
    (
        f"{LOOSE}; INSERT INTO spent VALUES ('X1', char(27))",
        "spent number '\\x1b' is no spent key: a field isn't within its limits\nentries: 8",
    ),
    ("DROP TABLE spent", "REFUSED it has no table spent"),
    (f"DROP TABLE journal; {ENDLESS}", "REFUSED it has no table journal"),
    ("UPDATE about SET value = 3", "REFUSED its table about says neither version"),
    (
        "ALTER TABLE journal ADD COLUMN note TEXT",
        "not examined: the column 'note' of the table journal, which no service makes\nentries: 8, faults: 0",
    ),
    ("ALTER TABLE journal DROP COLUMN plate", "REFUSED its table journal has no column plate TEXT"),
]


def differs(what: str, wanted: object, found: object) -> NoReturn:
    fail(f"{what}\nwanted: {wanted!r}\nfound:  {found!r}")


def said_of(path: str, *words: str) -> str:
    it = said_by_both(second(), [path, *words])
    out, err = it.stdout.decode(), it.stderr.decode()
    if it.returncode == 2 and not out:
        return err.replace(f"verify.py: {path}: ", "REFUSED ")
    faults, is_unknown = int(out.rstrip().rpartition(" ")[2]), "\nnot examined: " in f"\n{out}"
    if it.returncode != (faults > 0 or is_unknown):
        differs(f"the status of {out}", faults > 0 or is_unknown, it.returncode)
    if not words:
        agree_with_check(second(), path, out)
    return out if it.returncode else ""


def bytes_below(folder: str) -> dict[str, str]:
    files = sorted(Path(folder).iterdir())
    return {it.name: hashlib.sha256(it.read_bytes()).hexdigest() for it in files}


def said_without_change(path: str) -> str:
    """Return what the reader says about a journal. Fail if it changes a file in the journal's folder."""
    folder = os.path.dirname(path)
    before, said, after = bytes_below(folder), said_of(path), bytes_below(folder)
    if before != after:
        differs("the reader changed the files", before, after)
    return said


def tells(what: str, wanted: str, found: str) -> None:
    """Fail if `found` doesn't begin with `wanted`, or isn't empty if `wanted` is."""
    if not (found.startswith(wanted) if wanted else found == ""):
        differs(what, wanted, found)
    ok(what or "nothing")


def known(digests: dict[int, str], *numbers: int) -> list[str]:
    """Return the words that name the digests of these entries to the reader."""
    return [word for it in numbers for word in ("--known", str(it), digests[it])]


def chained_anew(path: str, since: int) -> None:
    """Change the plate of an entry, and compute its digest and those of all later entries again."""
    change(path, f"UPDATE journal SET plate = 'OTHER' WHERE number = {since}")
    parts = "number, request_key, 'single', plate, moment, gross_kg, preset_kg, max_kg, serial"
    previous = ZEROS
    for row in rows_of(path, f"SELECT {parts} FROM journal ORDER BY number"):
        digest = digest_of(*row, previous)
        new = f"previous = '{previous}', digest = '{digest}'"
        change(path, f"UPDATE journal SET {new} WHERE number = {row[0]}")
        previous = digest


def open_with_log(path: str) -> sqlite3.Connection:
    """Open a journal whose log keeps all that is written, until it is closed."""
    database = sqlite3.connect(path, isolation_level=None)
    for it in ("journal_mode = WAL", "wal_autocheckpoint = 0"):
        database.execute(f"PRAGMA {it}")
    return database


def with_log(
    path: str, entries: int, is_restarted: bool = False, age: int = 60
) -> dict[str, bytes]:
    """Make a journal with its tables in its file and its entries in its log, one in each commit, as a kill leaves it.

    Return the content of its files by their endings. If `is_restarted`, restart the log before its last two entries, so that older frames follow.
    """
    make_journal(f"{path}-made", entries, age)
    rows = rows_of(f"{path}-made")
    make_journal(path, 0)
    database = open_with_log(path)
    for at, row in enumerate(rows):
        if is_restarted and at == entries - 2:
            database.execute("PRAGMA wal_checkpoint(RESTART)")
        database.execute(f"INSERT INTO journal VALUES ({','.join('?' * 12)})", row)
    write_newest(path, entries, rows[-1][10])
    files = files_of(path)
    database.close()
    return files


def turned(data: bytes, bit: int) -> bytes:
    """Return the data with one bit turned over."""
    found = bytearray(data)
    found[bit // 8] ^= 1 << bit % 8
    return bytes(found)


PAGE, FILE, SALTS = 512, 1024, bytes([7, 1, 2, 3, 4, 5, 6, 9])
FRAME = 24 + PAGE
FRAMES = [32 + it * FRAME for it in range(6)]


def service_log(is_spilled: bool = False) -> bytes:
    """Make a log as the service writes it.

    It has a commit of two syncs, two commits of one sync, each with a frame that counts its zeros, and then zeros. If `is_spilled`, a transaction that
    didn't fit into memory follows the first commit instead, in three commits, of which only the first has a frame that is opened later.
    """
    page = bytes(16) + bytes([5]) * (PAGE - 16)
    head = struct.pack(">4I", 0x377F0682, 3007000, PAGE, 0) + SALTS
    total = checksum("<", (0, 0), head)
    log = head + struct.pack(">2I", *total)
    counting = (2 * 16 - 8 + (COUNT - 1) + (COUNT - 2)).to_bytes(8, "big") + page[8:]
    behind = [(COUNT, 0, counting), (1, 2, page)] * 2
    if is_spilled:
        behind = [(1, 0, page), (2, 2, page), (1, 2, page), (2, 2, page)]
    for number, size, content in ((1, 0, page), (2, 2, page), *behind):
        front = struct.pack(">2I", number, size)
        total = checksum("<", total, front + content)
        log += front + SALTS + struct.pack(">2I", *total) + content
    return log + bytes(2 * FRAME)


def played_program(folder: str, what: str) -> str:
    """Write a program that accepts each journal if `what` is `takes`, and refuses each if it is `refuses`."""
    path = Path(folder, what)
    script = f"#!/bin/sh\n[ {what} = takes ] && exit 0\necho store 2 disk >&2\nexit 1\n"
    path.write_text(script, encoding="ascii")
    path.chmod(0o700)
    return str(path)


FALSE = "the given digest was mistyped or isn't of this journal"
AGAIN, PRINTED = "digests were computed again", "was printed or exported"
OLDEST = ", perhaps from the oldest entry on"


def other(number: int, since: str, before: int = 0, more: str = "") -> str:
    """Return the reader's line about a known digest that isn't the entry's, where `before` is the number of a later printout that fits."""
    again = f"{AGAIN}{since}, at the latest from number {number} on"
    again += f", and before number {before} {PRINTED}" if before else ""
    return f"number {number} doesn't have the known digest{more}: {again}, or {FALSE}\n"


# All that the reader prints about a journal of eight entries, by a script that changes the journal, and the numbers that are known with the right digest and with
# another one.
KNOWN: dict[tuple[str, tuple[int, ...], tuple[int, ...]], str] = {
    ("", (7,), ()): "number 7 has the known digest\nentries: 8, faults: 0",
    ("", (3, 8), (7,)): (
        other(7, " after number 3", before=8)
        + "number 3 has the known digest\nnumber 8 has the known digest\nentries: 8, faults: 1"
    ),
    ("", (8,), (5, 6)): (
        other(5, OLDEST, before=8, more=" (and 1 more)")
        + "number 8 has the known digest\nentries: 8, faults: 1"
    ),
    ("", (), (7,)): other(7, OLDEST) + "entries: 8, faults: 1",
    ("", (2, 3), (6, 7)): (
        other(6, " after number 3", more=" (and 1 more)")
        + "number 2 has the known digest\nnumber 3 has the known digest\nentries: 8, faults: 1"
    ),
    ("", (6,), (4, 7)): (
        other(4, OLDEST, before=6)
        + other(7, " after number 6")
        + "number 6 has the known digest\nentries: 8, faults: 2"
    ),
    (f"{HEAVIER} 7", (2, 7, 8), (5,)): (
        "number 7 doesn't fit its digest\n"
        + other(5, " after number 2 and before number 7")
        + "number 2 has the known digest\nnumber 8 has the known digest\nentries: 8, faults: 2"
    ),
    (f"{HEAVIER} 8", (8,), (7,)): (
        "number 8 doesn't fit its digest\n"
        + other(7, f" before number 8{OLDEST}")
        + "entries: 8, faults: 2"
    ),
    (f"{HEAVIER} 2", (8,), (5,)): (
        "number 2 doesn't fit its digest\n"
        + other(5, OLDEST, before=8)
        + "number 8 has the known digest\nentries: 8, faults: 2"
    ),
    ("DELETE FROM journal WHERE number = 7", (8,), (5,)): (
        "number 7 is missing\n"
        + other(5, f" before number 8{OLDEST}")
        + "number 8 has the known digest\nentries: 7, faults: 2"
    ),
    ("DELETE FROM journal WHERE number = 3", (3,), ()): (
        "number 3 is missing\n"
        "the known number 3 is missing: it was removed, and not by a purge\nentries: 7, faults: 2"
    ),
    ("", (), (9, 12)): (
        "the known number 9 is missing (and 1 more): it was removed, "
        "or was never in this journal, whose greatest number is 8\nentries: 8, faults: 1"
    ),
    (PURGE, (3,), ()): (
        "number 3 was purged, and number 4 holds its known digest\nentries: 5, faults: 0"
    ),
    (PURGE, (), (3,)): (
        "number 4 isn't chained to the known number 3: number 4 was changed or replaced, "
        f"or {FALSE}\nentries: 5, faults: 1"
    ),
    (PURGE, (4,), (3,)): (
        f"number 4 isn't chained to the known number 3: {AGAIN} before number 4 {PRINTED}, "
        f"or {FALSE}\nnumber 4 has the known digest\nentries: 5, faults: 1"
    ),
    (f"{PURGE}; {HEAVIER} 4", (3, 8), ()): (
        "number 4 doesn't fit its digest\nnumber 8 has the known digest\nentries: 5, faults: 1"
    ),
}


class Verify(Check):
    """Both readers, over journals that were changed in each way."""

    needs = ("cc",)
    seconds = 60

    def setUp(self) -> None:
        self.box = self.folder()
        os.mkdir(f"{self.box}/only")  # a folder that has nothing but the files of one journal
        self.kept, self.export = f"{self.box}/kept.db", f"{self.box}/export.csv"
        make_journal(self.kept, 8)
        rows = rows_of(self.kept)
        self.digests: dict[int, str] = {row[0]: row[10] for row in rows}
        write_newest(self.kept, 8, self.digests[8])
        with open(self.export, "w", newline="", encoding="utf-8") as file:
            csv.writer(file).writerows([COLUMNS, *rows])

    def copy(self, name: str) -> str:
        """Copy the journal of eight entries, and return the path of the copy."""
        path = f"{self.box}/{name}"
        write_files(path, files_of(self.kept))
        return path

    def said_of_files(self, files: Mapping[str, bytes | None]) -> str:
        """Return what the reader says about these files. Fail if it changes them."""
        path = f"{self.box}/only/files.db"
        write_files(path, files)
        return said_without_change(path).replace(path, "files.db")

    def test_scripts(self) -> None:
        for script, wanted in FALSIFIED:
            path = self.copy("only/journal.db")
            run_script(path, script)
            tells(script, wanted, said_without_change(path))

    def test_version_1_and_no_file(self) -> None:
        old = f"{self.box}/old.db"
        make_journal(old, 8, version=1)
        write_newest(old, 8, ZEROS)
        tells("a journal of version 1", "", said_of(old))
        tells("no file", "REFUSED it isn't there", said_of(f"{self.box}/none.db"))

    def test_change_in_the_log(self) -> None:
        path = self.copy("only/journal.db")
        database = open_with_log(path)
        database.execute(f"{HEAVIER} 8")
        said = said_without_change(path)
        tells("a change that is only in the log", "number 8 doesn't fit its digest", said)
        database.close()

    def test_chain_that_was_made_again(self) -> None:
        digests, anew = self.digests, self.copy("anew.db")
        chained_anew(anew, 4)
        tells(
            "a chain that was made again, with its witness from before",
            f"number 8 differs from the entry that {anew}-newest recorded",
            said_of(anew),
        )
        write_whole_witness(anew)
        tells("a new chain, with a new witness and without a printout", "", said_of(anew))
        tells("with a paper from before it", "", said_of(anew, *known(digests, 3)))
        for what, number, digest, wanted in (
            ("a digest that was shortened", "3", digests[3][:8], "the digest of number 3 has 8 "),
            ("a digest with points", "3", f"{digests[3][:4]}..", "the digest of number 3 has "),
            ("a digest with a capital", "3", "A" + digests[3][1:], "the digest of number 3 has "),
            ("a number that is none", "x", digests[3], "x is no number of an entry"),
            ("a number past the last", "4294967296", digests[3], "4294967296 is no number"),
        ):
            tells(what, f"REFUSED --known: {wanted}", said_of(anew, "--known", number, digest))
        wanted = other(7, " after number 2")
        tells("with papers of both sides", wanted, said_of(anew, *known(digests, 2, 7)))
        tells(
            "with an older export",
            f"number 4 doesn't have the known digest (and 4 more): {AGAIN} after number 3,",
            said_of(anew, "--against", self.export),
        )
        run_script(anew, PURGE)
        tells("the oldest moved among the spent, without a printout", "", said_of(anew))
        unknown = "not examined: whether the printout of number 2 is genuine, "
        unknown += "because its entry was purged"
        tells("with a paper of one of them", unknown, said_of(anew, *known(digests, 2)))
        tells("with a false paper of one of them", unknown, said_of(anew, "--known", "2", ZEROS))
        chained_anew(anew, 5)
        write_whole_witness(anew)
        tells(
            "with the last of them, to which what stands isn't chained",
            "number 4 isn't chained to the known number 3",
            said_of(anew, *known(digests, 3)),
        )

    def test_newest_entries_removed(self) -> None:
        newest = self.copy("newest.db")
        change(newest, "DELETE FROM journal WHERE number > 6")
        tells(
            "the newest entries removed, with their witness",
            f"number 8 is the newest that {newest}-newest recorded, but the greatest number is 6",
            said_of(newest),
        )
        write_newest(newest, 6, self.digests[6])
        tells("the newest entries removed, with a new witness", "", said_of(newest))
        tells(
            "with an older export that has them",
            "the known number 7 is missing (and 1 more): it was removed",
            said_of(newest, "--against", self.export),
        )
        tells("no export", "REFUSED", said_of(self.kept, "--against", self.kept))

    def test_printouts(self) -> None:
        """Printouts of purged entries, and two digests of one number: an export, a second printout or neither must not hide the false one."""
        kept, digests, purged = self.kept, self.digests, self.copy("purged.db")
        run_script(purged, PURGE)
        both = f"has different digests in --known and {self.export}: one of them is false"
        for what, path, number, digest, wanted in (
            ("a paper of a purged entry", purged, "2", digests[2], ""),
            ("a false paper of a purged entry", purged, "2", ZEROS, f"number 2 {both}"),
            ("a false paper of a stored entry", kept, "7", ZEROS, f"number 7 {both}"),
        ):
            said = said_of(path, "--known", number, digest, "--against", self.export)
            tells(f"{what}, and an export that has it", wanted, said)
        right, false = known(digests, 7), ["--known", "7", ZEROS]
        wanted = "number 7 has different digests in --known and --known: one of them is false"
        tells("two papers of one number", wanted, said_of(kept, *right, *false))
        tells("two papers of one number", wanted, said_of(kept, *false, *right))
        wanted = "number 7 doesn't have the known digest"
        tells("a false paper, and no export", wanted, said_of(kept, *false))
        self.show_known()

    def show_known(self) -> None:
        """Show all that the readers print about printouts and exports, even if each of them is genuine."""
        digests, against = self.digests, ["--against", self.export]

        def is_said(what: str, wanted: str, *words: str) -> None:
            it = said_by_both(second(), [path, *words])
            found = (it.stdout or it.stderr).decode().replace(self.box, "")
            if found != f"{wanted}\n":
                differs(what, wanted, found)
            ok(what)

        for (script, right, false), wanted in KNOWN.items():
            path = self.copy("known.db")
            run_script(path, script)
            words = known(digests | dict.fromkeys(false, ZEROS), *right, *false)
            is_said(f"known: {[*right]} right, {[*false]} not; {script}f", wanted, *words)
        # digests were computed again after 7 was printed and before 8 was: the printout of 7 is genuine, and must not be called false
        path = self.copy("known.db")
        chained_anew(path, 5)
        is_said(
            "a printout from before a change, and one that the service made after it",
            other(7, " after number 4", before=8)
            + "number 4 has the known digest\nnumber 8 has the known digest\nentries: 8, faults: 1",
            *known(digests | {8: write_whole_witness(path)}, 4, 7, 8),
        )
        path, stored = self.copy("known.db"), "digests are those of stored entries"
        wanted = f"/export.csv: 8 of 8 {stored}\nentries: 8, faults: 0"
        is_said("an export that fits, named twice", wanted, *against, *against)
        run_script(path, PURGE)
        is_said(
            "a printout of a purged entry, and an export that has it",
            "number 2 was purged, and /export.csv has its known digest\n"
            f"/export.csv: 5 of 8 {stored}\nentries: 5, faults: 0",
            *known(digests, 2),
            *against,
        )
        change(path, f"{HEAVIER} 5")
        is_said(
            "an export of an entry that was changed, and kept its digest",
            f"number 5 doesn't fit its digest\n/export.csv: 4 of 8 {stored}\nentries: 5, faults: 1",
            *against,
        )
        os.remove(path)
        make_journal(path, 8, version=1)
        write_newest(path, 8, ZEROS)
        is_said(
            "a journal of version 1, whose entries aren't chained",
            other(7, f" before number 8{OLDEST}")
            + "number 8 has the known digest\nentries: 8, faults: 1",
            *known({8: rows_of(path)[-1][10], 7: ZEROS}, 8, 7),
        )
        wanted = "type all 64 of 0 to 9 and a to f, in small letters and without blanks"
        for digest, what in (
            (digests[3].upper(), "a character that no digest has"),
            (digests[3][:4] + " " + digests[3][4:], "65 characters"),
            (digests[3][:62] + "é", "63 characters"),
            (digests[3][:63] + "é", "a character that no digest has"),
        ):
            said = f"verify.py: /known.db: --known: the digest of number 3 has {what}: {wanted}"
            is_said(f"a digest with {what}", said, "--known", "3", digest)

    def test_witnesses(self) -> None:
        """Show what the reader says about each kind of `-newest` file, the witness."""
        path, digests = self.copy("witness.db"), self.digests
        whole, seventh = newest_line(8, digests[8]), newest_line(7, digests[7])
        torn = whole.replace("newest 0000000008", "newest 0000000009")
        unknown = f"not examined: whether entries are missing at the end, because {path}-newest"
        one_line, behind = f"{unknown} has only one whole line", f"{unknown} names number"
        ahead = f"is the newest that {path}-newest recorded, but the greatest number is 8"
        changed = f"number 8 differs from the entry that {path}-newest recorded"
        os.remove(f"{path}-newest")
        tells("a journal whose witness is missing", f"{unknown} isn't there", said_of(path))
        for what, letters, wanted in (
            ("is empty", "", f"{unknown} is empty"),
            ("is torn in both lines", torn * 2, f"{unknown} has no whole line"),
            ("is torn in its first line", torn + whole, one_line),
            ("is torn in its second line", whole + torn, one_line),
            ("is cut to a line", whole, one_line),
            ("is torn in one line and behind", seventh + torn, f"{behind} 7"),
            ("is behind", 2 * newest_line(3, digests[3]), f"{behind} 3"),
            ("is a new journal's", 2 * newest_line(0, ZEROS), f"{behind} 0"),
            ("names its last two entries", whole + seventh, ""),
            ("has a number without a digest", 2 * newest_line(8, ZEROS), ""),
            ("is ahead", whole + newest_line(9, digests[8]), f"number 9 {ahead}"),
            ("is ahead by many", 2 * newest_line(60, digests[8]), f"number 60 {ahead}"),
            ("has another entry", 2 * newest_line(8, digests[7]), changed),
        ):
            Path(f"{path}-newest").write_text(letters, encoding="ascii")
            tells(f"one whose witness {what}", wanted, said_of(path))
        write_newest(path, 8, digests[8])
        os.symlink(path, f"{self.box}/link.db")
        tells("a symbolic link to a journal", "", said_of(f"{self.box}/link.db"))

    def test_logs(self) -> None:
        files = with_log(f"{self.box}/logged.db", 6)
        log = files["-wal"]
        page = int.from_bytes(log[8:12], "big")
        borders = range(32, len(log) + 1, 24 + page)

        def said(log: bytes | None) -> str:
            return self.said_of_files(files | {"-wal": log})

        tells("a journal whose entries are only in the log", "", said(log))
        ends = [at for at in borders[1:] if any(log[at - page - 20 : at - page - 16])]
        newest = "number 6 is the newest that files.db-newest recorded"
        lost = f"{newest}, but the greatest number is {{}}, so the last answered entries are gone"
        for at in borders[:-1]:
            wanted = lost.format(sum(it <= at for it in ends)) + "\n"
            tells(f"its log cut at byte {at}, the end of a frame", wanted, said(log[:at]))
        for at in (0, 20, 31, borders[0] + 10, borders[1] - 1, borders[-2] + 24, len(log) - 1):
            tells(f"its log cut at byte {at}, within a frame", newest, said(log[:at]))
        elsewhere = "in files.db-wal, which isn't there: copy all files of the journal\n"
        gone = f"{lost.format(0)}; or they are {elsewhere}"
        tells("its log is gone", gone, said(None))
        bare = f"{self.box}/bare.db"
        sqlite3.connect(bare).close()
        write_newest(bare, 6, ZEROS)
        no_table = "not examined: whether this is a journal, because it has none of the tables"
        wanted = f"{gone}{no_table}; they may be {elsewhere}"
        tells("no table, and no log", wanted, said_of(bare).replace(bare, "files.db"))
        unknown = "not examined: whether entries are missing at the end, because files.db-newest"
        tells("only the file", f"{unknown} isn't there", self.said_of_files({"": files[""]}))
        found = self.said_of_files(files | {"-newest": None})
        tells("only the file and its log", "not examined: whether", found)
        for bit in (0, 7, 8 * 5, 8 * 9 + 4, 8 * 16, 8 * 20 + 3, 8 * 24, 8 * 31 + 7):
            found = said(turned(log, bit))
            wanted = "files.db-wal: its header is damaged"
            tells(f"bit {bit} of the log's header is flipped", wanted, found)
        for number, at in enumerate(borders[:-1]):
            wanted = f"files.db-wal: it is damaged, in the frame from byte {at}: no entry in it "
            wanted += f"is read, nor in the {len(borders) - 2 - number} frames behind it"
            for part, inside in (
                ("page number", 3),
                ("size", 7),
                ("salt", 9),
                ("second salt", 15),
                ("checksum", 17),
                ("page", 24),
                ("page", 24 + 1500),
                ("page", 24 + page - 1),
            ):
                found = said(turned(log, 8 * (at + inside) + 5))
                tells(f"a bit of the {part} of the frame from byte {at} is flipped", wanted, found)
        stale = with_log(f"{self.box}/restarted.db", 6, is_restarted=True)
        older = stale["-wal"]
        same_salts = {
            older[at + 8 : at + 16] == older[16:24] for at in range(32, len(older), 24 + page)
        }
        found = "" if same_salts == {True, False} else "it has not"
        tells("the log has frames of its own and of an older one", "", found)
        found = self.said_of_files(stale)
        tells("frames that an older log left are no damage", "", found)
        emptied = files | {"": bytes(len(files[""])), "-wal": turned(log, 8 * 9)}
        tells(
            "a damaged log without whose entries the file is no journal",
            "REFUSED files.db-wal: its header is damaged",
            self.said_of_files(emptied),
        )
        found = self.said_of_files(stale | {"-wal": turned(older, 8 * (32 + 24 + 700))})
        wanted = "files.db-wal: it is damaged, in the frame from byte 32"
        tells("but a flipped bit before them is", wanted, found)
        another = with_log(f"{self.box}/other.db", 9, age=3600)["-wal"]
        wanted = "number 6 differs from the entry that files.db-newest recorded"
        tells("the log of another journal", wanted, said(another))
        found = self.said_of_files(files | {"": b""})
        wanted = "files.db-wal: the journal next to it is empty"
        tells("a journal that was cut to nothing, with its log", wanted, found)

    def test_pages(self) -> None:
        """Show that a journal has the pages that its header and its log name, as the program wants it."""
        path = f"{self.box}/paged.db"
        make_journal(path, 6)
        data = Path(path).read_bytes()
        logged = with_log(f"{self.box}/paged_log.db", 6)
        whole, log = logged[""], logged["-wal"]
        page = int.from_bytes(data[16:18], "big")
        count, there = len(data) // page, len(whole) // page
        # the version of a program is a number in the first page
        database = open_with_log(path)
        database.execute("PRAGMA user_version = 7")
        beside, first_page = Path(path).read_bytes(), Path(f"{path}-wal").read_bytes()
        database.close()
        other_data, other_beside, other_whole = (
            it[:92] + b"abcd" + it[96:] for it in (data, beside, whole)
        )
        refuses = "so the program refuses it"
        pages = f"files.db: its header names {{}} pages, and it has {{}}, {refuses}"
        one_more = pages.format(count, count + 1)
        torn = f"files.db: its page {there} isn't whole, {refuses}"
        changed = f"files.db: bytes 92 to 95 of its header aren't bytes 24 to 27, {refuses}"
        for what, main_file, wal, wanted in (
            ("a page more", data + bytes(page), None, one_more),
            ("bytes behind the last page", data + b"x", None, ""),
            ("a byte less", data[:-1], None, pages.format(count, count - 1)),
            ("no number of pages", data[:28] + bytes(4) + data[32:], None, pages.format(0, count)),
            ("another last change", other_data, None, changed),
            ("its log", whole, log, ""),
            ("a page more, and its log", whole + bytes(page), log, ""),
            ("a byte less, and its log", whole[:-1], log, torn),
            (
                "another last change, and a log that has the first page",
                other_beside,
                first_page,
                "",
            ),
            ("another last change, and its log", other_whole, log, changed),
            ("a page more, and a log that was shut", data + bytes(page), bytes(60), one_more),
        ):
            found = self.said_of_files({"": main_file, "-wal": wal})
            told = "".join(f"{it}\n" for it in found.splitlines() if refuses in it)
            if told != (wanted and f"{wanted}\n"):
                differs(f"a journal with {what}", wanted, found)
            ok(f"a journal with {what}")

    def test_journal_that_was_being_made(self) -> None:
        """Show what both readers say of a journal that a power cut left while the program made it, and of files that are nearly such."""
        head = struct.pack(">4I", 0x377F0682, 3007000, 4096, 2**32 - 1) + bytes(range(1, 9))
        begun = head + struct.pack(">2I", *checksum("<", (0, 0), head))
        counted = begun[:12] + bytes(4) + begun[16:24]
        counted += struct.pack(">2I", *checksum("<", (0, 0), counted))
        with_room, entries = begun + bytes(9_000), with_log(f"{self.box}/made.db", 3)["-wal"]
        for what, file, log, is_unmade in (
            ("a page of zeros next to a log that was begun", bytes(4096), begun, True),
            ("its log has zeros, too", bytes(4096), begun + bytes(9), True),
            ("its log has room for a frame", bytes(4096), with_room, True),
            ("a part of the page", bytes(100), begun + bytes(9), True),
            ("a byte of the page", b"\0", begun, True),
            ("a byte, and no log", b"S", None, True),
            ("all but the first byte", b"\0QLite format 3" + bytes(4081), begun, True),
            ("zeros, and no log", bytes(4096), None, False),
            ("zeros, and a log of zeros", bytes(4096), bytes(41), False),
            ("zeros, and a cut header", bytes(4096), begun[:31], False),
            ("zeros, and a header after a checkpoint", bytes(4096), counted, False),
            ("more than a page of zeros", bytes(4097), begun, False),
            ("a page with another first byte", b"x" + bytes(4095), begun, False),
            ("a part of the page, and a log with room for a frame", bytes(100), with_room, False),
            ("zeros, and a log with entries", bytes(4096), entries, False),
        ):
            found = self.said_of_files({"": file, "-wal": log})
            none = "not examined: whether this is a journal, because it has none of the tables"
            if found.startswith(none) != is_unmade:
                differs(f"a journal that was being made: {what}", is_unmade, found)
            ok(f"a journal that was being made: {what}")

    def test_what_a_power_cut_leaves(self) -> None:
        """Show that a power cut's changes to the last commit are no damage, and that other changes are.

        A power cut takes bytes of the last commit, which are 0 then, because the service wrote it over zeros.

        Each row has a name, the place, the new bytes (None cuts the log there), and the number of the frame that the reader names. -1 stands for the
        header, and None for no damage.
        """
        whole, frame = service_log(), FRAMES
        older, gates = b"\x07\x01\x02\x02abcd", (frame[4] + 8, frame[5] + 8)
        rows: list[Row] = [
            ("nothing", 0, b"", None),
            ("a byte of the header", 5, b"\x09", -1),
            ("a salt of the header", 16, b"\x08", -1),
            ("a header that a checkpoint shut", 0, b"\0", None),
            ("a header's first byte", 0, b"\x01", -1),
            ("a page behind which commits stand", frame[0] + 224, b"\x09", 0),
            ("a checksum behind which commits stand", frame[1] + 20, b"\x09", 1),
            ("bytes lost of a commit behind which another stands", frame[3] + 224, bytes(9), 3),
            ("a gate that is shut before a commit that is open", frame[2] + 8, b"\0", 2),
            ("a gate that is damaged", frame[2] + 8, b"\x06", 2),
            ("a salt lost before a commit that is open", frame[2] + 8, bytes(8), 2),
            ("a lost frame of a commit of two syncs", frame[0], bytes(FRAME), 0),
            ("another lost frame of it", frame[1], bytes(FRAME), 1),
            ("a lost frame that counts, before another commit", frame[2], bytes(FRAME), 2),
            ("a lost end of a commit before another", frame[3], bytes(FRAME), 3),
            ("a lost commit before another", frame[2], bytes(2 * FRAME), 2),
            ("a commit of two syncs, shut before others", frame[0] + 8, b"\0", 0),
            ("the last frame shut", frame[5] + 8, b"\0", None),
            ("one salt of the last frame is another", frame[5] + 9, b"\x09\x09\x09", 5),
            ("the last commit shut", frame[4] + 8, b"\0", None),
            ("the last commit lost", frame[4], bytes(2 * FRAME), None),
            ("its last frame lost", frame[5], bytes(FRAME), None),
            ("bytes of its page lost", frame[5] + 224, bytes(9), None),
            ("a byte of its checksum lost", frame[5] + 16, b"\0", None),
            ("its count lost", frame[4] + 24, bytes(8), None),
            ("another byte in its page", frame[5] + 224, b"\x09", 5),
            ("another byte in its salt", frame[5] + 9, b"\x09", 5),
            ("another byte in its number", frame[4] + 3, b"\x01", 4),
            ("another byte in its count", frame[4] + 24, b"\x01", 4),
            ("the end of the file within a frame", frame[5] + 500, None, None),
            ("a frame of a log before this one at the end", frame[4] + 8, older, 4),
            ("frames of a log before this one at the end", gates, older, None),
        ]
        in_spilled: list[Row] = [
            ("nothing", 0, b"", None),
            ("its shut gate", frame[2] + 8, b"\0", None),
            ("its lost first frame", frame[2], bytes(FRAME), None),
            ("a shut frame within its first commit", frame[3] + 8, b"\0", 3),
            ("a lost frame before it", frame[1], bytes(FRAME), 1),
            ("salts of a log before this one", frame[2] + 8, older, 2),
        ]
        # frames of a transaction that was never opened, behind the zeros of the last commit or within them
        spilled = service_log(True)
        behind = 2 * spilled[frame[2] : frame[4]]
        far, near = (whole + bytes(frame[4] + it * FRAME - len(whole)) + behind for it in (600, 60))
        page = frame[5] + 224
        places = {None: "", -1: "header is damaged"}
        places |= {number: f"from byte {it}:" for number, it in enumerate(frame)}
        for log, what, at, new, wanted in [
            (far, "a page lost before frames that weren't opened", page, bytes(9), None),
            (far, "a last commit lost before them", frame[4], bytes(2 * FRAME), None),
            (far, "another byte before them", page, b"\x09", 5),
            (near, "a page lost within its zeros before them", page, bytes(9), 5),
            *((whole, *it) for it in rows),
            *((spilled, f"a transaction that didn't fit, {it[0]},", *it[1:]) for it in in_spilled),
        ]:
            data = bytearray(log)
            for place in at if isinstance(at, tuple) else (at,):
                data[place : None if new is None else place + len(new)] = new or b""
            found = Log(bytes(data)).damage(FILE)
            if (found is None) != (wanted is None) or places[wanted] not in (found or ""):
                differs(f"{what} in a log of the service", wanted, found)
            # next to a file that is no database, so that both say what they find in the log
            write_files(f"{self.box}/service.db", {"": bytes(FILE), "-wal": bytes(data)})
            said_by_both(second(), [f"{self.box}/service.db"])
            ok(f"{what} in a log of the service")
        for size, length, is_damaged in (
            (0, len(whole), True),
            (511, len(whole), True),
            (0, 56, True),
            (0, 55, True),
            (0, 31, False),
            (FILE, 55, False),
        ):
            if (Log(whole[:length]).damage(size) is not None) != is_damaged:
                what = f"a log of {length} bytes with a file of {size}"
                differs(what, is_damaged, not is_damaged)
        # a right header counts without a file, whatever length of a page it names
        odd = struct.pack(">4I", 0x377F0682, 3007000, 100, 0) + SALTS
        odd += struct.pack(">2I", *checksum("<", (0, 0), odd)) + bytes(9)
        if Log(odd).damage(0) is None:
            differs("a right header with an odd length of a page, without a file", True, False)
        write_files(f"{self.box}/odd.db", {"": b"", "-wal": odd})
        if said_by_both(second(), [f"{self.box}/odd.db"]).returncode == 0:
            differs("both verifiers, of a right header without a file", "refused", "accepted")
        ok("a log with a file that was cut")

    def mended(
        self, files: Mapping[str, bytes | None], program: str | None = None
    ) -> tuple[int, str, bytes | None]:
        """Run inspect/mend_log.py. Return its status, what it prints, and the log that it makes, or None if it makes none."""
        path, copy = f"{self.box}/only/damaged.db", f"{self.box}/repaired"
        write_files(path, files)
        before = bytes_below(f"{self.box}/only")
        words = [sys.executable, f"{TOP}/inspect/mend_log.py", path, copy]
        words += ["--program", program] if program else []
        env = {**os.environ, "PATH": "/nowhere"}
        it = subprocess.run(words, capture_output=True, text=True, timeout=300, env=env)
        if before != (after := bytes_below(f"{self.box}/only")):
            differs("the files were changed in place", before, after)
        log = None
        if os.path.exists(copy):
            log = Path(copy, "damaged.db-wal").read_bytes()
            shutil.rmtree(copy)
        return it.returncode, it.stdout + it.stderr, log

    def test_mending(self) -> None:
        """Show which flipped bits inspect/mend_log.py finds, and what it says is still wrong."""
        files = with_log(f"{self.box}/mending.db", 6)
        log = files["-wal"]
        page = int.from_bytes(log[8:12], "big")
        frame = [32 + it * (24 + page) for it in range((len(log) - 32) // (24 + page))]
        bit_in = {it: 8 * (at + 24 + 1700) + it % 8 for it, at in enumerate(frame)}
        for what, bits in (
            ("a flipped bit", [bit_in[2]]),
            ("one in the header", [8 * 9 + 4]),
            ("one in the last frame", [bit_in[len(frame) - 1]]),
            ("one in the salt", [8 * (frame[3] + 9) + 1]),
            ("one in a checksum", [8 * (frame[3] + 18) + 1]),
            ("two, in frames far from each other", [bit_in[1], bit_in[6]]),
            ("two, in frames side by side", [bit_in[4], bit_in[5]]),
            ("three, and one in the header", [8 * 5, bit_in[0], bit_in[1], bit_in[7]]),
        ):
            damaged = functools.reduce(turned, bits, log)
            status, said, found = self.mended(files | {"-wal": damaged})
            if (status, found) != (0, log) or said.count(" was flipped: ") != len(bits):
                differs(f"{what} is repaired", 0, (status, said))
            ok(f"repaired: {what}")
        damaged = turned(log, bit_in[2])
        refuses, takes = (played_program(self.box, it) for it in ("refuses", "takes"))
        missing = "/nowhere/weighbridge"
        ahead = newest_line(7, rows_of(f"{self.box}/mending.db-made")[-1][10]).encode() * 2
        twice = turned(damaged, bit_in[2] + 800)
        behind = turned(turned(damaged, bit_in[5]), bit_in[5] + 800)
        wrong, nothing = "still wrong:", "nothing was written:"
        lacks = f"{wrong} number 7 is the newest that the copy-newest recorded"
        lacks += ", but the greatest number is 6"
        refused = f"{wrong} {refuses} check --file {self.box}/repaired/damaged.db: store 2 disk"
        not_run = f"{wrong} {missing} can't be run"
        in_frame = f"{nothing} in the frame from byte"
        whole = f"{nothing} no frame of the log is damaged"
        cut = f"{nothing} 1 flipped bits are found, and the program still refuses the log: "
        cut += "the journal next to it is empty or was cut"
        empty = f"{nothing} the journal's file is missing or empty"
        not_mended: list[tuple[str, dict[str, bytes], str | None, str]] = [
            ("a copy that lacks an answered entry", {"-newest": ahead}, None, lacks),
            ("a copy that the program refuses", {}, refuses, refused),
            ("a copy for which there is no such program", {}, missing, not_run),
            ("two bits in one frame", {"-wal": twice}, None, in_frame),
            ("two in one frame behind one that is repaired", {"-wal": behind}, None, in_frame),
            ("a log that isn't damaged", {"-wal": log}, None, whole),
            ("a log that was cut at the end of a frame", {"-wal": log[: frame[4]]}, None, whole),
            ("a log that was cut within a frame", {"-wal": log[: frame[4] + 99]}, None, whole),
            ("a file that was cut below a page", {"": files[""][:99]}, None, cut),
            ("a file that was cut to nothing", {"": b""}, None, empty),
        ]
        for what, given, program, wanted in not_mended:
            status, said, found = self.mended(files | {"-wal": damaged} | given, program)
            # a copy is made although something is still wrong with it
            is_made = wanted.startswith(wrong)
            if status != 1 or wanted not in said or (found is not None) != is_made:
                seen = (status, said, found is not None)
                differs(f"{what} isn't a repaired one", (1, wanted, is_made), seen)
            ok(f"not repaired: {what}")
        status, said, found = self.mended(files | {"-wal": damaged}, takes)
        if (status, found) != (0, log):
            differs("a copy that the program takes", 0, (status, said))
        status, said, found = self.mended(files | {"-wal": None})
        if (status, found) != (2, None) or "damaged.db-wal: No such file" not in said:
            differs("a log that is gone", 2, (status, said))
        ok("a copy that the program takes, and a log that is gone")

    def test_odd_exports_numbers_and_fields(self) -> None:
        show_odd_exports(second(), self.box, self.kept, self.digests[3])
        show_odd_numbers(second(), self.kept, self.digests[3])
        show_odd_fields(second(), self.box)

    def test_damage_by_chance(self) -> None:
        show_damage_by_chance(second(), self.box, with_log)
