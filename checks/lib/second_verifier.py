"""The second verifier, inspect/verify.c, next to inspect/verify.py: builds it, and fails where one says something else than the other."""

import contextlib
import csv
import io
import os
import random
import shutil
import sqlite3
import subprocess
import sys
import unittest.mock
from collections.abc import Callable
from pathlib import Path

import verify
from checks.lib.journal import (
    TABLES,
    ZEROS,
    change,
    digest_of,
    newest_line,
    rows_of,
    run_script,
    write_newest,
    write_rows,
)
from checks.lib.showing import NAME, fail, same
from checks.lib.verdict import files_of, verdict_of, write_files

TOP = Path(__file__).resolve().parent.parent.parent
SOURCE = TOP / "inspect" / "verify.c"
PROGRAM = TOP / "crates" / "weighbridge" / "out" / "weighbridge"  # there once it is built
# The command of docs/inspection.md, and one whose program ends at each wrong access to memory.
STRICT = ["-std=c11", "-Wall", "-Wextra", "-Werror"]
CHECKED = ["-g", "-O1", "-fsanitize=address,undefined", "-fno-sanitize-recover=all"]
LIBRARIES = ["-lsqlite3", "-lcrypto"]
SEED, ROUNDS = 20261130, 420
KINDS = ("first", "second", "single", "void")


def lacking() -> str:
    """Return what isn't there and the second verifier needs. Return an empty text if all is there."""
    if shutil.which("cc") is None:
        return "cc is not installed"
    for header, package in (("sqlite3.h", "libsqlite3-dev"), ("openssl/evp.h", "libssl-dev")):
        words, included = ["cc", "-E", "-x", "c", "-"], f"#include <{header}>"
        it = subprocess.run(words, input=included, capture_output=True, text=True)
        if it.returncode != 0:
            return f"{package} is not installed"
    return ""


class Second:
    """The second verifier. Without a compiler and the headers, nothing is compared."""

    def __init__(self, folder: str) -> None:
        self.path: str | None = None
        self.runs = 0
        self.agreed = 0  # how often the program's check was compared
        if missing := lacking():
            print(f"{NAME}: the second verifier is skipped, since {missing}", flush=True)
            return
        for name, options in (("verify", ["-O2"]), ("verify-checked", CHECKED)):
            command = ["cc", *STRICT, *options, "-o", f"{folder}/{name}", str(SOURCE), *LIBRARIES]
            it = subprocess.run(command, capture_output=True, text=True)
            same(f"the second verifier is compiled: {' '.join(options)}", "", it.stderr)
        self.path = f"{folder}/verify-checked"

    def compare(self, words: list[str], wanted: "subprocess.CompletedProcess[bytes]") -> None:
        """Fail if the second verifier doesn't end with these words as verify.py did."""
        if self.path is None:
            return
        found = run([self.path, *words])
        self.runs += 1
        for what, one, other in (
            ("standard output", wanted.stdout, found.stdout),
            ("standard error", wanted.stderr.replace(b"verify.py: ", b"verify: "), found.stderr),
            ("status", wanted.returncode, found.returncode),
        ):
            if one != other:
                fail(f"verify.c, {what} of {words}\nverify.py: {one!r}\nverify.c:  {other!r}")


def run(command: list[str]) -> "subprocess.CompletedProcess[bytes]":
    return subprocess.run(command, capture_output=True, stdin=subprocess.DEVNULL, timeout=120)


def said_by_both(second: Second, words: list[str]) -> "subprocess.CompletedProcess[bytes]":
    """Run verify.py, and fail if the second verifier says something else."""
    out, err, status = io.StringIO(), io.StringIO(), 0
    # in this process, because starting Python takes most of the time
    with contextlib.redirect_stdout(out), contextlib.redirect_stderr(err):
        with unittest.mock.patch.object(sys, "argv", ["verify.py", *words]):
            try:
                status = verify.main()
            except SystemExit as end:
                status = int(end.code or 0)
    texts = [it.getvalue().encode("utf-8", "backslashreplace") for it in (out, err)]
    wanted = subprocess.CompletedProcess(words, status, *texts)
    second.compare(words, wanted)
    return wanted


def agree_with_check(second: Second, path: str, said: str) -> None:
    """Fail if the program is built, and its check says something else of the journal than the verifiers.

    A journal with a log isn't compared, because SQLite of this system wrote it, and not the service.
    """
    is_compared = PROGRAM.is_file() and not os.path.exists(f"{path}-wal")
    wanted = verdict_of(path, said) if is_compared else None
    if wanted is None:
        return
    second.agreed += 1
    it = run([str(PROGRAM), "check", "--file", path])
    found = (it.stdout or it.stderr).decode().rstrip("\n").rpartition("\n")[2]
    if found != wanted and not (wanted == "store" and found.startswith("store ")):
        fail(f"weighbridge check of {path}\nwanted: {wanted}\nfound:  {found}")


def make_mixed_journal(path: str, spent: int) -> None:
    """Write a journal with entries of each kind, and purge the first ones."""
    rows: list[tuple[str, str, int | None, int | None]]
    rows = [("first", "AB-12", 18340, None), ("second", "AB-12", 8140, None)]
    rows += [("first", "CD-34", 900, None), ("single", "CD-34", 7000, 400)]
    rows += [("void", "CD-34", None, None), ("first", "CD-34", 9000, None)]
    rows += [("second", "CD-34", 12000, None), ("first", "EF-56", 20000, None)]
    previous = ZEROS
    made: list[tuple[object, ...]] = []
    for number, (kind, plate, gross, preset) in enumerate(rows, 1):
        key, moment = f"K{number}", 1741593600 + 60 * number
        shown = ["-" if it is None else it for it in (gross, preset)]
        digest = digest_of(number, key, kind, plate, moment, *shown, previous=previous)
        row = (number, key, KINDS.index(kind) + 1, plate, moment, gross, preset, 20, 60000)
        made.append((*row, "WB01", digest, previous))
        previous = digest
    write_rows(path, made[spent:])
    change(path, *(f"INSERT INTO spent VALUES ('{it[1]}', {it[0]})" for it in made[:spent]))
    witness = newest_line(len(rows), previous) + newest_line(len(rows) - 1, ZEROS)
    Path(f"{path}-newest").write_text(witness, encoding="ascii")


def export_to(journal: str, path: str) -> None:
    """Write an export with some of its columns, in the order of the service."""
    database = sqlite3.connect(journal)
    cursor = database.execute("SELECT number, request_key AS key, kind, plate, digest FROM journal")
    names = [it[0] for it in cursor.description]
    with open(path, "w", encoding="utf-8", newline="") as file:
        csv.writer(file, lineterminator="\n").writerows([names, *cursor])
    database.close()


def changed(data: bytes, chance: random.Random) -> bytes:
    """Return the data with one to three changes: a bit flipped, a byte or a number replaced, bytes cut, inserted, or written twice."""
    found = bytearray(data)
    for _ in range(chance.randint(1, 3)):
        # most bytes of a database are zeros that nothing reads
        used = [at for at, it in enumerate(found) if it] or [0]
        at = chance.choice(used) if chance.random() < 0.8 else chance.randint(0, len(found))
        at = min(at, max(0, len(found) - 1))
        way = chance.randrange(7)
        if way == 0 or not found:
            found[at:at] = chance.randbytes(chance.randint(1, 9))
        elif way < 3:
            found[at] ^= 1 << chance.randrange(8)
        elif way == 3:
            found[at] = chance.choice((0, 1, 7, 34, 44, 10, 13, 45, 128, 255))
        elif way == 4:
            del found[at : at + chance.randint(1, 9)]
        elif way == 5:
            found[at:at] = found[max(0, at - chance.randint(1, 40)) : at]
        elif chance.random() < 0.3:
            del found[at:]
    return bytes(found)


def show_damage_by_chance(
    second: Second, folder: str, with_log: Callable[[str, int], dict[str, bytes]]
) -> None:
    """Show that both verifiers say the same of files that were changed by chance. The seed is fixed, so that each run has the same files."""
    if second.path is None:
        return
    chance = random.Random(SEED)
    bases = []
    for at, spent in enumerate((0, 3, 8)):
        make_mixed_journal(f"{folder}/mixed{at}.db", spent)
        bases.append(files_of(f"{folder}/mixed{at}.db"))
    bases.append(with_log(f"{folder}/mixed-log.db", 6))
    export = f"{folder}/mixed.csv"
    export_to(f"{folder}/mixed0.db", export)
    whole, path, spoilt = Path(export).read_bytes(), f"{folder}/chance.db", f"{folder}/chance.csv"
    genuine = {it["number"]: it["digest"] for it in csv.DictReader(io.StringIO(whole.decode()))}
    statuses = {0: 0, 1: 0, 2: 0}
    for _ in range(ROUNDS):
        files = dict(chance.choice(bases))
        hit = chance.choice([*files, *files, "export", "export"])
        if hit in files:
            files[hit] = changed(files[hit], chance)
        write_files(path, files)
        Path(spoilt).write_bytes(changed(whole, chance) if hit == "export" else whole)
        words = [path, "--against", spoilt] if chance.random() < 0.6 or hit == "export" else [path]
        for number in chance.sample(range(1, 10), chance.randint(0, 3)):
            digest = genuine.get(str(number), ZEROS) if chance.random() < 0.7 else ZEROS
            words += ["--known", str(number), digest]
        statuses[said_by_both(second, words).returncode] += 1
    print(f"{ROUNDS} files changed by chance, both say the same ({statuses}): ok", flush=True)
    if min(statuses.values()) < ROUNDS // 40:
        fail(f"too few files of a status to compare: {statuses}")


def show_odd_exports(second: Second, folder: str, journal: str, digest: str) -> None:
    """Show that both verifiers read exports alike: quotes, line ends, columns in another order, and what is no export."""
    path = f"{folder}/odd.csv"
    two_digests = f"number,digest\n3,{digest}\n3,{ZEROS}\n"
    for what, data, status in (
        ("an empty export", b"", 2),
        ("an empty first line", b"\nnumber,digest\n", 2),
        ("only a first line", b"number,digest\n", 0),
        ("no line end at the end", f"number,digest\n3,{digest}".encode(), 0),
        ("line ends of Windows", f"number,digest\r\n3,{digest}\r\n\r\n".encode(), 0),
        ("line ends of an old Mac", f"number,digest\r3,{digest}\r".encode(), 0),
        ("other columns around", f"a,digest,number,b\n,{digest},3,\n".encode(), 0),
        ("two columns of a name", f"number,digest,number\n9,{digest},3\n".encode(), 0),
        ("quotes", f'"number","digest"\n"3","{digest}"\n'.encode(), 0),
        ("a quote within a field", f'number,digest,a\n3,{digest},b"c"\n'.encode(), 0),
        ("two quotes", f'number,digest,a\n3,{digest},"b""c"""\n'.encode(), 0),
        ("a comma behind two quotes", f'a,number,digest\n"b"",c",3,{digest}\n'.encode(), 0),
        ("letters behind a quote", f'number,digest\n"3"0,{digest}\n'.encode(), 1),
        ("a line end in quotes", f'a,number,digest\n"b\n\r\n",3,{digest}\n'.encode(), 0),
        ("a quote that stays open", f'number,digest\n3,"{digest}'.encode(), 0),
        ("a quote at the end", b'number,digest\n3,"', 1),
        ("another digest", f"number,digest\n3,{digest[1:]}0\n".encode(), 1),
        ("a record without a digest", b"number,digest\n3\n", 2),
        ("a record without a number", f"digest,number\n{digest}\n".encode(), 2),
        ("the number 0", f"number,digest\n0,{digest}\n".encode(), 2),
        ("a number of another script", f"number,digest\n٣,{digest}\n".encode(), 2),
        ("a number with a blank", f"number,digest\n 3,{digest}\n".encode(), 2),
        ("a number past the last", f"number,digest\n4294967296,{digest}\n".encode(), 2),
        ("a number of 11 digits", f"number,digest\n00000000003,{digest}\n".encode(), 2),
        ("a byte that isn't UTF-8", b"number,digest\n3,\xff\n", 2),
        ("half of a surrogate pair", b"number,digest\n3,\xed\xa0\x80\n", 2),
        ("a byte order mark", f"\ufeffnumber,digest\n3,{digest}\n".encode(), 2),
        ("a field of 131,072 letters", f"number,digest,a\n3,{digest},{'é' * 131072}".encode(), 0),
        ("a field of 131,073 letters", f"number,digest,a\n3,{digest},{'é' * 131073}".encode(), 2),
        ("one entry twice", f"number,digest\n3,{digest}\n3,{digest}\n".encode(), 0),
        ("one entry twice, with two digests", two_digests.encode(), 1),
    ):
        Path(path).write_bytes(data)
        found = said_by_both(second, [journal, "--against", path]).returncode
        same(f"an export: {what}", status, found)


def show_odd_numbers(second: Second, journal: str, digest: str) -> None:
    """Show that both verifiers take the same numbers of a printout."""
    for number, status in (("1", 1), ("0", 2), ("00000000003", 2), ("4294967296", 2), ("+3", 2)):
        found = said_by_both(second, [journal, "--known", number, digest]).returncode
        same(f"a printout of number {number}", status, found)


def show_odd_fields(second: Second, folder: str) -> None:
    """Show that both verifiers judge odd fields alike: bytes that aren't UTF-8, zero bytes, the limits of numbers, and numbers that are texts."""
    path = f"{folder}/odd.db"
    long = "cast(x'" + "c3a9" * 32 + "' AS TEXT)"
    letters = "replace(hex(zeroblob(17)), '0', 'a')"
    for script, status in (
        ("UPDATE journal SET plate = cast(x'4142ff' AS TEXT) WHERE number = 2", 1),
        ("UPDATE journal SET plate = 'AB' || char(0) WHERE number = 2", 1),
        ("UPDATE journal SET digest = cast(x'edb080' AS TEXT) WHERE number = 2", 1),
        (f"UPDATE journal SET digest = {long} WHERE number = 2", 1),
        (f"UPDATE journal SET digest = {long} || 'a' WHERE number = 2", 1),
        ("UPDATE journal SET previous = '' WHERE number = 1", 1),
        ("UPDATE journal SET moment = 253402207201 WHERE number = 8", 1),
        ("UPDATE journal SET moment = -1 WHERE number = 1", 1),
        ("UPDATE journal SET gross_kg = 0 WHERE number = 1", 1),
        ("UPDATE journal SET gross_kg = NULL WHERE number = 1", 1),
        ("UPDATE journal SET gross_kg = 10000000 WHERE number = 1", 1),
        ("UPDATE journal SET preset_kg = 0 WHERE number = 4", 1),
        ("UPDATE journal SET preset_kg = 5 WHERE number = 1", 1),
        ("UPDATE journal SET gross_kg = 5 WHERE number = 5", 1),
        ("UPDATE journal SET interval_kg = 3 WHERE number = 1", 1),
        ("UPDATE journal SET max_kg = 500001 WHERE number = 1", 1),
        ("UPDATE journal SET serial = 'WB-01' WHERE number = 1", 1),
        ("UPDATE journal SET serial = '12345678901234567' WHERE number = 1", 1),
        ("UPDATE journal SET plate = 'ABCDEFGHIJKLM' WHERE number = 1", 1),
        ("UPDATE journal SET plate = '' WHERE number = 1", 1),
        (f"UPDATE journal SET request_key = {letters} WHERE number = 1", 1),
        ("UPDATE journal SET number = 9223372036854775807 WHERE number = 8", 1),
        ("UPDATE journal SET number = -9223372036854775808 WHERE number = 1", 1),
        ("UPDATE journal SET number = 4294967296 WHERE number = 8", 1),
        ("UPDATE journal SET number = 0 WHERE number = 1", 1),
        ("INSERT INTO spent VALUES ('X', 0)", 1),
        ("INSERT INTO spent VALUES ('X', 9223372036854775807)", 1),
        ("DELETE FROM journal", 1),
        ("DELETE FROM journal WHERE number IN (1, 3)", 1),
        ("UPDATE about SET name = 'Version'", 2),
        ("INSERT INTO about VALUES ('more', 2)", 2),
        ("DELETE FROM about", 2),
        ("ALTER TABLE journal DROP COLUMN serial", 2),
        ("ALTER TABLE spent ADD COLUMN 'a' || char(27) TEXT", 1),
        ("CREATE TABLE other (a); CREATE VIEW more AS SELECT 1", 0),
        ("DROP TABLE journal; DROP TABLE spent; DROP TABLE about", 1),
        ("DROP TABLE journal; DROP TABLE spent; ALTER TABLE about RENAME TO open_weighing", 2),
        ("PRAGMA page_size = 512; VACUUM", 0),
    ):
        write_files(path, {})
        make_mixed_journal(path, 0)
        digest = write_whole_witness(path)
        run_script(path, script.replace("'a' || char(27)", '"a\x1b"'))
        same(script, status, said_by_both(second, [path, "--known", "8", digest]).returncode)
    for encoding in ("UTF-16le", "UTF-16be"):
        Path(path).unlink()
        make_encoded(path, encoding)
        same(f"a database in {encoding}", 0, said_by_both(second, [path]).returncode)


def write_whole_witness(path: str) -> str:
    """Write the witness as a start does, and return the newest digest."""
    number, digest = rows_of(path, "SELECT number, digest FROM journal ORDER BY number")[-1]
    write_newest(path, number, digest)
    return str(digest)


def make_encoded(path: str, encoding: str) -> None:
    """Write the mixed journal and its witness, with texts in another encoding."""
    made = f"{path}-made"
    make_mixed_journal(made, 0)
    write_whole_witness(made)
    write_rows(path, rows_of(made), f"PRAGMA encoding = '{encoding}'; {TABLES}")
    os.replace(f"{made}-newest", f"{path}-newest")
    os.remove(made)
