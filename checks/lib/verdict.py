"""Computes what `weighbridge check` must say of a journal from what a verifier says of it. It imports little, because checks/agreement starts it thousands of times."""

import os
import re
import sqlite3
import tempfile
from collections.abc import Mapping
from pathlib import Path

# The endings of the files that a verifier needs.
ENDINGS = ("", "-wal", "-newest")
# These lines of the verifiers name a number that the check finds faulty, or a journal that it refuses.
MISSING = re.compile(r"numbers? ([0-9]+)(?: to [0-9]+)? (?:is|are) missing$")
DAMAGED = re.compile(
    r"number ([0-9]+) (?:doesn't fit its digest|isn't chained to number [0-9]+|has no First)$"
)
REFUSED = re.compile(
    r"is no entry:|is no spent key:|^spent number|-newest recorded|-wal: |so the program refuses it"
)


def files_of(path: str) -> dict[str, bytes]:
    return {it: Path(path + it).read_bytes() for it in ENDINGS if os.path.exists(path + it)}


def write_files(path: str, files: Mapping[str, bytes | None]) -> None:
    """Write the files of a journal by their endings, and remove those that aren't given or are None."""
    for it in ENDINGS:
        Path(path + it).unlink(missing_ok=True)
        if (data := files.get(it)) is not None:
            Path(path + it).write_bytes(data)


def verdict_of(path: str, said: str) -> str | None:
    """Return what `weighbridge check` says of a journal of which the verifiers said this. Return None if that doesn't follow."""
    lines = said.splitlines()
    if "pages damaged" in said or said.startswith("not examined: whether this is a journal"):
        return None
    if any(REFUSED.search(it) for it in lines):
        return "store"
    with tempfile.TemporaryDirectory() as folder:  # SQLite writes next to what it reads
        for end, data in files_of(path).items():
            Path(f"{folder}/journal.db{end}").write_bytes(data)
        database = sqlite3.connect(f"{folder}/journal.db")
        ((version,),) = database.execute("SELECT value FROM about").fetchall()
        ((least, count),) = database.execute("SELECT min(number), count(*) FROM journal").fetchall()
        database.close()
    if version != 2:
        return "store 6 old_version"
    wrong = [int(found[1]) for it in lines if (found := DAMAGED.match(it))]
    wrong += [
        number
        for it in lines
        if (found := MISSING.match(it)) and (number := int(found[1])) > (least or 0)
    ]
    return f"DAMAGED {min(wrong)}" if wrong else f"SOUND {count}"
