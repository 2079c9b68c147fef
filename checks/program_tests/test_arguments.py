"""Arguments, statuses and traces, and what --verbose explains."""

import contextlib
import os
import re
import shutil
import sqlite3
import subprocess
from pathlib import Path

from checks import TOP
from checks.lib import traces
from checks.lib.journal import change, make_journal
from checks.lib.tried_twice import BUILT, TriedTwice, addresses, printed

NO_PERMISSION = "because this user has no permission; run this as the file's owner"
FOREIGN = (
    "it can't be read, because it is no journal of this program; check the path, and keep the file"
)
OLD = "it can't be read, because it is a journal of version 1; write it into a new file with weighbridge migrate"
NOT_THERE = "it can't be read, because it isn't there; check the path"
NO_DATABASE = "it can't be read, because it is no database; check the path, and keep the file"
IS_FOLDER = "it can't be opened, because it is a folder; name a file"
NO_FOLDER = "it can't be made, because its folder isn't there; check the path, or make the folder"
IN_UTF_16 = "it can't be read, because another program wrote its texts in UTF-16, and a journal has UTF-8; keep it, and restore a backup"
HAS_AUTO_VACUUM = (
    "it can't be read, because another program set auto_vacuum in it; keep it, and restore a backup"
)
HAS_DEFAULT = "it can't be read, because another program gave a column a DEFAULT; keep it, and restore a backup"
HELD = "it can't be opened, because another program holds it; stop that program, or ask the office of the running service"
DISK = "store 2 disk"
# For each part of a setup: an option with a refused value, the fault, and the limits that --verbose reports.
PARTS = (
    ("--interval 3", "1 Interval", "e is 1, 2, 5, 10, 20 or 50 kg"),
    (
        "--max 1",
        "2 Max",
        "Max is a whole multiple of e, 500 to 10000 times e, so 10000 to 200000 kg with --interval 20",
    ),
    ("--window 3", "3 Window", "a window has 4 to 64 readings"),
    ("--band 3", "4 Band", "the band is 1 or 2 tenths of e"),
    ("--pace 1", "5 Pace", "2 to 50 readings come in a second"),
    ("--wait 601", "6 Wait", "a command waits for 1 to 600 readings"),
    ("--serial wb01", "7 Serial", "a serial has 1 to 16 characters of A-Z and 0-9"),
    ("--retention 3651", "8 Retention", "an entry is kept for 1 to 3650 days"),
    ("--capacity 100001", "9 Capacity", "a journal has 2 to 100000 places"),
)
# A structure of the header with its parts, and of the library's sources; each part with its type, and the types of the latter in the former's words.
OF_C, PART_OF_C = r"typedef struct \w+ {([^}]*)} %s;", r"(\w+) (\w+)(\[\d+\])?;"
OF_RUST = r"#\[repr\(C\)\]\n(?:#.*\n)*pub struct %s {([^}]*)}"
PART_OF_RUST = r"pub (\w+): (?:(\w+)|\[u8; (\d+)\]),"
TYPES = {"u32": "uint32_t", "i32": "int32_t"}


def as_nobody(folder: str, *words: str) -> tuple[int, list[str]]:
    """Return the status and the reports of a run by a user who owns nothing in the folder. A user who isn't root runs it as itself."""

    def become() -> None:
        if os.getuid() == 0:
            os.setgroups([])
            os.setgid(65_534)
            os.setuid(65_534)

    copy = f"{folder}/program"
    if not os.path.exists(copy):
        shutil.copy(BUILT, copy)
    it = subprocess.run(
        [copy, *words], capture_output=True, text=True, timeout=120, preexec_fn=become
    )
    return it.returncode, it.stderr.splitlines()


def make_rebuilt(path: str, other: str, setting: str, old: str = "", new: str = "") -> None:
    """Write the journal in `path` into `other`, as another program would: with this setting, and with this change in the texts of its tables."""
    with contextlib.closing(sqlite3.connect(path)) as journal:
        lines = [*journal.iterdump()]
    change(other, setting, *(line.replace(old, new) if old else line for line in lines))


def parts_of(path: str, structure: str, part: str) -> list[tuple[str, str, str]]:
    found = re.search(structure, (TOP / path).read_text(encoding="utf-8"))
    return re.findall(part, found[1] if found else "")


class Arguments(TriedTwice):
    """Arguments and statuses, traces, and the structures of the header."""

    options = {"PROGRAM": ""}

    def test_arguments(self) -> None:
        weight = (0, "t S S      18340 kg\n", "")
        self.same("replay prints the weight", weight, printed("replay", given=b"r 9170 4\nt SI\n"))
        commands = ("replay", "serve", "check", "export", "migrate")
        for words in (["--help"], *([it, "--help"] for it in commands), ["--version"]):
            status, out, err = printed(*words)
            is_so = status == 0 and out and not err
            name = f"{' '.join(words)} is reported on standard output, status 0"
            self.holds(name, is_so, (status, err))
        refused = ("", "weigh", "check", "replay --band", "export --file x --what all")
        for it in (*refused, "migrate --file x"):
            status, out, err = printed(*it.split())
            is_so = status == 2 and not out and err
            self.holds(f"refused arguments: {it!r}, status 2", is_so, (status, out))
        setup = (2, "", "setup refused: 2 Max\n")
        self.same("a refused setup", setup, printed("replay", "--max", "1"))
        words = ["--file", f"{self.folder()}/none.db", *addresses(converter="none")]
        self.same("of a service", setup, printed("serve", "--max", "1", *words))
        words[3] = "0.0.0.0:0"
        fault = (1, "", "address fault\n")
        self.same("an address that isn't only of this machine", fault, printed("serve", *words))

    def test_traces(self) -> None:
        """Replay each trace, one process each."""
        names = traces.names()
        left = traces.alone()
        self.holds("there are traces, each with what it prints", names and not left, left)
        for name in names:
            it = traces.Trace(name)
            words = [BUILT, "replay", *it.options]
            ran = subprocess.run(words, input=it.text, capture_output=True, timeout=120)
            wanted = (it.status, it.printed, it.reported)
            self.same(f"trace {name}", wanted, (ran.returncode, ran.stdout, ran.stderr))

    def test_structures(self) -> None:
        """Show that the header has the parts of each structure in the library's order: no proof reads a header."""
        for name in ("setup", "indication"):
            header = "library/weighbridge_terminal_declarations.h"
            found = parts_of(header, OF_C % f"weighbridge_terminal_{name}", PART_OF_C)
            source = f"crates/wb_terminal_c/src/{name}.rt"
            wanted = [
                (TYPES.get(kind, "char"), part, f"[{length}]" if length else "")
                for part, kind, length in parts_of(source, OF_RUST % name.title(), PART_OF_RUST)
            ]
            is_so = len(wanted) > 2 and wanted == found
            self.holds(f"the structure of C: {name}", is_so, (wanted, found))


class Explained(TriedTwice):
    """--verbose: a line with the cause before the fault. Without it, nothing is added."""

    def explains(self, name: str, words: list[str], cause: str, fault: str) -> None:
        wanted = ((1, [f"journal {cause}", fault]), (1, [fault]))
        found = (as_nobody(self.box, *words, "--verbose"), as_nobody(self.box, *words))
        self.same(name, wanted, found)

    def test_files(self) -> None:
        """Show what --verbose of check, export and migrate says of each file that is none, or may not be read."""
        folder = self.box = self.folder()
        kinds = ("sound", "old", "foreign", "text", "mine", "log", "wide", "vacuum", "default")
        files = [f"{folder}/{it}.db" for it in (*kinds, "added")]
        sound, old, foreign, text, mine, log, wide, vacuum, default, added = files
        for path in (sound, mine, log, added):
            make_journal(path, 3)
        make_rebuilt(sound, wide, "PRAGMA encoding = 'UTF-16le'")
        make_rebuilt(sound, vacuum, "PRAGMA auto_vacuum = FULL")
        make_rebuilt(sound, default, "", "gross_kg INTEGER", "gross_kg INTEGER default 0")
        change(added, "ALTER TABLE journal ADD COLUMN note TEXT DEFAULT 'x'")
        make_journal(old, 3, version=1)
        change(foreign, "CREATE TABLE journal (number INTEGER)")
        Path(text).write_text("no database", encoding="utf-8")
        Path(f"{log}-wal").touch()
        for path in (*files, f"{log}-wal"):
            os.chmod(path, 0o000 if path in (mine, f"{log}-wal") else 0o644)
        place, missing, to = (f"{folder}/{it}" for it in ("folder", "missing.db", "new/new.db"))
        os.mkdir(place)
        os.mkdir(f"{folder}/new")
        os.chmod(f"{folder}/new", 0o777)
        os.chmod(folder, 0o755)
        holder = sqlite3.connect(sound, isolation_level=None)
        holder.execute("BEGIN EXCLUSIVE")
        causes = [
            ("isn't there", missing, f"{missing}: {NOT_THERE}", DISK),
            ("is a folder", place, f"{place}: {IS_FOLDER}", DISK),
            ("may not be read", mine, f"{mine}: it can't be read, {NO_PERMISSION}", DISK),
            ("has such a log", log, f"{log}-wal: it can't be read, {NO_PERMISSION}", DISK),
            ("is no database", text, f"{text}: {NO_DATABASE}", DISK),
            ("is held", sound, f"{sound}: {HELD}", DISK),
            ("is foreign", foreign, f"{foreign}: {FOREIGN}", "store 4 foreign"),
            ("is of version 1", old, f"{old}: {OLD}", "store 6 old_version"),
            ("is in UTF-16", wide, f"{wide}: {IN_UTF_16}", DISK),
            ("has auto_vacuum", vacuum, f"{vacuum}: {HAS_AUTO_VACUUM}", DISK),
            ("has a new column with a default", added, f"{added}: {HAS_DEFAULT}", DISK),
        ]
        for words in (
            ["check"],
            ["export", "--what", "journal"],
            ["export", "--what", "tickets"],
            ["migrate", "--to", to],
        ):
            for name, path, cause, fault in causes:
                if words[0] != "migrate" or path != old:
                    name = f"{' '.join(words[::2])} of a file that {name}"
                    self.explains(name, [*words, "--file", path], cause, fault)
        found = printed("check", "--verbose", "--file", default)
        self.same("a table with a DEFAULT is read as any other", (0, "SOUND 3\n", ""), found)
        holder.execute("ROLLBACK")
        holder.close()
        of_new = (
            "it can't be written, because it, or its -wal or -newest, isn't empty; name a new file"
        )
        of_old = "it can't be migrated, because it is no journal of version 1; check the path"
        gone = f"{folder}/gone/new.db"
        for name, path, to, cause, fault in (
            ("a new file with a byte", old, text, f"{text}: {of_new}", "store 8 not_empty"),
            ("a journal of version 2", sound, to, f"{sound}: {of_old}", "store 7 not_version_1"),
            ("a new file without a folder", old, gone, f"{gone}: {NO_FOLDER}", DISK),
            ("a folder as the new file", old, place, f"{place}: {IS_FOLDER}", DISK),
        ):
            words = ["migrate", "--file", path, "--to", to]
            self.explains(f"migrate: {name}", words, cause, fault)
        for words in (["check"], ["export", "--what", "tickets"]):
            words += ["--file", sound]
            found = printed(*words, "--verbose")
            self.same(f"--verbose adds nothing to a success: {words[0]}", printed(*words), found)

    def test_setups(self) -> None:
        """Show the option, its value and what is allowed, before the fault."""
        serve = ["serve", "--file", f"{self.folder()}/none.db", *addresses(converter="none")]
        for option, fault, limits in PARTS:
            refused = f"setup refused: {fault}\n"
            line = f"{option}: it is refused, because {limits}; give a value within these limits\n"
            for words in (["replay"], serve, [*serve, "--check"]):
                given = [*words, *option.split()]
                found = (printed(*given, "--verbose"), printed(*given))
                wanted = ((2, "", line + refused), (2, "", refused))
                self.same(f"{' '.join(words[:1] + words[9:])} explains {option}", wanted, found)
