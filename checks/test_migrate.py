"""Shows that `weighbridge migrate` migrates whole journals of version 1, reports each fault by its line, and leaves the
old file as it was, even if it is killed.

Python's sqlite3 makes journals of version 1. Two have the worked pair of weighings, with and without the table of open
weighings. One has an open weighing, a Single and a Void. One was purged and begins at 301. One has its entries only in
the log. For each:

- The new file has the same entries, each chained to the one before, with the digests that the check computes, the same
  spent keys and the open weighings. Its tickets are the same, its check finds it sound, and a service continues in it
  with the next number.
- The migration is refused by the fault, and leaves no new file, if entry 2 is missing, a gross was changed, a Second
  has no First, or a row is none. So it is if the file is of version 2, has no tables, isn't there, is no database or is
  held by another program.
- A migration is also refused if the new file has a byte, if its log exists, or if it isn't a plain file. So it is if
  its name is no path for the program (`:memory:`). Then that file stays as it is. If the old file has a fault too, the
  migration reports that first.
- Whatever comes, the file of version 1, the files next to it and the rest of the folder are the same as before. This
  holds even if the migration is killed or runs out of memory. `check`, both exports and `serve` refuse the old file by
  `6 old_version`.
- Standard error has only a fault, unless it is a terminal and many entries are migrated.

The check shows the same for journals that the program 1.0.0 made and left (checks/lib/version_one.py): of no entries,
of a pair, and of 300 entries of which those below 281 were purged. It compares the texts of all their tickets with
formats.md, and their exports with those that program 1.0.0 made. In the last journal it also changes an entry, and
removes one. It migrates a journal of 90,000 entries in less than 3 seconds, and in less than 64 MB, and kills that 50
times. WEIGHBRIDGE_VERSION_1 may name a program 1.0.0, which then makes that journal, in some twenty minutes.
"""

import contextlib
import os
import random
import resource
import shutil
import sqlite3
import subprocess
import tempfile
import time
from collections.abc import Sequence
from pathlib import Path
from typing import Any

import station_model

from checks.lib import bridge, version_one
from checks.lib.case import PROGRAM, Check, many
from checks.lib.journal import OLD_FIRST, OLD_TABLES, PAIR, ZEROS, change, digest_of, make_journal
from checks.lib.program import compiled, printed
from checks.lib.showing import fail, ok, same

# not the launcher, whose time and memory would be measured too
BUILT = compiled()
Entry = tuple[Any, ...]
Keys = Sequence[tuple[str, int]]  # spent keys with their numbers
KINDS = {1: "first", 2: "second", 3: "single", 4: "void"}
MORNING = 1741593600
MANY = 90_000
MOST_SECONDS, MOST_KILOBYTES = 3.0, 64_000
SETUP = (20, 60000, "WB01")
JOURNAL_COLUMNS = (
    "number,key,kind,plate,moment,gross_kg,preset_kg,interval_kg,max_kg,serial,digest,previous\n"
)
TICKET_COLUMNS = "ticket,kind,plate,first,at,gross_kg,tare_kg,net_kg\n"

# The table of open weighings, which is made at the first opening.
OPEN_WEIGHING = "CREATE TABLE open_weighing (plate TEXT NOT NULL PRIMARY KEY, number INTEGER NOT NULL UNIQUE) STRICT;"

# Entries without their digest: number, key, kind, plate, moment, gross and preset.
WORKED: list[Entry] = [row[:7] for row in PAIR]
WORKED_DIGESTS = [
    OLD_FIRST[-1],
    "0cc09cd58f03a59c03e87a55f97d3a8262963dcfe6244de45c39d2f4c9e62d56",
]
MIXED: list[Entry] = [
    *WORKED,
    (3, "K3", 3, "CD-34", MORNING + 6000, 18340, 5000),
    (4, "K4", 1, "EF-56", MORNING + 6600, 9000, None),
    (5, "K5", 4, "EF-56", MORNING + 6660, None, None),
    (6, "K6", 1, "GH-78", MORNING + 7200, 20000, None),
]
PURGED = [(300 + number, key, *rest) for number, key, *rest in MIXED]
PURGED_KEYS = [(f"P{number}", number) for number in range(1, 301)]
A_GAP = [WORKED[0], (3, *WORKED[1][1:])]
OTHER_GROSS = "UPDATE journal SET gross_kg = 18360 WHERE number = {}"
NO_KIND = "UPDATE journal SET kind = 5 WHERE number = 2"


def protected(entry: Entry) -> tuple[Any, ...]:
    """Return the parts of an entry's text."""
    number, key, kind, plate, moment, *weights = entry
    shown_weights = ("-" if it is None else it for it in weights)
    return number, key, KINDS[kind], plate, moment, *shown_weights


def old_rows(entries: list[Entry]) -> list[tuple[Any, ...]]:
    """Return the rows of version 1."""
    return [(*entry, *SETUP, digest_of(*protected(entry), previous=None)) for entry in entries]


def new_rows(entries: list[Entry]) -> list[tuple[Any, ...]]:
    """Return the rows of version 2: each entry holds the digest of the one number below."""
    rows: list[tuple[Any, ...]] = []
    digests: dict[int, str] = {}
    for entry in entries:
        previous = digests.get(entry[0] - 1, ZEROS)
        digests[entry[0]] = digest_of(*protected(entry), previous=previous)
        rows.append((*entry, *SETUP, digests[entry[0]], previous))
    return rows


def open_rows(entries: list[Entry]) -> list[tuple[str, int]]:
    """Return the plates that have an open weighing, with the number of that First."""
    found: dict[str, int] = {}
    for number, _, kind, plate, *_ in entries:
        if kind == 1:
            found[plate] = number
        elif kind != 3:
            found.pop(plate, None)
    return sorted(found.items())


def shown(value: object) -> str:
    return "" if value is None else str(value)


def at(moment: int) -> str:
    return time.strftime("%Y-%m-%d %H:%M:%S", time.gmtime(moment))


def journal_text(entries: list[Entry]) -> str:
    """Return the export of the journal of version 2 with these entries."""
    lines = (
        ",".join([str(number), key, KINDS[kind], plate, at(moment), *map(shown, rest)]) + "\n"
        for number, key, kind, plate, moment, *rest in new_rows(entries)
    )
    return JOURNAL_COLUMNS + "".join(lines)


def tickets_text(entries: list[Entry]) -> str:
    """Return the export of the tickets, which both versions share."""
    lines: list[str] = []
    first: dict[str, tuple[int, int]] = {}
    for number, _, kind, plate, moment, gross, preset in entries:
        when = at(moment)
        if kind == 1:
            first[plate] = (number, gross)
        elif kind == 2:
            partner, weight = first.pop(plate)
            most, least = max(gross, weight), min(gross, weight)
            lines.append(f"{number},pair,{plate},{partner},{when},{most},{least},{most - least}\n")
        elif kind == 3:
            lines.append(f"{number},preset,{plate},,{when},{gross},{preset},{gross - preset}\n")
        else:
            first.pop(plate, None)
    return TICKET_COLUMNS + "".join(lines)


def make(
    path: str,
    rows: list[tuple[Any, ...]],
    keys: Keys = (),
    more: str = "",
    in_log: bool = False,
) -> None:
    """Make a file of version 1 with these rows and spent keys. If only the log must have them, the file next to it is of before."""
    made = path + ".making" if in_log else path
    conn = sqlite3.connect(made)
    if in_log:
        conn.execute("PRAGMA journal_mode = WAL")
        conn.execute("PRAGMA wal_autocheckpoint = 0")
    conn.executescript(OLD_TABLES + more)
    conn.executemany("INSERT INTO journal VALUES (?,?,?,?,?,?,?,?,?,?,?)", rows)
    conn.executemany("INSERT INTO spent VALUES (?,?)", keys)
    conn.commit()
    if in_log:
        for end in ("", "-wal"):
            shutil.copyfile(made + end, path + end)
    conn.close()
    if in_log:
        os.remove(made)


def contents(folder: str) -> dict[str, object]:
    """Return the bytes of each file of a folder, with when it was written, whose it is and its mode; of another only the mode."""
    found: dict[str, object] = {}
    for name in sorted(os.listdir(folder)):
        path = os.path.join(folder, name)
        it = os.lstat(path)
        found[name] = it.st_mode
        if os.path.isfile(path):
            data = Path(path).read_bytes()
            found[name] = (data, it.st_mtime_ns, it.st_uid, it.st_gid, it.st_mode)
    return found


def run(*words: str) -> tuple[int, str, str]:
    return printed(*words, program=BUILT)


def migrate(old: str, new: str) -> tuple[int, str, str]:
    return run("migrate", "--file", old, "--to", new)


def mode_of(path: str) -> str:
    return oct(os.stat(path).st_mode & 0o777)


ALL_TABLES = ("about", "journal", "spent", "open_weighing")


def tables_of(path: str, names: tuple[str, ...] = ALL_TABLES) -> tuple[Any, ...]:
    """Return the rows of these tables, as sqlite3 reads them in a copy of both files."""
    with tempfile.TemporaryDirectory() as folder:
        copy = os.path.join(folder, "copy.db")
        for end in ("", "-wal"):
            if os.path.exists(path + end):
                shutil.copyfile(path + end, copy + end)
        with contextlib.closing(sqlite3.connect(copy)) as conn:
            orders = ((name, "name" if name == "about" else "number") for name in names)
            asked = [f"SELECT * FROM {name} ORDER BY {order}" for name, order in orders]
            rows = [conn.execute(it).fetchall() for it in asked]
            integrity = conn.execute("PRAGMA integrity_check").fetchone()[0]
    return integrity, *rows


class Folders:
    """A folder with a file of version 1, and another for the new file."""

    def __init__(self, folder: str, name: str) -> None:
        self.name = name
        self.of_old, self.of_new = f"{folder}/{name}/old", f"{folder}/{name}/new"
        os.makedirs(self.of_old)
        os.makedirs(self.of_new)
        self.old, self.new = f"{self.of_old}/journal.db", f"{self.of_new}/journal.db"

    def words(self) -> list[str]:
        """Return the command that migrates it."""
        return [BUILT, "migrate", "--file", self.old, "--to", self.new]

    def refuses(self, what: str, fault: str) -> None:
        """Show that a migration is refused by the fault, and that both folders are as before."""
        before = contents(self.of_old), contents(self.of_new)
        same(f"{self.name}: {what}", (1, "", f"store {fault}\n"), migrate(self.old, self.new))
        after = contents(self.of_old), contents(self.of_new)
        same(f"{self.name}: both folders after that", True, before == after)


def show_migrated(
    folder: str,
    name: str,
    entries: list[Entry],
    keys: Keys = (),
    more: str = "",
    in_log: bool = False,
) -> Folders:
    """Show that a journal that Python's sqlite3 makes is migrated."""
    it = Folders(folder, name)
    make(it.old, old_rows(entries), keys, more, in_log)
    show_brought_over(it, entries, keys)
    return it


def show_brought_over(it: Folders, entries: list[Entry], keys: Keys) -> None:
    name = it.name
    before = contents(it.of_old)
    same(f"{name}: brought over", (0, f"MIGRATED {len(entries)}\n", ""), migrate(it.old, it.new))
    same(f"{name}: the old file and its folder after that", True, before == contents(it.of_old))
    made = sorted(os.listdir(it.of_new))
    same(f"{name}: what is in the new folder", ["journal.db", "journal.db-wal"], made)
    for end in ("", "-wal"):
        same(f"{name}: the mode of journal.db{end}", "0o600", mode_of(it.new + end))
    before = contents(it.of_new)
    same(f"{name}: a second time", (1, "", "store 8 not_empty\n"), migrate(it.old, it.new))
    same(f"{name}: the new folder after that", True, before == contents(it.of_new))
    wanted = (
        "ok",
        [("version", 2)],
        new_rows(entries),
        sorted(keys, key=lambda key: key[1]),
        sorted(open_rows(entries), key=lambda row: row[1]),
    )
    same(f"{name}: its tables", wanted, tables_of(it.new))
    for what, text, words in (
        ("check", f"SOUND {len(entries)}\n", ["check"]),
        ("journal", journal_text(entries), ["export", "--what", "journal"]),
        ("tickets", tickets_text(entries), ["export", "--what", "tickets"]),
    ):
        same(f"{name}: its {what}", (0, text, ""), run(*words, "--file", it.new))


def entries_of(path: str) -> tuple[list[Entry], list[tuple[str, int]]]:
    """Return the entries of a file of version 1 without their digests, which are as formats.md says, and its spent keys."""
    _, about, rows, keys = tables_of(path, ALL_TABLES[:3])
    same("version 1", [("version", 1)], about)
    entries = [row[:7] for row in rows]
    same("the digests of version 1", old_rows(entries), rows)
    return entries, keys


def show_real(folder: str, name: str, entries: int, keys: int) -> Folders:
    """Show that a journal that the program 1.0.0 left is migrated, with this many entries and spent keys."""
    it = Folders(folder, f"{name} of 1.0.0")
    version_one.unpack(name, it.old)
    found = entries_of(it.old)
    same(f"{it.name}: its entries and spent keys", (entries, keys), (len(found[0]), len(found[1])))
    show_brought_over(it, *found)
    exported = version_one.export_of(name, "tickets")
    same(f"{it.name}: the tickets that 1.0.0 exported", exported, tickets_text(found[0]))
    of_old, of_new = (
        [line.split(",")[:10] for line in text.splitlines()]
        for text in (version_one.export_of(name, "journal"), journal_text(found[0]))
    )
    same(f"{it.name}: ten columns of the journal that 1.0.0 exported", of_old, of_new)
    show_tickets(it, found[0])
    return it


def show_tickets(it: Folders, entries: list[Entry]) -> None:
    """Show that the text of each ticket, as a service prints it, is that of formats.md."""
    station = station_model.Station(station_model.Setup())
    for number, key, kind, plate, moment, gross, preset in entries:
        previous = station.entries[-1].digest if station.entries else ZEROS
        station.entries.append(
            station_model.Entry(
                number, key, KINDS[kind], plate, moment, gross, preset, station.setup, previous
            )
        )
    tickets = [entry for entry in station.entries if entry.kind in ("second", "single")]
    with bridge.Service(BUILT, it.new, bridge.Played(), "--capacity", "1000") as service:
        found = [bridge.get(service, f"/tickets/{entry.number}") for entry in tickets]
    wanted = [(200, station.text_of(entry)) for entry in tickets]
    same(f"{it.name}: the texts of {len(tickets)} tickets", wanted, found)


def show_real_refused(folder: str) -> None:
    """Show a journal of 1.0.0 of which an entry was changed, and one from which an entry was removed."""
    heavier = "UPDATE journal SET gross_kg = gross_kg + 20 WHERE number = 290"
    for name, command, fault in (
        ("a changed gross", heavier, "9 damaged 290"),
        ("an entry less", "DELETE FROM journal WHERE number = 292", "10 gap 292"),
    ):
        it = Folders(folder, f"{name}, of 1.0.0")
        version_one.unpack("purged", it.old)
        change(it.old, command)
        it.refuses("refused", fault)


def show_service(it: Folders, count: int, number: int, key: str, used: int = 409) -> None:
    """Show that a service continues in the new file with the next number, and knows a spent key."""
    with bridge.Service(BUILT, it.new, bridge.Played(200.0), "--capacity", "1000") as service:
        service.next_vehicle(9170)
        answer = bridge.post(service, "/weighings", f"key={key}&kind=first&plate=ZZ-1")
        same(f"{it.name}: a key that was used", used, answer and answer[0])
        status, body = bridge.post(service, "/weighings", "key=N1&kind=first&plate=ZZ-1") or (0, "")
        slip = (status, body.split("\n")[0])
        same(f"{it.name}: the next weighing", (201, f"WEIGHING SLIP {number}"), slip)
        checked = bridge.get(service, "/check")
        same(f"{it.name}: the check of the service", (200, f"SOUND {count + 1}\n"), checked)
    *_, last, added = tables_of(it.new)[2]
    same(f"{it.name}: it is chained to the last one that was migrated", last[-2], added[-1])


def show_old_version(it: Folders) -> None:
    """Show that the other subcommands refuse the file of version 1, whose first file stays as it is."""
    before = Path(it.old).read_bytes()
    ports = "--terminal 127.0.0.1:4001 --office 127.0.0.1:8080"
    for command in (
        "check",
        "export --what journal",
        "export --what tickets",
        f"serve {ports} --converter {os.devnull}",
    ):
        found = run(*command.split(), "--file", it.old)
        same(f"{command} of version 1", (1, "", "store 6 old_version\n"), found)
    same("the file of version 1 after that", True, before == Path(it.old).read_bytes())


def show_refused(folder: str) -> None:
    """Show each file that is no sound journal of version 1 without a gap."""
    alone = [WORKED[0], (2, "K2", 2, "CD-34", MORNING + 5400, 8140, None)]
    for name, entries, command, what, fault in (
        ("a gap", A_GAP, "", "numbers 1 and 3", "10 gap 2"),
        ("a changed gross", WORKED, OTHER_GROSS.format(1), "entry 1", "9 damaged 1"),
        ("a Second without its First", alone, "", "entry 2", "9 damaged 2"),
        ("damage above a gap", A_GAP, OTHER_GROSS.format(3), "it is named first", "9 damaged 3"),
        ("a row that is none", WORKED, NO_KIND, "another kind", "4 foreign"),
        ("tables of version 3", WORKED, "UPDATE about SET value = 3", "version 3", "4 foreign"),
    ):
        it = Folders(folder, name)
        make(it.old, old_rows(entries))
        change(it.old, command)
        it.refuses(what, fault)

    it = Folders(folder, "tables of version 2")
    make_journal(it.old, 3)
    it.refuses("version 2", "7 not_version_1")

    it = Folders(folder, "no tables")
    Path(it.old).touch()
    it.refuses("a file without a byte", "7 not_version_1")

    it = Folders(folder, "no database")
    Path(it.old).write_text("r 9170 4\nt SI\n", encoding="ascii")
    it.refuses("a file of text", "2 disk")
    os.remove(it.old)
    it.refuses("no file", "2 disk")
    os.mkdir(it.old)
    it.refuses("a folder", "2 disk")

    it = Folders(folder, "held by another")
    make(it.old, old_rows(WORKED))
    conn = sqlite3.connect(it.old, isolation_level=None)
    conn.execute("BEGIN EXCLUSIVE")
    same(f"{it.name}: refused", (1, "", "store 2 disk\n"), migrate(it.old, it.new))
    conn.execute("ROLLBACK")
    conn.close()
    same(f"{it.name}: migrated afterwards", (0, "MIGRATED 2\n", ""), migrate(it.old, it.new))


def show_not_empty(folder: str) -> None:
    """Show a new file that isn't a new one."""
    it = Folders(folder, "another file")
    make(it.old, old_rows(WORKED))
    Path(it.new).write_text("a note\n", encoding="ascii")
    it.refuses("a file with a byte", "8 not_empty")
    os.remove(it.new)
    Path(it.new + "-wal").write_text("a log of other days\n", encoding="ascii")
    it.refuses("a log of other days", "8 not_empty")
    os.remove(it.new + "-wal")
    os.mkdir(it.new)
    it.refuses("a folder", "2 disk")
    os.rmdir(it.new)
    os.symlink("elsewhere.db", it.new)
    it.refuses("a link", "2 disk")
    os.remove(it.new)
    Path(it.new).write_text("a note\n", encoding="ascii")
    for fault, entries, command in (
        ("10 gap 2", A_GAP, ""),
        ("9 damaged 1", WORKED, OTHER_GROSS.format(1)),
        ("4 foreign", WORKED, NO_KIND),
    ):
        both = Folders(folder, f"another file, and {fault}")
        both.of_new, both.new = it.of_new, it.new
        make(both.old, old_rows(entries))
        change(both.old, command)
        both.refuses("the old file's fault is reported", fault)
    both = Folders(folder, "another file, and version 2")
    both.of_new, both.new = it.of_new, it.new
    make_journal(both.old, 3)
    both.refuses("the old file's fault is reported", "7 not_version_1")
    os.remove(both.old)
    both.refuses("the old file isn't there", "2 disk")
    os.remove(it.new)
    same("the new file is the old one", (1, "", "store 8 not_empty\n"), migrate(it.old, it.old))
    no_disk = (1, "", "store 2 disk\n")
    for name in (":memory:", "file:journal.db"):
        with contextlib.chdir(it.of_new):
            found = migrate(it.old, name)
        same(f"the new file has a name that nothing opens, {name}", no_disk, found)
        same("nothing is left there", [], os.listdir(it.of_new))
    same("the new file lies in no folder", no_disk, migrate(it.old, f"{it.of_new}/none/journal.db"))
    Path(it.new).touch()
    os.chmod(it.new, 0o640)
    gap = Folders(folder, "another file, after a refusal")
    make(gap.old, old_rows(A_GAP))
    what = "a refusal, with a new file that is there and empty"
    same(what, (1, "", "store 10 gap 2\n"), migrate(gap.old, it.new))
    left = [(file.name, file.stat().st_size) for file in Path(it.of_new).iterdir()]
    same("it is there and empty after that", [("journal.db", 0)], left)
    same("it is filled", (0, "MIGRATED 2\n", ""), migrate(it.old, it.new))
    same("with the mode that it had", "0o640", mode_of(it.new))


def show_memory(folder: str) -> None:
    """Show the migration out of memory, wherever that happens: under each limit from which the program can read its arguments, to one that is enough."""
    it = Folders(folder, "want of memory")
    make_journal(it.old, 2_000, version=1)
    before, found = contents(it.of_old), set[tuple[object, ...]]()
    for limit in range(4_000_000, 40_000_000, 250_000):
        ran = subprocess.run(
            it.words(),
            capture_output=True,
            text=True,
            preexec_fn=lambda: resource.setrlimit(resource.RLIMIT_AS, (limit, limit)),
        )
        if ran.returncode in (0, 1) and ran.stderr != "Error: Kind(OutOfMemory)\n":
            left = " ".join(sorted(os.listdir(it.of_new)))
            found.add((ran.returncode, ran.stdout, ran.stderr, left))
        clear(it.of_new)
    same(
        "out of memory is reported, or all is migrated",
        {(1, "", "store 1 memory\n", ""), (0, "MIGRATED 2000\n", "", "journal.db journal.db-wal")},
        found,
    )
    same("the old file and its folder after that", True, before == contents(it.of_old))


def show_many(folder: str) -> None:
    """Show a journal of many entries: reported on a terminal and nowhere else, and killed at any moment."""
    it = Folders(folder, "many entries")
    if program := os.environ.get("WEIGHBRIDGE_VERSION_1"):
        version_one.make_many(program, it.old, MANY)
        print("many entries: made by 1.0.0", flush=True)
    else:
        singles: list[Entry] = [
            (number, f"K{number}", 3, f"P-{number % 5000}", MORNING + number, 18340, 5000)
            for number in range(1, MANY + 1)
        ]
        make(it.old, old_rows(singles))
    entries, _ = entries_of(it.old)
    before = contents(it.of_old)
    seconds, kilobytes = min(measured(it) for _ in range(3))
    print(f"many entries: {MANY} took {seconds:.1f} s, and {kilobytes / 1000:.1f} MB", flush=True)
    is_small = seconds < MOST_SECONDS, 0 < kilobytes < MOST_KILOBYTES
    same("many entries: in time and memory", (True, True), is_small)
    is_migrated = (0, f"MIGRATED {MANY}\n", "")
    same("many entries: migrated, and nothing reported", is_migrated, migrate(it.old, it.new))
    same("many entries: its tables", ("ok", new_rows(entries)), tables_of(it.new)[0:3:2])
    same("many entries: the check", (0, f"SOUND {MANY}\n", ""), run("check", "--file", it.new))
    clear(it.of_new)
    told = told_on_a_terminal(it)
    same("many entries: reported on a terminal", True, f"{MANY} entries" in told)
    clear(it.of_new)
    chance = random.Random(1)
    whole = 0
    for _ in range(many(50)):
        quiet = subprocess.DEVNULL
        process = subprocess.Popen(it.words(), stdout=quiet, stderr=quiet)
        time.sleep(chance.uniform(0, 1.1 * seconds))
        process.kill()
        process.wait()
        status, out, err = (
            run("check", "--file", it.new) if os.path.exists(it.new) else (0, "SOUND 0\n", "")
        )
        warning = f"{os.path.realpath(it.new)}: it has none of the tables of a journal"
        has_nothing = out == "SOUND 0\n" and (not err or err.startswith(warning))
        if status or not (has_nothing or (out, err) == (f"SOUND {MANY}\n", "")):
            fail(f"killed: the new file has neither nothing nor all: {status} {out}{err}")
        whole += out != "SOUND 0\n"
        clear(it.of_new)
    ok(f"many entries: killed, {whole} times with all entries in the new file")
    is_kept = before == contents(it.of_old)
    same("many entries: the old file and its folder after that", True, is_kept)
    same("many entries: migrated afterwards", is_migrated, migrate(it.old, it.new))


def memory_of(pid: int) -> int:
    """Return the most memory in kB that the program had. It has its parent's before it begins and after it ended, for which this returns 0."""
    try:
        is_program = os.path.samefile(f"/proc/{pid}/exe", BUILT)
        with open(f"/proc/{pid}/status", encoding="ascii") as file:
            found = [int(line.split()[1]) for line in file if line.startswith("VmHWM:")]
    except OSError:
        return 0
    return max(found, default=0) if is_program else 0


def measured(it: Folders) -> tuple[float, int]:
    """Return the seconds of a migration, and the most memory in kB. Remove the files that it made."""
    began, most = time.monotonic(), 0
    process = subprocess.Popen(it.words(), stdout=subprocess.DEVNULL)
    while process.poll() is None:
        most = max(most, memory_of(process.pid))
        time.sleep(0.005)
    seconds = time.monotonic() - began
    same("many entries: migrated", 0, process.returncode)
    clear(it.of_new)
    return seconds, most


def clear(folder: str) -> None:
    for name in os.listdir(folder):
        os.remove(os.path.join(folder, name))


def told_on_a_terminal(it: Folders) -> str:
    """Return what a migration reports on standard error, if that is a terminal."""
    here, there = os.openpty()
    ran = subprocess.run(
        it.words(), stdin=subprocess.DEVNULL, stdout=subprocess.PIPE, stderr=there, text=True
    )
    os.close(there)
    printed_next = (ran.returncode, ran.stdout)
    same("many entries: printed next to a terminal", (0, f"MIGRATED {MANY}\n"), printed_next)
    told = b""
    with contextlib.suppress(OSError):
        while more := os.read(here, 4096):
            told += more
    os.close(here)
    return told.decode()


class Migrated(Check):
    """Whole journals of version 1, and the services that continue in them."""

    needs = (PROGRAM,)
    seconds = 30

    def setUp(self) -> None:
        self.box = self.folder()

    def test_worked_digests(self) -> None:
        self.assertEqual(WORKED_DIGESTS, [row[-1] for row in old_rows(WORKED)], "version 1")
        self.assertEqual([row[-2:] for row in PAIR], [row[-2:] for row in new_rows(WORKED)])

    def test_worked_pair(self) -> None:
        it = show_migrated(self.box, "the worked pair", WORKED)
        show_old_version(it)
        show_service(it, 2, 3, "K1")

    def test_every_kind(self) -> None:
        opened = OPEN_WEIGHING + "INSERT INTO open_weighing VALUES ('GH-78', 6);"
        it = show_migrated(self.box, "every kind", MIXED, more=opened)
        show_service(it, 6, 7, "K3")

    def test_after_a_purge(self) -> None:
        it = show_migrated(self.box, "after a purge", PURGED, PURGED_KEYS, OPEN_WEIGHING)
        show_service(it, 6, 307, "P7", used=410)
        show_migrated(self.box, "all purged", [], PURGED_KEYS)

    def test_others(self) -> None:
        show_migrated(self.box, "no entries", [])
        show_migrated(self.box, "only in the log", MIXED, in_log=True)
        index = "CREATE INDEX journal_by_plate ON journal (plate, number);"
        show_migrated(self.box, "an index of before", WORKED, more=index)

    def test_journals_that_version_1_made(self) -> None:
        show_real(self.box, "none", 0, 0)
        show_real(self.box, "pair", 2, 0)
        show_service(show_real(self.box, "purged", 20, 280), 20, 301, "F1", used=410)


class ManyEntries(Check):
    """A journal of many entries: its time and memory, and kills."""

    needs = (PROGRAM,)
    alone = True
    seconds = 60

    def test_many_entries(self) -> None:
        show_many(self.folder())


class Refused(Check):
    """Journals and new files that a migration refuses, and too little memory."""

    needs = (PROGRAM,)

    def test_words(self) -> None:
        self.assertEqual(2, run("migrate", "--file", "journal.db")[0], "without a new file")

    def test_old_file(self) -> None:
        show_refused(self.folder())

    def test_journals_that_version_1_made(self) -> None:
        show_real_refused(self.folder())

    def test_new_file(self) -> None:
        show_not_empty(self.folder())

    def test_too_little_memory(self) -> None:
        show_memory(self.folder())
