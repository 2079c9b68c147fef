"""Checks, exports and migrations of journals, and which files are made, changed and left."""

import contextlib
import os
import resource
import shutil
import socket
import sqlite3
import stat
import subprocess
import time

from checks.lib import bridge
from checks.lib.bridge import HOST
from checks.lib.journal import change, make_journal
from checks.lib.tried_twice import BUILT, TriedTwice, addresses, contents, limited, printed
from checks.program_tests.test_arguments import (
    DISK,
    FOREIGN,
    HELD,
    NO_FOLDER,
    NO_PERMISSION,
    as_nobody,
)

MADE = (0, "it would start")
NO_ADDRESS = "it must be an IPv4 address of 127.0.0.0/8, a colon and a port, such as 127.0.0.1:880"
DAMAGED = "the journal is damaged, and would be served as it is: DAMAGED 2"
IN_USE = "another program listens there"


class Journals(TriedTwice):
    """Sound, damaged and missing journals, and migrations."""

    def test_checks_and_exports(self) -> None:
        folder = self.folder()
        for words in ("check", "export --what journal", "export --what tickets"):
            found = printed(*words.split(), "--file", f"{folder}/missing.db")
            self.same(f"{words} of a file that isn't there", (1, "", f"{DISK}\n"), found)
        self.same("nothing was made of it", [], os.listdir(folder))
        file = f"{folder}/sound.db"
        make_journal(file, 20)
        self.same("a sound journal", (0, "SOUND 20\n", ""), printed("check", "--file", file))
        status, out, err = printed("export", "--what", "tickets", "--file", file)
        head = "ticket,kind,plate,first,at,gross_kg,tare_kg,net_kg"
        self.same("its tickets", (0, head, ""), (status, out.split("\n")[0], err))
        change(file, "UPDATE journal SET gross_kg = 20000 WHERE number = 7")
        damaged = (1, "DAMAGED 7\n", "")
        self.same("a damaged journal is reported", damaged, printed("check", "--file", file))
        status, out, _ = printed("export", "--what", "tickets", "--file", file)
        self.same("its tickets are refused, status 1", (1, ""), (status, out))
        status, out, err = printed("export", "--what", "journal", "--file", file)
        self.same("its entries are exported all the same", (0, 21), (status, out.count("\n")))
        reported = "the journal is damaged, and was exported as it is: DAMAGED 7\n"
        self.same("and that it is damaged is reported", reported, err)

    def test_migration(self) -> None:
        """Show a journal of version 1, which is migrated into a new file."""
        folder = self.folder()
        old, new, newer = (f"{folder}/{it}.db" for it in ("old", "new", "newer"))
        make_journal(old, 20, version=1)
        before = contents(folder, "old")
        migrate = ("migrate", "--file", old, "--to", new)
        again = ("migrate", "--file", new, "--to", newer)
        for name, wanted, words in (
            ("a journal of version 1 is refused", "store 6 old_version", ("check", "--file", old)),
            ("it is migrated", "MIGRATED 20", migrate),
            ("the new one is sound", "SOUND 20", ("check", "--file", new)),
            ("a new file with something in it is refused", "store 8 not_empty", migrate),
            ("the new one is not migrated again", "store 7 not_version_1", again),
        ):
            is_fault = wanted.startswith("store")
            out, err = ("", f"{wanted}\n") if is_fault else (f"{wanted}\n", "")
            self.same(name, (int(is_fault), out, err), printed(*words))
        self.same("the old one is as it was", before, contents(folder, "old"))
        change(old, "DELETE FROM journal WHERE number = 7")
        found = printed("migrate", "--file", old, "--to", newer)
        self.same("one that lacks a number is refused", (1, "", "store 10 gap 7\n"), found)
        self.same("no new file is left of a refusal", {}, contents(folder, "newer"))

    def test_log_of_a_migration(self) -> None:
        """Show that entries which are only in the log are migrated."""
        folder = self.folder()
        kept, old = f"{folder}/kept.db", f"{folder}/old.db"
        make_journal(kept, 20, version=1)
        connection = sqlite3.connect(kept)
        connection.execute("PRAGMA journal_mode = WAL")
        connection.execute("PRAGMA wal_autocheckpoint = 0")
        connection.execute("DELETE FROM journal WHERE number > 10")
        connection.commit()
        for ending in ("", "-wal"):
            shutil.copy(kept + ending, old + ending)
        connection.close()
        before = contents(folder, "old.db")
        found = printed("migrate", "--file", old, "--to", f"{folder}/new.db")
        self.same("what is only in the log is migrated", (0, "MIGRATED 10\n", ""), found)
        after = contents(folder, "old.db")
        self.same("the old file and its log are as they were", before, after)

    def test_copies_of_a_migration(self) -> None:
        """Show the modes of its copies, and that nothing is left after a full disk."""
        folder, among = self.folder(), self.folder()
        large = f"{folder}/large.db"
        make_journal(large, 20_000, version=1)
        modes = set()
        environment = {**os.environ, "TMPDIR": among}
        with subprocess.Popen(
            [BUILT, "migrate", "--file", large, "--to", f"{folder}/new.db"],
            stdout=subprocess.PIPE,
            stderr=subprocess.DEVNULL,
            env=environment,
            preexec_fn=lambda: os.umask(0),
        ) as process:
            while process.poll() is None:
                for name in os.listdir(folder):
                    if name.startswith("new"):
                        with contextlib.suppress(FileNotFoundError):
                            modes.add(stat.S_IMODE(os.stat(f"{folder}/{name}").st_mode))
        self.same("only its owner may use each file that it makes", {0o600}, modes)
        self.same("nothing is left of its copy", [], os.listdir(among))
        status, out, err = printed(
            *("migrate", "--file", large, "--to", f"{folder}/none.db"),
            env=environment,
            restore_signals=False,
            preexec_fn=limited((resource.RLIMIT_FSIZE, 1_000_000)),
        )
        what = "a copy without space is a fault of the disk"
        self.same(what, (1, "", DISK), (status, out, err.splitlines()[-1]))
        self.holds("and says where space is needed", "give TMPDIR a folder with room" in err, err)
        left = {**contents(folder, "none"), **contents(among)}
        self.same("nothing is left of it", {}, left)

    def test_terabyte(self) -> None:
        folder = self.folder()
        with open(f"{folder}/long.db", "wb") as file:
            file.write(b"no database")
            file.truncate(1 << 40)
        began = time.monotonic()
        for words in (["check"], ["migrate", "--to", f"{folder}/short.db"]):
            found = printed(*words, "--file", f"{folder}/long.db")
            name = f"a terabyte that is no database isn't copied: {words[0]}"
            self.same(name, (1, "", f"{DISK}\n"), found)
        self.holds("it took no time", time.monotonic() - began < 10)


class Looks(TriedTwice):
    """`serve --check` reports whether a service would start, by its status whether a fault can pass, and makes nothing."""

    def look(self, file: str, *words: str) -> tuple[int, list[str], list[str]]:
        """Return the status and the lines of a look. A later option counts in place of an earlier one's."""
        given = {"--file": file, "--window": "10"}
        for some in (addresses(), words):
            given.update(zip(some[::2], some[1::2]))
        status, out, err = printed("serve", "--check", *(it for row in given.items() for it in row))
        return status, out.splitlines(), err.splitlines()

    def test_faults(self) -> None:
        folder = self.folder()
        file, damaged, other = (f"{folder}/{it}.db" for it in ("journal", "damaged", "other"))
        make_journal(file, 3)
        make_journal(damaged, 3)
        change(damaged, "UPDATE journal SET gross_kg = gross_kg + 20 WHERE number = 2")
        change(other, "CREATE TABLE journal (number INTEGER)")
        before = contents(folder)
        taken = self.enterContext(socket.create_server((HOST, 0))).getsockname()[1]
        status, out, err = self.look(file)
        self.same("a look says what would start", (*MADE, []), (status, *out[1:], err))
        self.holds("and over which journal", f"{file}, newest 3 " in out[0], out)
        status, out, err = self.look(f"{folder}/new.db", "--window", "4")
        self.same("a journal that isn't there yet would be made", MADE, (status, *out[1:]))
        self.holds("and is named", "new.db, no entry" in out[0], out)
        warned = err[0].startswith("warning: a window of 4 readings")
        self.holds("a window below a second's readings is warned of", warned, err)
        one, terminal = f"{HOST}:{bridge.free_port()}", f"{HOST}:{taken}"
        taken_line = f"terminal {terminal}: {IN_USE}"
        none, there = f"{folder}/gone/journal.db", f"{folder}/gone"
        away, name_only = "10.0.0.1:80", "tcp:localhost:1"
        no_office = (f"office {away}: {NO_ADDRESS}", "address fault")
        no_converter = (f"converter {name_only}: {NO_ADDRESS}", "converter fault")
        is_folder = (f"converter {folder}: it is a folder", "converter fault")
        foreign = (f"journal {other}: {FOREIGN}", "store 4 foreign")
        gone = (f"converter {there}: there is no such file", "converter fault")
        no_folder = (f"journal {none}: {NO_FOLDER}", DISK)
        for name, path, option, value, wanted, *lines in (
            ("a damaged journal would be served, and is reported", damaged, "", "", "0", DAMAGED),
            ("an address in use", file, "--terminal", terminal, "1", taken_line, "address fault"),
            ("a setup that is refused", file, "--window", "3", "2", "setup refused: 3 Window"),
            ("an address of another machine", file, "--office", away, "2", *no_office),
            ("a converter's that isn't one", file, "--converter", name_only, "2", *no_converter),
            ("a folder as a converter", file, "--converter", folder, "2", *is_folder),
            ("a file that is no journal", other, "", "", "2", *foreign),
            ("a converter that may come", file, "--converter", there, "1", *gone),
            ("a folder of the journal that may", none, "", "", "1", *no_folder),
        ):
            found = self.look(path, *filter(None, [option, value]))[::2]
            self.same(f"{name}: {' '.join(lines)}", (int(wanted), lines), found)
        found = self.look(file, "--terminal", one, "--office", one)[::2]
        in_use = (1, [f"office {one}: {IN_USE}", "address fault"])
        self.same("one address for both is a fault", in_use, found)
        self.same("each look has made and changed nothing", before, contents(folder))
        start = ("serve", "--file", file, *addresses(taken))
        said = printed(*start, "--verbose")[2].splitlines()[-2:]
        verbose = [taken_line, "address fault"]
        self.same("a start that fails says why under --verbose", verbose, said)
        self.same("and only its fault without", "address fault\n", printed(*start)[2])

    def test_files_that_cannot_be_written(self) -> None:
        """Show that a look names the journal's file that can't be written or made, and makes and changes nothing."""
        folder = self.folder()
        closed = f"{folder}/closed"
        journal = f"{closed}/journal.db"
        os.mkdir(closed)
        make_journal(journal, 3)
        for name in ("-wal", "-newest", "-zero"):
            open(journal + name, "w", encoding="utf-8").close()
        for name in os.listdir(closed):
            os.chmod(f"{closed}/{name}", 0o666)
        for it in (folder, closed):
            os.chmod(it, 0o755)
        words = ["serve", "--check", "--window", "10", *addresses(), "--file"]
        fault = "it can't be made, because no file can be made in its folder; name another folder"
        status, out, err = printed(*words, "/proc/j.db")
        wanted = (1, "", [f"journal /proc/j.db: {fault}", DISK])
        self.same("no journal is made in /proc", wanted, (status, out, err.splitlines()))
        found = as_nobody(folder, *words, journal)
        self.same("a journal that this user may write", (0, []), found)
        if os.getuid():
            os.chmod(closed, 0o555)
        fault = "it can't be made, because this user may not write to its folder; run this as the folder's owner"
        refused = (1, [f"journal {closed}/new.db: {fault}", DISK])
        found = as_nobody(folder, *words, f"{closed}/new.db")
        self.same("nor in a folder that this user may not write to", refused, found)
        os.chmod(f"{journal}-zero", 0o444)
        status = as_nobody(folder, *words, journal)[0]
        self.same("without the note of the zero it would start", 0, status)
        os.chmod(f"{journal}-zero", 0o666)

        def state() -> tuple[dict[str, bytes], dict[str, int]]:
            names = [".", *os.listdir(closed)]
            times = {name: os.stat(f"{closed}/{name}").st_mtime_ns for name in names}
            return contents(closed), times

        for ending in ("", "-wal", "-newest"):
            file = journal + ending
            os.chmod(file, 0o444)
            before = state()
            refused = (1, [f"journal {file}: it can't be written, {NO_PERMISSION}", DISK])
            found = as_nobody(folder, *words, journal)
            self.same(f"journal.db{ending} that this user may not write", refused, found)
            self.same(f"journal.db{ending} is left as it was", before, state())
            os.chmod(file, 0o666)
        os.chmod(closed, 0o755)

    def test_running_service(self) -> None:
        """Show what a look reports while a service runs over the same file, or another program has an address or the journal."""
        folder = self.folder()
        file = f"{folder}/journal.db"
        service = self.serve(file)
        one, other = f"{HOST}:{service.terminal}", f"{HOST}:{service.office}"
        runs = f"journal {file}: the running service holds it; stop that before another start"
        terminal, office = f"terminal {one}: {IN_USE}", f"office {other}: {IN_USE}"
        both = ("--terminal", one, "--office", other)
        started, held_by = ["it would start"], [f"journal {file}: {HELD}", DISK]
        fault, new = [terminal, "address fault"], f"{folder}/new.db"
        of_both = (0, started, [runs, terminal, office])
        for name, path, words, wanted in (
            ("its addresses in use are no fault", file, both, of_both),
            ("nor is one of both", file, both[2:], (0, started, [runs, office])),
            ("its journal, at other addresses", file, (), (1, [], held_by)),
            ("another journal at its addresses", new, both, (1, [], fault)),
        ):
            status, out, err = self.look(path, *words)
            self.same(name, wanted, (status, out[1:], err))
        found = printed("check", "--verbose", "--file", file)
        held = (1, "", f"journal {file}: {HELD}\n{DISK}\n")
        self.same("a check of a journal that a service holds", held, found)
        self.same("the service has continued", 0, service.end()[2])
