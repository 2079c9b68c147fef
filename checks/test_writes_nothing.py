"""Shows that a check, both exports and the inspectors' reader write no byte next to the journal, even if they are killed.

- The journals are one that a killed service left, its file without its log and with an empty log, and one whose table
  of open weighings is missing. Others are of an old version, damaged, without a byte, and no database. Each program prints what it prints for a copy, and leaves the folder as it was, with each file's bytes and times.
  strace sees it open files there only to read.
- It prints the same as a user who may write neither the files nor their folder, and on a mount that can't be written.
- The copies that it reads are gone when it ends. Killed at any time, it leaves no byte of them.
- Without a place for them, or without space there, it says so by a line, and ends by `store 2 disk`.
"""

import os
import random
import re
import shutil
import subprocess
import time
from collections.abc import Callable
from pathlib import Path

from checks import TOP
from checks.lib import bridge
from checks.lib.case import PROGRAM, Check, many, skip_without
from checks.lib.program import PROGRAM as BUILT
from checks.lib.journal import change, make_journal

VERIFY = str(TOP / "inspect" / "verify.py")
NOBODY = 65_534
WRITING = re.compile("O_WRONLY|O_RDWR|O_CREAT|O_TRUNC")
CALLS = "open,openat,openat2,creat,mkdir,mkdirat,unlink,unlinkat,rmdir,rename,renameat,renameat2,link,linkat,symlink,symlinkat,truncate,chmod,fchmodat"
LOOKS = {
    "check": [BUILT, "check", "--file"],
    "export of the journal": [BUILT, "export", "--what", "journal", "--file"],
    "export of the tickets": [BUILT, "export", "--what", "tickets", "--file"],
    "reader for inspectors": [VERIFY],
}


def left_by_a_kill(path: str) -> None:
    """Make a journal as a killed service leaves it, with all entries in its log."""
    converter = bridge.Converter(50.0, lambda number: number // 8 % 2 * 9_170)
    with bridge.Service(BUILT, path, converter) as service:
        for number in range(4):
            kind = ["first", "second"][number % 2]
            bridge.weigh(service, f"key=W{number}&kind={kind}&plate=P-{number // 2}")


def without_log(path: str) -> None:
    left_by_a_kill(path)
    os.remove(path + "-wal")
    os.remove(path + "-newest")


def with_empty_log(path: str) -> None:
    make_journal(path, 50)
    Path(path + "-wal").touch()


def changed(path: str, statement: str) -> None:
    make_journal(path, 50)
    change(path, statement)


UPDATE = "UPDATE journal SET"
CASES: dict[str, Callable[[str], object]] = {
    "left by a kill": left_by_a_kill,
    "without its log": without_log,
    "with an empty log": with_empty_log,
    "of other hands, without open weighings": lambda path: make_journal(path, 50),
    "of version 1": lambda path: make_journal(path, 50, version=1),
    "damaged": lambda path: changed(path, f"{UPDATE} gross_kg = 18360 WHERE number = 7"),
    "with a row of another kind": lambda path: changed(path, f"{UPDATE} kind = 5 WHERE number = 7"),
    "without a byte": lambda path: Path(path).touch(),
    "no database": lambda path: Path(path).write_bytes(b"r 9170 4\nt SI\n"),
}


def standing(folder: str) -> dict[str, tuple[object, ...]]:
    """Return everything in a folder: names, bytes, modes and times."""
    found: dict[str, tuple[object, ...]] = {}
    for name in [".", *sorted(os.listdir(folder))]:
        path = Path(folder, name)
        seen, data = path.stat(), path.read_bytes() if path.is_file() else b""
        found[name] = (data, seen.st_mode, seen.st_ino, seen.st_mtime_ns, seen.st_ctime_ns)
    return found


def look(
    words: list[str],
    path: str,
    temporary: str,
    before: Callable[[], None] | None = None,
    traced: str = "",
) -> tuple[int, str, str]:
    """Return the status of a look, and what it printed and reported, of the journal by its own name."""
    by = ["strace", "-f", "-qq", "-o", traced, "-e", f"trace={CALLS}"] if traced else []
    it = subprocess.run(
        [*by, *words, path],
        stdin=subprocess.DEVNULL,
        capture_output=True,
        text=True,
        preexec_fn=before,
        env={**os.environ, "TMPDIR": temporary},
    )
    return it.returncode, it.stdout, it.stderr.replace(os.path.dirname(path), "")


def may_write_nothing() -> None:
    os.setgid(NOBODY)
    os.setuid(NOBODY)


def written_in(folder: str, traced: str) -> list[str]:
    """Return the calls in a trace that write in the folder."""
    with open(traced, errors="replace") as it:
        calls = [line for line in it if f'"{folder}' in line]
    return [line for line in calls if "open" not in line.split("(")[0] or WRITING.search(line)]


# Mounts a folder so that it can't be written, or one of 256 kB, and runs the words behind it.
READ_ONLY = 'mount --bind "$0" "$0" && mount -o remount,bind,ro "$0" && ! touch "$0/written" 2>/dev/null && exec "$@"'
SMALL = 'mount -t tmpfs -o size=256k none "$0" && "$@"; status=$?; ls "$0"; exit $status'


def mounted(script: str, folder: str) -> list[str]:
    return ["unshare", "-m", "sh", "-c", script, folder]


class WritesNothing(Check):
    """Looks at journals, and the bytes that they leave."""

    needs = (PROGRAM, "strace")
    seconds = 60

    def folders(self) -> tuple[str, str, str]:
        """Return the journal's path in a new folder, a folder for temporary files, and the path of a trace."""
        root = self.folder()
        os.chmod(root, 0o755)
        evidence, temporary = os.path.join(root, "evidence"), os.path.join(root, "temporary")
        os.mkdir(evidence)
        os.mkdir(temporary)
        os.chmod(temporary, 0o777)
        return os.path.join(evidence, "journal.db"), temporary, os.path.join(root, "trace")

    def test_each_journal(self) -> None:
        for case, make in CASES.items():
            path, temporary, traced = self.folders()
            folder = os.path.dirname(path)
            make(path)
            for name, words in LOOKS.items():
                what, before = f"{case}: the {name}", standing(folder)
                found = look(words, path, temporary, traced=traced)
                self.same(f"{what} writes nothing", [], written_in(folder, traced))
                self.same(f"{what} leaves the folder", before, standing(folder))
                self.same(f"{what} leaves no temporary file", [], os.listdir(temporary))
                if os.getuid() == 0:
                    self.show_to_nobody(what, words, path, temporary, found)

    def show_to_nobody(
        self, what: str, words: list[str], path: str, temporary: str, wanted: tuple[int, str, str]
    ) -> None:
        """Show a look to a user who may write nothing, and on a mount that can't be written."""
        folder = os.path.dirname(path)
        for it in [folder, *(os.path.join(folder, one) for one in os.listdir(folder))]:
            os.chown(it, NOBODY, NOBODY)
            os.chmod(it, 0o500 if it == folder else 0o400)
        found = look(words, path, temporary, before=may_write_nothing)
        self.same(f"{what}, of one who may not write", wanted, found)
        found = look([*mounted(READ_ONLY, folder), *words], path, temporary)
        self.same(f"{what}, on a mount that can't be written", wanted, found)

    def test_check_that_is_killed(self) -> None:
        """Show that a check that is killed at any time leaves no byte of its copies."""
        path, temporary, _ = self.folders()
        chance, left = random.Random(1), 0
        make_journal(path, 20_000)
        began = time.monotonic()
        look(LOOKS["check"], path, temporary)
        took = time.monotonic() - began
        for kill in range(many(100)):
            it = subprocess.Popen(
                [*LOOKS["check"], path],
                stdout=subprocess.DEVNULL,
                stderr=subprocess.DEVNULL,
                env={**os.environ, "TMPDIR": temporary},
            )
            time.sleep(chance.random() * took)
            it.kill()
            it.wait()
            for name in os.listdir(temporary):
                at = os.path.join(temporary, name)
                sizes = [os.path.getsize(os.path.join(at, one)) for one in os.listdir(at)]
                self.assertFalse(any(sizes), f"kill {kill} left a copy: {at}")
                shutil.rmtree(at)
                left += 1
        print(f"within {took:.2f} s each; {left} empty folders were left")

    def test_no_temporary_folder(self) -> None:
        path, temporary, _ = self.folders()
        make_journal(path, 5_000)
        status, out, err = look(LOOKS["check"], path, os.path.join(temporary, "none"))
        self.assertEqual((1, "", "store 2 disk"), (status, out, err.splitlines()[-1]))
        self.assertTrue(err.startswith("no copy of the journal can be made"), err)

    @skip_without("root")
    def test_no_room_for_a_copy(self) -> None:
        path, temporary, _ = self.folders()
        make_journal(path, 5_000)
        status, out, err = look([*mounted(SMALL, temporary), *LOOKS["check"]], path, temporary)
        # what is left there would be listed in `out`
        self.assertEqual((1, "", "store 2 disk"), (status, out, err.splitlines()[-1]))
        self.assertIn("No space left", err)
