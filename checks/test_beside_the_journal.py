"""Shows that after each of 80 kills the witness has every entry that was answered. A journal that lacks an entry of its
witness is refused and stays unchanged. A start reports that it forgot the zero.

- A service that is killed at any time while it weighs leaves a witness that has at least what was answered. A start
  accepts that witness.
- A start, a check and both exports refuse a journal that is behind its witness, by a line with both numbers. They
  change nothing. The cases are older files that were put back, a log that is gone, a newest row that was deleted, and
  another entry under its number. Once the witness is removed, a start accepts the journal and gives the numbers again.
- If the witness can't be written, the weighing isn't answered, and the service ends. After the next start the same
  request gets its entry.
- A file may have none of a journal's tables, for example a copy without its log. A check and an export warn of that on
  standard error, and print what they did before.
- A journal that is ahead of its witness is accepted. So is a journal without a witness, with an empty or a broken one,
  or one that was purged to its last entry. A start writes the witness again, for its owner only. A check and an export
  leave the witness as it is. Only the check reports a damaged newest entry.
- A migration writes no witness, and refuses a new file with one.
- If the zero after a start differs from the one that was set, the start says by how many kilograms, once. It sets no
  zero.
"""

import contextlib
import os
import random
import shutil
import sqlite3
import subprocess
import tempfile
import threading
import time
from pathlib import Path

from checks.lib import bridge
from checks.lib.case import PROGRAM, Check, many, skip_without
from checks.lib.journal import ZEROS, change, digest_of, make_journal, newest_line
from checks.lib.program import PROGRAM as BUILT
from checks.lib.program import printed
from checks.lib.showing import fail, ok, same

Said = tuple[int, str, str]  # the status of a run, and what it printed and reported
RATES = [10.0, 50.0]
ENDS = ("", "-wal", "-newest")
LOOKS = {
    "check": ["check"],
    "export of the journal": ["export", "--what", "journal"],
    "export of the tickets": ["export", "--what", "tickets"],
}


def newest(path: str) -> int:
    """Return the number that the witness has."""
    lines = Path(path + "-newest").read_text(encoding="ascii").splitlines(keepends=True)
    return max(int(it[7:17]) for it in lines if it == newest_line(int(it[7:17]), it[18:82]))


def write(path: str, text: str) -> None:
    Path(path).write_text(text, encoding="ascii")


def show_check(what: str, path: str, wanted: str, status: int = 0, said: str = "") -> None:
    """Show what a check says of a journal."""
    same(what, (status, f"{wanted}\n", said), printed("check", "--file", path))


def start(path: str, rate: float, *words: str) -> bridge.Service:
    """Start a service whose bridge has a vehicle on it and off it by turns."""
    converter = bridge.Converter(rate, lambda number: number // 8 % 2 * 9_170)
    return bridge.Service(BUILT, path, converter, "--pace", f"{rate:.0f}", *words)


def weigh(service: bridge.Service, number: int) -> str:
    """Ask for an entry of this number until it is stored. Return the title of its slip or ticket, without `WEIGHING`."""
    body = f"key=W{number}&kind={['second', 'first'][number % 2]}&plate=P-{(number + 1) // 2}"
    while True:
        if (answer := bridge.post(service, "/weighings", body)) and answer[0] == 201:
            return answer[1].split("\n")[0].removeprefix("WEIGHING ")


def stop(service: bridge.Service) -> str:
    service.kill()
    service.converter.close()
    assert service.process.stderr is not None  # it is a pipe
    return str(service.process.stderr.read())


def weighed(path: str, rate: float, numbers: range) -> str:
    """Weigh these numbers at a service, and kill it."""
    service = start(path, rate)
    for number in numbers:
        same(f"entry {number} is {number}", str(number), weigh(service, number).split()[1])
    return stop(service)


def copied(path: str, folder: str) -> None:
    os.makedirs(folder, exist_ok=True)
    for end in ENDS:
        shutil.copy(path + end, folder)


def put_back(path: str, folder: str, ends: tuple[str, ...] = ENDS[:2]) -> None:
    for end in ends:
        shutil.copy(os.path.join(folder, os.path.basename(path) + end), path + end)


def started(path: str) -> Said:
    """Return what a start says; a converter of one line ends it."""
    terminal, office = (f"{bridge.HOST}:{bridge.free_port()}" for _ in range(2))
    with tempfile.NamedTemporaryFile("w") as it:
        it.write("lost\n")
        it.flush()
        words = ["--terminal", terminal, "--office", office, "--converter", it.name]
        return printed("serve", "--file", path, *words)


def show_accepted(what: str, path: str, count: int, said: str = "") -> None:
    """Show that a check answers and writes nothing, that a start is accepted, and that then the witness is the newest entry's."""
    before = files_next_to(path)
    show_check(f"{what}: a check", path, f"SOUND {count}", said=said)
    same(f"{what}: and it writes nothing", before, files_next_to(path))
    same(f"{what}: a start", (0, "turns 1\n", said), started(path))
    same(f"{what}: only for its owner", 0o600, os.stat(path + "-newest").st_mode & 0o777)


def files_next_to(path: str) -> dict[str, bytes]:
    """Return everything in the folder of a journal."""
    return {it.name: it.read_bytes() for it in Path(path).parent.iterdir() if it.is_file()}


def show_refused(what: str, path: str, wanted: str) -> None:
    """Show that a check and both exports refuse it by this line, and change nothing; so does a start, and changes no entry."""
    before = files_next_to(path)
    for name, words in LOOKS.items():
        told = printed(*words, "--file", path)
        same(f"{what}: nothing is changed by the {name}", before, files_next_to(path))
        same_refusal(f"{what}: the {name}", told, wanted)
    same_refusal(f"{what}: a start", started(path), wanted)
    same_refusal(f"{what}: a check after it", printed("check", "--file", path), wanted)


def same_refusal(what: str, told: Said, wanted: str) -> None:
    status, out, err = told
    lines = err.splitlines()
    if (status, out, len(lines), lines[-1]) != (1, "", 2, "store 2 disk") or wanted not in lines[0]:
        fail(f"{what} says {status} {out}{err}, and not: {wanted}")
    ok(f"{what}: refused")


def show_kills(folder: str, rate: float) -> None:
    """Kills while a client weighs without end."""
    path, chance, answered = os.path.join(folder, "killed.db"), random.Random(int(rate)), [0]
    kills, taken = 0, 0
    while kills < many(40):
        before = answered[0]
        service = start(path, rate)

        def ask() -> None:
            with contextlib.suppress(OSError, ValueError):
                while True:
                    weigh(service, answered[0] + 1)
                    answered[0] += 1

        asking = threading.Thread(target=ask, daemon=True)
        asking.start()
        time.sleep(chance.random() * 40 / rate)
        said = stop(service)
        asking.join(30)
        if said == "address fault\n" and taken < 3:
            # another check took the port before the service did, and may have answered in its place
            answered[0], taken = before, taken + 1
            continue
        kills += 1
        status, out, err = printed("check", "--file", path)
        entries = int(out.split()[1])
        if (status, err, said) != (0, "", "") or not answered[0] <= newest(path) <= entries:
            fail(
                f"killed: {status} {out}{err}{said}, of {answered[0]} answered the witness has {newest(path)}"
            )
        answered[0] = entries
    ok(f"{rate:.0f} a second: of {answered[0]} entries each that was answered is witnessed")


def show_restores(folder: str, rate: float) -> None:
    """Older files, with the witness and without."""
    path, older = os.path.join(folder, "served.db"), os.path.join(folder, "older")
    name = f"{rate:.0f} a second"
    weighed(path, rate, range(1, 4))
    copied(path, older)
    weighed(path, rate, range(4, 6))
    newer = os.path.join(folder, "newer")
    copied(path, newer)
    put_back(path, older)
    behind = f"but {path}-newest recorded that 5 was answered"
    show_refused(f"{name}: older files", path, f"{path}: its newest entry is 3, {behind}")
    show_no_log(name, path, newer)
    put_back(path, newer)
    os.remove(path + "-wal")
    show_refused(f"{name}: a log that is gone", path, behind)
    put_back(path, newer)
    show_accepted(f"{name}: the newer files again", path, 5)
    put_back(path, older, ENDS)
    put_back(path, newer, ENDS[:2])
    show_accepted(f"{name}: a journal ahead of its witness", path, 5)
    same(f"{name}: which is written again", 5, newest(path))
    put_back(path, older)
    os.remove(path + "-newest")
    show_refused_not(f"{name}: older files without the witness", path, 3)
    same(f"{name}: which is made", 3, newest(path))
    service = start(path, rate)
    same(f"{name}: and the numbers are given again", "SLIP 4", weigh(service, 15))
    stop(service)
    put_back(path, newer, ENDS)


def show_no_log(name: str, path: str, newer: str) -> None:
    """Looks at a copy without its log, in which all tables are: the commonest mistake with backups."""
    half = path + ".half"
    shutil.copy(os.path.join(newer, os.path.basename(path)), half)
    none = f"{half}: it has none of the tables of a journal, so no entry was checked; its entries may be in {half}-wal: copy both files: see operating.md, Back up the journal\n"
    for what, words in LOOKS.items():
        status, out, err = printed(*words, "--file", half)
        same(f"{name}: a copy without its log, {what}", (0, none), (status, err))
    show_check(f"{name}: it says what it said", half, "SOUND 0", said=none)
    shutil.copy(os.path.join(newer, os.path.basename(path)) + "-newest", f"{half}-newest")
    behind = f"{half}: its newest entry is 0, but {half}-newest recorded that 5 was answered. Entries whose tickets were given are missing. Keep all files: see troubleshooting.md, A journal that is behind\n"
    wanted = (1, "", f"{behind}store 2 disk\n")
    what = f"{name}: with its witness it is behind, by one line"
    same(what, wanted, printed("check", "--file", half))
    os.remove(f"{half}-newest")
    os.remove(half)


def show_refused_not(what: str, path: str, count: int) -> None:
    show_check(f"{what}: a check", path, f"SOUND {count}")
    same(f"{what}: makes none", False, os.path.exists(path + "-newest"))
    same(f"{what}: a start", (0, "turns 1\n", ""), started(path))


def show_witnesses(folder: str, rate: float) -> None:
    """Witnesses that say nothing, and one that can't be read."""
    path, name = os.path.join(folder, "served.db"), f"{rate:.0f} a second"
    witness = Path(path + "-newest")
    whole = witness.read_text(encoding="ascii")[148:] * 2
    broken = f"{path}-newest: neither of its lines is whole, as after a power cut; the journal isn't compared with it\n"
    for what, text, said in (
        ("an empty witness", "", ""),
        ("one of zeros", "\0" * 296, broken),
        ("one that was cut", whole[:100], broken),
    ):
        write(str(witness), text)
        show_accepted(f"{name}: {what}", path, 5, said)
        same(f"{name}: {what}: is made again", whole, witness.read_text(encoding="ascii"))
    write(str(witness), newest_line(4, ZEROS) + newest_line(6, ZEROS)[:147] + "!")
    show_accepted(f"{name}: a witness of an older entry, and a torn line", path, 5)
    witness.unlink()
    witness.mkdir()
    for words in (["check"], ["export", "--what", "journal"]):
        status, out, err = printed(*words, "--file", path)
        found = (status, out, err.startswith(f"{path}-newest: "), err.splitlines()[-1])
        what = f"{name}: a folder in its place, {words[0]}"
        same(what, (1, "", True, "store 2 disk"), found)
    witness.rmdir()
    write(str(witness), whole)


def changed(path: str, other: str, *statements: str) -> None:
    """Make a copy of the journal in which these statements were run."""
    for end in ENDS:
        shutil.copy(path + end, other + end)
    change(other, *statements)


def show_rows(folder: str, rate: float) -> None:
    """Rows that another hand deleted or changed."""
    path, name = os.path.join(folder, "served.db"), f"{rate:.0f} a second"
    other = os.path.join(folder, "changed.db")
    deletes = [f"DELETE FROM {it} WHERE number = 5" for it in ("journal", "open_weighing")]
    changed(path, other, *deletes)
    behind = f"{other}: its newest entry is 4, but {other}-newest recorded that 5 was answered"
    show_refused(f"{name}: the newest row deleted", other, behind)
    for what, statement, number in (
        ("one before deleted", "DELETE FROM journal WHERE number = 4", 4),
        ("the newest row changed", "UPDATE journal SET gross_kg = 18360 WHERE number = 5", 5),
        ("its digest changed", "UPDATE journal SET digest = 'no text' WHERE number = 5", 5),
    ):
        changed(path, other, statement)
        show_check(f"{name}: {what}", other, f"DAMAGED {number}", 1)
    changed(path, other)
    with contextlib.closing(sqlite3.connect(other)) as database:
        key, plate, moment, previous = database.execute(
            "SELECT request_key, plate, moment, previous FROM journal WHERE number = 5"
        ).fetchone()
    digest = digest_of(5, key, "first", plate, moment, 18_360, "-", previous=previous)
    heavier = f"UPDATE journal SET gross_kg = 18360, digest = '{digest}' WHERE number = 5"
    changed(path, other, heavier)
    differs = f"{other}: entry 5 differs from the entry 5 that {other}-newest recorded"
    show_refused(f"{name}: another sound entry in its place", other, differs)


def show_purged(folder: str, rate: float) -> None:
    """Show a journal that is purged to its last entry."""
    path, name = os.path.join(folder, "old.db"), f"{rate:.0f} a second"
    make_journal(path, 20, 400 * 86_400)
    service = start(path, rate)
    same(f"{name}: at its start the witness has the newest entry", 20, newest(path))
    same(f"{name}: a purge of all", (200, "PURGED 20\n"), bridge.post(service, "/purge"))
    stop(service)
    same(f"{name}: the witness has a number that is spent", 20, newest(path))
    show_accepted(f"{name}: a journal that was purged", path, 0)
    witness = Path(path + "-newest").read_text(encoding="ascii")
    what = f"{name}: then it has that number without a digest"
    same(what, 2 * newest_line(20, ZEROS), witness)
    show_accepted(f"{name}: and once more", path, 0)
    service = start(path, rate)
    same(f"{name}: the next entry is 21", "SLIP 21", weigh(service, 31))
    stop(service)
    same(f"{name}: and is witnessed", 21, newest(path))


def show_migrated(folder: str) -> None:
    """Show that a migration makes no witness, and accepts no file that has one."""
    old, new = os.path.join(folder, "version1.db"), os.path.join(folder, "version2.db")
    make_journal(old, 20, version=1)
    words = ["migrate", "--file", old, "--to", new]
    write(new + "-newest", newest_line(3, ZEROS))
    same("a new file with a witness", (1, "", "store 8 not_empty\n"), printed(*words))
    same("and nothing is made", False, os.path.exists(new))
    os.remove(new + "-newest")
    same("a migration", (0, "MIGRATED 20\n", ""), printed(*words))
    same("makes no witness", False, os.path.exists(new + "-newest"))
    show_refused_not("a journal that was migrated", new, 20)
    same("the start makes the witness", 20, newest(new))


def show_zero(folder: str, rate: float) -> None:
    """Show what a start says of the zero that it forgot."""
    path, name = os.path.join(folder, "zero.db"), f"{rate:.0f} a second"

    def begin(load: int) -> tuple[bridge.Service, bridge.Terminal]:
        """Start a service with this load on the bridge."""
        service = bridge.Service(BUILT, path, bridge.Played(rate), "--pace", f"{rate:.0f}")
        service.converter.put(load)
        return service, bridge.Terminal(service)

    for load, kilograms in ((50, "100.0 kg above"), (-3, "6.0 kg below"), (0, "")):
        service, terminal = begin(load)
        same(f"{name}: zero is set at {load}", "Z A", terminal.ask("Z"))
        same(f"{name}: and shown", "S S          0 kg", terminal.ask("SI"))
        stop(service)
        line = f"{path}-zero: before this start zero was {kilograms} the calibration's, which is in force again; with the bridge empty, set zero at the terminal\n"
        wanted = line if kilograms else ""
        same(f"{name}: the next start says so", (0, "turns 1\n", wanted), started(path))
        same(f"{name}: and the one after that nothing", (0, "turns 1\n", ""), started(path))
        service, terminal = begin(load)
        shown = f"S S {bridge.kg_of(load):10} kg"
        same(f"{name}: it sets no zero", shown, terminal.ask("SI"))
        same(f"{name}: and reports nothing", "", stop(service))
    write(path + "-zero", "  12x\n")
    status, _, err = started(path)
    broken = f"{path}-zero: the note of the zero isn't whole, as after a power cut; "
    same(f"{name}: a note that isn't whole", (0, True), (status, err.startswith(broken)))
    made = Path(path + "-zero").read_text(encoding="ascii")
    same(f"{name}: is made again", "       0\n", made)


def failing_writes(process: subprocess.Popen[str], path: str) -> subprocess.Popen[str]:
    """Let each write of the process to this file fail, as on a broken disk, until the returned process ends."""
    tracer = subprocess.Popen(
        ["strace", "-f", "-p", str(process.pid), "-P", path]
        + ["-e", "trace=pwrite64", "-e", "inject=pwrite64:error=EIO"],
        stdin=subprocess.DEVNULL,
        stdout=subprocess.DEVNULL,
        stderr=subprocess.PIPE,
        text=True,
    )
    assert tracer.stderr is not None  # it is a pipe
    for line in tracer.stderr:
        if "attached" in line:
            return tracer
    fail(f"strace isn't attached to {process.pid}: status {tracer.wait()}")


def show_unwritable(folder: str, rate: float) -> None:
    """Show that a service whose witness can't be written answers no 201."""
    path, name = os.path.join(folder, "unwritable.db"), f"{rate:.0f} a second"
    service = start(path, rate)
    weigh(service, 1)
    tracer = failing_writes(service.process, path + "-newest")
    body = "key=W2&kind=second&plate=P-1"
    answers: list[bridge.Answer] = []
    until = time.monotonic() + 30
    while service.process.poll() is None and time.monotonic() < until:
        with contextlib.suppress(ConnectionError):
            answers.append(bridge.post(service, "/weighings", body) or (0, ""))
    tracer.kill()
    tracer.wait()
    service.converter.close()
    assert service.process.stderr is not None  # it is a pipe
    err = service.process.stderr.read()
    same(f"{name}: a witness that can't be written ends the service", 1, service.process.poll())
    named = f"{path}-newest: it can't be written, so the newest entry isn't answered and nothing more is stored; start again, and repeat the request under its key\nstore 2 disk\n"
    same(f"{name}: and is named", named, err)
    same(f"{name}: the weighing isn't answered", [], [it for it in answers if it[0] == 201])
    same(f"{name}: the witness has the entry before", 1, newest(path))
    service = start(path, rate)
    same(f"{name}: the next start answers it", "TICKET 2", weigh(service, 2))
    stop(service)
    show_check(f"{name}: it was stored once", path, "SOUND 2")


class AtARate(Check):
    """Ten lines of the converter a second."""

    needs = (PROGRAM,)
    seconds = 90
    rate = 10.0

    def setUp(self) -> None:
        self.box = os.path.realpath(self.folder())

    def test_kills(self) -> None:
        show_kills(self.box, self.rate)

    def test_files_that_were_put_back(self) -> None:
        show_restores(self.box, self.rate)
        show_witnesses(self.box, self.rate)
        show_rows(self.box, self.rate)

    def test_purge(self) -> None:
        show_purged(self.box, self.rate)

    def test_zero(self) -> None:
        show_zero(self.box, self.rate)

    @skip_without("strace")
    def test_witness_that_cannot_be_written(self) -> None:
        show_unwritable(self.box, self.rate)


class AtFiveTimesTheRate(AtARate):
    """Fifty lines a second."""

    rate = 50.0


class Migration(Check):
    """A migration next to a witness."""

    needs = (PROGRAM,)

    def test_migration(self) -> None:
        show_migrated(os.path.realpath(self.folder()))
