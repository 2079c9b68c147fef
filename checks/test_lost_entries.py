"""Shows that 10,000 states after a power cut lack no answered entry, and that 2,000 flipped bits of the log are refused,
repaired or harmless.

- A service weighs, is killed and started again. Another purges a journal of 3,000 old entries, and weighs until a
  checkpoint. A third purges a journal of 40,000 entries, which doesn't fit into memory. A fourth weighs after a purge that
  was cut off, whose frames are still behind the zeros of its commits. The check records their writes.
  A power cut may leave some thousand states in between, of the witness too. In each, `check` finds what was answered by
  then, or what was being requested. It refuses none.
- Of thousands of flipped bits in the log, `check` refuses each by `store 2 disk` and a line that names the log, finds
  all entries, or finds the damage. The exception is a bit by which the last commit lost a byte to 0, or has a lesser
  number, which is what a power cut leaves of it. The witness finds that.
- Of those that are refused, `inspect/mend_log.py` repairs nine of ten that are tried. The copy has all entries, and the
  files are as they were. Of the others it says that more than one bit could be the flipped one. It repairs two bits in
  two frames, but not two bits in one frame, and changes nothing that isn't damaged.
- If the disk overwrote a frame with zeros, and commits follow it, `check` and `inspect/verify.py` refuse the log.
- `inspect/verify.py` finds no damage in what a power cut leaves, in a sample of those states, and reports each log that
  the program refuses.
- A journal's file may be cut to nothing or gone while its log is there, or its log may be damaged. Then `check`, both
  exports, a start and a migration refuse it. They change no byte, and make no file.
- A journal may be removed, replaced by a copy, given a second name, or lose a part of its log, while it is served. Then
  the service answers nothing more, and ends by `store 2 disk` and a line that names the file.
- A log that `sqlite3` left and was killed over may be refused. Once `sqlite3` itself has written it into the file, all
  entries are there.
"""

import contextlib
import os
import random
import shutil
import sqlite3
import subprocess
import sys
from collections import Counter
from collections.abc import Callable, Iterator
from pathlib import Path
from typing import Literal

from verify import Log

from checks import TOP
from checks.lib import bridge, crash_states
from checks.lib.case import PROGRAM, Check, many
from checks.lib.journal import make_journal
from checks.lib.program import compiled
from checks.lib.showing import fail, ok, same
from checks.lib.tried_twice import addresses

# not the launcher: each of twelve thousand calls would look whether it is built
BUILT = compiled()
Ran = tuple[int, str, str]
LOADS = [0] * 8 + [9_170] * 8
RUNS, WEIGHINGS = 3, 6
OLD_ENTRIES, AGE = 3_000, 400 * 86_400
# A purge of MANY_ENTRIES is too large for memory, so it is written as several commits, of which only the first has a gate.
MANY_ENTRIES, STATES_OF_MANY = 40_000, 100
STATES_AFTER_A_PURGE = 1_000
# Each weighing is six frames, and from a thousand on the log goes into the file.
UNTIL_CHECKPOINT = 170
HEADER, FRAME = 32, 24 + 4_096
MENDER = str(TOP / "inspect" / "mend_log.py")
MENDED = 30
# The inspectors' reader checks one of this many states, because it takes a second for a log of a thousand frames.
LOOK_EVERY = 50
VERIFY = str(TOP / "inspect" / "verify.py")
# The journal's file, its log, and its witness.
ENDS = ("", "-wal", "-newest")
FILES = ("file", "log", "witness")


def run(*words: str) -> Ran:
    """Return the status of a run, and what it printed and reported."""
    it = subprocess.run(words, stdin=subprocess.DEVNULL, capture_output=True, text=True)
    return it.returncode, it.stdout, it.stderr


def printed(*words: str) -> Ran:
    return run(BUILT, *words)


def weigh(service: bridge.Service, number: int) -> None:
    """Ask for a weighing until it is stored."""
    kind = ["first", "second"][number % 2]
    bridge.weigh(service, f"key=W{number}&kind={kind}&plate=P-{number // 2}", 60)


def start(program: str, path: str, rate: float = 50.0) -> bridge.Service:
    converter = bridge.Converter(rate, lambda number: LOADS[number % len(LOADS)])
    return bridge.Service(program, path, converter, "--pace", "50", "--capacity", "100000")


def show_sound(what: str, path: str, entries: int) -> None:
    """Show that a check finds this many entries and nothing wrong."""
    same(what, (0, f"SOUND {entries}\n", ""), printed("check", "--file", path))


class History:
    """A journal that is written while its writes are recorded: after how many calls each request was sent and answered, and how many entries there
    are then."""

    def __init__(self, folder: str, entries: int, files: list[bytes | None] | None = None) -> None:
        self.path, self.entries = os.path.join(folder, "journal.db"), entries
        # after how many calls a request was sent and answered, and how many entries there are then
        self.asked: list[tuple[int, int, int]] = []
        if files is not None:
            written(folder, "journal.db", *files)
        elif entries:
            make_journal(self.path, entries, AGE)
        self.begun = [read(self.path + end) or b"" for end in ENDS]
        self.recording = crash_states.Recording(folder, BUILT)

    def ask(self, request: Callable[[], object], entries: int) -> None:
        sent = self.recording.count()
        request()
        self.asked.append((sent, self.recording.count(), entries))

    def weigh(self, count: int, rate: float) -> None:
        """Weigh so often, with a service that is killed then."""
        entries = self.asked[-1][2] if self.asked else self.entries
        with start(self.recording.program, self.path, rate) as service:
            for number in range(entries, entries + count):
                self.ask(lambda: weigh(service, number), number + 1)

    def purge(self) -> None:
        purged = (200, f"PURGED {self.entries}\n")
        with start(self.recording.program, self.path) as service:
            self.ask(lambda: same("a purge", purged, bridge.post(service, "/purge")), 0)

    def may_have(self, calls: int) -> set[int]:
        """Return how many entries there may be after this many calls."""
        entries = self.entries
        for sent, answered, after in self.asked:
            if answered > calls:
                return {entries, after} if sent <= calls else {entries}
            entries = after
        return {entries}


def weighed(folder: str) -> History:
    """Return the history of a journal in which a service that is killed and started again weighs."""
    history = History(folder, 0)
    for _ in range(RUNS):
        history.weigh(WEIGHINGS, 50.0)
    return history


def purged(folder: str) -> History:
    """Return the history of an old journal that is purged, and of weighings in it until a checkpoint."""
    history = History(folder, OLD_ENTRIES)
    history.purge()
    history.weigh(UNTIL_CHECKPOINT, 400.0)
    same("the log went into the file", True, read(history.path) != history.begun[0])
    return history


def purged_in_parts(folder: str) -> History:
    """Return the history of a journal whose purge doesn't fit into memory."""
    history = History(folder, MANY_ENTRIES)
    history.purge()
    log = read(f"{history.path}-wal") or b""
    parts = sum(any(log[at + 4 : at + 8]) for at in range(HEADER, len(log) - FRAME + 1, FRAME))
    same("the purge is written as several commits", True, parts > 3)
    return history


def interrupted(folder: str, other: str) -> History:
    """Return the history of weighings after a purge that ended before its gate was opened. Its frames stay in the log, behind the zeros of the weighings."""
    purge = History(folder, OLD_ENTRIES)
    purge.purge()
    calls, disk = purge.recording.calls, crash_states.Disk(*purge.begun)
    gate = max(at for at, it in enumerate(calls) if it[:2] == ("write", "log") and len(it[3]) == 1)
    for call in calls[:gate]:
        disk.take(call)
    history = History(other, OLD_ENTRIES, [disk.whole(which) for which in FILES])
    history.weigh(WEIGHINGS, 400.0)
    log = read(f"{history.path}-wal") or b""
    behind = range(commits_of(log)[1], len(log) - FRAME + 1, FRAME)
    is_signed = any(log[at + 8 : at + 16] == log[16:24] for at in behind)
    same("frames of the purge are behind the last weighing", True, is_signed)
    return history


def written(
    folder: str, name: str, file: bytes | None, log: bytes | None, witness: bytes | None = None
) -> str:
    path = os.path.join(folder, name)
    for end, data in zip(ENDS, (file, log, witness)):
        if data is None:
            Path(path + end).unlink(missing_ok=True)
        else:
            Path(path + end).write_bytes(data)
    return path


def read(path: str) -> bytes | None:
    return Path(path).read_bytes() if os.path.exists(path) else None


def checked(folder: str, *files: bytes | None) -> Ran:
    return printed("check", "--file", written(folder, "state.db", *files))


def show_power_cuts(folder: str, name: str, history: History, states: int) -> None:
    """Torn states at each call: all entries that were answered by then are found."""
    chance, disk = random.Random(1), crash_states.Disk(*history.begun)
    calls, tried = history.recording.calls, 0
    for at, call in enumerate(calls):
        disk.take(call)
        wanted = {f"SOUND {count}\n" for count in history.may_have(at + 1)}
        when = f"{name}: a power cut after call {at}, {call[:3]}"
        for _ in range(states * (at + 1) // len(calls) - tried):
            file, log, witness = (disk.torn(which, chance) for which in FILES)
            status, out, err = checked(folder, file, log, witness)
            tried += 1
            if tried % LOOK_EVERY == 0 and (damage := Log(log).damage(len(file))) is not None:
                fail(f"{when}: verify.py finds {damage}")
            if status != 0 or out not in wanted:
                fail(f"{when}: {status} {out}{err}, and not {wanted}")
    print(
        f"{name}: {len(calls)} calls; of {tried} states that a power cut may leave none is refused, and none lacks an answered entry",
        flush=True,
    )
    recorded = [disk.whole(which) for which in FILES]
    same("the recorded calls are the files", recorded, [read(history.path + end) for end in ENDS])


def commits_of(log: bytes) -> tuple[int, int]:
    """Return where the last commit of a log begins, and where it ends."""
    salts, begins, ends = log[16:24], [HEADER], list[int]()
    for at in range(HEADER, len(log) - FRAME + 1, FRAME):
        if log[at + 8 : at + 16] != salts:
            break
        if any(log[at + 4 : at + 8]):
            begins.append(at + FRAME)
            ends.append(at + FRAME)
    return begins[len(ends) - 1], ends[-1]


def may_be_lost(log: bytes, flipped: bytes, at: int, last: int) -> bool:
    """Return whether by its own count a power cut may have left this byte of the last commit, or of the header, so: a 0, or less in a number. A frame begins with
    two, and the page of the commit's first frame with the count."""
    inside = (at - HEADER) % FRAME
    is_number = inside < 8 or (24 <= inside < 32 and at < last + FRAME)
    if at < last:
        return at < HEADER and flipped[at] == 0
    return flipped[at] == 0 or (is_number and flipped[at] < log[at])


def summed(order: Literal["big", "little"], total: tuple[int, int], data: bytes) -> tuple[int, int]:
    """Return the checksum of a frame's bytes, as SQLite computes it, from that of the frame before."""
    first, second = total
    for at in range(0, len(data), 8):
        first = (first + int.from_bytes(data[at : at + 4], order) + second) % 2**32
        second = (second + int.from_bytes(data[at + 4 : at + 8], order) + first) % 2**32
    return first, second


def may_have_lost_sums(log: bytes, flipped: bytes, last: int) -> bool:
    """Return whether each byte of the last commit's salts and checksums is 0 or right. A flipped bit of a page leaves it so if it changes only bytes of checksums
    that are 0. It is one of some thousand."""
    order: Literal["big", "little"] = "big" if log[3] & 1 else "little"
    before = flipped[24:32] if last == HEADER else flipped[last - FRAME + 16 : last - FRAME + 24]
    total = int.from_bytes(before[:4], "big"), int.from_bytes(before[4:], "big")
    for at in range(last, len(flipped) - FRAME + 1, FRAME):
        frame = flipped[at : at + FRAME]
        total = summed(order, total, frame[:8] + frame[24:])
        right = log[16:24] + b"".join(it.to_bytes(4, "big") for it in total)
        if any(found not in (0, wanted) for found, wanted in zip(frame[8:24], right)):
            return False
        if any(frame[4:8]):
            return True
    return False


def show_flips(
    folder: str, file: bytes, log: bytes, witness: bytes | None, entries: int, flips: int
) -> None:
    """Show that a flipped bit is refused, found, or of no harm."""
    chance, refused = random.Random(1), list[bytes]()
    found: Counter[str] = Counter()
    last, end = commits_of(log)
    for number in range(flips):
        others = range(HEADER, last) if number % 2 else range(last, end)
        at = chance.choice(range(HEADER) if number < flips // 10 else others)
        data = flipped(log, 1 << chance.randrange(8), at)
        status, out, err = checked(folder, file, data)
        if status == 0 and out == f"SOUND {entries}\n":
            kind = "all entries found"
        elif status == 1 and out.startswith("DAMAGED"):
            kind = "damage found"
        elif status == 1 and err.endswith("\nstore 2 disk\n") and "state.db-wal: " in err:
            kind = "refused"
            refused.append(data)
        elif status == 0 and (
            may_be_lost(log, data, at, last) or may_have_lost_sums(log, data, last)
        ):
            kind = "as a power cut may leave it, which the witness finds"
            told = checked(folder, file, data, witness)
            missing = f"-newest recorded that {entries} was answered. Entries whose tickets were given are missing. Keep all files: see troubleshooting.md, A journal that is behind\nstore 2 disk\n"
            if told[:2] != (1, "") or not told[2].endswith(missing):
                fail(f"a flipped bit in byte {at} of the log, with the witness: {told}")
        else:
            fail(f"a flipped bit in byte {at} of the log: {status} {out}{err}")
        found[kind] += 1
    print(
        f"of {flips} flipped bits in the log: {', '.join(f'{count} {kind}' for kind, count in sorted(found.items()))}",
        flush=True,
    )
    tried = chance.sample(refused, min(MENDED, len(refused)))
    done = sum(is_mended(folder, file, damaged, entries) for damaged in tried)
    print(
        f"of {len(tried)} logs that are refused for a flipped bit {done} are repaired in a copy",
        flush=True,
    )
    same("which are nine of ten", True, done >= 0.9 * len(tried))
    whole, *reports = [
        run(VERIFY, written(folder, "told.db", file, it, witness)) for it in (log, *tried)
    ]
    named = sum(status in (1, 2) and "told.db-wal: it" in out + err for status, out, err in reports)
    same("verify.py reports each of them, by its log", len(tried), named)
    no_fault = (0, f"entries: {entries}, faults: 0\n", "")
    same("and nothing of the log as it was", no_fault, whole)


def flipped(log: bytes, bits: int, *places: int) -> bytes:
    """Return a log with these bits of these bytes flipped."""
    changed = bytearray(log)
    for at in places:
        changed[at] ^= bits
    return bytes(changed)


def show_lost_frames(folder: str, file: bytes, log: bytes) -> None:
    """Show that a frame of zeros is refused, by its place, if commits follow it: the frames behind it would be missing without a word."""
    last, _ = commits_of(log)
    for at in range(HEADER, last, FRAME):
        lost = log[:at] + bytes(FRAME) + log[at + FRAME :]
        told = checked(folder, file, lost)
        damaged = f"state.db-wal: it is damaged, in the frame from byte {at}"
        if told[:2] != (1, "") or damaged not in told[2]:
            fail(f"a frame of zeros from byte {at} of the log: {told}")
        if f"from byte {at}:" not in (Log(lost).damage(len(file)) or ""):
            fail(f"verify.py finds nothing in a log with a frame of zeros from byte {at}")
    print(
        f"each of {len(range(HEADER, last, FRAME))} frames before the last commit is refused if it is overwritten with zeros",
        flush=True,
    )


def is_mended(folder: str, file: bytes, damaged: bytes, entries: int) -> bool:
    """Return whether a log that was damaged in one bit is repaired. The copy has all entries; the log itself stays."""
    path, copy = written(folder, "damaged.db", file, damaged), os.path.join(folder, "mended")
    status, out, err = run(MENDER, path, copy)
    if read(path + "-wal") != damaged:
        fail(f"a log is repaired in place: {out}")
    if (status, out) == (1, "") and "single bits could be the flipped one" in err:
        return False
    if (status, err) != (0, ""):
        fail(f"a flipped bit isn't repaired: {status} {out}{err}")
    found = printed("check", "--file", os.path.join(copy, "damaged.db"))
    if found != (0, f"SOUND {entries}\n", ""):
        fail(f"a mended log: {found}")
    shutil.rmtree(copy)
    return True


def show_mended_twice(folder: str, file: bytes, log: bytes, entries: int) -> None:
    """Show that two flipped bits in different frames are repaired, in a page and in a salt."""
    for places in (
        (HEADER + FRAME + 500, HEADER + 4 * FRAME + 900),
        (HEADER + FRAME + 9, HEADER + 2 * FRAME + 3_000),
        (9, HEADER + 2 * FRAME + 3_000),
    ):
        path = written(folder, "damaged.db", file, flipped(log, 8, *places))
        copy = os.path.join(folder, "mended")
        status, out, err = run(MENDER, path, copy, "--program", BUILT)
        if (status, err, out.count(" was flipped: ")) != (0, "", 2):
            fail(f"two flipped bits, in bytes {places}, aren't repaired: {status} {out}{err}")
        show_sound(f"a log that is repaired in bytes {places}", f"{copy}/damaged.db", entries)
        shutil.rmtree(copy)


def show_not_mended(folder: str, file: bytes, log: bytes) -> None:
    """Show that mend_log.py leaves everything that isn't one flipped bit, and makes no folder."""
    twice = flipped(log, 8, HEADER + FRAME + 500, HEADER + FRAME + 900)
    for what, data in (
        ("a log with two flipped bits", twice),
        ("one that isn't damaged", log),
        ("one that is cut within its header", log[:20]),
    ):
        copy = os.path.join(folder, "mended")
        status, out, err = run(MENDER, written(folder, "damaged.db", file, data), copy)
        found = (status, out, err.startswith("nothing was written: "), os.path.exists(copy))
        same(f"{what} isn't mended", (1, "", True, False), found)


def refusals(path: str) -> Iterator[tuple[str, Ran]]:
    """Return what each command says of a journal."""
    yield "check", printed("check", "--file", path)
    yield "export of the journal", printed("export", "--file", path, "--what", "journal")
    yield "export of the tickets", printed("export", "--file", path, "--what", "tickets")
    words = addresses(bridge.free_port(), bridge.free_port(), "none")
    yield "start", printed("serve", "--file", path, *words)
    yield "migration", printed("migrate", "--file", path, "--to", path + "-new")


def show_refused(folder: str, what: str, file: bytes | None, log: bytes, place: str) -> None:
    """Show that every command refuses it, names the log and the place, and changes and makes nothing."""
    path = written(folder, "refused.db", file, log)
    before = sorted(os.listdir(folder))
    for command, (status, out, err) in refusals(path):
        lines = err.splitlines()
        is_told = len(lines) == 2 and lines[0].startswith(path + "-wal: ") and place in lines[0]
        # without its file a journal isn't there for a migration, which reports only that
        if not is_told and not (command == "migration" and file is None):
            fail(f"{what}: {command} says {err}")
        if (status, out, lines[-1]) != (1, "", "store 2 disk"):
            fail(f"{what}: {command} ends with {status} {out}{err}")
        if (read(path), read(path + "-wal")) != (file, log) or sorted(os.listdir(folder)) != before:
            fail(f"{what}: {command} changed something")
    ok(what)


def show_killed_sqlite3(folder: str, file: bytes, log: bytes, entries: int) -> None:
    """sqlite3 writes into the journal and is killed; what it left is brought into the file by sqlite3 itself."""
    path = written(folder, "killed.db", file, log)
    script = (
        f"import os, sqlite3; it = sqlite3.connect({path!r}); it.execute('PRAGMA wal_autocheckpoint=0'); it.execute('CREATE TABLE note (x)'); "
        "[(it.execute('INSERT INTO note VALUES (zeroblob(3000))'), it.commit()) for _ in range(9)]; os.kill(os.getpid(), 9)"
    )
    subprocess.run([sys.executable, "-c", script], check=False)
    found = printed("check", "--file", path)
    if found[:2] != (0, f"SOUND {entries}\n"):
        ended = (*found[:2], found[2].splitlines()[-1])
        what = "a log of sqlite3, killed, is refused and nothing worse"
        same(what, (1, "", "store 2 disk"), ended)
    with contextlib.closing(sqlite3.connect(path)) as conn:
        conn.execute("PRAGMA wal_checkpoint(TRUNCATE)")
    show_sound("once sqlite3 has brought its log into the file", path, entries)


def replace(path: str) -> None:
    for end in ENDS:
        shutil.copy(path + end, path + ".copy")
        os.replace(path + ".copy", path + end)


HARMS: dict[str, Callable[[str], object]] = {
    "removed": os.remove,
    "replaced by a copy": replace,
    "given a second name": lambda path: os.link(path, path + ".second"),
    "without its log": lambda path: os.remove(path + "-wal"),
    "with its log cut": lambda path: os.truncate(path + "-wal", 4_096),
}


class PowerCuts(Check):
    """States that a power cut may leave, of each history of a journal."""

    needs = (PROGRAM, "strace")
    seconds = 1200

    def show(self, name: str, history: History, states: int) -> None:
        show_power_cuts(self.folder(), name, history, states)

    def test_purge_and_weighings(self) -> None:
        name = "a purge, and weighings until a checkpoint"
        self.show(name, purged(self.folder()), many(5_000))

    def test_purge_that_does_not_fit_into_memory(self) -> None:
        name = "a purge that doesn't fit into memory"
        self.show(name, purged_in_parts(self.folder()), many(100))

    def test_weighings_after_a_purge_that_was_cut_off(self) -> None:
        name = "weighings after a purge that was cut off"
        self.show(name, interrupted(self.folder(), self.folder()), many(1_000))


class KilledService(Check):
    """A journal that was weighed into over kills: power cuts, flipped bits, and files that don't belong to each other."""

    needs = (PROGRAM, "strace")
    seconds = 700

    def test_power_cuts(self) -> None:
        name = "weighings, and starts after kills"
        show_power_cuts(self.folder(), name, weighed(self.folder()), many(5_000))

    def test_damage(self) -> None:
        history = weighed(self.folder())
        entries = len(history.asked)
        file, log, witness = (read(history.path + end) or b"" for end in ENDS)
        box = self.folder()
        show_flips(box, file, log, witness, entries, many(2_000))
        show_lost_frames(box, file, log)
        show_not_mended(box, file, log)
        show_mended_twice(box, file, log, entries)
        box = self.folder()
        damaged, early = flipped(log, 8, HEADER + FRAME + 500), f"from byte {HEADER + FRAME}"
        show_refused(box, "a flipped bit in an early frame", file, damaged, early)
        show_refused(box, "one in the header", file, flipped(log, 8, 5), "header")
        show_refused(box, "a file that was cut to nothing", b"", log, "missing or was cut")
        show_refused(box, "a file that is gone", None, log, "missing or was cut")
        show_killed_sqlite3(box, file, log, entries)


class ServedJournal(Check):
    """A journal that is harmed while it is served."""

    needs = (PROGRAM,)

    def test_harms(self) -> None:
        for what, harm in HARMS.items():
            path = os.path.join(self.folder(), "served.db")
            with self.subTest(what), start(BUILT, path) as service:
                weigh(service, 0)
                harm(path)
                answer = None
                with contextlib.suppress(OSError):
                    answer = bridge.post(service, "/weighings", "key=W1&kind=second&plate=P-0")
                self.assertIsNone(answer, "a weighing isn't answered")
                _, err = service.process.communicate(timeout=20)
                lines = err.splitlines()
                is_told = len(lines) == 2 and lines[0].startswith(path + ": ")
                ended = (service.process.returncode, is_told, lines[-1])
                self.assertEqual((1, True, "store 2 disk"), ended, "the service names it and ends")
