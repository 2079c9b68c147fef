"""Printers that are slow, full, cut in the middle, gone, without paper, and come back. A command that is killed, and texts that are falsified."""

import contextlib
import os
import pty
import random
import socket
import threading
import time
import tty
from collections import Counter
from collections.abc import Callable, Iterator

from checks.lib.papering import Desk, PaperCheck, marks, marks_of
from checks.lib.paper_roll import Printed

from tests.papers import LONGEST, USUAL, Sample
from tests.played_printer import PlayedPrinter

ROUNDS = 60
HEADER = (
    "number,key,kind,plate,moment,gross_kg,preset_kg,interval_kg,max_kg,serial,digest,previous\n"
)
WORDS = {
    "paper_out": "there is no paper in it",
    "cover_open": "its cover is open",
    "offline": "it is offline",
    "knife": "its knife is stuck",
    "fault": "it has a fault",
}


class Faults(PaperCheck):
    """One played printer with faults."""

    needs = ("reportlab", "qrcode", "PIL", "serial")
    seconds = 120

    def setUp(self) -> None:
        self.played = self.printer()
        self.yard = self.desk_of(self.played)

    def print_out(self, kind: str, *words: str) -> tuple[int, str]:
        """Print a usual text. Return the command's status, and what it says."""
        status, _, said = self.yard.run(USUAL[kind].text, "--printer", "yard", *words)
        return status, said

    def marks(self) -> list[int]:
        """Return the marks of each paper that was printed."""
        return marks_of(self.played.printed)

    def is_refused(self, what: str, kind: str, words: str) -> None:
        """Show that a printout that can't be printed within a second is refused in words."""
        status, said = self.print_out(kind, "--within", "1")
        self.same(what, (1, True), (status, words in said))

    def test_slow_and_full(self) -> None:
        played = self.played
        played.rate = 3000
        began = time.monotonic()
        status = self.print_out("second")[0]
        took = time.monotonic() - began
        self.same("a slow printer is waited for", (0, [0]), (status, self.marks()))
        what = "until it has printed everything, and no longer"
        self.holds(what, 3 < took < 10, f"{took:.1f} s")
        played.rate, played.is_deaf = None, True
        what = "words say that one is full, and the paper waits"
        self.is_refused(what, "single", "it doesn't answer")
        played.is_deaf = False
        played.reset()
        status = self.print_out("void")[0]
        what = "with room it prints both, in their order, as originals"
        self.same(what, (0, [0, 0, 0]), (status, self.marks()))
        self.same("and nothing waits", "", self.yard.listed())

    def test_in_words_and_once(self) -> None:
        """Paper out, cover open and offline: in words, and printed once when it is over."""
        for name, said in WORDS.items():
            played = self.printer()
            desk = self.desk_of(played)
            played.state = name
            it = desk.begin(USUAL["second"].text, "--printer", "yard")
            self.comes(f"{name} is on the list in words", lambda: said in desk.listed())
            time.sleep(1.2)
            played.state = ""
            status = it.wait(20)
            time.sleep(0.5)
            what = f"after {name} it is printed once, as the original"
            self.same(what, (0, [0]), (status, marks_of(played.printed)))

    def test_cut_gone_and_back(self) -> None:
        played = self.played
        played.cut_after = 900
        status = self.print_out("second")[0]
        what = "cut in the middle it comes again, as a duplicate"
        self.same(what, (0, [0], [2]), (status, marks_of(played.begun), self.marks()))
        played.out_after = 900
        it = self.yard.begin(USUAL["single"].text, "--printer", "yard")
        words = "there is no paper in it"
        self.comes("out of paper in the middle is on the list", lambda: words in self.yard.listed())
        played.state = ""
        what = "with paper it continues where it was: one paper, whole"
        self.same(what, (0, [2, 0], 1), (it.wait(20), self.marks(), len(played.begun)))
        played.gone()
        self.is_refused("words say that it is gone", "void", "it can't be reached")
        threading.Timer(1, played.there).start()
        status = self.yard.run("", "--printer", "yard")[0]
        what = "and once it is back the original comes"
        self.same(what, (0, [2, 0, 0]), (status, self.marks()))
        played.rate = 4000
        threading.Timer(1.2, played.gone).start()
        status = self.print_out("first", "--within", "3")[0]
        self.same("switched off in the middle it waits", 1, status)
        played.rate = None
        played.there()
        status = self.yard.run("", "--printer", "yard")[0]
        self.same("and comes as a copy", (0, 2), (status, marks(played.printed[-1])))

    def test_killed(self) -> None:
        """Kill the command at any moment: there is an original at most once, and each paper at least once."""
        played, rolls = self.played, random.Random(1)
        samples = [Sample("single", plate=f"KILL-{it}", number=it + 10) for it in range(ROUNDS)]
        played.rate, ended = 60000, 0
        for sample in samples:
            it = self.yard.begin(sample.text, "--printer", "yard")
            time.sleep(rolls.uniform(0.05, 0.9))
            ended += it.poll() is not None
            it.kill()
            it.wait()
        played.rate = None
        for sample in samples:
            self.yard.run(sample.text, "--printer", "yard")
        print(f"{ended} of {ROUNDS} had ended", flush=True)
        originals: Counter[str] = Counter()
        wholes: Counter[str] = Counter()
        for paper in (*played.printed, *played.begun):
            if plate := plate_on(paper, samples):
                originals[plate] += marks(paper) == 0 and b"Ticket " in paper
                wholes[plate] += paper in played.printed
        what = f"killed {ROUNDS} times, no paper has two originals"
        self.same(what, [], [it for it, count in originals.items() if count > 1])
        missing = [it.plate for it in samples if not wholes[it.plate]]
        self.same("and each was printed", [], missing)

    def desk_of(self, played: PlayedPrinter) -> Desk:
        """Return a desk with a printer by TCP."""
        return self.desk(yard=f'to = "tcp:127.0.0.1:{played.port}"\nform = "escpos80"')


def plate_on(paper: bytes, samples: list[Sample]) -> str | None:
    """Return the plate on a paper, small or large."""
    for it in samples:
        plate = it.plate.encode() + b"\n"
        if b"PLATE " + plate in paper or b"!\x22\x1bE\x01" + plate in paper:
            return it.plate
    return None


def pump(source: Callable[[], bytes], target: Callable[[bytes], object]) -> None:
    with contextlib.suppress(OSError):
        while data := source():
            target(data)


class Devices(PaperCheck):
    """USB and a serial line, over a terminal of the system in place of the device."""

    needs = ("reportlab", "qrcode", "PIL", "serial")
    seconds = 30

    def test_by_a_device(self) -> None:
        text = USUAL["second"].text
        for kind, more in (("usb", ""), ("serial", ":19200")):
            played, (master, slave) = self.printer(), pty.openpty()
            tty.setraw(slave)
            line = self.enterContext(socket.create_connection(("127.0.0.1", played.port)))
            ways: list[tuple[Callable[[], bytes], Callable[[bytes], object]]] = [
                (lambda: os.read(master, 4096), line.sendall),
                (lambda: line.recv(4096), lambda data: os.write(master, data)),
            ]
            for way in ways:
                threading.Thread(target=pump, args=way, daemon=True).start()
            to = f"{kind}:{os.ttyname(slave)}{more}"
            desk = self.desk(yard=f'to = "{to}"\nform = "escpos58"\nlanguage = "fr"')
            statuses = [desk.run(text, "--printer", "yard")[0] for _ in range(2)]
            what = f"{kind}: an original and a duplicate"
            self.same(what, ([0, 0], [0, 2]), (statuses, marks_of(played.printed)))
            legal = [Printed(it, 384).legal() for it in played.printed]
            self.same("with the legal text", [text] * 2, legal)
            played.state = "cover_open"
            words = ("--printer", "yard", "--within", "0.5")
            status, _, said = desk.run(USUAL["void"].text, *words)
            self.same("and the state in words", (1, True), (status, "its cover is open" in said))
            line.close()
            os.close(slave)


class Falsified(PaperCheck):
    """Texts with another digit, a line more or another digest. They are refused where their digests can be made again, and said where they can't."""

    needs = ("reportlab", "qrcode", "PIL", "serial")
    seconds = 90

    def test_falsified(self) -> None:
        desk = self.desk(box='to = "file:{folder}/made"\nform = "escpos80"')
        count = refused = said = 0
        taken = []
        for sample in (*USUAL.values(), *LONGEST.values()):
            export = f"{desk.folder}/{sample.kind}-{sample.number}.csv"
            digests = sample.digests | {sample.number: sample.digest}
            with open(export, "w", encoding="utf-8") as file:
                file.write(HEADER)
                for number, digest in digests.items():
                    file.write(f"{number},{sample.keys.get(number, 'K0')},,,,,,,,,{digest},\n")
            against = ("--printer", "box", "--against", export)
            what = f"{sample.kind} {sample.number}: the true one is taken, with nothing said"
            self.same(what, (0, ""), desk.run(sample.text, *against)[::2])
            for changed in changes_of(sample):
                count += 1
                is_refused = desk.run(changed, *against)[0] == 3
                status, _, words = desk.run(changed, "--printer", "box")
                is_said = status == 3 or "can't be made again" in words
                refused, said = refused + is_refused, said + is_said
                taken += [] if is_refused and is_said else [changed]
        self.same("falsified texts that were taken", [], taken)
        what = "falsified texts refused against an export, and refused or said without"
        self.same(what, (count, count), (refused, said))
        self.same("falsified texts", 12 * (len(USUAL) + len(LONGEST)), count)


def changes_of(sample: Sample) -> Iterator[str]:
    """Return texts with one change each."""
    text = sample.text
    lines = text.split("\n")
    digits = [at for at, it in enumerate(text) if it.isdigit()]
    for at in random.Random(text).sample(digits, 8):
        yield text[:at] + str((int(text[at]) + 2) % 10) + text[at + 1 :]
    yield "\n".join([*lines[:-1], "PAID", ""])
    yield "\n".join([*lines[:2], lines[1], *lines[2:]])
    yield text.replace(sample.digest, sample.digest[::-1])
    yield text.replace("SERIAL ", "SERIAL X")
