"""Papers through a real CUPS whose backend writes a file."""

import os
import time
from pathlib import Path

from checks.lib.counter import held
from checks.lib.paper_cups import Cups
from checks.lib.papering import Desk, PaperCheck, about, code_in_pdf, fonts_left_out, legal_in_pdf

from tests.papers import LONGEST, USUAL, Sample


class RealCups(PaperCheck):
    """A scheduler with a queue."""

    needs = (
        "reportlab",
        "qrcode",
        "PIL",
        "serial",
        "pdftotext",
        "pdftoppm",
        "zbarimg",
        "cupsd",
        "/usr/lib/cups/filter/pdftopdf",
        "lp",
        "root",
    )
    seconds = 90

    def setUp(self) -> None:
        self.cups = self.enterContext(Cups())
        self.cups.queue("desk")

    def at_cups(self, form: str = "a4", language: str = "en") -> Desk:
        """Return a desk whose printer is the queue."""
        lines = f'to = "cups:desk@{self.cups.address}"\nform = "{form}"'
        return self.desk(language, desk=lines)

    def test_forms(self) -> None:
        for form, size in (("a4", (210, 297)), ("a5", (148, 210)), ("roll80", (80, None))):
            desk = self.at_cups(form, "de")
            for sample in (USUAL["second"], LONGEST["second"]):
                status = desk.run(sample.text, "--printer", "desk")
                self.same(f"{form} {sample.number} is printed", 0, status[0])
                made = self.cups.made + ".pdf"
                os.replace(self.cups.made, made)
                pages, width, height = about(made)
                what = "its size is as it was laid out"
                self.same(what, (1, size[0], True), (pages, width, size[1] in (None, height)))
                what = "its legal text, letter for letter, behind CUPS's filters"
                self.same(what, sample.text, legal_in_pdf(made, form))
                code, left_out = code_in_pdf(made), fonts_left_out(made)
                what = "its QR code, and fonts that are all embedded"
                self.same(what, (f"{sample.number} {sample.digest}", []), (code, left_out))

    def test_once(self) -> None:
        """Show that a CUPS that keeps no files, as docs/counter.md has it, prints a paper once, whatever another user asks of it. It would be a second original."""
        text = Sample("single", plate="ONCE").text
        status = self.at_cups().run(text, "--printer", "desk")[0]
        self.same("a paper is printed", 0, status)
        os.remove(self.cups.made)
        for number in range(1, 20):
            self.cups.tell("lp", "-U", "root", "-i", f"desk-{number}", "-H", "restart")
        time.sleep(1)
        is_there = os.path.exists(self.cups.made)
        self.same("and not again, even if a user asks CUPS for it", False, is_there)

    def test_stopped(self) -> None:
        desk, cups = self.at_cups(), self.cups
        cups.tell("cupsdisable", "desk")
        status, _, said = desk.run(USUAL["single"].text, "--printer", "desk", "--within", "1")
        is_said, queued = "its queue at CUPS is stopped" in said, cups.tell("lpstat", "-o", "desk")
        what = "words say that a queue is stopped, and it gets nothing"
        self.same(what, (1, True, ""), (status, is_said, queued))
        it = desk.begin("", "--printer", "desk")
        time.sleep(1)
        cups.tell("cupsenable", "desk")
        ended = (it.wait(20), desk.listed())
        self.same("once it continues the original comes", (0, ""), ended)
        self.same("with its text", USUAL["single"].text, legal_in_pdf(cups.made, "a4"))
        cups.tell("cupsreject", "desk")
        status = desk.run(USUAL["void"].text, "--printer", "desk", "--within", "1")[0]
        self.same("one that takes nothing, too", 1, status)
        cups.tell("cupsaccept", "desk")
        self.same("and goes on", 0, desk.run("", "--printer", "desk")[0])

    def made(self) -> bytes:
        return Path(self.cups.made).read_bytes()

    def test_gone(self) -> None:
        desk = self.at_cups()
        self.cups.stop()
        status, _, said = desk.run(USUAL["second"].text, "--printer", "desk", "--within", "1")
        is_said = "it can't be reached" in said
        self.same("a CUPS that is gone is named in words", (1, True), (status, is_said))
        self.cups.start()
        status = desk.run("", "--printer", "desk")[0]
        self.same("and once it is back the original comes", 0, status)
        first = self.made()
        with held(self.cups.scheduler):
            it = desk.begin(USUAL["first"].text, "--printer", "desk")
            time.sleep(1)
        self.same("one that stands still for a second is waited for", 0, it.wait(40))
        self.becomes("and has another paper", False, lambda: self.made() == first)
