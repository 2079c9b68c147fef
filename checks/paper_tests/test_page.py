"""The printouts of the clerk's page in Chromium, by the browser and by a printer with faults."""

import base64
import os
import re
import time
from pathlib import Path

from checks.lib.case import PROGRAM
from checks.lib.clerk import ENTER, F8, F9, Clerk, at_of
from checks.lib.counter_case import CounterCheck
from checks.lib.looks import FAINT, WIDE
from checks.lib.paper_roll import legal_of
from checks.lib.papering import (
    PICTURES,
    CounterWithPrinter,
    PaperCheck,
    about,
    code_in_pdf,
    lines_of_width,
    marks_of,
    output_of,
    picture_of,
    printed_of,
    write_row,
)
from checks.paper_tests.test_forms import DOTS, large_of
from PIL import Image

from tests.papers import LONGEST, USUAL
from weighbridge_paper.text import read_text

# Width and height in inches, and the width of a letter in points.
PAPERS = {"roll": (80 / 25.4, 270 / 25.4, 4.816), "a4": (210 / 25.4, 297 / 25.4, 4.816)}
SETTINGS = 'address = ["Hafenstraße 12", "28217 Bremen"]\nlanguage = "de"\n'
DUPLICATE = "DUPLIKAT · DUPLICATE"
GIVEN = "On the printout: Kies 0/16"
# Scripts that open the list of what waits, and the window of the free lines.
OPENS = (
    "[...document.querySelectorAll('#alarms button')].at(-1).click()",
    "document.getElementById('giving').showModal()",
)


def printed_by(clerk: Clerk, size: str, path: str) -> str:
    """Write what the browser prints on a size of paper, as PDF, and return its path."""
    width, height, _ = PAPERS[size]
    margins = {f"margin{it}": 0.157 for it in ("Top", "Bottom", "Left", "Right")}
    how: dict[str, object] = {"preferCSSPageSize": False, "printBackground": False, **margins}
    made = clerk.browser.tool("Page.printToPDF", paperWidth=width, paperHeight=height, **how)
    Path(path).write_bytes(base64.b64decode(made["data"]))
    return path


def letter_height(pdf: str, word: str) -> float:
    """Return the height of a word on the first page, by pdftotext."""
    lines = output_of("pdftotext", "-bbox", pdf, "-").split("\n")
    row = next(line for line in lines if f">{word}<" in line)
    top, bottom = (float(re.findall(rf'{it}="([\d.]+)"', row)[0]) for it in ("yMin", "yMax"))
    return bottom - top


class ByTheBrowser(CounterCheck, PaperCheck):
    """A counter without a printer."""

    needs = (
        PROGRAM,
        "reportlab",
        "qrcode",
        "PIL",
        "serial",
        "pdftotext",
        "pdftoppm",
        "zbarimg",
        "aiohttp",
        "prometheus_client",
        "chromium",
        "chromedriver",
    )
    seconds = 60

    def weigh(self, clerk: Clerk) -> None:
        """Weigh a vehicle in and out, with goods."""
        for load, words in ((9170, "Slip 1"), (4070, "net 10,200 kg")):
            self.bridge.next_vehicle(load)
            clerk.sees("Type the plate.")
            clerk.is_ready_for("HB-KW-77")
            if load == 9170:
                clerk.press("#others button", "Goods, order, driver")
                self.same("the dialog asks for the goods", "goods", clerk.focus())
                clerk.keys("Kies 0/16" + ENTER)
            what = "what was given stands on the button, at both weighings"
            self.comes(what, lambda: GIVEN in clerk.text("#others"))
            # Enter doesn't react for 0.7 s after a dialog
            time.sleep(1.2)
            clerk.sees_after(ENTER, words)

    def test_by_the_browser(self) -> None:
        self.bridge = self.new_bridge(settings=SETTINGS).start_counter()
        self.bridge.put(0)
        clerk = self.new_clerk(at_of(self.bridge.http))
        clerk.sees("The bridge is empty")
        clerk.sees_after(F9, "Zero is set.")
        self.weigh(clerk)
        ticket = self.bridge.ask("GET", "/tickets/2", port=self.bridge.office)[1]
        pictures = []
        for at, mark in enumerate(("", DUPLICATE)):
            clerk.keys(F8)
            what = "and again as a duplicate" if at else "F8 prints by the browser"
            self.becomes(what, at + 1, lambda: len(clerk.papers()))
            self.same("the page's text is the office's", [mark, ticket], clerk.papers()[at])
            for size in PAPERS:
                pdf = printed_by(clerk, size, f"{self.bridge.folder}/{size}{at}.pdf")
                self.compare(pdf, size, ticket, 2 * at)
                pictures.append(picture_of(pdf, 75))
        if PICTURES:
            write_row(pictures, f"{PICTURES}/browser.png", 1)
            self.write_pictures(PICTURES, pictures[0])

    def compare(self, pdf: str, size: str, ticket: str, marks: int) -> None:
        """Compare a PDF with the text of its ticket."""
        lines, text = lines_of_width(pdf, PAPERS[size][2]), read_text(ticket)
        rest = " ".join(" ".join(lines).split())
        what = f"{size}: one page, the legal text letter for letter, its marks"
        self.same(what, (1, ticket, marks), (about(pdf)[0], legal_of(lines), rest.count(DUPLICATE)))
        self.same(f"{size}: its QR code", f"2 {text.own.digest}", code_in_pdf(pdf))
        wanted = (*large_of(text, "de"), "Kies 0/16")
        bare = rest.replace(" ", "")
        what = f"{size}: what is large, and what the clerk gave"
        self.same(what, [], [it for it in wanted if it.replace(" ", "") not in bare])
        net, kind = letter_height(pdf, "10.200"), letter_height(pdf, "SECOND")
        what = f"{size}: the net's letters are larger than the text's"
        self.holds(what, net > 2 * kind, (net, kind))

    def write_pictures(self, folder: str, of_the_browser: str) -> None:
        """Write the pictures of docs/counter.md."""
        given = ["--goods", "Gravel 0/16", "--order", "4711"]
        rolls, sheets = [], []
        for form, language, sample, is_further in (
            ("escpos80", "en", USUAL["second"], False),
            ("escpos58", "de", USUAL["first"], True),
        ):
            desk = self.desk(language, box=f'to = "file:{{folder}}/made"\nform = "{form}"')
            desk.run(sample.text, "--printer", "box", *(given if not is_further else []))
            if is_further:
                desk.run("", "--printer", "box", "--reprint", str(sample.number))
            rolls.append(f"{desk.folder}/{form}.png")
            printed_of(desk.made()[-1], DOTS[form]).save(rolls[-1])
        cut = f"{folder}/browser_cut.png"
        Image.open(of_the_browser).resize((640, 2160)).crop((0, 0, 640, 1720)).save(cut)
        write_row([*rolls, cut], f"{folder}/paper_rolls.png", 0.5)
        os.remove(cut)
        for form, language, sample in (
            ("a4", "en", USUAL["single"]),
            ("a5", "fr", LONGEST["second"]),
            ("roll80", "es", USUAL["void"]),
        ):
            desk = self.desk(language, box=f'to = "file:{{folder}}/made"\nform = "{form}"')
            desk.run(sample.text, "--printer", "box", *given)
            sheets.append(picture_of(desk.made()[-1], 60))
        write_row(sheets, f"{folder}/paper_sheets.png", 1)


class WithPrinter(CounterWithPrinter):
    """A clerk at a counter whose printer has no paper, or cuts the connection."""

    needs = (
        PROGRAM,
        "reportlab",
        "qrcode",
        "PIL",
        "serial",
        "aiohttp",
        "prometheus_client",
        "chromium",
        "chromedriver",
    )
    seconds = 60

    def test_with_a_printer(self) -> None:
        bridge, played = self.bridge, self.played
        clerk = self.new_clerk(at_of(bridge.http), width=1000, height=640)
        clerk.sees("The bridge is empty")
        clerk.sees_after(F9, "Zero is set.")
        bridge.put(9170)
        clerk.sees("Type the plate.")
        clerk.is_ready_for("HB-KW-77")
        clerk.keys(ENTER)
        what = "a weighing at the page prints automatically"
        self.becomes(what, [0], lambda: marks_of(played.printed))
        clerk.keys(F8)
        self.becomes("F8 prints it again", [0, 2], lambda: marks_of(played.printed))
        self.same("not by the browser", [], clerk.papers())
        played.state = "paper_out"
        clerk.keys(F8)
        words = "Printer yard: There is no paper in it. 1 printout is missing."
        self.comes("without paper a bar says so", lambda: words in clerk.alarms())
        clerk.press("#alarms button", "Show them")
        self.comes("the list has it", lambda: "Slip 1 · HB-KW-77" in clerk.text("#jobs"))
        if PICTURES:
            self.write_picture(clerk, f"{PICTURES}/paper_waits.png")
        played.state = ""
        what = "with paper it is printed, and the bar is gone"
        self.becomes(what, (3, ""), lambda: (len(played.printed), clerk.alarms()))
        nothing = "Nothing is waiting."
        self.becomes("and nothing waits on the list", nothing, lambda: clerk.text("#jobs"))
        for number in range(3):
            played.cut_after = 900
            if number == 0:
                bridge.ask("POST", "/papers/1", body="")
            self.becomes("it is cut in the middle", None, lambda: played.cut_after)
        what = "cut three times, it has failed"
        self.comes(what, lambda: "It was not printed." in clerk.text("#jobs"))
        self.looks()
        clerk.press("#jobs button", "Print again")
        what = "and a press prints it"
        self.becomes(what, (4, nothing), lambda: (len(played.printed), clerk.text("#jobs")))

    def write_picture(self, clerk: Clerk, path: str) -> None:
        size = {"width": 1000, "height": 640, "deviceScaleFactor": 0.7, "mobile": False}
        clerk.browser.tool("Emulation.setDeviceMetricsOverride", **size)
        time.sleep(0.3)
        Path(path).write_bytes(clerk.browser.picture())

    def looks(self) -> None:
        """Look at the bar, the list and the dialog for free lines on a telephone and in the dark: nothing sideways, nothing faint."""
        found = []
        for width, is_dark, lang in ((360, False, "de"), (360, True, "fr"), (1280, True, "es")):
            at = at_of(self.bridge.http)
            with Clerk(at, width, 740, is_dark, lang, case=self.subTest) as other:
                what = f"{width} px, {lang}: the bar is there"
                self.comes(what, lambda: "yard" in other.alarms())
                other.keys("NEW-1")
                time.sleep(0.3)
                for opens in OPENS:
                    other.run(opens)
                    time.sleep(0.3)
                    faults = other.run(WIDE) + other.run(FAINT)
                    found += [f"{width} {lang}: {it}" for it in faults]
                    other.run("document.querySelector('dialog[open]').close()")
        what = "the bar, the list and the dialog: nothing sideways, nothing below a contrast of 4.5"
        self.same(what, [], found[:5])
