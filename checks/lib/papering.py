"""A setup of weighbridge-paper with its command, and printouts that are read from a PDF."""

import os
import re
import subprocess
from pathlib import Path

from checks.lib.bridge import HOST
from checks.lib.case import Check
from checks.lib.counter_case import CounterCheck
from checks.lib.paper_roll import Printed, code_in, legal_of
from PIL import Image

from checks import TOP
from tests.played_printer import PlayedPrinter

COMMAND = str(TOP / "counter" / "weighbridge-paper")
# The tests write pictures into this folder, for somebody to inspect, and those of docs/counter.md, if the variable is set.
PICTURES = os.environ.get("CHECKS_PICTURES")
# width in points of a letter of the legal text
LETTERS = {"a4": 6.02, "a5": 4.816, "roll80": 4.816}
HEAD = """spool = "{folder}/spool"
zone = "Europe/Berlin"
language = "{language}"
header = ["Kieswerk Wellum GmbH", "Hafenstraße 12 · 28217 Bremen"]
footer = ["Öffentliche Waage · Mo–Fr 7–17"]
"""


class Desk:
    """A setup in a folder with its printers, and the command."""

    def __init__(self, folder: str, language: str = "en", **printers: str) -> None:
        self.folder, self.setup = folder, f"{folder}/paper.toml"
        os.mkdir(f"{folder}/made")
        with open(self.setup, "w", encoding="utf-8") as file:
            file.write(HEAD.format(folder=folder, language=language))
            for name, lines in printers.items():
                file.write(f'[[printer]]\nname = "{name}"\n{lines.format(folder=folder)}\n')

    def words(self, *words: str) -> list[str]:
        return [COMMAND, "--setup", self.setup, *words]

    def run(self, letters: str, *words: str) -> tuple[int, str, str]:
        """Run the command with these letters as its input. Return its status, output and errors."""
        it = subprocess.run(
            self.words(*words), input=letters.encode(), capture_output=True, timeout=60
        )
        return it.returncode, it.stdout.decode(), it.stderr.decode()

    def begin(self, letters: str, *words: str) -> subprocess.Popen[bytes]:
        """Start the command with these letters as its input, and return its process."""
        quiet, pipe = subprocess.DEVNULL, subprocess.PIPE
        it = subprocess.Popen(self.words(*words), stdin=pipe, stdout=quiet, stderr=quiet)
        assert it.stdin is not None  # it is a pipe
        with it.stdin:
            it.stdin.write(letters.encode())
        return it

    def listed(self) -> str:
        """Return the list of what waits."""
        return self.run("", "--list")[1]

    def made(self) -> list[str]:
        """Return the paths of what came out, the oldest first."""

        def number(name: str) -> int:
            return int(re.findall(r"-(\d+)\.", name)[0])

        names = sorted(os.listdir(f"{self.folder}/made"), key=number)
        return [f"{self.folder}/made/{it}" for it in names]


class PaperCheck(Check):
    """A check with desks and played printers, which end with the test."""

    def desk(self, language: str = "en", **printers: str) -> Desk:
        return Desk(self.folder(), language, **printers)

    def printer(self) -> PlayedPrinter:
        """Play a printer, until the test ends."""
        played = PlayedPrinter()
        self.addCleanup(played.gone)
        return played


class CounterWithPrinter(CounterCheck, PaperCheck):
    """A check with a counter that has a printer."""

    def setUp(self) -> None:
        self.played, self.bridge = self.printer(), self.new_bridge()
        folder, setup = self.bridge.folder, Path(self.bridge.setup)
        papers = Path(folder, "paper.toml")
        papers.write_text(
            f'spool = "{folder}/spool"\nzone = "Europe/Berlin"\nheader = ["Kieswerk Wellum", "Hafenstraße 12"]\n'
            f'[[printer]]\nname = "yard"\nto = "tcp:{HOST}:{self.played.port}"\ncode_pages = ["cp858", "cp852"]\n',
            encoding="utf-8",
        )
        own = setup.read_text(encoding="utf-8")
        setup.write_text(f'papers = "{papers}"\n{own}', encoding="utf-8")
        self.bridge.start_counter()
        self.bridge.put(0)


def marks(paper: bytes) -> int:
    """Return how often a paper says that it is no original."""
    return paper.count(b"DUPLICATE") + paper.count(b"COPY")


def marks_of(papers: list[bytes]) -> list[int]:
    return [marks(it) for it in papers]


def printed_of(path: str, dots: int) -> Printed:
    return Printed(Path(path).read_bytes(), dots)


def lines_of(pdf: str, form: str) -> list[str]:
    """Return the lines of a PDF, by pdftotext."""
    return lines_of_width(pdf, LETTERS[form])


def output_of(*words: str) -> str:
    return subprocess.run(words, capture_output=True, text=True, check=True).stdout


def lines_of_width(pdf: str, width: float) -> list[str]:
    text = output_of("pdftotext", "-fixed", str(width), pdf, "-")
    lines = text.replace("\f", "\n\n").split("\n")  # a page's end ends what is on it
    begin = next(it for it in lines if it.lstrip().startswith("WEIGHING "))
    margin = len(begin) - len(begin.lstrip())
    return [it[margin:] if not it[:margin].strip() else it.strip() for it in lines]


def legal_in_pdf(pdf: str, form: str) -> str:
    return legal_of(lines_of(pdf, form))


def picture_of(pdf: str, resolution: int = 200) -> str:
    """Write the first page of a PDF as a picture, and return its path."""
    name = pdf.removesuffix(".pdf")
    output_of("pdftoppm", "-r", str(resolution), "-png", "-singlefile", pdf, name)
    return f"{name}.png"


def code_in_pdf(pdf: str) -> str:
    return code_in(picture_of(pdf))


def fonts_left_out(pdf: str) -> list[str]:
    """Return the fonts of a PDF that aren't embedded."""
    rows = output_of("pdffonts", pdf).strip().split("\n")[2:]
    return [row for row in rows if row.split()[-5] != "yes"] or ([] if rows else ["none at all"])


def about(pdf: str) -> tuple[int, int, int]:
    """Return the pages of a PDF, and its width and height in millimetres."""
    text = output_of("pdfinfo", pdf)
    size = re.findall(r"Page size: +([\d.]+) x ([\d.]+) pts", text)[0]
    pages = re.findall(r"Pages: +(\d+)", text)[0]
    width, height = (round(float(it) * 25.4 / 72) for it in size)
    return int(pages), width, height


def write_row(paths: list[str], target: str, scale: float) -> None:
    """Write pictures next to each other into one."""
    whole = [Image.open(it).convert("L") for it in paths]
    sizes = [(round(it.width * scale), round(it.height * scale)) for it in whole]
    pictures = [it.resize(size, Image.LANCZOS) for it, size in zip(whole, sizes)]
    size = (sum(it.width + 12 for it in pictures), max(it.height for it in pictures) + 12)
    sheet, left = Image.new("L", size, 200), 6
    for it in pictures:
        sheet.paste(it, (left, 6))
        left += it.width + 12
    os.makedirs(os.path.dirname(target), exist_ok=True)
    sheet.quantize(8).save(target, optimize=True)
