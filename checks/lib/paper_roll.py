"""A printer for ESC/POS that puts paper into pictures. It knows the commands by Epson's reference, and nothing of the program. Any other byte is a fault."""

import subprocess
import tempfile
from typing import Any

from PIL import Image, ImageDraw, ImageFont

CELL = (12, 24)  # dots of a character of font A
FONT = "/usr/share/fonts/truetype/dejavu/DejaVuSansMono.ttf"
# The code tables of ESC t by their number, as far as Python has them.
TABLES = {
    0: "cp437",
    2: "cp850",
    3: "cp860",
    16: "cp1252",
    17: "cp866",
    18: "cp852",
    19: "cp858",
    39: "iso8859_2",
    40: "iso8859_15",
    45: "cp1250",
    46: "cp1251",
}


class Fault(Exception):
    """Bytes that are no command here."""


class Printed:
    """A paper as a picture, with its lines as texts, and the size of each."""

    def __init__(self, data: bytes, dots: int) -> None:
        self.data, self.at, self.dots = data, 0, dots
        self.columns = dots // CELL[0]
        self.image, self.top = Image.new("L", (dots, 20000), 255), 10
        self.line, self.cuts = "", 0
        self.lines: list[str] = []
        self.sizes: list[tuple[int, int]] = []
        self.font = ImageFont.truetype(FONT, 20)
        self.reset()
        while self.at < len(data):
            self.command()
        if self.line:
            raise Fault("a line without its end")
        self.image = self.image.crop((0, 0, dots, self.top + 10))

    def reset(self) -> None:
        self.table, self.size, self.is_bold, self.is_white, self.to = 0, (1, 1), False, False, 0
        # The letters of this line, with size, and whether each is bold or white.
        self.pending: list[tuple[str, tuple[int, int], bool, bool]] = []

    def take(self, count: int = 1) -> bytes:
        if self.at + count > len(self.data):
            raise Fault("it ends within a command")
        found = self.data[self.at : self.at + count]
        self.at += count
        return found

    def command(self) -> None:
        byte = self.take()[0]
        if byte == 0x1B:
            self.escape(self.take())
        elif byte == 0x1D:
            self.group(self.take())
        elif byte == 0x0A:
            self.feed()
        elif 0x20 <= byte != 0x7F:
            self.character(bytes([byte]).decode(TABLES[self.table]))
        else:
            raise Fault(f"byte {byte:02x} at {self.at - 1}")

    def escape(self, what: bytes) -> None:
        if what == b"@":
            self.reset()
        elif what == b"R":
            if self.take() != b"\0":
                raise Fault("a country's own signs")
        elif what == b"t":
            self.table = self.take()[0]
            if self.table not in TABLES:
                raise Fault(f"table {self.table}")
        elif what == b"a":
            if self.pending:
                raise Fault("ESC a within a line")
            self.to = self.take()[0]
        elif what == b"E":
            self.is_bold = bool(self.take()[0] & 1)
        elif what == b"d":
            self.top += self.take()[0] * 30
        else:
            raise Fault(f"ESC {what!r} at {self.at}")

    def group(self, what: bytes) -> None:
        if what == b"!":
            size = self.take()[0]
            self.size = (size >> 4) + 1, (size & 7) + 1
        elif what == b"B":
            self.is_white = bool(self.take()[0] & 1)
        elif what == b"V":
            if self.take(2) != b"B\0":
                raise Fault("another cut")
            self.cuts += 1
            ImageDraw.Draw(self.image).line((0, self.top, self.dots, self.top), fill=128)
        elif what == b"v":
            self.picture()
        else:
            raise Fault(f"GS {what!r} at {self.at}")

    def picture(self) -> None:
        if self.take(2) != b"0\0":
            raise Fault("another picture")
        width, height = (int.from_bytes(self.take(2), "little") for _ in range(2))
        if self.pending:
            raise Fault("a picture within a line")
        dots = bytes(it ^ 0xFF for it in self.take(width * height))
        picture = Image.frombytes("1", (width * 8, height), dots)
        if width * 8 > self.dots:
            raise Fault("a picture wider than the paper")
        self.image.paste(picture, ((self.dots - width * 8) // 2 if self.to == 1 else 0, self.top))
        self.top += height

    def character(self, letter: str) -> None:
        wide = self.size[0]
        if sum(it[1][0] for it in self.pending) + wide > self.columns:
            raise Fault(f"the line {self.line + letter!r} is wider than {self.columns} columns")
        self.pending.append((letter, self.size, self.is_bold, self.is_white))
        self.line += letter

    def feed(self) -> None:
        wide = sum(it[1][0] for it in self.pending) * CELL[0]
        high = max((it[1][1] for it in self.pending), default=1) * CELL[1]
        left = (self.dots - wide) // 2 if self.to == 1 else 0
        for letter, size, is_bold, is_white in self.pending:
            cell = Image.new("L", CELL, 255)
            draw = ImageDraw.Draw(cell)
            for more in (0, 1) if is_bold else (0,):
                draw.text((more, 0), letter, font=self.font, fill=0)
            if is_white:
                cell = cell.point(lambda it: 255 - it)
            cell = cell.resize((CELL[0] * size[0], CELL[1] * size[1]), Image.NEAREST)
            self.image.paste(cell, (left, self.top + high - cell.height))
            left += cell.width
        self.lines.append(self.line)
        self.sizes.append(max((it[1] for it in self.pending), default=(1, 1)))
        self.pending, self.line = [], ""
        self.top += high + 6

    # ---- what it says

    def legal(self) -> str:
        """Return the legal text on it, put together where a line was wrapped."""
        return legal_of(self.lines)

    def large(self) -> list[str]:
        return [line for line, size in zip(self.lines, self.sizes) if size[1] > 1]

    def save(self, path: str) -> None:
        self.image.save(path)


def legal_of(lines: list[str]) -> str:
    """Return the legal text among the lines of a paper: from its first words to the rule or remark behind it."""
    begin = next(at for at, it in enumerate(lines) if it.startswith("WEIGHING "))
    made: list[str] = []
    for line in lines[begin:]:
        if line.startswith("> ") or not line.strip() or line.startswith("--"):
            break
        if line.startswith(">"):
            made[-1] += line[1:]
        else:
            made.append(line)
    return "\n".join(made) + "\n"


def code_in(path: str) -> str:
    """Return the text of a picture's QR code."""
    words = ["zbarimg", "--quiet", "--raw", "-Sdisable", "-Sqrcode.enable", path]
    it = subprocess.run(words, capture_output=True, text=True)
    return it.stdout.removesuffix("\n")


def code_of(image: Any) -> str:
    with tempfile.NamedTemporaryFile(suffix=".png") as file:
        image.save(file.name)
        return code_in(file.name)
