"""ESC/POS: the bytes of a paper, and what a printer's status says.

Debian 12 has no python3-escpos, so the few commands that are needed stand here, by Epson's "ESC/POS Command Reference": ESC @, ESC R, ESC t, ESC a, ESC E, ESC d,
GS !, GS B, GS v 0, GS V, DLE EOT, GS r. The numbers of the code pages are those of its list of ESC t; a printer whose list is another one has them in the setup.
"""

import dataclasses
import unicodedata
from collections.abc import Sequence

from . import layout
from .code import modules_of

RESET = b"\x1b@\x1bR\x00"  # and ASCII as it is, in place of a country's own signs
LEFT, CENTRED = b"\x1ba\x00", b"\x1ba\x01"
BOLD, NOT_BOLD = b"\x1bE\x01", b"\x1bE\x00"
WHITE_ON_BLACK, BLACK_ON_WHITE = b"\x1dB\x01", b"\x1dB\x00"
CUT = b"\x1dVB\x00"  # it feeds to the knife itself
FEED = b"\x1bd\x05"
ASK_BEHIND = b"\x1dr\x01"  # answered once everything before it was worked on
LARGEST = 3
DOTS_OF_MODULE = 6  # of the QR code: 0.75 mm at 8 dots a millimetre

# code page to number of ESC t
PAGES = {
    **{
        "cp437": 0,
        "cp850": 2,
        "cp860": 3,
        "cp863": 4,
        "cp865": 5,
        "cp857": 13,
        "cp737": 14,
        "iso8859_7": 15,
        "cp1252": 16,
        "cp866": 17,
        "cp852": 18,
    },
    **{
        "cp858": 19,
        "cp775": 33,
        "cp855": 34,
        "iso8859_2": 39,
        "iso8859_15": 40,
        "cp1250": 45,
        "cp1251": 46,
        "cp1253": 47,
        "cp1254": 48,
        "cp1257": 51,
    },
}
# Printed for a letter that no page of the printer has.
ALIKE = {
    "\u202f": " ",
    "\u00a0": " ",
    "’": "'",
    "‘": "'",
    "“": '"',
    "”": '"',
    "„": '"',
    "–": "-",
    "—": "-",
    "…": "...",
    "·": "-",
    "€": "EUR",
    "º": "o",
}
ALIKE |= dict(zip("ŁłĐđŒœ", ("L", "l", "D", "d", "OE", "oe")))


class Letters:
    """Encodes by the first page of the printer's list that has a letter, and changes to that page where it stands."""

    def __init__(self, pages: Sequence[tuple[str, int]]) -> None:
        self.pages, self.now = pages, -1

    def plain(self, text: str) -> str:
        """Return the text with a similar letter for each one that no page has."""
        return "".join(self._alike(it) for it in text)

    def _alike(self, letter: str) -> str:
        if letter.isascii():
            return letter if letter.isprintable() else " "
        if any(has(page, letter) for page, _ in self.pages):
            return letter
        bare = "".join(
            it for it in unicodedata.normalize("NFKD", letter) if not unicodedata.combining(it)
        )
        alike = ALIKE.get(letter, bare if bare != letter else "")
        return self.plain(alike) if alike else "?"

    def lacks(self, letter: str) -> bool:
        """Return whether a question mark would stand for a letter."""
        return letter != "?" and "?" in self._alike(letter)

    def of(self, text: str) -> bytes:
        return b"".join(self._letter(it) for it in self.plain(text))

    def _letter(self, letter: str) -> bytes:
        if letter.isascii():
            return letter.encode()
        now = [it for it in self.pages if it[1] == self.now]
        page, number = next(it for it in (*now, *self.pages) if has(it[0], letter))
        changed = b"" if number == self.now else b"\x1bt" + bytes([number])
        self.now = number
        return changed + letter.encode(page)


def has(page: str, letter: str) -> bool:
    try:
        letter.encode(page)
    except UnicodeEncodeError:
        return False
    return True


class Roll:
    """Makes the bytes of blocks for a roll. Its width is given in columns of the printer's larger font, whose figures are more than 2 mm high."""

    def __init__(self, columns: int, pages: Sequence[tuple[str, int]], is_cut: bool) -> None:
        self.columns, self.is_cut, self.letters = columns, is_cut, Letters(pages)
        self.made: list[bytes] = []

    def bytes_of(self, blocks: Sequence[layout.Block]) -> bytes:
        self.made = [RESET]
        for it in blocks:
            self._put(self._plain(it))
        self.made.append(CUT if self.is_cut else FEED)
        return b"".join(self.made)

    def _plain(self, block: layout.Block) -> layout.Block:
        """Return the block with the letters that its printer has, so that its lines have their final length. The legal text stays as it is."""
        fields = {"Legal": ("wrapped",), "Code": ("name",), "Pair": ("name", "value")}.get(
            type(block).__name__, ("text",)
        )
        return dataclasses.replace(
            block, **{it: self.letters.plain(getattr(block, it)) for it in fields}
        )

    def _lines(self, lines: Sequence[str], before: bytes = b"", after: bytes = b"") -> None:
        self.made += [before, *(self.letters.of(it) + b"\n" for it in lines), after]

    def _put(self, block: layout.Block) -> None:
        columns = self.columns
        if isinstance(block, layout.Mark):
            self._lines(
                [it.center(columns) for it in layout.filled(block.text, columns)],
                WHITE_ON_BLACK + BOLD,
                NOT_BOLD + BLACK_ON_WHITE,
            )
        elif isinstance(block, layout.Line):
            self._line(block)
        elif isinstance(block, layout.Pair):
            bold = (BOLD, NOT_BOLD) if block.is_bold else (b"", b"")
            self._lines(layout.paired(block.name, block.value, columns), *bold)
        elif isinstance(block, layout.Rule):
            self._lines(
                ["-" * columns, *(layout.filled(block.text, columns) if block.text else [])]
            )
        elif isinstance(block, layout.Legal):
            lines = layout.wrapped(block.letters, columns)
            self._lines(lines)
            if any(it.startswith(layout.CONTINUES) for it in lines):
                self._lines(layout.filled(block.wrapped, columns))
        else:
            self._code(block)

    def _line(self, line: layout.Line) -> None:
        if line.look in ("title", "large"):
            most = LARGEST if line.look == "large" else 2
            times = next(
                (it for it in range(most, 1, -1) if len(line.text) * it <= self.columns), 1
            )
            size = bytes([(times - 1) * 16 + max(times, 2) - 1])
            self._lines(
                layout.filled(line.text, self.columns // times),
                b"\x1d!" + size + BOLD,
                b"\x1d!\x00" + NOT_BOLD,
            )
            return
        bold = (BOLD, NOT_BOLD) if line.look == "bold" else (b"", b"")
        before, after = (CENTRED, LEFT) if line.is_centred else (b"", b"")
        self._lines(layout.filled(line.text, self.columns), before + bold[0], bold[1] + after)

    def _code(self, code: layout.Code) -> None:
        rows = [
            [it for it in row for _ in range(DOTS_OF_MODULE)]
            for row in modules_of(code.text)
            for _ in range(DOTS_OF_MODULE)
        ]
        self.made += [CENTRED, raster(rows)]
        self._lines(layout.filled(code.name, self.columns), b"", LEFT)


def raster(rows: Sequence[Sequence[bool]]) -> bytes:
    """Return a picture as GS v 0 prints it: a bit for each dot, the first one at the left."""
    width = -(-len(rows[0]) // 8)
    data = bytearray()
    for row in rows:
        bits = int("".join("1" if it else "0" for it in row).ljust(width * 8, "0"), 2)
        data += bits.to_bytes(width, "big")
    return (
        b"\x1dv0\x00" + width.to_bytes(2, "little") + len(rows).to_bytes(2, "little") + bytes(data)
    )


# ---- status


def ask(number: int) -> bytes:
    """Return a DLE EOT. A printer answers it at once, even if it is offline."""
    return b"\x10\x04" + bytes([number])


def is_status(byte: int) -> bool:
    """Return whether a byte has the form of an answer to DLE EOT."""
    return byte & 0x93 == 0x12


def is_behind(byte: int) -> bool:
    """Return whether a byte has the form of an answer to GS r."""
    return byte & 0x90 == 0


def trouble_of(answers: dict[int, int]) -> str | None:
    """Return what the answers to DLE EOT 1 to 4 say, as a name of devices.TROUBLES. Return None if it prints."""
    offline, cause, fault, paper = (answers.get(it, 0) for it in (1, 2, 3, 4))
    if cause & 0x04:
        return "cover_open"
    if cause & 0x20 or paper & 0x60:
        return "paper_out"
    if fault & 0x08:
        return "knife"
    if cause & 0x40 or fault & 0x60:
        return "fault"
    return "offline" if offline & 0x08 else None


def is_low(answers: dict[int, int]) -> bool:
    return bool(answers.get(4, 0) & 0x0C)
