"""A paper as PDF, by reportlab, with the fonts of the package fonts-dejavu-core embedded."""

import datetime
import functools
import io
from collections.abc import Callable, Sequence
from dataclasses import dataclass
from pathlib import Path

from reportlab.pdfbase import pdfmetrics
from reportlab.pdfbase.ttfonts import TTFont
from reportlab.pdfgen.canvas import Canvas

from . import layout
from .code import modules_of
from .forms import Form

FONTS = Path("/usr/share/fonts/truetype/dejavu")
PLAIN, BOLD, MONO = "WeighbridgeSans", "WeighbridgeSansBold", "WeighbridgeMono"
FILES = {PLAIN: "DejaVuSans.ttf", BOLD: "DejaVuSans-Bold.ttf", MONO: "DejaVuSansMono.ttf"}


@functools.cache
def load_fonts() -> None:
    for name, file in FILES.items():
        pdfmetrics.registerFont(TTFont(name, str(FONTS / file)))


def lacks(letter: str) -> bool:
    """Return whether an empty box would stand for a letter."""
    load_fonts()
    return ord(letter) not in pdfmetrics.getFont(PLAIN).face.charToGlyph


def width_of(text: str, font: str, size: float) -> float:
    return float(pdfmetrics.stringWidth(text, font, size))


@dataclass(frozen=True)
class About:
    """Title, author, date and language, which the file has in its properties."""

    title: str
    author: str
    moment: datetime.datetime  # in UTC
    language: str


Draw = Callable[[Canvas, float], None]  # on a canvas, from a height downwards


class Sheet:
    """Pieces, each with its height and how it is drawn; then the pages."""

    def __init__(self, form: Form) -> None:
        load_fonts()
        self.form, self.pieces = form, list[tuple[float, Draw]]()

    def pdf_of(self, blocks: Sequence[layout.Block], about: About) -> bytes:
        """Return the file: the same bytes for the same paper, because its date is the weighing's."""
        for it in blocks:
            self._put(it)
        file = io.BytesIO()
        form = self.form
        height = form.height or sum(it[0] for it in self.pieces) + 2 * form.margin
        canvas = Canvas(
            file,
            pagesize=(form.width, height),
            invariant=1,
            initialFontName=PLAIN,
            lang=about.language,
        )
        canvas.setTitle(about.title)
        canvas.setAuthor(about.author)
        canvas.setDateFormatter(lambda *_now: f"{about.moment:D:%Y%m%d%H%M%S}+00'00'")
        self._draw(canvas, height, marks_of(blocks))
        canvas.save()
        return file.getvalue()

    def _draw(self, canvas: Canvas, height: float, marks: Sequence[str]) -> None:
        """Page by page. A demo and a further print are marked on each page."""
        form, at, pages = self.form, height - self.form.margin, 1
        for needed, draw in self.pieces:
            if at - needed < form.margin - 1 and form.height is not None:
                canvas.showPage()
                pages += 1
                at = height - form.margin
                for mark in marks:
                    self._bar(mark)(canvas, at)
                    at -= form.plain * 2.4
            draw(canvas, at)
            at -= needed

    # ---- blocks

    def _put(self, block: layout.Block) -> None:
        form = self.form
        if isinstance(block, layout.Mark):
            self.pieces.append((form.plain * 2.4, self._bar(block.text)))
        elif isinstance(block, layout.Line):
            self._line(block)
        elif isinstance(block, layout.Pair):
            self._pair(block)
        elif isinstance(block, layout.Rule):
            self.pieces.append((form.plain * 0.8, self._rule))
            if block.text:
                self._texts(block.text, PLAIN, form.plain * 0.9)
        elif isinstance(block, layout.Legal):
            self._legal(block)
        else:
            self._code(block)

    def _bar(self, text: str) -> Draw:
        form, size = self.form, self.form.plain * 1.2

        def draw(canvas: Canvas, at: float) -> None:
            canvas.rect(form.margin, at - size * 1.6, form.within, size * 1.6, stroke=0, fill=1)
            canvas.setFillGray(1)
            canvas.setFont(BOLD, size)
            canvas.drawCentredString(form.width / 2, at - size * 1.15, text)
            canvas.setFillGray(0)

        return draw

    def _rule(self, canvas: Canvas, at: float) -> None:
        canvas.setLineWidth(0.5)
        canvas.line(
            self.form.margin,
            at - self.form.plain * 0.4,
            self.form.width - self.form.margin,
            at - self.form.plain * 0.4,
        )

    def _string(self, text: str, font: str, size: float, to: str = "left") -> None:
        form = self.form

        def draw(canvas: Canvas, at: float) -> None:
            canvas.setFont(font, size)
            if to == "right":
                canvas.drawRightString(form.width - form.margin, at - size, text)
            elif to == "centre":
                canvas.drawCentredString(form.width / 2, at - size, text)
            else:
                canvas.drawString(form.margin, at - size, text)

        self.pieces.append((size * 1.3, draw))

    def _texts(self, text: str, font: str, size: float, to: str = "left") -> None:
        """Words that aren't legal, on as many lines as they need."""
        for it in self.filled(text, font, size):
            self._string(it, font, size, to)

    def filled(self, text: str, font: str, size: float) -> list[str]:
        lines = [""]
        for part in text.split(" "):
            for piece in self._pieces_of(part, font, size):
                longer = f"{lines[-1]} {piece}" if lines[-1] else piece
                if width_of(longer, font, size) <= self.form.within:
                    lines[-1] = longer
                else:
                    lines.append(piece)
        return [it for it in lines if it] or [""]

    def _pieces_of(self, part: str, font: str, size: float) -> list[str]:
        """Return a word that is wider than the paper in pieces that fit."""
        made = [""]
        for letter in part:
            if width_of(made[-1] + letter, font, size) > self.form.within:
                made.append("")
            made[-1] += letter
        return made

    def _line(self, line: layout.Line) -> None:
        form, to = self.form, "centre" if line.is_centred else "left"
        if line.look in ("title", "large"):
            size = form.large if line.look == "large" else form.title
            size = min(size, size * form.within / max(1.0, width_of(line.text, BOLD, size)))
            self._string(line.text, BOLD, size, to)
        else:
            font, size = (
                (BOLD, form.plain)
                if line.look == "bold"
                else (PLAIN, form.plain * (0.9 if line.look == "small" else 1))
            )
            self._texts(line.text, font, size, to)

    def _pair(self, pair: layout.Pair) -> None:
        form, font = self.form, BOLD if pair.is_bold else PLAIN
        if width_of(f"{pair.name}  {pair.value}", font, form.plain) > form.within:
            self._texts(pair.name, font, form.plain)
            self._texts(pair.value, font, form.plain, "right")
            return

        def draw(canvas: Canvas, at: float) -> None:
            canvas.setFont(font, form.plain)
            canvas.drawString(form.margin, at - form.plain, pair.name)
            canvas.drawRightString(form.width - form.margin, at - form.plain, pair.value)

        self.pieces.append((form.plain * 1.3, draw))

    def _legal(self, legal: layout.Legal) -> None:
        size = self.form.legal
        lines = layout.wrapped(legal.letters, int(self.form.within / width_of("0", MONO, size)))
        before = len(self.pieces)
        for it in lines:
            self._string(it, MONO, size)
        self._keep_together(before)
        if any(it.startswith(layout.CONTINUES) for it in lines):
            self._texts(legal.wrapped, PLAIN, self.form.plain * 0.8)

    def _keep_together(self, since: int) -> None:
        """Makes one piece of those since a place, so that no page ends within."""
        them = self.pieces[since:]

        def draw(canvas: Canvas, at: float) -> None:
            for needed, draw_one in them:
                draw_one(canvas, at)
                at -= needed

        self.pieces[since:] = [(sum(needed for needed, _ in them), draw)]

    def _code(self, code: layout.Code) -> None:
        rows, form = modules_of(code.text), self.form
        side = len(rows) * form.module

        def draw(canvas: Canvas, at: float) -> None:
            left = (form.width - side) / 2
            path = canvas.beginPath()
            for down, row in enumerate(rows):
                for right, is_dark in enumerate(row):
                    if is_dark:
                        path.rect(
                            left + right * form.module,
                            at - (down + 1) * form.module,
                            form.module,
                            form.module,
                        )
            canvas.drawPath(path, stroke=0, fill=1)

        self.pieces.append((side, draw))
        self._texts(code.name, PLAIN, form.plain * 0.8, "centre")


def marks_of(blocks: Sequence[layout.Block]) -> list[str]:
    """Return the text of each mark once, in their order."""
    return list(dict.fromkeys(it.text for it in blocks if isinstance(it, layout.Mark)))
