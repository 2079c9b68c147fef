"""Prints what waits for a printer, one paper after another."""

from collections.abc import Callable, Iterable
from pathlib import Path
from typing import TYPE_CHECKING

from . import layout, words
from .devices import GiveUp, Queue, Trouble, put_in_folder, wire_to
from .escpos import Letters, Roll
from .forms import FORMS
from .printers import Printer
from .spool import Job, Spool

if TYPE_CHECKING:
    from .pdf import About


def data_of(paper: layout.Paper, printer: Printer) -> bytes:
    """Return a paper in the printer's language."""
    blocks = layout.blocks_of(paper, printer.template)
    if printer.is_escpos:
        return Roll(printer.columns, printer.pages, printer.is_cut).bytes_of(blocks)
    from .pdf import Sheet  # reportlab is large, and a printer for ESC/POS needs none

    return Sheet(FORMS[printer.form]).pdf_of(blocks, about(paper, printer.template))


def unprintable(text: str, printers: Iterable[Printer]) -> str:
    """Return the letters of a text that one of the printers can't print, each once."""
    return "".join(
        it for it in dict.fromkeys(text) if any(lacks(it, printer) for printer in printers)
    )


def lacks(letter: str, printer: Printer) -> bool:
    if printer.is_escpos:
        return Letters(printer.pages).lacks(letter)
    from . import pdf

    return pdf.lacks(letter)


def about(paper: layout.Paper, template: layout.Template) -> "About":
    """Return what a PDF says of itself, such as the title `Ticket 2, WB01, AB-12`."""
    from .pdf import About

    text, own = paper.text, paper.text.own
    kind = words.word("ticket" if text.is_ticket else "slip", template.language)
    return About(
        f"{kind} {own.number}, {own.serial}, {text.plate}",
        " ".join(template.header[:1]),
        own.at,
        template.language,
    )


class Worker:
    """Prints at one printer. `on_change` is called when something becomes of a job."""

    def __init__(
        self, spool: Spool, printer: Printer, on_change: Callable[[], None] = lambda: None
    ) -> None:
        self.spool, self.printer, self.on_change = spool, printer, on_change

    def turn(self, give_up: GiveUp = lambda: False) -> bool:
        """Prints the next paper that waits. False if there is none, or if it can't be printed now: then the job says why."""
        with self.spool.holding(self.printer.name) as is_mine:
            if not is_mine:
                return False
            self.spool.recover(self.printer.name)
            job = self.spool.next(self.printer.name)
            return job is not None and self._print(job, give_up)

    def _print(self, job: Job, give_up: GiveUp) -> bool:
        has_begun = False

        def begin() -> bytes:
            """Return the paper as it is now. It is rendered before it is noted, and noted before a byte of it is sent."""
            nonlocal has_begun
            now: Job | None = job
            while now is not None and now.state == "waits":
                data = data_of(now.what(now.is_original), self.printer)
                if self.spool.begin(now, now.is_original):
                    has_begun = True
                    self.on_change()
                    return data
                now = self.spool.job(job.id)
            raise Dropped

        def tell(why: str) -> None:
            self.spool.tell(job.id, why)
            self.on_change()

        try:
            said = self._hand_over(job, begin, tell, give_up)
            self.spool.printed(job.id, said)
        except Dropped:
            return True
        except Trouble as trouble:
            if not has_begun:
                self.spool.tell(job.id, trouble.name)
            elif trouble.has_begun:
                self.spool.was_cut(job.id, trouble.name)
            else:
                self.spool.give_back(job.id, trouble.name)
            return False
        finally:
            self.on_change()
        return True

    def _hand_over(
        self, job: Job, begin: Callable[[], bytes], tell: Callable[[str], None], give_up: GiveUp
    ) -> str:
        printer = self.printer
        if printer.way == "cups":
            queue = Queue(printer)
            queue.look()
            own = job.text.own
            return (
                ""
                if queue.print(begin(), f"{own.serial} {own.number}", tell, give_up)
                else "handed_over"
            )
        if printer.way == "file":
            put_in_folder(Path(printer.place), name_of(job, printer), begin())
            return ""
        with wire_to(printer) as wire:
            wire.look()
            wire.print(begin(), tell, give_up)
        return ""


class Dropped(Exception):
    """It was dropped while it was about to be printed."""


def name_of(job: Job, printer: Printer) -> str:
    own = job.text.own
    return f"{own.serial}-{own.number}-{job.id}.{'escpos' if printer.is_escpos else 'pdf'}"
