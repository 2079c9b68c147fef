"""Tickets a minute: all at once at a printer that takes what comes."""

import time
from pathlib import Path

from checks.lib.papering import PaperCheck

from tests.papers import Sample
from weighbridge_paper.printers import read_papers
from weighbridge_paper.printing import Worker
from weighbridge_paper.spool import Spool
from weighbridge_paper.text import read_text

TICKETS = 200


class Rate(PaperCheck):
    """200 tickets, and ten commands. It measures time, so nothing else runs then."""

    needs = ("reportlab", "qrcode", "PIL", "serial")
    alone = True
    seconds = 40

    def setUp(self) -> None:
        self.played = self.printer()
        self.yard = f'to = "tcp:127.0.0.1:{self.played.port}"\nform = "escpos80"'

    def test_tickets(self) -> None:
        for name, lines in (
            ("yard", self.yard),
            ("sheet", 'to = "file:{folder}/made"\nform = "a4"'),
        ):
            desk = self.desk(**{name: lines})
            papers = read_papers(Path(desk.setup))
            spool = Spool(papers.spool)
            samples = [Sample("second", plate=f"R-{it}", number=it + 2) for it in range(TICKETS)]
            began = time.monotonic()
            for sample in samples:
                spool.put(spool.take(read_text(sample.text)), name)
            noted = time.monotonic() - began
            worker, each = Worker(spool, papers.printers[0]), []
            for _ in samples:
                begun = time.monotonic()
                worker.turn()
                each.append(time.monotonic() - begun)
            took = time.monotonic() - began
            count = len(self.played.printed) if name == "yard" else len(desk.made())
            self.same(f"{name}: each is printed", TICKETS, count)
            said = f"{took:.1f} s, of which {noted:.1f} s to note them; the slowest paper {max(each) * 1000:.0f} ms"
            print(f"{name}: {said}", flush=True)
            self.holds(f"{name}: {TICKETS} within a minute", took < 60, said)

    def test_commands(self) -> None:
        desk = self.desk(yard=self.yard)
        began = time.monotonic()
        for at in range(10):
            text = Sample("single", plate=f"C-{at}", number=at + 2).text
            desk.run(text, "--printer", "yard")
        took = (time.monotonic() - began) / 10
        print(f"a command of its own for each paper: {took * 1000:.0f} ms each", flush=True)
        self.same("each command prints", 10, len(self.played.printed))
        self.holds("a command of its own for each paper", took < 1, f"{took * 1000:.0f} ms each")
