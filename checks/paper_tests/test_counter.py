"""The counter with a printer, over a real service: it prints automatically, says what is wrong with the printer, and is killed in the middle of papers."""

import os
import random
import subprocess
import sys
import time
from typing import Any

from checks.lib.case import PROGRAM
from checks.lib.paper_roll import Printed, code_of
from checks.lib.papering import CounterWithPrinter, legal_in_pdf, marks, marks_of

from checks import TOP

KILLS = 12
LINES = {"goods": "Kies 0/16", "order": "4711", "driver": "Łukasz"}


class PrintingCounter(CounterWithPrinter):
    """A counter whose printer has faults."""

    needs = (
        PROGRAM,
        "reportlab",
        "qrcode",
        "PIL",
        "serial",
        "pdftotext",
        "zbarimg",
        "aiohttp",
        "prometheus_client",
    )
    seconds = 150

    def jobs(self) -> Any:
        """Return what waits for a printer."""
        return self.bridge.json("GET", "/papers")["jobs"]

    def reasons(self) -> list[str]:
        return [it["why"] for it in self.jobs()]

    def is_original(self, number: int) -> object:
        """Print an entry by the browser, and return whether that is its original."""
        answer = self.bridge.json("POST", f"/papers/{number}/browser", body="")
        return answer["is_original"]

    def test_prints_automatically(self) -> None:
        bridge, played = self.bridge, self.played
        bridge.next_vehicle(9170)
        form = {"key": "paper-1", "kind": "first", "plate": "AB-12", **LINES}
        status, slip, _ = bridge.ask("POST", "/weighings", form)
        self.becomes("a First prints automatically", 1, lambda: len(played.printed))
        it = Printed(played.printed[0], 576)
        self.same("with the office's text, letter for letter", (201, slip), (status, it.legal()))
        given = [any(line.endswith(value) for line in it.lines) for value in LINES.values()]
        self.same("and what the clerk gave", [True] * 3, given)
        rows = [",".join(it) for it in bridge.entries()]
        found = [row for row in rows if any(value in row for value in LINES.values())]
        self.same("of which the journal has nothing", (1, []), (len(rows), found))
        again = bridge.ask("POST", "/weighings", form)[:2]
        self.same("its request again is the same text", (201, slip), again)
        status, ticket = bridge.weigh_next(4070, "paper-2", "second", "AB-12")
        self.becomes("a Second too", 2, lambda: len(played.printed))
        self.same("a request again prints nothing", [0, 0], marks_of(played.printed))
        legal = Printed(played.printed[1], 576).legal()
        self.same("its text", (201, ticket), (status, legal))
        status = bridge.ask("POST", "/papers/2", body="")[0]
        self.same("a press prints it again", 202, status)
        status = bridge.ask("POST", "/papers/1", {"printer": "yard"})[0]
        self.same("and a First's slip", 202, status)
        self.becomes("as a duplicate and a copy", [0, 0, 2, 2], lambda: marks_of(played.printed))
        self.holds("with what the clerk gave", b"Kies 0/16\n" in played.printed[3])
        told = bridge.ask("POST", "/papers/2", {"printer": "none"})[:2]
        self.same("a printer that isn't there", (422, '{"why": "no_printer"}'), told)
        status = bridge.ask("POST", "/papers/4000000000", body="")[0]
        self.same("a number that nobody has", 404, status)
        self.same("by the browser it is a further print too", False, self.is_original(2))
        self.same("nothing waits", [], self.jobs())
        self.accepted_by_verify()

    def accepted_by_verify(self) -> None:
        """Show that inspect/verify.py accepts the contents of the QR codes, of this journal, and refuses another digest."""
        bridge = self.bridge
        codes = [code_of(Printed(it, 576).image).split() for it in self.played.printed[:2]]
        bridge.kill_counter()
        bridge.kill_service()
        verify = [sys.executable, str(TOP / "inspect" / "verify.py"), f"{bridge.folder}/journal.db"]
        for number, digest in codes:
            for what, known, status, said in (
                (f"verify.py --known takes the code of number {number}", digest, 0, "faults: 0"),
                ("and names another digest", "0" * 64, 1, "doesn't have the known digest"),
            ):
                words = [*verify, "--known", number, known]
                it = subprocess.run(words, capture_output=True, text=True)
                self.same(what, (status, True), (it.returncode, said in it.stdout))

    def test_faults_in_words(self) -> None:
        bridge, played = self.bridge, self.played
        for number, name in enumerate(("paper_out", "cover_open", "offline"), 1):
            played.state = name
            bridge.weigh_next(9170, f"paper-{number}", "single", f"S-{number}", 5000)

            def told() -> list[tuple[int, str]]:
                return [(it["number"], it["why"]) for it in self.jobs()]

            self.becomes(f"{name} is told", [(number, name)], told)
            why = bridge.event("papers")["jobs"][0]["why"]
            health = bridge.health()
            found = (why, "papers" in health["faults"])
            self.same("to each page, and to monitoring", (name, True), found)
            self.holds("a vehicle can be weighed all the same", health["can_weigh"])
            count = len(played.printed)
            played.state = ""
            self.becomes("and printed once it is over", [], self.jobs)
            time.sleep(1.5)
            self.same("once, as the original", [0], marks_of(played.printed[count:]))
        played.gone()
        bridge.weigh_next(9170, "paper-4", "single", "S-4", 5000)
        self.becomes("gone is told", ["gone"], self.reasons)
        status = bridge.ask("DELETE", f"/jobs/{self.jobs()[0]['job']}")[0]
        self.same("one that waits can be dropped", 200, status)
        self.same("then nothing waits", [], self.jobs())
        self.same("and the browser gets the original", True, self.is_original(4))

    def test_by_a_pipe(self) -> None:
        """Show weigh.sh … | weighbridge-paper, with a setup of its own."""
        bridge = self.bridge
        desk = self.desk("fr", box='to = "file:{folder}/made"\nform = "roll80"')
        bridge.next_vehicle(9170)
        words = " ".join(desk.words("--printer", "box", "--driver", "Nom"))
        line = f"{TOP}/clients/weigh.sh first PIPE-1 | {words}"
        where = {**os.environ, "WEIGHBRIDGE": f"http://127.0.0.1:{bridge.http}"}
        it = subprocess.run(["sh", "-c", line], env=where, capture_output=True, text=True)
        keys = [row[1] for row in bridge.entries() if row[3] == "PIPE-1"]
        self.same(
            "weigh.sh | weighbridge-paper prints the slip",
            (0, [bridge.weigh(key, "first", "PIPE-1")[1] for key in keys]),
            (it.returncode, [legal_in_pdf(made, "roll80") for made in desk.made()]),
        )
        it = subprocess.run(["sh", "-c", line], env=where, capture_output=True, text=True)
        self.same(
            "what the office refuses is no paper",
            (3, 1, True),
            (it.returncode, len(desk.made()), "nothing came on standard input" in it.stderr),
        )

    def test_killed(self) -> None:
        """Kill the counter in the middle of papers: there is an original at most once, and each paper at least once."""
        bridge, played, rolls = self.bridge, self.played, random.Random(2)
        played.rate = 8000
        plates = [f"K-{it}" for it in range(KILLS)]
        for at, plate in enumerate(plates):
            status, said = bridge.weigh_next(9170, f"kill-{at}", "single", plate, 5000)
            self.holds(f"{plate} is weighed", status == 201, said)
            time.sleep(rolls.uniform(0, 2))
            bridge.restart_counter()
        played.rate = None

        def missing() -> list[str]:
            return [it for it in plates if not self.has_printed(b"PLATE " + it.encode())]

        self.becomes("after each kill what waits is printed", [], missing, 60)
        papers = [*played.printed, *played.begun]
        originals = {
            plate: sum(marks(it) == 0 and b"\x1bE\x01%b\n" % plate.encode() in it for it in papers)
            for plate in plates
        }
        what = f"killed {KILLS} times, none has two originals"
        self.same(what, [], [plate for plate, count in originals.items() if count > 1])

    def has_printed(self, words: bytes) -> bool:
        return any(words in it for it in self.played.printed)
