"""Shows that a service that may open no more files continues, because it disconnects silent connections.

The check starts a service with a limit on its open files (`ulimit -n`), and connects a terminal. Then silent clients
use the files that are left. The service closes the oldest for the next, so that one file stays free, which /proc shows.
The terminal still gets replies. Behind the silent clients the office answers, a weighing is stored, and another
terminal is accepted, all at once. In earlier versions such a client waited until a silent one was closed for its
silence. After all that the service serves as before, has as many files open as at its start, and its journal is sound.
"""

import os
import socket
import time
from collections.abc import Callable
from pathlib import Path
from typing import TypeVar

from checks.lib import bridge
from checks.lib.case import PROGRAM, Check
from checks.lib.program import PROGRAM as BUILT
from checks.lib.program import printed

FILES_FOR_CLIENTS = 3
AT_ONCE = 2.0  # a turn takes a twentieth of a second; the rest is for a busy machine
Found = TypeVar("Found")


def open_files(service: bridge.Service) -> int:
    """Return how many files the service has open."""
    return len(os.listdir(f"/proc/{service.process.pid}/fd"))


def least_files(service: bridge.Service) -> int:
    """Return how many files are open once no client is there."""
    least = open_files(service)
    for _ in range(20):
        time.sleep(0.05)
        least = min(least, open_files(service))
    return least


def timed(ask: Callable[[], Found]) -> tuple[Found, float]:
    began = time.monotonic()
    return ask(), time.monotonic() - began


class ServeFewFiles(Check):
    """Silent clients use all files of a service but one."""

    needs = (PROGRAM,)
    seconds = 20

    def start(self, limit: int) -> bridge.Service:
        """Start a service whose limit of open files is this."""
        few = Path(self.box, "few")
        few.write_text(f'#!/bin/sh\nulimit -n {limit}\nexec "{BUILT}" "$@"\n', encoding="utf-8")
        few.chmod(0o755)
        return bridge.Service(str(few), f"{self.box}/journal.db", bridge.Played(20.0))

    def files_at_rest(self) -> int:
        """Return how many files a service has open that has no client yet."""
        with self.start(256) as service:
            what = "a service without clients answers"
            self.becomes(what, 200, lambda: (bridge.get(service, "/indication") or (0,))[0])
            return least_files(service)

    def silent(self, count: int) -> list[socket.socket]:
        """Connect this many clients that send nothing."""
        at = (bridge.HOST, self.service.office)
        return [socket.create_connection(at, 10) for _ in range(count)]

    def files_become(self, what: str, count: int) -> None:
        self.becomes(what, count, lambda: open_files(self.service))

    def show_terminal(self, terminal: bridge.Terminal, limit: int) -> None:
        """Show that the terminal and the office are answered while silent clients use the files."""
        streams = self.silent(8)
        self.files_become("every file but one is taken", limit - 1)
        asked = [timed(lambda: terminal.ask("SI")) for _ in range(20)]
        self.same("the terminal's replies", {"S S          0 kg"}, {reply for reply, _ in asked})
        slowest = max(took for _, took in asked)
        self.holds("the terminal is answered within half a second", slowest < 0.5, slowest)
        answer, took = timed(lambda: bridge.get(self.service, "/indication"))
        self.same("the office answers", 200, answer and answer[0])
        self.holds("at once", took < AT_ONCE, took)
        for it in streams:
            it.close()

    def show_weighing(self, limit: int) -> None:
        """Show that a weighing is stored while silent clients use the files."""
        self.files_become("all clients are gone", limit - FILES_FOR_CLIENTS)
        self.service.next_vehicle(9170)
        streams = self.silent(FILES_FOR_CLIENTS)
        self.files_become("every file but one is taken again", limit - 1)
        body = "key=K1&kind=first&plate=AB-12"
        answer, took = timed(lambda: bridge.post(self.service, "/weighings", body))
        self.same("a weighing is stored", 201, answer and answer[0])
        self.holds("at once, too", took < AT_ONCE, took)
        for it in streams:
            it.close()

    def show_other_terminal(self, terminal: bridge.Terminal, limit: int) -> None:
        """Show that another terminal gets the file that stays free."""
        terminal.close()
        self.files_become("without a terminal there is a file more", limit - FILES_FOR_CLIENTS - 1)
        streams = self.silent(FILES_FOR_CLIENTS + 1)
        self.files_become("once more every file but one is taken", limit - 1)
        with bridge.Terminal(self.service) as other:
            reply, took = timed(lambda: other.ask("SI"))
            self.same("another terminal is answered", "S S      18340 kg", reply)
            self.holds("and at once", took < AT_ONCE, took)
            for it in streams:
                it.close()

    def test_silent_clients(self) -> None:
        self.box = self.folder()
        at_rest = self.files_at_rest()
        limit = at_rest + 1 + FILES_FOR_CLIENTS
        self.service = self.enterContext(self.start(limit))
        terminal = self.enterContext(bridge.Terminal(self.service))
        self.same("a terminal", 'I4 A "WB01"', terminal.ask("I4"))
        what = "the weight of the empty bridge is stable"
        self.becomes(what, "S S          0 kg", lambda: terminal.ask("SI"))
        self.show_terminal(terminal, limit)
        self.show_weighing(limit)
        self.show_other_terminal(terminal, limit)
        what = "at the end as many files are open as at the start"
        self.becomes(what, at_rest, lambda: least_files(self.service))
        answer, took = timed(lambda: bridge.get(self.service, "/check"))
        self.same("and the office answers", (200, "SOUND 1\n"), answer)
        self.holds("within half a second", took < 0.5, took)
        self.service.kill()
        checked = printed("check", "--file", f"{self.box}/journal.db")
        self.same("the journal in the file", (0, "SOUND 1\n", ""), checked)
