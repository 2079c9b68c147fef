"""Shows that after each of 200 kills amid weighings the journal is sound, and that each request that returned 201 has one
entry.

A service runs over a file with a converter of a thousand lines a second. A client weighs vehicle after vehicle, each
request under a key of its own, until the check kills the service by SIGKILL after a random time. Every other time this
is within four milliseconds of a request. Then the file is opened again. `weighbridge check` finds it sound, each
request that returned 201 has its entry with the same text, and each key has one entry. The client sends the request
that was being made to the next service, and gets one entry. All kills are over one file.

It prints how many kills came while a request was being made, and how many of these requests were stored without an
answer. It also prints how often the file's log ended with pages of a transaction that was not committed.
"""

import csv
import io
import os
import random
import threading
import time
from contextlib import suppress
from pathlib import Path

from checks.lib import bridge
from checks.lib.case import PROGRAM, Check, many
from checks.lib.program import PROGRAM as BUILT
from checks.lib.program import printed

SEED = 20261123
# A request that is being made: its key, its bytes, and whether it is stored.
Pending = tuple[str, bytes, bool]


class Weighing(threading.Thread):
    """Weighs vehicle after vehicle: a First, and then its Second or a Void."""

    def __init__(
        self, service: bridge.Service, number: int, answered: dict[str, str], open_plates: list[str]
    ) -> None:
        super().__init__(daemon=True)
        self.service, self.number = service, number
        self.answered, self.open_plates = answered, open_plates
        # the request that is being made
        self.asked: tuple[str, bytes] | None = None

    def weigh(self, key: str, target: str, body: str) -> bool:
        data = bridge.request_bytes("POST", target, body)
        self.asked = (key, data)
        answer = bridge.exchange(self.service, data, 20)
        if answer is None:
            raise OSError
        self.asked = None
        if answer[0] == 201:
            self.answered[key] = answer[1]
        return answer[0] == 201

    def put(self, *loads: int) -> None:
        """Put one load after the other on the bridge, each until enough lines of it were sent."""
        for it in loads:
            self.service.converter.put(it)
            if self.service.process.poll() is not None:
                raise OSError

    def run(self) -> None:
        with suppress(OSError, EOFError, ValueError, IndexError):
            while True:
                self.number += 1
                key, plate = f"K{self.number}", f"P-{self.number}"
                if self.open_plates and self.number % 2 == 0:
                    plate = self.open_plates[0]
                    if self.number % 6 == 0:
                        self.weigh(key, "/voids", f"key={key}&plate={plate}")
                    else:
                        self.put(0, 4070)
                        self.weigh(key, "/weighings", f"key={key}&kind=second&plate={plate}")
                    self.open_plates.pop(0)
                else:
                    self.put(0, 9170)
                    if self.weigh(key, "/weighings", f"key={key}&kind=first&plate={plate}"):
                        self.open_plates.append(plate)


def ends_in_a_transaction(path: str) -> bool:
    """Return whether the log ends with frames behind its last commit that belong to this log."""
    log = Path(path + "-wal")
    data, last = log.read_bytes() if log.exists() else b"", False
    size = int.from_bytes(data[8:12], "big")
    for at in range(32, len(data) - 23, 24 + size):
        if data[at + 8 : at + 16] != data[16:24]:
            break
        last = not any(data[at + 4 : at + 8])
    return last


def wait_for_request(client: "Weighing", seconds: float) -> None:
    """Wait until a request was begun, and then for this many seconds."""
    until = time.monotonic() + 1
    while client.asked is None and time.monotonic() < until:
        pass
    time.sleep(seconds)


def open_plates_of(rows: list[dict[str, str]]) -> list[str]:
    """Return the plates whose First is open, as the journal says."""
    plates: list[str] = []
    for row in rows:
        if row["kind"] == "first":
            plates.append(row["plate"])
        elif row["plate"] in plates:
            plates.remove(row["plate"])
    return plates


class ServeKilled(Check):
    """Kill after kill over one file."""

    needs = (PROGRAM,)
    seconds = 150

    def start(self) -> bridge.Service:
        played = bridge.Played(1000.0)
        return bridge.Service(BUILT, self.file, played, "--capacity", "100000", "--pace", "50")

    def rows(self) -> list[dict[str, str]]:
        """Return the rows of the file, which must be sound."""
        status, found, fault = printed("check", "--file", self.file)
        self.assertEqual((0, "SOUND "), (status, found[:6]), found + fault)
        text = printed("export", "--file", self.file, "--what", "journal")[1]
        return list(csv.DictReader(io.StringIO(text)))

    def holds_all(self, rows: list[dict[str, str]], answered: dict[str, str]) -> None:
        """Show that each key has one entry, and each answer its own."""
        stored = {row["key"]: row for row in rows}
        self.assertEqual(len(rows), len(stored), "a key has two entries")
        for key, body in answered.items():
            self.assertIn(key, stored, "it returned 201 and isn't stored")
            self.assertIn(stored[key]["digest"], body, f"{key} was answered with another digest")

    def ask_again(
        self, service: bridge.Service, pending: Pending, answered: dict[str, str]
    ) -> None:
        """Make the request that the last kill broke off, as its client would."""
        key, data, was_stored = pending
        answer = bridge.exchange(service, data, 20)
        if was_stored:
            self.assertEqual(201, answer and answer[0], f"{key}: stored, and not given again")
        if answer and answer[0] == 201:
            answered[key] = answer[1]

    def test_kills(self) -> None:
        self.file = os.path.join(self.folder(), "journal.db")
        random_times = random.Random(SEED)
        answered: dict[str, str] = {}
        rows: list[dict[str, str]] = []
        number = during = unanswered = torn = 0
        pending: Pending | None = None
        for times in range(1, many(200) + 1):
            with self.subTest(kill=times), self.start() as service:
                if pending:
                    self.ask_again(service, pending, answered)
                client = Weighing(service, number, answered, open_plates_of(rows))
                client.start()
                time.sleep(random_times.uniform(0.02, 0.5))
                if times % 2 == 0:
                    wait_for_request(client, random_times.uniform(0, 0.004))
                service.kill()
                asked = client.asked
                client.join(20)
                number = client.number
                torn += ends_in_a_transaction(self.file)
                rows = self.rows()
                self.holds_all(rows, answered)
                pending = None
                if asked and asked[0] not in answered:
                    was_stored = any(row["key"] == asked[0] for row in rows)
                    during, unanswered = during + 1, unanswered + was_stored
                    pending = (*asked, was_stored)
        of_kills = f"{during} kills while a request was being made, of which {unanswered} had stored it without an answer"
        print(f"{len(rows)} entries, {len(answered)} answers 201; {of_kills}")
        print(f"{torn} logs ended in a transaction that was not committed")
        self.holds("kills came while a request was being made", during)
