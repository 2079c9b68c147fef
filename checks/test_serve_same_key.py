"""Shows that clients that weigh at once, under one key or several, store nothing twice.

For each vehicle several clients send a request at the same time. If it is the same request under the same key, it has
one entry, and each of them gets the same slip or ticket. If requests have one key but two plates, the plate that comes
first is stored, and the other is refused as key_reused. If each has a key of its own, the vehicle is stored once, and
the others are refused as not_cleared.
"""

import csv
import io
import os
from concurrent.futures import ThreadPoolExecutor
from threading import Barrier

from checks.lib import bridge
from checks.lib.case import PROGRAM, Check, many
from checks.lib.program import PROGRAM as BUILT
from checks.lib.program import printed

CLIENTS = 8
REUSED, NOT_CLEARED = (409, "refused 1 key_reused\n"), (409, "refused 11 not_cleared\n")
Answers = list[bridge.Answer | None]


def status_of(answer: bridge.Answer | None) -> int:
    return answer[0] if answer else 0


class ServeSameKey(Check):
    """Clients that weigh the same vehicle at once."""

    needs = (PROGRAM,)
    seconds = 50

    def setUp(self) -> None:
        self.file = os.path.join(self.folder(), "journal.db")
        self.service = self.enterContext(bridge.Service(BUILT, self.file, bridge.Played(200.0)))

    def weigh_at_once(self, bodies: list[str]) -> Answers:
        """Let a vehicle drive onto the cleared bridge. Return the answers to weighings that are sent at the same time, each over a connection of its own."""
        self.service.next_vehicle(9170)
        start = Barrier(len(bodies))

        def client(body: str) -> bridge.Answer | None:
            start.wait()
            return bridge.post(self.service, "/weighings", body, 20)

        with ThreadPoolExecutor(len(bodies)) as pool:
            return [*pool.map(client, bodies)]

    def has_entries(self, vehicles: int) -> None:
        """Show that there is one entry for each vehicle."""
        answer = bridge.get(self.service, "/journal.csv")
        assert answer is not None
        keys = [row["key"] for row in csv.DictReader(io.StringIO(answer[1]))]
        self.same("entries, one for each vehicle", vehicles, len(keys))
        self.same("keys", vehicles, len({*keys}))
        self.service.kill()
        checked = printed("check", "--file", self.file)
        self.same("the journal in the file", (0, f"SOUND {vehicles}\n", ""), checked)

    def test_same_request(self) -> None:
        vehicles = many(40)
        for number in range(1, vehicles + 1):
            kind = "first" if number % 2 else "second"
            body = f"key=S{number}&kind={kind}&plate=S-{(number + 1) // 2}"
            answers = self.weigh_at_once([body] * CLIENTS)
            self.same(f"vehicle {number}: it is stored", 201, status_of(answers[0]))
            self.same(f"vehicle {number}: all get one text", [answers[0]] * CLIENTS, answers)
        self.has_entries(vehicles)

    def test_one_key_and_two_plates(self) -> None:
        vehicles = many(40)
        plates = ["A", "B"] * (CLIENTS // 2)
        for number in range(1, vehicles + 1):
            answers = self.weigh_at_once(
                [f"key=P{number}&kind=first&plate={plate}-{number}" for plate in plates]
            )
            at = next((at for at, it in enumerate(answers) if status_of(it) == 201), None)
            assert at is not None, f"vehicle {number}: nothing is stored: {answers}"
            wanted = [answers[at] if plate == plates[at] else REUSED for plate in plates]
            self.same(f"vehicle {number}: one plate is stored", wanted, answers)
        self.has_entries(vehicles)

    def test_key_for_each_client(self) -> None:
        vehicles = many(40)
        for number in range(1, vehicles + 1):
            answers = self.weigh_at_once(
                [f"key=O{number}-{client}&kind=first&plate=O-{number}" for client in range(CLIENTS)]
            )
            stored = [status_of(it) for it in answers].count(201)
            counts = (stored, answers.count(NOT_CLEARED))
            self.same(f"vehicle {number}: it is stored once", (1, CLIENTS - 1), counts)
        self.has_entries(vehicles)
