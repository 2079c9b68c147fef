"""Shows that if the disk fills up amid weighings, the service returns 503, the terminal continues, and nothing that was
answered is lost.

The service may make its files only as long as a limit of the system on the size of a file. The limit represents a full
disk. The check sends weighings until one returns 503. From then on each request that reads the journal returns 503,
while the indication and the terminal continue. Under --verbose a line says which fault of the store each is. Once there
is space and the service was started again, each weighing that returned 201 gets the same text. `weighbridge check`
finds only these, and at most the one that was refused.
"""

import os
import resource
from pathlib import Path
from typing import Any

from checks.lib import bridge
from checks.lib.case import PROGRAM, Check
from checks.lib.program import PROGRAM as BUILT
from checks.lib.tried_twice import limited
from checks.lib.waiting import wait_until

LOADS = [0] * 8 + [9_170] * 8
REFUSED = (503, "refused 15 store\n")


def weigh(service: bridge.Service, number: int) -> bridge.Answer:
    """Ask for a weighing until the bridge is as it must be for it."""
    body = f"key=K{number}&kind={['first', 'second'][number % 2]}&plate=P-{number // 2}"

    def ask() -> bridge.Answer:
        return bridge.post(service, "/weighings", body) or (409, "")

    def is_final(answer: bridge.Answer) -> bool:
        return answer[0] != 409

    return wait_until(body, ask, is_final, 60, 0)


class ServeFullDisk(Check):
    """The disk fills up amid weighings."""

    needs = (PROGRAM,)
    seconds = 30

    def start(self, *options: str, **given: Any) -> bridge.Service:
        converter = bridge.Converter(400.0, lambda number: LOADS[number % len(LOADS)])
        return self.enterContext(bridge.Service(BUILT, self.path, converter, *options, **given))

    def fill(self, count: int) -> list[str]:
        """Weigh until the disk is full, and return the texts of those that returned 201."""
        log, limit = Path(f"{self.path}-told"), limited((resource.RLIMIT_FSIZE, count))
        with log.open("w", encoding="ascii") as told:
            service = self.start("--verbose", limit=limit, errors=told)
        texts: list[str] = []
        while (answer := weigh(service, len(texts)))[0] == 201:
            texts.append(answer[1])
        self.same("a full disk", REFUSED, answer)
        self.same("/purge after the fault", REFUSED, bridge.post(service, "/purge"))
        for target in ("/check", "/journal.csv", "/tickets/2"):
            self.same(f"{target} after the fault", REFUSED, bridge.get(service, target))
        self.same("a repeated weighing", REFUSED, weigh(service, 0))
        indication = bridge.get(service, "/indication")
        self.same("the indication continues", 200, indication and indication[0])
        with bridge.Terminal(service) as terminal:
            replies = {terminal.ask("SI")[:3] for _ in range(100)}
        self.holds("the terminal continues", replies <= {"S S", "S D"}, replies)
        self.same("the service's status at its end", 0, service.end()[2])
        said = log.read_text(encoding="ascii").splitlines()
        lines = [line for line in said if line.startswith("journal: ")]
        closed = ["journal: fault of the store 5 closed"] * 5
        self.same("the log", ["journal: fault of the store 2 disk", *closed], lines)
        return texts

    def look_again(self, texts: list[str]) -> None:
        """Start the service with room, and look for each weighing."""
        service = self.start()
        for number, text in enumerate(texts):
            self.same(f"the text of weighing {number}", (201, text), weigh(service, number))
        sound = [(200, f"SOUND {len(texts) + more}\n") for more in (0, 1)]
        self.assertIn(bridge.get(service, "/check"), sound, f"after {len(texts)} weighings")
        service.end()

    def show(self, count: int) -> None:
        self.path = os.path.join(self.folder(), "journal.db")
        texts = self.fill(count)
        self.holds("some weighings fit", texts)
        self.look_again(texts)

    def test_400_000_bytes(self) -> None:
        self.show(400_000)

    def test_2_000_000_bytes(self) -> None:
        self.show(2_000_000)
