"""Shows what a replay does if one of its allocations is refused, each in turn: it doesn't run, or it gives its usual answers or
503."""

from collections.abc import Iterable
from functools import cache

from checks.lib import day
from checks.lib.case import PROGRAM, Check
from checks.lib.program import compiled
from checks.lib.refusing import Refusing

FIRST = "o 1741593600 POST /weighings key=K1&kind=first&plate=AB-12"
SECOND = "o 1741599000 POST /weighings key=K2&kind=second&plate=AB-12"
PAIR = ["r 0", "r 9170 4", FIRST, "r 0", "r 4070 4", SECOND, "r 0", SECOND]
LATER = "o 1749427200"
TICKET = "201 WEIGHING TICKET 2"
REFUSED = "503 refused 15 store"
# what a refusal may lead to in PAIR: the first lines of the three responses
PAIR_ANSWERS = {
    ("201 WEIGHING SLIP 1", TICKET, TICKET),
    ("503 refused 15 store", "409 refused 13 no_open", "409 refused 7 unstable"),
    ("201 WEIGHING SLIP 1", "503 refused 15 store", "409 refused 7 unstable"),
    ("201 WEIGHING SLIP 1", TICKET, "503 refused 15 store"),
}
TRACES = {
    "a day": list(day.lines()),
    "a pair": PAIR,
    "a purge": PAIR
    + [
        "o 1749427199 POST /purge",
        LATER + " POST /purge",
        LATER + FIRST[12:],
        "r 9170 4",
        LATER + " POST /weighings key=K3&kind=first&plate=CD-34",
    ],
    "exports": PAIR
    + ["o 1741599000 GET /tickets.csv", "o 1741599000 GET /tickets/1", "o 1741599000 POST /check"],
    "the weight": ["r 9170 4", "t SI"],
    "the zero": ["r 600 4", "t Z", "t SI", "r 601 4", "t Z"],
    "tracking": ["r 3 7", "r 7", "t SI"],
    "a weighed tare": ["r 9173 4", "t T", "t TA", "r 9997 4", "t SI"],
    "bytes": ["r 9170 4", "b 53", "b 490d", "b 0a"],
    "waiting": ["t S"] + ["r 9100", "r 9200"] * 8 + ["r 9170 4"],
    "a zero that waits": ["r 3 3", "t Z", "r 3", "r 4", "r 8", "t SI"],
    "the repetition": ["t SIR", "r 9170 4", "t T", "r 9170", "h", "r 9170"],
    "lines": ["t S", "t SI", "t S", "t @", "t s", "t S 1", "t"],
    "a hang-up": ["r 0 4", "t T", "b 53", "h", "b 490d0a"],
    "drift": ["r -5 43", "r -10", "t SI", "r 600 4", "t Z", "r 601 8", "r 605", "t SI"],
}


def parts_of(printed: bytes) -> tuple[list[str], list[str]]:
    """Return the replies, and the responses: the status and the body of each."""
    replies: list[str] = []
    responses: list[str] = []
    for line in printed.decode().splitlines():
        if line.startswith("t "):
            replies.append(line)
        elif line.startswith("o "):
            responses.append(line[2:])
        else:
            responses[-1] += line.replace("| ", " " if len(responses[-1]) == 3 else "\n", 1)
    return replies, responses


class ReplayWithoutMemory(Check):
    """Replays of which one allocation is refused."""

    needs = (PROGRAM, "cc")
    seconds = 500

    def setUp(self) -> None:
        self.refusing = Refusing(self.folder())
        self.replayed = cache(self.without)

    def run_lines(self, lines: Iterable[str], number: int) -> tuple[int, bytes, bytes]:
        """Return the status of a replay whose allocation of this number is refused, and what it printed and reported."""
        given = ("\n".join(lines) + "\n").encode()
        it = self.refusing.run([compiled(), "replay"], number, given)
        return it.returncode, it.stdout, it.stderr

    def without(
        self, lines: tuple[str, ...], unmade: frozenset[int]
    ) -> tuple[list[str], list[str]]:
        """Return what is printed if these requests, by their places among the requests, are refused and count as never made."""
        requests = [place for place, line in enumerate(lines) if line.startswith("o ")]
        left_out = {requests[number] for number in unmade}
        kept = [line for place, line in enumerate(lines) if place not in left_out]
        status, out, _ = self.run_lines(kept, 0)
        self.assertEqual(0, status)
        replies, responses = parts_of(out)
        for number in sorted(unmade):
            responses.insert(number, REFUSED)
        return replies, responses

    def sweep(self, name: str, lines: list[str]) -> set[tuple[str, ...]]:
        """Refuse each allocation over these lines in turn. Return the answers that came, each by its first line."""
        status, out, err = self.run_lines(lines, 0)
        allocations = int(err.decode().split("allocations ")[1].split()[0])
        self.assertEqual(0, status, name)
        self.assertNotIn(REFUSED, parts_of(out)[1], name)
        not_begun = refused = 0
        answers: set[tuple[str, ...]] = set()
        for number in range(allocations + 1):
            status, out, err = self.run_lines(lines, number)
            if status != 0:
                self.assertEqual(b"", out, (name, number, err))
                not_begun += 1
                continue
            found = parts_of(out)
            unmade = frozenset(place for place, it in enumerate(found[1]) if it == REFUSED)
            self.assertEqual(self.replayed(tuple(lines), unmade), found, (name, number))
            refused += bool(unmade)
            answers.add(tuple(response.split("\n")[0] for response in found[1]))
        as_ever = allocations - not_begun - refused
        print(f"{name}: {not_begun} not begun, {refused} with a refused request, {as_ever} as ever")
        return answers

    def test_traces(self) -> None:
        for name, lines in TRACES.items():
            with self.subTest(name):
                answers = self.sweep(name, lines)
                if name == "a pair":
                    self.assertEqual(PAIR_ANSWERS, answers)
                if not any(line.startswith("o ") for line in lines):
                    self.assertEqual({()}, answers)
