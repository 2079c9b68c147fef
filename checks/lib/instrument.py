"""An instrument under test for checks/trial: its setup, what it prints of a trace, and what it must indicate."""

import re
import subprocess
from collections.abc import Iterable, Sequence
from dataclasses import dataclass

# All loads, zeros and tares are in tenths of the verification scale interval e.
E = 10
MOMENT = 1741593600  # 2025-03-10 08:00:00 UTC
# The usual instrument, and those with the greatest and the least number of intervals: e in kg, and how many there are.
NAMED = {"A": (20, 3000), "B": (50, 10000), "C": (1, 500)}


@dataclass(frozen=True)
class Instrument:
    """An instrument under test: its setup, and what it prints of a trace."""

    program: str
    interval: int = 20
    intervals: int = 3000
    window: int = 10
    band: int = 2
    pace: int = 10
    wait: int = 20

    @property
    def max(self) -> int:
        return self.intervals * E

    def setup(self) -> str:
        return (
            f"--interval {self.interval} --max {self.interval * self.intervals} --window {self.window}"
            f" --band {self.band} --pace {self.pace} --wait {self.wait}"
        )

    def printed(self, lines: Iterable[str]) -> list[str]:
        words = ["replay", *self.setup().split()]
        given = "\n".join(lines) + "\n"
        run = subprocess.run([self.program, *words], input=given, capture_output=True, text=True)
        if run.returncode:
            raise AssertionError(f"{' '.join(words)}: status {run.returncode}, {run.stderr}")
        return run.stdout.splitlines()

    def replies(self, lines: Iterable[str]) -> list[str]:
        return [line[2:] for line in self.printed(lines) if line.startswith("t ")]

    def put(self, load: int) -> str:
        """Return the line of a load that stays until it is stable."""
        return f"r {load} {self.window}"

    def probe(self, load: int) -> list[str]:
        """Return the lines of a load that stays until it is stable, and of a request for its weight."""
        return [self.put(load), "t SI"]

    def kg(self, whole: int) -> str:
        """Return this many intervals as they are printed."""
        return f"{whole * self.interval:10} kg"

    def indicated(self, reply: str) -> int | None:
        """Return the intervals of a reply, or None if it has none."""
        return int(reply.split()[2]) // self.interval if reply.endswith("kg") else None

    def weight(self, load: int, is_stable: bool = False, tare: int = 0) -> str:
        """Return what must be indicated of a load above the zero, over a tare in whole e: nothing of a gross above Max + 9 e, nor below -20 e."""
        whole = nearest(load)
        if whole > self.intervals + 9:
            return "S +"
        if whole < -20:
            return "S -"
        return f"S {'S' if is_stable else 'D'} {self.kg(whole - tare)}"

    def named(self) -> str:
        """Return the letter of one of the three instruments, else what it is."""
        size = (self.interval, self.intervals)
        return next((name for name, it in NAMED.items() if it == size), self.described())

    def described(self) -> str:
        return f"e {self.interval} kg, Max {self.interval * self.intervals} kg"


def instruments(program: str) -> list[Instrument]:
    """Return the three instruments that have a name."""
    return [Instrument(program, *it) for it in NAMED.values()]


def weighing(key: str, kind: str) -> str:
    """Return the line of a trace that asks for a weighing of the one plate."""
    return f"o {MOMENT} POST /weighings key={key}&kind={kind}&plate=AB-12"


def nearest(load: int) -> int:
    """Return the interval that is nearest to a load; of two that are as near the greater one (docs/rules.md, Rounding)."""
    whole = load // E
    return whole if load - whole * E < E * (whole + 1) - load else whole + 1


def mpe(load: int) -> int:
    """Return the maximum permissible error at initial verification, class III (3.5.1)."""
    return 5 if load <= 500 * E else 10 if load <= 2000 * E else 15


def tenths(number: float) -> str:
    return f"{number / E:g} e"


def joined(cells: Iterable[str]) -> str:
    """Return cells as one: a stable weight without `S S`, a text that is in all of them once, and a unit of all of them only at the end."""
    parts = [re.sub(r"^S S +", "", it) for it in cells]
    if len(set(parts)) == 1:
        return parts[0]
    units = {it.rpartition(" ")[2] for it in parts}
    if units not in ({"kg"}, {"e"}):
        return "; ".join(parts)
    return ", ".join(it.rpartition(" ")[0] for it in parts) + f" {units.pop()}"


def changeover(it: Instrument, begin: Iterable[str], base: int) -> int | None:
    """Return at how many tenths above the base the indication changes from 10 e to 11 e, the load being made greater by a tenth each time."""
    probes = range(90, 120)
    lines = [line for more in probes for line in (f"r {base + more}", "t SI")]
    found = it.replies([*begin, *lines])[-len(probes) :]
    at = next((more for more, one in zip(probes, found) if one.endswith(f" {it.kg(11)}")), None)
    if at is None:
        return None
    before = [one for more, one in zip(probes, found) if at - 5 <= more < at]
    return at if all(one.endswith(f" {it.kg(10)}") for one in before) else None


def deviation_of(at: int | None) -> int:
    """Return how far a changeover point is from 10.5 e."""
    return abs(105 - at) if at else 1000


def error(it: Instrument, replies: Sequence[str], load: int) -> int | None:
    """Return the error by R 76-1, A.4.4.3. The replies are those at the load and with 1 to 10 tenths of e more. The error before rounding is I + e/2 minus what was added when I + e came, minus the load."""
    first = it.indicated(replies[0])
    if first is None:
        return None
    for added, reply in enumerate(replies):
        if it.indicated(reply) == first + 1:
            return first * E + 5 - added - load
    return None


def probed(it: Instrument, load: int) -> list[str]:
    """Return the lines of the load, and then of up to ten tenths of e more; eleven replies come of them."""
    more = [line for part in range(1, 11) for line in (f"r {load + part}", "t SI")]
    return [*it.probe(load), *more]


def errors_in(it: Instrument, replies: Sequence[str], loads: Sequence[int]) -> list[int | None]:
    """Return the error at each load, of which the replies have eleven each."""
    return [
        error(it, replies[11 * place : 11 * place + 11], load) for place, load in enumerate(loads)
    ]


def errors_of(
    it: Instrument, begin: Iterable[str], loads: Sequence[int], tare: int = 0
) -> list[int | None]:
    """Return the error at each of these loads, which are put on one after another over the tare."""
    lines = [line for load in loads for line in probed(it, load + tare)]
    return errors_in(it, it.replies([*begin, *lines])[-11 * len(loads) :], loads)
