"""A terminal that is played, on a clock that is played too: what the service does at each reading, and what becomes of it when it stands still."""

from collections.abc import Callable

from weighbridge_counter.fanout import Fanout, Outcome, Question, Turn

MAX_KG = 60000  # the scale takes no tare above it


async def at_once(work: Callable[[], None]) -> None:
    """A thread for files that is played: what it is asked is done before anything else."""
    work()


class Clock:
    def __init__(self) -> None:
        self.now = 1000.0

    def __call__(self) -> float:
        return self.now


class PlayedTerminal:
    """The service's terminal as the fan-out's wire: one connection, read once a reading, after the value was written.

    `is_reset` says how a connection ends: by a reset, which the write of the next value finds; or by an ordinary close, as a copy without the reset
    would do it, after which the lines that lie there are still read.
    """

    def __init__(self, period: float = 0.1, is_reset: bool = True) -> None:
        self.clock, self.period, self.is_reset = Clock(), period, is_reset
        self.fanout = Fanout(self, self.clock)
        self.kg, self.state, self.tare = 18340, "S", 0
        self.lines: list[str] = []  # sent, and not read yet
        self.sent: list[str] = []
        self.done: list[str] = []  # what changed the scale
        self.repeats = self.is_broken = False
        self.waiting: str | None = None
        self.resets = 0

    # ---- as the wire

    def send(self, line: str) -> None:
        self.lines.append(line)
        self.sent.append(line)

    def reset(self) -> None:
        self.resets += 1
        self.is_broken = True
        if self.is_reset:
            self.lines.clear()

    # ---- as the service

    def connect(self) -> None:
        self.is_broken, self.repeats, self.waiting = False, False, None
        self.lines.clear()
        self.fanout.connected()

    def reading(self, count: int = 1) -> None:
        """Let readings pass. At each, the service writes the value, and then reads and answers what waits."""
        for _ in range(count):
            self.pass_time(self.period)
            self.serve()

    def serve(self) -> None:
        """Let one reading pass now."""
        said = []
        if self.waiting is not None and self.state == "S":
            said.append(self.answer_waiting())
        if self.repeats:
            said.append(self.value())
        for line in self.lines:
            if line.startswith("TA ") or line in ("TAC", "Z", "T"):
                self.done.append(line)
            if self.waiting is not None:
                said.append(f"{self.waiting} I")
                self.waiting = None
            reply = self.reply(line)
            said += [] if reply is None else [reply]
        self.lines.clear()
        for line in said:
            if not self.is_broken:
                self.fanout.received(line)

    def pass_time(self, seconds: float) -> None:
        """Nothing comes meanwhile."""
        steps = max(1, round(seconds / 0.05))
        for _ in range(steps):
            self.clock.now += seconds / steps
            self.fanout.tick()

    def value(self) -> str:
        return (
            f"S {self.state} {self.kg - self.tare:>10} kg"
            if self.state in "SD"
            else f"S {self.state}"
        )

    def answer_waiting(self) -> str:
        word, self.waiting = self.waiting, None
        return self.change(str(word))

    def change(self, line: str) -> str:
        if line == "T":
            self.tare = self.kg
            return f"T S {self.kg:>10} kg"
        self.tare = 0
        return "Z A"

    def reply(self, line: str) -> str | None:
        if line == "SIR":
            self.repeats = True
            return None
        if line == "I4":
            return 'I4 A "WB01"'
        if line == "TA":
            return f"TA A {self.tare:>10} kg"
        if line == "TAC":
            self.tare = 0
            return "TAC A"
        if line.startswith("TA ") and int(line.split()[1]) > MAX_KG:
            return "TA L"
        if line.startswith("TA "):
            self.tare = int(line.split(" ")[1])
            return f"TA A {self.tare:>10} kg"
        if line in ("Z", "T"):
            if self.state == "S":
                return self.change(line)
            self.waiting = line
            return None
        return "ES"


class Asker:
    """A client of the fan-out: asks a line in a turn of its own, and keeps what became of it."""

    def __init__(self, fanout: Fanout, line: str, patience: float = 1.0) -> None:
        self.fanout, self.line, self.outcome = fanout, line, "waits"
        self.lines: tuple[str, ...] = ()
        self.until = fanout.clock() + patience
        self.question: Question | None = None
        self.turn: Turn | None = None
        self.then: Callable[[], None] = lambda: None
        self.turn = fanout.take_turn(self._granted, patience)
        if self.outcome == "granted":
            self._ask()

    def _granted(self, is_granted: bool) -> None:
        self.outcome = "granted" if is_granted else "not_sent"
        if is_granted and self.turn is not None:
            self._ask()

    def _ask(self) -> None:
        assert self.turn is not None
        self.question = self.fanout.ask(
            self.turn, self.line, self._done, self.until - self.fanout.clock()
        )

    def _done(self, outcome: Outcome, lines: tuple[str, ...]) -> None:
        assert self.turn is not None
        self.outcome, self.lines = outcome.value, lines
        self.fanout.give_back(self.turn)
        self.then()
