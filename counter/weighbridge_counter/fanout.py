"""One connection of the terminal for many clients: which of them may send a command, when the command is sent, and which one gets the reply.

This is a state machine. It reads no socket and no clock of its own. Its caller reports what came, and it says to a wire what to send. `terminal.py` runs it
over a socket, the tests over a terminal that they play.

The rules:

- `SIR` is on while the connection lasts, because no `S`, `SI`, `SIR` or `@` is sent as a command. So each line that isn't a value is a reply.
- One command at a time, and right behind a value: the service then reads it at its next reading. One that can't go out in time is never sent.
- If a command has no reply in a second, the connection is reset. The service writes a value before it reads, so it finds the reset there, and never
  reads the command. If the service was stopped between the two, the tare of the next connection shows whether it read it (`doubtful_tare`).
"""

import re
from collections import Counter, deque
from collections.abc import Callable
from dataclasses import dataclass, field
from enum import Enum
from typing import Protocol

from .values import Value, value_of

PATIENCE = 1.0  # seconds: a command that can't go out within them is never sent
REPLY_WITHIN = 1.0  # seconds: a command that has no reply within them is called back
SILENT_REPLY_WITHIN = 1.6  # seconds if the converter is silent, because the service then reads its terminal once a second
SILENT_PERIOD = 0.6  # seconds between two values from which on the converter counts as silent
LONGEST_WITHOUT_LINE = 2.2  # seconds without a line, after which the service is held up
READINGS_TO_ANSWER = 3  # values after which a command that doesn't wait is surely answered
REPEAT_AFTER = 20.0  # seconds; the service disconnects a terminal that sends nothing for a minute
WAITING = ("Z", "T")
IN_FORCE = re.compile(r"(?:TA A|T S) +(\d+) kg$")


class Outcome(Enum):
    ANSWERED = "answered"
    NOT_SENT = "not_sent"
    UNANSWERED = "unanswered"


class Wire(Protocol):
    def send(self, line: str) -> None:
        ...

    def reset(self) -> None:
        ...


Done = Callable[[Outcome, tuple[str, ...]], None]


@dataclass
class Question:
    """A command, and whom its reply belongs to. `done` is called once."""

    line: str
    done: Done
    until: float
    sent_at: float | None = None
    readings: int = 0  # values since it was sent
    ended_after: int | None = None  # how many readings there are when its waiting ends
    lines: list[str] = field(default_factory=list)

    @property
    def waits(self) -> bool:
        return self.line in WAITING


@dataclass(eq=False)
class Turn:
    """A place in the queue. A client whose turn it is asks one question after the other until it gives the turn back.

    `may_settle`: it may ask a new connection before that is settled, because it finds out what isn't known, or clears what it set itself.
    """

    granted: Callable[[bool], None]
    until: float
    may_settle: bool = False


class Fanout:
    def __init__(self, wire: Wire, clock: Callable[[], float], wait_readings: int = 20) -> None:
        self.wire, self.clock, self.wait_readings = wire, clock, wait_readings
        self.counts: Counter[str] = Counter()
        self.on_value: Callable[[Value], None] = lambda value: None
        self.on_first_value: Callable[[], None] = lambda: None
        self.on_zero: Callable[
            [str], None
        ] = lambda reply: None  # gets the answer to each `Z`, whichever client sent it
        self.link = "down"  # down; waits: connected, no value yet; up
        self.value: Value | None = None
        self.period = 0.1
        self.tare: int | None = None  # in kg; None where it isn't known
        self.doubtful_tare: int | None = (
            None  # the tare before a command that had no reply, until it is known again
        )
        self.is_settled = False  # whether the counter asked a new connection what it doesn't know of it, and cleared what was left
        self.holder: Turn | None = None
        self.queue: deque[Turn] = deque()
        self.question: Question | None = None
        self.swallow = 0  # replies to the lines that ended a waiting
        self.said_at = self.heard_at = 0.0

    # ---- what is known

    def age(self) -> float | None:
        return None if self.value is None else self.clock() - self.value.at

    def is_fresh(self, limit: float = 1.0) -> bool:
        age = self.age()
        return self.link == "up" and age is not None and age <= limit

    def is_held(self) -> bool:
        return self.link == "up" and self.clock() - self.heard_at > LONGEST_WITHOUT_LINE

    # ---- what comes

    def connected(self) -> None:
        self.link, self.value = "waits", None
        self.said_at = self.heard_at = self.clock()
        self.wire.send("SIR")

    def received(self, line: str) -> None:
        """Process a line of the terminal. A reply to no question ends the connection, because later replies could belong to any question."""
        if self.link == "down":
            return
        self.heard_at = self.clock()
        value = value_of(line, self.heard_at)
        if value is not None:
            self._take_value(value)
        elif self.swallow and line.startswith("I4 A"):
            self.swallow -= 1
        elif self.question is None or self.question.sent_at is None:
            self.counts["stray_replies"] += 1
            self.reset()
        else:
            self._take_reply(self.question, line)

    def ended(self) -> None:
        """Note that the connection is gone. Each client that waits for a reply learns that there is none."""
        question = self.question
        self._forget()
        if question is not None and question.sent_at is not None:
            self._finish(question, Outcome.UNANSWERED)

    def tick(self) -> None:
        """Time has passed: what can't go out any more is dropped, and what has no reply is called back."""
        now = self.clock()
        for turn in [it for it in self.queue if it.until < now]:
            self.queue.remove(turn)
            self.counts["dropped"] += 1
            turn.granted(False)
        question = self.question
        if question is not None:
            if question.sent_at is None and question.until < now:
                self.counts["dropped"] += 1
                self._finish(question, Outcome.NOT_SENT)
            elif question.sent_at is not None and self._is_overdue(question, now):
                self._call_back(question)
        elif self.swallow and now - self.said_at > SILENT_REPLY_WITHIN:
            self.reset()
        if (
            self.link == "up"
            and self.question is None
            and not self.swallow
            and now - self.said_at > REPEAT_AFTER
            and self.is_fresh(2 * self.period)
        ):
            self._say("SIR")

    # ---- what is asked

    def take_turn(
        self,
        granted: Callable[[bool], None],
        patience: float = PATIENCE,
        first: bool = False,
        may_settle: bool = False,
    ) -> Turn:
        turn = Turn(granted, self.clock() + patience, may_settle)
        if self.holder is None:
            self.holder = turn
            granted(True)
        elif first:
            self.queue.appendleft(turn)
        else:
            self.queue.append(turn)
        return turn

    def give_back(self, turn: Turn) -> None:
        """End a turn, or remove it from the queue. A command without a reply ends the connection, because no other client may get its reply."""
        if turn is not self.holder:
            if turn in self.queue:
                self.queue.remove(turn)
            return
        question = self.question
        if question is not None and question.sent_at is None:
            self._finish(question, Outcome.NOT_SENT)
        elif question is not None:
            self._call_back(question)
        self.holder = None
        now = self.clock()
        while self.queue and self.holder is None:
            following = self.queue.popleft()
            if following.until >= now:
                self.holder = following
            else:
                self.counts["dropped"] += 1
            following.granted(following is self.holder)

    def ask(self, turn: Turn, line: str, done: Done, patience: float = PATIENCE) -> Question:
        assert turn is self.holder and self.question is None
        question = Question(line, done, self.clock() + patience)
        self.question = question
        self._try_to_send()
        return question

    def hurry(self, question: Question) -> None:
        """End the waiting of a `Z` or `T`, because its client sent another line, or ended. As at the terminal, another line ends it."""
        if question is self.question and question.waits and question.ended_after is None:
            question.ended_after = READINGS_TO_ANSWER
            self._end_waiting(question)

    def settle(self) -> None:
        """Note that the connection is known, so that every client may ask."""
        self.is_settled, self.doubtful_tare = self.link == "up", None
        self._try_to_send()

    def reset(self) -> None:
        """Ends the connection so that the service reads nothing of what it has not read yet."""
        self._forget()
        self.wire.reset()

    # ---- within

    def _forget(self) -> None:
        question = self.question
        if question is not None and question.sent_at is not None and self.doubtful_tare is None:
            self.doubtful_tare = self.tare
        self.link, self.tare, self.swallow, self.is_settled = "down", None, 0, False

    def _say(self, line: str) -> None:
        self.said_at = self.clock()
        self.wire.send(line)

    def _take_value(self, value: Value) -> None:
        if self.value is not None:
            gap = value.at - self.value.at
            self.period = (
                gap
                if gap > SILENT_PERIOD
                else self.period + 0.1 * (min(gap, 0.5) - self.period)
                if self.period <= SILENT_PERIOD
                else 0.1
            )
        self.value = value
        self.counts[f"readings_{value.state}"] += 1
        is_first, self.link = self.link == "waits", "up"
        if self.question is not None and self.question.sent_at is not None:
            self.question.readings += 1
            self._end_waiting(self.question)
        self.on_value(value)
        if is_first:
            self.on_first_value()
        self._try_to_send()

    def _take_reply(self, question: Question, line: str) -> None:
        question.lines.append(line)
        if not line.startswith("I0 B"):
            self._learn(line)
            self._finish(question, Outcome.ANSWERED)

    def _learn(self, reply: str) -> None:
        found = IN_FORCE.match(reply)
        if found:
            self.tare = int(found[1])
        elif reply in ("TAC A", "Z A"):
            self.tare = 0
        if reply in ("Z A", "Z +", "Z -"):
            self.on_zero(reply)

    def _try_to_send(self) -> None:
        question, now = self.question, self.clock()
        if not (self.is_settled or (self.holder is not None and self.holder.may_settle)):
            return
        if question is None or question.sent_at is not None or now > question.until:
            return
        if self.is_fresh(max(0.06, 1.5 * min(self.period, SILENT_PERIOD))):
            question.sent_at = now
            self.counts["sent"] += 1
            self._say(question.line)

    def _end_waiting(self, question: Question) -> None:
        if (
            question.ended_after is not None
            and question.waits
            and question.readings >= question.ended_after
            and not self.swallow
        ):
            self.swallow += 1
            self._say("I4")

    def _is_overdue(self, question: Question, now: float) -> bool:
        assert question.sent_at is not None
        limit = SILENT_REPLY_WITHIN if self.period > SILENT_PERIOD else REPLY_WITHIN
        if question.waits and question.ended_after is None:
            return (
                now - self.heard_at > limit
                or question.readings > self.wait_readings + READINGS_TO_ANSWER
            )
        return now - max(question.sent_at, self.said_at) > limit

    def _call_back(self, question: Question) -> None:
        self.counts["called_back"] += 1
        self.reset()
        self._finish(question, Outcome.UNANSWERED)

    def _finish(self, question: Question, outcome: Outcome) -> None:
        self.question = None
        if outcome is not Outcome.ANSWERED:
            self.counts[outcome.value] += 1
        question.done(outcome, tuple(question.lines))
